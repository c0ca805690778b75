"""Shows the pandas DataFrames that printed lines become, or writes them.

It prints a line for each kind: its rows and its columns. With --csv or --parquet it writes them,
one file KIND.csv or KIND.parquet for each kind in a folder. A file that is there already isn't
written over. A slot has the satellite that the lines before say. No line says that a slot was
stopped: a script that then gives it another should ask for its state. In Python the same frames
come from

    seldomplough.frames.frames('my.lines', rate=4092000)

for example:

    seldomplough frames --rate 4092000 my.lines
    seldomplough frames --parquet tables my.lines
"""

from __future__ import annotations

import argparse
import os
from typing import Any, Dict

from seldomplough import files
from seldomplough.commands import options
from seldomplough.failures import Failure, of_system
from seldomplough.frames import frames, pandas


def add(subparsers: options.Subparsers) -> None:
    """Adds the command's words."""
    parser = options.command(subparsers, 'frames')
    target = parser.add_mutually_exclusive_group()
    target.add_argument('--csv', metavar='FOLDER', help='writes files of CSV into this folder')
    target.add_argument('--parquet', metavar='FOLDER', help='writes files of Parquet into it')
    options.add_rate(parser)
    options.add_lines(parser)
    parser.set_defaults(run=run)


def run(arguments: argparse.Namespace) -> int:
    """Shows or writes the frames."""
    pandas()
    with files.read(arguments.lines) as source:
        result = frames(source, arguments.rate)
    if arguments.csv is not None:
        write_csv(result, files.folder(arguments.csv))
    elif arguments.parquet is not None:
        write_parquet(result, files.folder(arguments.parquet))
    else:
        show(result)
    return 0


def show(result: Dict[str, Any]) -> None:
    """Prints a line for each kind."""
    with files.write() as sink:
        for kind, frame in result.items():
            sink.write(f'{kind}: {len(frame)} rows: {" ".join(frame.columns)}\n')


def write_csv(result: Dict[str, Any], folder: str) -> None:
    """Writes new files of CSV."""
    for kind, frame in result.items():
        with files.write(os.path.join(folder, f'{kind}.csv'), new=True) as sink:
            frame.to_csv(sink, index=False, lineterminator='\n')


def write_parquet(result: Dict[str, Any], folder: str) -> None:
    """Writes new files of Parquet."""
    for kind, frame in result.items():
        path = os.path.join(folder, f'{kind}.parquet')
        try:
            with open(path, 'xb') as stream:
                frame.to_parquet(stream, index=False)
        except OSError as why:
            raise of_system(path, why) from why
        except ImportError as why:
            os.unlink(path)
            raise Failure('Parquet needs `pyarrow`: install it by pip') from why
