"""Merges the lines of several runs over one recording into those of one run.

Each file has the lines of one run, up to its `end` lines. The clients of the second file get the
numbers after those of the first, and so on. More than eight in all get numbers above 8. The order
is that of docs/FORMATS.md: by time; at one time events, then answers, then ends; then by client.

Nothing is printed where a file isn't the whole of a run or is given twice, or where the runs end at
different samples. A file may be a pipe, which is stored while it is read.

    seldomplough merge first.lines second.lines > both.lines
"""

from __future__ import annotations

import argparse
import resource

from seldomplough import files
from seldomplough.commands import options
from seldomplough.merging import merged


def add(subparsers: options.Subparsers) -> None:
    """Adds the command's words."""
    parser = options.command(subparsers, 'merge')
    parser.add_argument(
        'lines', nargs='+', metavar='LINES', help='the printed lines of a run; - is standard input'
    )
    parser.set_defaults(run=run)


def run(arguments: argparse.Namespace) -> int:
    """Prints the merged lines."""
    allow_many_files()
    texts = merged(arguments.lines)
    with files.write() as sink:
        for text in texts:
            sink.write(text + '\n')
    return 0


def allow_many_files() -> None:
    """Lets this process open as many files as the system gives it, since all are open at once."""
    _, most = resource.getrlimit(resource.RLIMIT_NOFILE)
    try:
        resource.setrlimit(resource.RLIMIT_NOFILE, (most, most))
    except (OSError, ValueError):
        pass
