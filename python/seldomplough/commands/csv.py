"""Turns printed lines into CSV, one table for each kind of line.

The columns are the raw integers by the names of docs/FORMATS.md, and the values that follow from
them, named with their units. A cell is empty where a line hasn't the value. With --kind the table
of one kind goes to standard output. With --folder each kind that comes has a file KIND.csv there;
one that is there already isn't written over. A slot has the satellite that the lines before say. No
line says that a slot was stopped: a script that then gives it another should ask for its state.

    seldomplough csv --kind state --rate 4092000 my.lines > my.csv
    seldomplough csv --folder tables my.lines
"""

from __future__ import annotations

import argparse
import csv
import os
from contextlib import ExitStack
from typing import Any, Callable, Dict, Optional, Sequence

from seldomplough import files
from seldomplough.commands import options
from seldomplough.lines import KINDS
from seldomplough.records import Record, columns, records

Rows = Callable[[Record], None]


def add(subparsers: options.Subparsers) -> None:
    """Adds the command's words."""
    parser = options.command(subparsers, 'csv')
    target = parser.add_mutually_exclusive_group(required=True)
    target.add_argument('--kind', choices=list(KINDS), metavar='KIND', help='lines of this kind')
    target.add_argument('--folder', metavar='FOLDER', help='a file for each kind in this folder')
    options.add_rate(parser)
    options.add_lines(parser)
    parser.set_defaults(run=run)


def run(arguments: argparse.Namespace) -> int:
    """Writes the tables."""
    with files.read(arguments.lines) as source, ExitStack() as stack:
        if arguments.kind is None:
            write_all(source, files.folder(arguments.folder), arguments.rate, stack)
        else:
            write_one(source, arguments.kind, arguments.rate, stack)
    return 0


def write_one(source: files.Source, kind: str, rate: Optional[int], stack: ExitStack) -> None:
    """The table of a kind to standard output."""
    sink = stack.enter_context(files.write())
    source.before_wait = sink.flush
    write = table(sink, columns(kind, rate))
    for record in records(source, rate, kind):
        write(record)


def write_all(source: files.Source, folder: str, rate: Optional[int], stack: ExitStack) -> None:
    """The table of each kind that comes to a new file in a folder."""
    tables: Dict[Any, Rows] = {}
    for record in records(source, rate):
        kind = str(record['kind'])
        if kind not in tables:
            sink = stack.enter_context(files.write(os.path.join(folder, f'{kind}.csv'), new=True))
            tables[kind] = table(sink, columns(kind, rate))
        tables[kind](record)


def table(sink: files.Sink, names: Sequence[str]) -> Rows:
    """Writes the names of the columns, and gives what writes a row."""
    writer = csv.writer(sink, lineterminator='\n')
    writer.writerow(names)

    def write(record: Record) -> None:
        writer.writerow([record.get(it) for it in names])

    return write
