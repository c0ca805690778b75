"""Tables of rows by the names of their columns: as text for people, as JSON or as CSV."""

from __future__ import annotations

import argparse
import csv
import json
from types import MappingProxyType
from typing import Mapping, Sequence, Union

from seldomplough import files

Cell = Union[int, float, str, None]
TEXT, JSON, CSV = 'text', 'json', 'csv'


def add(parser: argparse.ArgumentParser, others: Mapping[str, str] = MappingProxyType({})) -> None:
    """Adds the words that choose how a table is written, and others with what they say."""
    parser.set_defaults(table=TEXT)
    choice = parser.add_mutually_exclusive_group()
    choice.add_argument(
        '--json', action='store_const', const=JSON, dest='table', help='JSON Lines: an object a row'
    )
    choice.add_argument(
        '--csv', action='store_const', const=CSV, dest='table', help='CSV, with names of columns'
    )
    for name, text in others.items():
        choice.add_argument(f'--{name}', action='store_const', const=name, dest='table', help=text)


def write(
    sink: files.Sink, form: str, columns: Sequence[str], rows: Sequence[Mapping[str, Cell]]
) -> None:
    """Writes a table."""
    if form == JSON:
        for row in rows:
            sink.write(json.dumps({name: row[name] for name in columns}) + '\n')
    elif form == CSV:
        writer = csv.writer(sink, lineterminator='\n')
        writer.writerow(columns)
        writer.writerows([row[name] for name in columns] for row in rows)
    else:
        _write_text(sink, columns, rows)


def _write_text(
    sink: files.Sink, columns: Sequence[str], rows: Sequence[Mapping[str, Cell]]
) -> None:
    """Columns side by side, their values on the right; `-` where there is none."""
    texts = [list(columns)]
    texts += [['-' if row[name] is None else str(row[name]) for name in columns] for row in rows]
    widths = [max(map(len, column)) for column in zip(*texts)]
    for row in texts:
        sink.write('  '.join(text.rjust(width) for text, width in zip(row, widths)) + '\n')
