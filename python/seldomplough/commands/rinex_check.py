"""Compares the `eph` lines of a run with a RINEX navigation file, field by field.

The file is one of version 3. A field agrees if it is within half a unit of the last digit that the
file shows. Angles are turned from semicircles to radians. The week is compared modulo 1024. Not
compared are `fit` (RINEX has hours), `aodo` (RINEX has none) and `iode3` (the same as `iode`).

Each `eph` line needs a record of its satellite and issue. The status is 0 where all agree, and 1
where one doesn't or where there are none.

    seldomplough rinex-check my.lines my.nav
"""

from __future__ import annotations

import argparse
from fractions import Fraction
from typing import Iterable, Iterator, List, NamedTuple, Optional

from seldomplough import files, rinex
from seldomplough.commands import options
from seldomplough.failures import Failure, one_line
from seldomplough.lines import Eph, read
from seldomplough.navigation import meant
from seldomplough.rinex import Record
from seldomplough.satellites import with_satellites

# What else rounding in the program that wrote the file may add, of the value.
ROUNDING = Fraction(1, 10**14)
# The epoch has `toc`. The others aren't compared.
APART = ('toc', 'iode3', 'fit', 'aodo')


class Compared(NamedTuple):
    """How many fields of an `eph` line were compared, and what is said of those that differ."""

    fields: int
    wrong: List[str]


def add(subparsers: options.Subparsers) -> None:
    """Adds the command's words."""
    parser = options.command(subparsers, 'rinex-check')
    parser.add_argument('lines', metavar='LINES', help='printed lines; - is standard input')
    parser.add_argument('rinex', metavar='RINEX', help='a navigation file; - is standard input')
    parser.set_defaults(run=run)


def run(arguments: argparse.Namespace) -> int:
    """Compares, says what was seen, and whether all agree."""
    with files.read(arguments.lines) as source:
        lines = list(with_satellites(read(source), Eph))
    with files.read(arguments.rinex) as source:
        records = records_of(source)
    good = 0
    with files.write() as sink:
        for line, satellite in lines:
            compared = compare(line, best(line, satellite, records))
            good += compared is not None and not compared.wrong
            for text in said(line, satellite, compared):
                sink.write(text + '\n')
        sink.write(f'{good} of {len(lines)} `eph` lines agree\n')
    return 0 if good == len(lines) > 0 else 1


def records_of(source: files.Source) -> List[Record]:
    """The records of a file, or a failure with its name."""
    try:
        return list(rinex.records(source.read(rinex.LONGEST + 1)))
    except Failure as why:
        raise Failure(f'{one_line(source.name)}: {why.text}') from why


def best(line: Eph, satellite: Optional[int], records: Iterable[Record]) -> Optional[Record]:
    """The record of a satellite and of a line's issue: one of its time, or else the first one."""
    issue = line.value('iode')
    of_issue = (it for it in records if it.satellite == satellite)
    found = [it for it in of_issue if it.numbers['iode'].value == issue]
    found.sort(key=lambda it: it.seconds != line.value('toc'))
    return found[0] if found else None


def compare(line: Eph, record: Optional[Record]) -> Optional[Compared]:
    """Compares a line with a record, where there is one."""
    if record is None:
        return None
    wrong = [] if line.value('toc') == record.seconds else ['toc']
    names = [it.name for it in line.table if it.name not in APART]
    for name in names:
        value, (shown, unit) = meant(line, name), record.numbers[name]
        if name == 'wn':
            shown %= 1024
        if abs(value - shown) > unit / 2 + abs(value) * ROUNDING:
            wrong.append(f'{name}: {float(shown)} and not {float(value)}')
    return Compared(len(names) + 1, wrong)


def said(line: Eph, satellite: Optional[int], compared: Optional[Compared]) -> Iterator[str]:
    """What is said of a line."""
    name = 'unknown satellite' if satellite is None else f'satellite {satellite}'
    if compared is None:
        yield f'{name}: no record of issue {line.integer("iode")}'
    else:
        agreeing = compared.fields - len(compared.wrong)
        yield f'{name}: {agreeing} of {compared.fields} fields agree'
        yield from (f'  {it}' for it in compared.wrong)
