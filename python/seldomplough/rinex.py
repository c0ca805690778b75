"""Navigation files of RINEX, version 3, as far as GPS satellites go (its description, table A6)."""

from __future__ import annotations

import datetime
import re
from fractions import Fraction
from typing import Dict, Iterable, Iterator, List, NamedTuple, Tuple

from seldomplough.failures import Failure, shown

# The names of a record's numbers, which are those of the fields of an `eph` line: three after the
# epoch, then four on each line.
NAMES = (
    'af0 af1 af2 iode crs dn m0 cuc e cus sqrta toe cic om0 cis i0 crc w omdot idot l2 wn l2p '
    'ura health tgd iodc'
).split()
# In columns: what is before the numbers of a record's first line, and of the others; a number.
EPOCH_WIDTH, MARGIN, WIDTH = 23, 4, 19
# More bytes than a file of navigation messages has.
LONGEST = 1 << 26

MANTISSA = r'[+-]?(?:[0-9]{1,18}(?:\.[0-9]{0,18})?|\.[0-9]{1,18})'
NUMBER = re.compile(f'({MANTISSA})(?:[DdEe]([+-]?0?[0-9]{{1,2}}))?')
EPOCH = re.compile('G([ 0-9][0-9]) ([0-9]{4})((?: [ 0-9][0-9]){5})')

SECONDS_A_WEEK = 7 * 86400
FIRST_WEEK = datetime.datetime(1980, 1, 6)


class Shown(NamedTuple):
    """A number as RINEX shows it, and a unit of its last digit."""

    value: Fraction
    unit: Fraction


class Record(NamedTuple):
    """A record: its satellite, its epoch in seconds of the week, and its numbers by name."""

    satellite: int
    seconds: int
    numbers: Dict[str, Shown]


def records(data: bytes) -> Iterator[Record]:
    """The records of GPS satellites of a file."""
    if len(data) > LONGEST:
        raise Failure(f'more than {LONGEST} bytes are no navigation file')
    head, mark, body = data.decode('latin-1').partition('END OF HEADER')
    if not (mark and head[:9].strip().startswith('3.') and head[20:21] == 'N'):
        raise Failure('it is no navigation file of RINEX, version 3')
    numbered = enumerate(body.split('\n'), head.count('\n') + 1)
    next(numbered)
    for first, lines in _grouped(numbered):
        if lines[0].startswith('G'):
            yield _record(first, lines)


def _grouped(lines: Iterable[Tuple[int, str]]) -> Iterator[Tuple[int, List[str]]]:
    """The lines of each record, and the number of its first one."""
    first, group = 0, ['']
    for number, line in lines:
        if line[:1].strip():
            yield first, group
            first, group = number, []
        group.append(line.rstrip())
    yield first, group


def _record(first: int, lines: List[str]) -> Record:
    """The record of these lines, of a GPS satellite. `first` is the number of the first line."""
    epoch = EPOCH.fullmatch(lines[0][:EPOCH_WIDTH])
    if epoch is None or not 1 <= int(epoch[1]) <= 32:
        raise Failure(f'line {first} begins with no satellite and epoch: {shown(lines[0])}')
    try:
        date = datetime.datetime(*map(int, (epoch[2], *epoch[3].split())))  # type: ignore[arg-type]
    except ValueError as why:
        raise Failure(f'line {first} has no date: {shown(lines[0])}') from why
    while not lines[-1]:
        lines.pop()
    numbers = {name: _number(name, *it) for name, it in zip(NAMES, _texts(first, lines))}
    if len(numbers) < len(NAMES):
        raise Failure(f'the record of line {first} has too few lines')
    return Record(int(epoch[1]), seconds_of_week(date), numbers)


def _texts(first: int, lines: List[str]) -> Iterator[Tuple[int, str]]:
    """The texts of a record's numbers, each with the number of its line."""
    for number, line in enumerate(lines, first):
        start = EPOCH_WIDTH if number == first else MARGIN
        for at in range(start, MARGIN + 4 * WIDTH, WIDTH):
            yield number, line[at : at + WIDTH]


def _number(name: str, line: int, text: str) -> Shown:
    """The number of a text."""
    found = NUMBER.fullmatch(text.strip(' '))
    if found is None:
        raise Failure(f"line {line} has no number for {name}: '{shown(text)}'")
    digits, exponent = found.groups()
    scale = Fraction(10) ** int(exponent or 0)
    decimals = len(digits.partition('.')[2])
    return Shown(Fraction(digits) * scale, scale / 10**decimals)


def seconds_of_week(date: datetime.datetime) -> int:
    """Seconds since the begin of the GPS week."""
    return int((date - FIRST_WEEK).total_seconds()) % SECONDS_A_WEEK
