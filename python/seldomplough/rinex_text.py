"""The text of navigation files of RINEX, versions 3.04 and 2.11, of GPS satellites.

Numbers have thirteen digits, one of them before the point, which is more than any field needs."""

from __future__ import annotations

from fractions import Fraction
from typing import Iterator, List, Sequence, Union

from seldomplough import __version__, dates
from seldomplough.lines import Utc
from seldomplough.navigation import Broadcast, Message, fit_hours, leap, meant, utc_week
from seldomplough.rinex import NAMES

VERSIONS = '3.04', '2.11'
LABEL = 60
ALPHA = 'al0', 'al1', 'al2', 'al3'
BETA = 'be0', 'be1', 'be2', 'be3'

Number = Union[int, Fraction]


def text_of(message: Message, version: str) -> Iterator[str]:
    """The lines of a file, each with its line feed. The message has one ephemeris at least."""
    is_old = version == '2.11'
    yield from (f'{text:<{LABEL}}{label}\n' for text, label in _header(message, version))
    for it in message.broadcasts:
        start, margin = (_epoch_of_2(it), 3) if is_old else (_epoch_of_3(it), 4)
        yield from _record(start, margin, _numbers(it))


def number(value: Number, width: int = 19, decimals: int = 12) -> str:
    """A number as Fortran's format D shows it."""
    return f'{float(value):{width}.{decimals}E}'.replace('E', 'D')


def _header(message: Message, version: str) -> Iterator[Sequence[str]]:
    """The header: what a line says, and its label."""
    kinds = f'{"N: GPS NAV DATA":<20}' if version == '2.11' else f'{"N: GNSS NAV DATA":<20}G: GPS'
    yield f'{version:>9}{"":11}{kinds}', 'RINEX VERSION / TYPE'
    program = f'seldomplough {__version__}'
    yield f'{program:<20}{"":20}{dates.now():%Y%m%d %H%M%S} UTC', 'PGM / RUN BY / DATE'
    if message.utc is not None:
        last = message.broadcasts[-1]
        yield from (_utc_of_2 if version == '2.11' else _utc_of_3)(message.utc, last)
    yield '', 'END OF HEADER'


def _utc_of_3(line: Utc, last: Broadcast) -> Iterator[Sequence[str]]:
    """The ionosphere, UTC and leap seconds in version 3.04."""
    for system, names in ('GPSA', ALPHA), ('GPSB', BETA):
        yield f'{system} {_coefficients(line, names)}', 'IONOSPHERIC CORR'
    a0, a1 = number(line.value('a0'), 17, 10), number(line.value('a1'), 16, 9)
    tot, week = int(line.value('tot')), utc_week(line, last.week_sent)
    yield f'GPUT {a0}{a1}{tot:7d}{week:5d}', 'TIME SYSTEM CORR'
    known = (it for it in leap(line, last) if it is not None)
    yield ''.join(f'{it:6d}' for it in known), 'LEAP SECONDS'


def _utc_of_2(line: Utc, last: Broadcast) -> Iterator[Sequence[str]]:
    """The same in version 2.11."""
    yield f'  {_coefficients(line, ALPHA)}', 'ION ALPHA'
    yield f'  {_coefficients(line, BETA)}', 'ION BETA'
    a0, a1 = number(line.value('a0')), number(line.value('a1'))
    tot, week = int(line.value('tot')), utc_week(line, last.week_sent)
    yield f'   {a0}{a1}{tot:9d}{week:9d}', 'DELTA-UTC: A0,A1,T,W'
    yield f'{leap(line, last).seconds:6d}', 'LEAP SECONDS'


def _coefficients(line: Utc, names: Sequence[str]) -> str:
    return ''.join(number(line.value(it), 12, 4) for it in names)


def _epoch_of_3(it: Broadcast) -> str:
    return f'G{it.satellite:02d} {it.toc:%Y %m %d %H %M %S}'


def _epoch_of_2(it: Broadcast) -> str:
    date = it.toc
    parts = f'{date.month:3d}{date.day:3d}{date.hour:3d}{date.minute:3d}{date.second:5.1f}'
    return f'{it.satellite:2d} {date.year % 100:02d}{parts}'


def _numbers(it: Broadcast) -> List[Number]:
    """The numbers of a record in their order."""
    values = {name: meant(it.line, name) for name in NAMES}
    values['wn'] = Fraction(it.week)
    return [*values.values(), it.sent_s, fit_hours(it.line)]


def _record(start: str, margin: int, values: Sequence[Number]) -> Iterator[str]:
    """The lines of a record: three numbers after its start, then four on each line."""
    texts = [number(it) for it in values]
    yield start + ''.join(texts[:3]) + '\n'
    for at in range(3, len(texts), 4):
        yield ' ' * margin + ''.join(texts[at : at + 4]) + '\n'
