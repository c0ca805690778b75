"""What the message says, as typed values: angles in radians and degrees, lengths in metres, times
in seconds, each by a name with its unit.

    for it in read(source):
        if isinstance(it, Ephemeris):
            print(it.satellite, it.toe_s, it.i0_deg)

A value is the nearest float of the exact one, which the lines of `seldomplough.lines` have. The
names are those of `seldomplough.fields`, so that they are those of `json` and `csv` too."""

from __future__ import annotations

from dataclasses import fields
from typing import Callable, Dict, Iterator, Optional, Tuple, Type, TypeVar, Union

from seldomplough import files
from seldomplough.lines import Alm, Als, Eph, Hlt, Input, Line, SlotLine, Sub, Utc
from seldomplough.lines import read as read_lines
from seldomplough.pages import Page
from seldomplough.satellites import with_satellites
from seldomplough.values import Almanac, Almanacs, Ephemeris, Healths, Time
from seldomplough.words import Configurations, Corrections, Flags
from seldomplough.words import configurations_of, corrections_of, flags_of

__all__ = [
    'Almanac', 'Almanacs', 'Configurations', 'Corrections', 'Ephemeris', 'Flags', 'Healths', 'Time',
    'Value', 'healths_of', 'read', 'values',
]  # fmt: skip

Value = Union[
    Ephemeris, Almanac, Almanacs, Time, Healths, Flags, Configurations, Corrections
]  # fmt: skip
V = TypeVar('V', Ephemeris, Almanac, Time)
KINDS = (Eph, Alm, Als, Utc, Hlt, Sub)
# How many satellites an `hlt` line has.
HEALTHS = 24


def read(source: Input, say: Callable[[str], None] = files.say) -> Iterator[Value]:
    """The values of the printed lines of a source, in their order. A `sub` line has its flags, and
    after them what its page has where that is one with SV ID 52 or 63."""
    lines: Iterator[Tuple[SlotLine, Optional[int]]] = with_satellites(
        read_lines(source, say), *KINDS
    )
    for line, satellite in lines:
        yield from values(line, satellite)


def values(line: Line, satellite: Optional[int] = None) -> Iterator[Value]:
    """The values of a line that `satellite` sent."""
    if isinstance(line, Eph):
        yield _page(Ephemeris, line, satellite)
    elif isinstance(line, Alm):
        yield _page(Almanac, line, satellite)
    elif isinstance(line, Utc):
        yield _page(Time, line, satellite)
    elif isinstance(line, Als):
        yield Almanacs(satellite, float(line.toa_s), dict(enumerate(line.healths, 1)))
    elif isinstance(line, Hlt):
        toa, wna = float(line.value('toa')), line.integer('wna')
        yield Healths(satellite, toa, wna, healths_of(line))
    elif isinstance(line, Sub):
        yield flags_of(line, satellite)
        found = configurations_of(line, satellite), corrections_of(line, satellite)
        yield from (it for it in found if it is not None)


def healths_of(line: Hlt) -> Dict[int, int]:
    """The health of satellites 1 to 24."""
    return {it: line.integer(f'h{it}') for it in range(1, HEALTHS + 1)}


def _page(kind: Type[V], line: Page, satellite: Optional[int]) -> V:
    """The values of a page, by the names that its class has."""
    known: Dict[str, Union[int, float, None]] = {'satellite': satellite}
    for field, integer in zip(line.table, line.values):
        known.update((name, float(it)) for name, it in field.named(integer))
        if field.scale == 1:
            known[field.name] = integer
        elif field.unit == 'dimensionless':
            known[field.name] = float(field.value(integer))
    return kind(**{it.name: known[it.name] for it in fields(kind)})  # type: ignore[arg-type]
