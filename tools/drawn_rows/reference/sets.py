"""Sets over the pages since lock, IS-GPS-200, sections 20.3.3.3.1.5, 20.3.3.4.1 and 20.3.4.4, and
20.3.3.5.1.2 for almanacs. What is reported when is this project's own.

The last clock page and the last pages of subframes 2 and 3 are a set where the low eight bits of
the clock's issue are those of the other two. The last almanacs of satellites 1 to 32 are one where
all are there with one time of applicability. A set is looked for with each page of its kinds, and
reported where its values differ from the set that was reported last. All other pages are reported
each time, an almanac before the set that comes with it."""
from __future__ import annotations

from typing import NamedTuple, Optional, Sequence, Union

from .fields import EPHEMERIS, FIELDS, Page


class Almanacs(NamedTuple):
    """The time of applicability, and the health of each satellite."""
    time: int
    health: list[int]


class Ephemeris(NamedTuple):
    """The 31 values of a clock and ephemeris set."""
    values: list[int]


Report = Union[Page, Ephemeris]


class Reports(NamedTuple):
    """What one page has reported: a report, and a set of almanacs."""
    report: Optional[Report]
    almanacs: Optional[Almanacs]


def place_of(kind: str, name: str) -> int:
    """Where the value of a name stands in a kind of pages."""
    return [it.name for it in FIELDS[kind]].index(name)


ISSUES = {kind: place_of(kind, name)
          for kind, name in (('clock', 'iodc'), ('eph2', 'iode'), ('eph3', 'iode3'))}
SATELLITE, TIME, HEALTH = (place_of('almanac', it) for it in ('sv', 'toa', 'health'))


class Sets:
    """The pages so far, as far as they matter."""

    def __init__(self) -> None:
        self.last: dict[str, list[int]] = {}
        self.table: dict[int, list[int]] = {}
        self.told_ephemeris: Optional[list[int]] = None
        self.told_almanacs: Optional[list[list[int]]] = None

    def ephemeris(self) -> Optional[Ephemeris]:
        """The set that is there now, where it is new."""
        if len(self.last) < 3:
            return None
        clock, second, third = (self.last[it][ISSUES[it]] for it in EPHEMERIS)
        now = [it for kind in EPHEMERIS for it in self.last[kind]]
        if not clock % 256 == second == third or now == self.told_ephemeris:
            return None
        self.told_ephemeris = now
        return Ephemeris(now)

    def almanacs(self) -> Optional[Almanacs]:
        """The set of almanacs that is there now, where it is new."""
        now = [self.table[it] for it in sorted(self.table)]
        if len(now) < 32 or len({it[TIME] for it in now}) > 1 or now == self.told_almanacs:
            return None
        self.told_almanacs = now
        return Almanacs(now[0][TIME], [it[HEALTH] for it in now])

    def take(self, page: Page) -> Reports:
        """What one more page has reported."""
        if page.kind in EPHEMERIS:
            self.last[page.kind] = page.values
            return Reports(self.ephemeris(), None)
        if page.kind != 'almanac':
            return Reports(page, None)
        if 1 <= page.values[SATELLITE] <= 32:
            self.table[page.values[SATELLITE]] = page.values
        return Reports(page, self.almanacs())


def reports(pages: Sequence[Page]) -> Reports:
    """What the last of some pages has reported."""
    sets, told = Sets(), Reports(None, None)
    for it in pages:
        told = sets.take(it)
    return told
