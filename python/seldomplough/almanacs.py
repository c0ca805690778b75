"""The almanacs and the health of all 32 satellites, as far as a run's lines have them."""

from __future__ import annotations

from collections import Counter
from datetime import datetime
from typing import Dict, Iterable, Iterator, List, NamedTuple, Optional, Set, Tuple, Union

from seldomplough import dates
from seldomplough.lines import Alm, Eph, Hlt, Line, Sub
from seldomplough.message import healths_of
from seldomplough.navigation import Times
from seldomplough.satellites import with_satellites
from seldomplough.words import configurations_of, place_of, sv_id

SATELLITES = range(1, 33)
# The SV ID of a page in the place of a satellite that isn't there (table 20-V).
DUMMY = 0
# What an orbit is made of. Where all bits of these are 1 there is none.
ORBIT = 'e', 'di', 'omdot', 'sqrta', 'om0', 'w', 'm0'

# An almanac's health has three bits for the data and five for the signals (section 20.3.3.5.1.3).
SIGNAL_BITS = 5
SIGNALS = (1 << SIGNAL_BITS) - 1


class Known(NamedTuple):
    """What is known of a satellite. Each is None where it didn't come."""

    satellite: int
    line: Optional[Alm] = None
    """Its last almanac."""
    week: Optional[int] = None
    """The week of the almanac's `toa`, not modulo 1024."""
    is_dummy: bool = False
    """Whether a page without an almanac came in its place, and no almanac did."""
    page_health: Optional[int] = None
    """Its six bits of health by the pages with SV ID 51 and 63."""
    anti_spoof: Optional[bool] = None
    configuration: Optional[int] = None
    ura: Optional[int] = None
    """The accuracy's index by its own last ephemeris."""

    @property
    def health(self) -> Optional[int]:
        """Six bits of health: those of the pages of health, or else by the almanac. The first of
        them is 1 where some of the data is bad."""
        if self.page_health is not None or self.line is None:
            return self.page_health
        bits = self.line.integer('health')
        return (bits >> SIGNAL_BITS > 0) << SIGNAL_BITS | bits & SIGNALS


class Gathered:
    """Takes the lines of a run. `near` is the date by which weeks are chosen, or None for today."""

    def __init__(self, near: Optional[datetime] = None) -> None:
        self.near = near
        self.today = dates.now()
        self.almanacs: Dict[int, Alm] = {}
        self.dummies: Set[int] = set()
        self.healths: Dict[int, int] = {}
        self.anti_spoof: Dict[int, bool] = {}
        self.configurations: Dict[int, int] = {}
        self.ura: Dict[int, int] = {}
        self._short_weeks: Dict[int, int] = {}
        self._times = Times()
        self._now: Optional[int] = None
        """When the last ephemeris was sent, in seconds from the first week's beginning."""

    def take(self, lines: Iterable[Line]) -> None:
        """Takes all lines of a run."""
        found: Iterator[Tuple[Union[Alm, Eph, Hlt, Sub], Optional[int]]]
        found = with_satellites(lines, Alm, Eph, Hlt, Sub)
        for line, satellite in found:
            if isinstance(line, Alm):
                self._take_almanac(line)
            elif isinstance(line, Eph):
                self._take_ephemeris(line, satellite)
            elif isinstance(line, Hlt):
                self.healths.update(healths_of(line))
                self._short_weeks[line.integer('toa')] = line.integer('wna')
            else:
                self._take_subframe(line)

    def _take_almanac(self, line: Alm) -> None:
        """Takes an almanac. One whose bits are all 1 is a dummy."""
        orbit = [line.table[line.places[it]] for it in ORBIT]
        if all(line.integer(it.name) % (1 << it.bits) == (1 << it.bits) - 1 for it in orbit):
            self.dummies.add(line.integer('sv'))
        else:
            self.almanacs[line.integer('sv')] = line

    def _take_ephemeris(self, line: Eph, satellite: Optional[int]) -> None:
        if satellite is not None:
            self.ura[satellite] = line.integer('ura')
        tow = self._times.of(line)
        if tow is not None:
            week = dates.full_week(line.integer('wn'), self.near, self.today)
            self._now = week * dates.SECONDS_A_WEEK + dates.handover_s(tow)

    def _take_subframe(self, line: Sub) -> None:
        self._times.feed(line)
        found = configurations_of(line)
        if found is not None:
            self.healths.update(found.healths)
            self.anti_spoof.update(found.anti_spoof)
            self.configurations.update(found.configurations)
        place = place_of(line)
        if place is not None and sv_id(line) == DUMMY:
            self.dummies.add(place)

    def rows(self) -> List[Known]:
        """All 32 satellites."""
        return [self._row(it) for it in SATELLITES]

    def _row(self, satellite: int) -> Known:
        line = self.almanacs.get(satellite)
        return Known(
            satellite,
            line,
            None if line is None else self._week(line),
            line is None and satellite in self.dummies,
            self.healths.get(satellite),
            self.anti_spoof.get(satellite),
            self.configurations.get(satellite),
            self.ura.get(satellite),
        )

    def _week(self, line: Alm) -> Optional[int]:
        """The week of an almanac's time, if it is known.

        A page with SV ID 51 of the same time has it modulo 256. Without one it is the week in which
        this time is nearest to the last ephemeris, or else to a date that was named."""
        about = self._now
        if about is None and self.near is not None:
            about = int((self.near - dates.EPOCH).total_seconds())
        short = self._short_weeks.get(line.integer('toa'))
        if short is not None:
            known = dates.week_of(self.today) if about is None else about // dates.SECONDS_A_WEEK
            return dates.nearest_week(short, dates.SHORT_WEEKS, known)
        return None if about is None else dates.weeks_apart(int(line.value('toa')), about)


def usual_time(rows: Iterable[Known]) -> Optional[Tuple[int, int]]:
    """The `toa`, in 4096 s, and the week that most almanacs have. None where no week is known."""
    found = Counter(
        (it.line.integer('toa'), it.week)
        for it in rows
        if it.line is not None and it.week is not None
    )
    return found.most_common(1)[0][0] if found else None
