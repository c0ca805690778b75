"""Ephemerides and UTC as RINEX means them: whole weeks, metres of accuracy, hours of the fit."""

from __future__ import annotations

from datetime import datetime
from fractions import Fraction
from typing import Dict, Iterable, Iterator, List, NamedTuple, Optional, Set, Tuple, Union

from seldomplough import dates
from seldomplough.fields import RADIANS
from seldomplough.lines import Eph, Line, Sub, Utc
from seldomplough.satellites import with_satellites

# User range accuracy: the last index whose metres are a power of the square root of two
# (IS-GPS-200, section 20.3.3.3.1.3).
LAST_ROOT = 6

# The hours of the fit: without the flag, with it, and with it for these issues of the clock, from
# the first to the last of each range (section 20.3.4.4, tables 20-XI and 20-XII).
FIT, LONGER_FIT = 4, 6
FITS_OF_ISSUES = (
    (240, 247, 8), (248, 255, 14), (496, 496, 14), (497, 503, 26), (1021, 1023, 26),
    (504, 510, 50), (511, 511, 74), (752, 756, 74), (757, 757, 98),
)  # fmt: skip
# Where the low eight bits of other issues are less than this, it is `LONGER_FIT`.
LEAST_LONG = 240
UNKNOWN_FIT = 0

CLOCK_SUBFRAME = 1


class Broadcast(NamedTuple):
    """What a satellite sent: an `eph` line with what its time of reception gives."""

    satellite: int
    line: Eph
    toc: datetime
    """The epoch of the clock, a date of GPS time."""
    week: int
    """The week of `toe`, not modulo 1024."""
    sent_s: int
    """The time of the handover word of its subframe 1, in seconds from that week's beginning."""

    @property
    def week_sent(self) -> int:
        """The week in which that time is."""
        return self.week + self.sent_s // dates.SECONDS_A_WEEK


class Leap(NamedTuple):
    """Leap seconds: those in force; and where they change or have changed, to which number, and at
    the end of which day (from 1 on) of which week."""

    seconds: int
    then: Optional[int] = None
    week: Optional[int] = None
    day: Optional[int] = None


class Times:
    """Knows the time of week of the last whole subframe 1 of each slot: that of the clock's page in
    the next `eph` line."""

    def __init__(self) -> None:
        self._tows: Dict[Tuple[int, int], int] = {}

    def feed(self, line: Sub) -> None:
        """Takes the next subframe."""
        if line.id == CLOCK_SUBFRAME and None not in line.words:
            self._tows[line.client, line.slot] = line.tow

    def of(self, line: Eph) -> Optional[int]:
        """The time of week of a line's subframe 1, in 6 s as `sub` has it."""
        return self._tows.get((line.client, line.slot))


class Message:
    """What a run's lines have for a navigation file. `near` is a date, or None for today.

    A set that comes again, from the same satellite, counts once."""

    def __init__(self, near: Optional[datetime] = None) -> None:
        self.near = near
        self.today = dates.now()
        self.broadcasts: List[Broadcast] = []
        self.utc: Optional[Utc] = None
        self.unknown = self.timeless = 0
        """How many `eph` lines were left out: of an unknown satellite, without a subframe 1."""
        self._sets: Set[Tuple[int, int, Tuple[int, ...]]] = set()
        self._times = Times()

    def take(self, lines: Iterable[Line]) -> None:
        """Takes all lines of a run."""
        found: Iterator[Tuple[Union[Eph, Sub, Utc], Optional[int]]]
        found = with_satellites(lines, Eph, Sub, Utc)
        for line, satellite in found:
            if isinstance(line, Utc):
                self.utc = line
            elif isinstance(line, Eph):
                self._take_ephemeris(line, satellite)
            else:
                self._times.feed(line)

    def _take_ephemeris(self, line: Eph, satellite: Optional[int]) -> None:
        tow = self._times.of(line)
        if satellite is None:
            self.unknown += 1
        elif tow is None:
            self.timeless += 1
        else:
            week = dates.full_week(line.integer('wn'), self.near, self.today)
            it = broadcast(satellite, line, week, tow)
            key = satellite, it.week, line.values
            if key not in self._sets:
                self._sets.add(key)
                self.broadcasts.append(it)


def broadcast(satellite: int, line: Eph, week: int, tow: int) -> Broadcast:
    """A line whose subframe 1 began in this week and has this time of week."""
    sent = dates.handover_s(tow)
    toc, toe = int(line.value('toc')), int(line.value('toe'))
    after = dates.weeks_apart(toe, sent)
    epoch = dates.date(week + dates.weeks_apart(toc, sent), 0, toc)
    return Broadcast(satellite, line, epoch, week + after, sent - after * dates.SECONDS_A_WEEK)


def meant(line: Eph, name: str) -> Fraction:
    """What RINEX calls the value of a field."""
    if name == 'ura':
        index = line.integer('ura')
        return Fraction(round(2 ** (1 + index / 2 if index <= LAST_ROOT else index - 2), 1))
    is_angle = line.table[line.places[name]].unit in RADIANS
    return line.radians(name) if is_angle else line.value(name)


def fit_hours(line: Eph) -> int:
    """The hours that the ephemeris fits, 0 where the standard names none for its issue."""
    issue = line.integer('iodc')
    if not line.integer('fit'):
        return FIT
    for first, last, hours in FITS_OF_ISSUES:
        if first <= issue <= last:
            return hours
    return LONGER_FIT if line.integer('iode') < LEAST_LONG else UNKNOWN_FIT


def utc_week(line: Utc, about: int) -> int:
    """The week of the reference time of UTC, where the present one is `about`."""
    return dates.nearest_week(line.integer('wnt'), dates.SHORT_WEEKS, about)


def leap(line: Utc, last: Broadcast) -> Leap:
    """The leap seconds when the last ephemeris was sent.

    Where both numbers are the same, the week of the last change may be more than 128 weeks ago.
    Then its number modulo 256 doesn't say which week it was."""
    now, then = line.integer('dtls'), line.integer('dtlsf')
    if now == then:
        return Leap(now)
    week = dates.nearest_week(line.integer('wnlsf'), dates.SHORT_WEEKS, last.week_sent)
    day = line.integer('dn')
    change = week * dates.SECONDS_A_WEEK + day * dates.SECONDS_A_DAY + now
    is_over = last.week * dates.SECONDS_A_WEEK + last.sent_s >= change
    return Leap(then if is_over else now, then, week, day)
