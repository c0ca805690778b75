"""What a recording's lines say of each satellite, gathered line by line.

The scripts search for each of the 32 satellites in a slot of its own, again and again. A slot that
tracks already refuses the search and goes on. Its state is asked for each second, and its dumps
each few seconds for C/N0."""

from __future__ import annotations

from dataclasses import dataclass, field
from datetime import datetime
from typing import Dict, Iterator, List, Optional, TypeVar

from seldomplough import dates
from seldomplough.cn0 import Moments
from seldomplough.lines import Acq, Bits, Count, Eph, Line, Lock, Lost, SlotLine, StateTrack, Sub
from seldomplough.lines import Unlock
from seldomplough.scripts import CLIENTS, SLOTS, Script, Search

# Seconds from a search for a satellite to the next one.
AGAIN = 10
# Dumps that are asked for at once, and how often at most in a run.
DUMPS, TIMES = 1000, 20
# The subframe that has the week.
CLOCK = 1

K = TypeVar('K')


def scripts(search: Search, rate: int, seconds: int, last: Optional[int]) -> List[Script]:
    """Scripts for so many seconds at `rate` samples a second. `last` is the number of samples where
    it is known."""
    return [_script(search, rate, seconds, last, at) for at in range(CLIENTS)]


def _script(search: Search, rate: int, seconds: int, last: Optional[int], at: int) -> Script:
    """The script of a client: the commands of its four slots in the order of their times."""
    rows = []
    every = max(1, seconds // TIMES)
    due = search.length(rate)
    for second in range(seconds):
        time = second * rate
        for slot in range(SLOTS):
            if second % AGAIN == 0:
                rows.append((time, search.command(time, slot, SLOTS * at + slot + 1)))
            if second % every == 0:
                rows.append((time + due, f'{time + due} counts {slot} {DUMPS}'))
            rows.append((time + rate, f'{time + rate} state {slot}'))
    if last is not None:
        rows = [it for it in rows if it[0] < last]
        rows += [(last, f'{last} state {slot}') for slot in range(SLOTS)]
    return [text for _, text in sorted(rows, key=lambda it: it[0])]


@dataclass
class Satellite:
    """What is known of a satellite. Times are numbers of samples."""

    number: int
    found: int
    """The time of the command by which it was found last."""
    half_chip: int
    """The half chip at which its code begins at that time."""
    doppler_hz: float
    locked: Optional[int] = None
    bits: Optional[int] = None
    lost: Optional[int] = None
    subframes: int = 0
    words_failed: int = 0
    """How many words of these were damaged."""
    alert: Optional[bool] = None
    anti_spoof: Optional[bool] = None
    """The flags of the last handover word that wasn't."""
    moments: Moments = field(default_factory=Moments)
    week: Optional[int] = None
    """The number of the week, modulo 1024, as the ephemeris has it."""
    clock_tow: Optional[int] = None
    """The time of week after the last subframe 1, which has that number, in 6 s."""
    tow: Optional[int] = None
    """The time of week at which the next subframe begins, in 6 s."""
    units: int = 0
    """Units of 6 s from the beginning of that week to `tow`, which may be in a later week."""
    health: Optional[int] = None

    @property
    def time_of_week_s(self) -> Optional[int]:
        """The time of week at which the subframe after the last one begins, in s."""
        return None if self.tow is None else dates.SECONDS_A_SUBFRAME * self.tow

    def date(self, rollovers: Optional[int], today: datetime) -> Optional[datetime]:
        """That time as a date of GPS time. Without `rollovers` it is the last one up to today."""
        if self.week is None:
            return None
        times = dates.rollovers_by(self.week, today) if rollovers is None else rollovers
        return dates.date(self.week, times, dates.SECONDS_A_SUBFRAME * self.units)


class Sky:
    """Takes lines in their order, and has what they say of each satellite that was found."""

    def __init__(self, search: Search, rate: int) -> None:
        self.search = search
        self.length = search.length(rate)
        self.satellites: Dict[int, Satellite] = {}

    def feed(self, line: Line) -> None:
        """Takes the next line."""
        if not isinstance(line, SlotLine):
            return
        number = SLOTS * (line.client - 1) + line.slot + 1
        if isinstance(line, Acq):
            if line.found:
                self._find(number, line)
        elif number in self.satellites:
            take(self.satellites[number], line)

    def _find(self, number: int, line: Acq) -> None:
        """A satellite was found, for the first time or again."""
        begun = line.time - self.length
        shift = float(line.doppler_hz(self.search.centre))
        found(self.satellites, number, Satellite(number, begun, line.half_chip, shift))

    def rows(self) -> Iterator[Satellite]:
        """The satellites that were found, in the order of their numbers."""
        for number in sorted(self.satellites):
            yield self.satellites[number]


def found(known: Dict[K, Satellite], key: K, it: Satellite) -> None:
    """Puts a satellite that was found among those that are known, where it may be already."""
    old = known.setdefault(key, it)
    old.found, old.half_chip, old.doppler_hz, old.lost = it.found, it.half_chip, it.doppler_hz, None


def take(it: Satellite, line: SlotLine) -> None:
    """Takes a line of a satellite."""
    if isinstance(line, Count):
        # Before the lock the carrier may be off, and the first dump isn't whole.
        if it.locked is not None:
            it.moments.take(line.ip * line.ip + line.qp * line.qp)
    elif isinstance(line, StateTrack):
        it.doppler_hz = float(line.doppler_hz)
    elif isinstance(line, Lock):
        it.locked = line.time
    elif isinstance(line, Bits):
        it.bits = line.time
    elif isinstance(line, Unlock):
        it.locked = None
    elif isinstance(line, Lost):
        it.locked, it.lost = None, line.time
    else:
        _take_message(it, line)


def _take_message(it: Satellite, line: SlotLine) -> None:
    """Takes a line of a satellite's message."""
    if isinstance(line, Sub):
        it.subframes += 1
        it.words_failed += line.words_failed
        if line.alert is not None:
            it.alert, it.anti_spoof = line.alert, line.anti_spoof
        if it.tow is not None:
            it.units += (line.tow - it.tow) % dates.SUBFRAMES_A_WEEK
        it.tow = line.tow
        if line.id == CLOCK:
            it.clock_tow = line.tow
    elif isinstance(line, Eph) and it.tow is not None and it.clock_tow is not None:
        it.week = line.integer('wn')
        it.health = line.integer('health')
        # The week is that in which the subframe with its number began.
        it.units = (it.clock_tow - 1) % dates.SUBFRAMES_A_WEEK + 1
        it.units += (it.tow - it.clock_tow) % dates.SUBFRAMES_A_WEEK
