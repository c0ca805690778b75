"""What each slot does, by the lines so far: the rows of a table for people."""

from __future__ import annotations

from dataclasses import dataclass
from typing import Dict, List, Optional, Sequence, Tuple

from seldomplough.cn0 import FEWEST, Estimator
from seldomplough.lines import Acq, Bits, Count, End, Err, Line, Lock, Lost, Satellites, SlotLine
from seldomplough.lines import State, StateAcquire, StateTrack, Sub, Unlock

# The columns of a table, each with its unit on a second line.
COLUMNS = (
    'client', 'slot', 'satellite', 'state', 'loops', 'Doppler\n[Hz]', 'dumps', 'sub-\nframe',
    'next at\n[s]', 'C/N0\n[dB-Hz]',
)  # fmt: skip
Row = Tuple[str, ...]

# What the loops of a slot that tracks did last, by its kind of line.
LOOPS = {Lock.kind: 'lock', Unlock.kind: 'open', Bits.kind: 'bits'}


@dataclass
class Slot:
    """What is known of a slot. A text is empty where nothing is known."""

    satellite: Optional[int] = None
    state: str = ''
    loops: str = ''
    doppler_hz: Optional[float] = None
    dumps: Optional[int] = None
    subframe: str = ''
    next_subframe_s: Optional[int] = None
    second: int = -1
    """The second of the samples that the last dump is of."""
    density: Optional[float] = None
    """The C/N0 of the last whole second of dumps, in dB-Hz."""

    def forget(self) -> None:
        """Forgets what was of another satellite."""
        self.subframe, self.next_subframe_s, self.density = '', None, None

    def rest(self, state: str) -> None:
        """Takes a state in which nothing is tracked."""
        self.state, self.loops, self.doppler_hz, self.dumps = state, '', None, None


class Slots:
    """Takes lines in their order. It has a slot for each one that a line was of.

    Of each slot it has what was last said. Its dumps are those of its last `state` line and the
    `count` lines after it."""

    def __init__(self, rate: int) -> None:
        self.rate = rate
        self.time = self.lines = self.refused = self.ended = 0
        self.slots: Dict[Tuple[int, int], Slot] = {}
        self.satellites = Satellites()
        self.estimator = Estimator(rate)

    def feed(self, line: Line) -> None:
        """Takes the next line."""
        self.lines += 1
        self.time = line.time
        satellite = self.satellites.feed(line)
        if not isinstance(line, SlotLine):
            self.refused += isinstance(line, Err)
            self.ended += isinstance(line, End)
        else:
            slot = self.slots.get((line.client, line.slot))
            if slot is None:
                slot = self.slots[line.client, line.slot] = Slot()
            if satellite is not None and slot.satellite not in (None, satellite):
                slot.forget()
            slot.satellite = satellite
            self._take(slot, line)

    def _take(self, slot: Slot, line: SlotLine) -> None:
        if isinstance(line, Count):
            self._count(slot, line)
        elif isinstance(line, State):
            _take_state(slot, line)
        elif isinstance(line, Acq):
            slot.rest('track' if line.found else 'none')
        elif isinstance(line, Lost):
            slot.rest('lost')
        elif isinstance(line, Sub):
            damaged = line.words.count(None)
            slot.subframe = f'{line.id}, {damaged} bad' if damaged else str(line.id)
            slot.next_subframe_s = line.next_subframe_s
        elif line.kind in LOOPS:
            slot.state, slot.loops = 'track', LOOPS[line.kind]

    def _count(self, slot: Slot, line: Count) -> None:
        """Takes a dump. Of the seconds before its own nothing is kept but the last C/N0."""
        slot.dumps = (slot.dumps or 0) + 1
        second = line.time // self.rate
        if second != slot.second:
            before = self.estimator.moments.pop((slot.second, line.client, line.slot), None)
            if before is not None and before.dumps >= FEWEST:
                slot.density = before.density
            slot.second = second
        self.estimator.feed(line)

    def head(self) -> str:
        """A line about the whole run."""
        parts = [f'{self.time / self.rate:.3f} s', f'{self.lines} lines']
        parts += [f'{self.refused} commands refused'] if self.refused else []
        parts += [f'{self.ended} clients at their end'] if self.ended else []
        return ', '.join(parts)

    def rows(self) -> List[Row]:
        """The rows of all slots, by client and slot, under `COLUMNS`."""
        return [_row(*it) for it in sorted(self.slots.items(), key=lambda it: it[0])]


def _take_state(slot: Slot, line: State) -> None:
    slot.rest(line.mode)
    slot.dumps = getattr(line, 'dumps', None)
    if isinstance(line, StateAcquire):
        slot.state = f'search {100 * line.done // max(line.cells, 1)} %'
    if isinstance(line, StateTrack):
        slot.loops, slot.doppler_hz = line.stage, float(line.doppler_hz)


def _row(place: Tuple[int, int], slot: Slot) -> Row:
    values: Sequence[object] = (
        *place,
        slot.satellite,
        slot.state,
        slot.loops,
        None if slot.doppler_hz is None else f'{slot.doppler_hz:.1f}',
        slot.dumps,
        slot.subframe,
        slot.next_subframe_s,
        None if slot.density is None else f'{slot.density:.1f}',
    )
    return tuple('-' if it is None or it == '' else str(it) for it in values)
