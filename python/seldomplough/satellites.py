"""The satellite of a slot, from the lines before, and from those after where they are there."""

from __future__ import annotations

from collections import deque
from typing import Deque, Dict, Generic, Iterable, Iterator, List, Optional, Tuple, Type, TypeVar
from typing import cast

from seldomplough.bases import Line, SlotLine
from seldomplough.events import Acq, Lost
from seldomplough.replies import State, StateHold, StateTrack


class Satellites:
    """Knows the satellite of each slot by the lines that it was fed, in their order.

    A slot has the satellite of an `acq` line that found one, or of a `state` line of a slot that
    tracks or holds. It has none that is known from then on where an `acq` line found none, a line
    says that the signal was lost, or a `state` line that the slot is idle or searches. Such a line
    itself is still of the satellite that the slot had.

    No line says that a slot was stopped. Where a script stops a slot and names another satellite
    for it by `hold` or `track`, this one is known from the next `state` line of the slot on."""

    def __init__(self) -> None:
        self.known: Dict[Tuple[int, int], int] = {}

    def feed(self, line: Line) -> Optional[int]:
        """Takes the next line, and says the satellite that it is of, or None."""
        if not isinstance(line, SlotLine):
            return None
        place = line.client, line.slot
        if isinstance(line, Acq):
            self._set(place, line.satellite if line.found else None)
            return line.satellite
        if isinstance(line, Lost):
            return self.known.pop(place, None)
        if isinstance(line, State):
            named: Optional[int] = getattr(line, 'satellite', None)
            self._set(place, named if isinstance(line, (StateHold, StateTrack)) else None)
            return named
        return self.known.get(place)

    def _set(self, place: Tuple[int, int], satellite: Optional[int]) -> None:
        if satellite is None:
            self.known.pop(place, None)
        else:
            self.known[place] = satellite


S = TypeVar('S', bound=SlotLine)


class _Waiting(Generic[S]):
    """A line whose satellite is settled by the next line that says what its slot does."""

    def __init__(self, line: S, before: Optional[int]) -> None:
        self.line = line
        self.named = {before} - {None}
        self.is_settled = False

    def settle(self, after: Optional[int] = None) -> None:
        """Takes the satellite that is named after the line, or None."""
        self.named |= {after} - {None}
        self.is_settled = True

    @property
    def satellite(self) -> Optional[int]:
        """The satellite, None where none is named or where there are two."""
        return next(iter(self.named)) if len(self.named) == 1 else None


def with_satellites(lines: Iterable[Line], *kinds: Type[S]) -> Iterator[Tuple[S, Optional[int]]]:
    """The lines of one or several kinds, in their order, each with its satellite or None.

    It is the one that the lines before say, as `Satellites` does, or else the one that the next
    `acq`, `lost` or `state` line of the slot names by saying that the slot tracks or holds it. It
    isn't known where these are two."""
    satellites = Satellites()
    waiting: Deque[_Waiting[S]] = deque()
    of_slots: Dict[Tuple[int, int], List[_Waiting[S]]] = {}
    for line in lines:
        before = satellites.feed(line)
        if isinstance(line, kinds):
            it = _Waiting(cast(S, line), before)
            waiting.append(it)
            of_slots.setdefault((it.line.client, it.line.slot), []).append(it)
        elif isinstance(line, (Acq, Lost, State)):
            after = line.satellite if isinstance(line, (StateHold, StateTrack)) else None
            for it in of_slots.pop((line.client, line.slot), ()):
                it.settle(after)
        while waiting and waiting[0].is_settled:
            first = waiting.popleft()
            yield first.line, first.satellite
    yield from ((it.line, it.satellite) for it in waiting)
