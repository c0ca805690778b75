"""What the lines of any scripts say of each satellite, by client and slot."""

from __future__ import annotations

from typing import Dict, Iterator, Sequence, Tuple

from seldomplough.commanded import Commanded
from seldomplough.lines import Acq, Line, SlotLine
from seldomplough.skies import Satellite, found, take

Place = Tuple[int, int]


class Heard:
    """Takes the lines of a run in their order, with the scripts of its clients.

    A satellite is heard where a search found it, or where a script said where it is."""

    def __init__(self, scripts: Sequence[bytes]) -> None:
        self.commanded = Commanded(scripts)
        self.begun: Dict[Place, int] = {}
        """When the last command of a slot was accepted, in samples."""
        self.now: Dict[Place, int] = {}
        """The satellite that a slot follows."""
        self.satellites: Dict[Tuple[int, int, int], Satellite] = {}

    def feed(self, line: Line) -> None:
        """Takes the next line."""
        commanded = self.commanded.feed(line)
        if commanded is not None:
            self._command(commanded, line.time)
        if not isinstance(line, SlotLine):
            return
        place = line.client, line.slot
        if isinstance(line, Acq):
            if line.found and place in self.begun:
                shift = float(line.doppler_hz(self.commanded.commands[place].shift))
                self._find(place, Satellite(line.satellite, 0, line.half_chip, shift))
        elif place in self.now:
            take(self.satellites[(*place, self.now[place])], line)

    def _command(self, place: Place, time: int) -> None:
        """A slot took a command. That of a search finds nothing yet."""
        self.begun[place] = time
        self.now.pop(place, None)
        it = self.commanded.commands[place]
        if it.half_chip is not None:
            self._find(place, Satellite(it.satellite, time, it.half_chip, float(it.shift)))

    def _find(self, place: Place, it: Satellite) -> None:
        it.found = self.begun[place]
        self.now[place] = it.number
        found(self.satellites, (*place, it.number), it)

    def rows(self) -> Iterator[Tuple[int, int, Satellite]]:
        """The client, the slot and each satellite that was heard there, in their order."""
        for client, slot, number in sorted(self.satellites):
            yield client, slot, self.satellites[client, slot, number]
