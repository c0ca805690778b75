"""What the slots of a run were told to do, from the scripts of its clients and their answers."""

from __future__ import annotations

from typing import Dict, Iterator, List, NamedTuple, Optional, Sequence, Tuple

from seldomplough.commands.answers import Asked, check_time, read_script
from seldomplough.failures import Failure
from seldomplough.lines import Err, Line, Ok, SlotLine, State

# The words of a line of a script after the slot that matter here, by its verb: which one is the
# satellite, the Doppler shift or the centre of the search in Hz, and the half chip.
PLACES = {'hold': (3, 4, 5), 'track': (3, 4, 5), 'acquire': (3, 4, None)}


class Command(NamedTuple):
    """A command that was accepted: the satellite, the shift in Hz, and the half chip of the code.

    The shift of a search is its centre, and it has no half chip."""

    satellite: int
    shift: int
    half_chip: Optional[int]


class Commanded:
    """Takes the lines of a run in their order, and knows the last command of each slot.

    The scripts are those of the clients, from the first one on."""

    def __init__(self, scripts: Sequence[bytes]) -> None:
        self.rest: List[Iterator[Asked]] = [iter(read_script(it)) for it in scripts]
        self.commands: Dict[Tuple[int, int], Command] = {}

    def feed(self, line: Line) -> Optional[Tuple[int, int]]:
        """Takes the next line. Says the client and slot whose command it accepts, or None."""
        if line.client > len(self.rest) or not isinstance(line, (Ok, Err, State)):
            return None
        asked = next(self.rest[line.client - 1], None)
        if asked is None:
            raise Failure(f'client {line.client} has more answers than its script has lines')
        check_time(asked, line)
        words = asked.text.split()
        if isinstance(line, Ok) and words[1] in PLACES:
            satellite, shift, half_chip = PLACES[words[1]]
            place = line.client, int(words[2])
            self.commands[place] = Command(
                int(words[satellite]),
                int(words[shift]),
                None if half_chip is None else int(words[half_chip]),
            )
            return place
        return None

    def of(self, line: SlotLine) -> Optional[Command]:
        """The last command of the slot that a line is of."""
        return self.commands.get((line.client, line.slot))
