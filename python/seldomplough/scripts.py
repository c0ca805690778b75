"""Scripts that search for satellites, and when their answers are due."""

from __future__ import annotations

import os
import tempfile
from contextlib import contextmanager
from typing import Iterator, List, NamedTuple, Sequence

from seldomplough.codes import HALF_CHIPS

SATELLITES = range(1, 33)
# Clients of a run, and the slots that each has without `--shares`.
CLIENTS, SLOTS = 8, 4
# A cell is done each four samples.
SAMPLES_A_CELL = 4

Script = List[str]


class Search(NamedTuple):
    """What a search asks for: the numbers of `acquire`."""

    bins: int = 20
    """Bins of 250 Hz to each side of the centre."""
    periods: int = 10
    """Milliseconds of samples that are added up."""
    threshold: int = 45
    """Tenths of the mean power from which on a satellite is found."""
    centre: int = 0
    """The Doppler shift in the middle, in Hz."""

    def length(self, rate: int) -> int:
        """In how many samples after its command the answer is due, at `rate` samples a second."""
        cells = HALF_CHIPS * (2 * self.bins + 1)
        return self.periods * (rate // 1000) + SAMPLES_A_CELL * cells

    def command(self, time: int, slot: int, satellite: int) -> str:
        """The line of a script that begins it."""
        numbers = f'{self.centre} {self.bins} {self.periods} {self.threshold}'
        return f'{time} acquire {slot} {satellite} {numbers}'


def searches(search: Search, first: int, every: int) -> List[Script]:
    """Eight scripts that search for all 32 satellites, four slots each.

    The first begins at sample `first`, each other one `every` samples after the one before."""
    return [
        [search.command(first + at * every, slot, SLOTS * at + slot + 1) for slot in range(SLOTS)]
        for at in range(CLIENTS)
    ]


def text_of(script: Sequence[str]) -> str:
    """A script as the receiver reads it."""
    return ''.join(f'{line}\n' for line in script)


@contextmanager
def written(scripts: Sequence[Sequence[str]]) -> Iterator[List[str]]:
    """The paths of scripts in a private temporary folder, which is removed."""
    with tempfile.TemporaryDirectory(prefix='seldomplough-') as folder:
        paths = [os.path.join(folder, f'{at}.script') for at in range(1, len(scripts) + 1)]
        for path, script in zip(paths, scripts):
            with open(path, 'x', encoding='ascii') as stream:
                stream.write(text_of(script))
        yield paths
