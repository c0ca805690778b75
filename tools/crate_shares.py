"""What each crate has of the processors while crates are proved side by side."""
from __future__ import annotations

import os

from built import NO_SOURCES, TOP, files_below
from crate_order import job_count

# How far a crate leaves the processors to the one that the longest chain begins with: the further,
# the less stands above it. Those that are one or two steps below the program have least.
NICE, NICE_NEAR = 5, {1: 19, 2: 10}

# What a check of a crate takes before it proves the first function, in bytes of sources, which are
# proved in as much time.
LOAD = 80_000


def chains_above(names: list[str], crates: dict[str, list[str]],
                 weights: dict[str, int]) -> dict[str, int]:
    """What the crates weigh that stand one on another above each of the names, where they weigh
    most. The names come lowest first."""
    chains: dict[str, int] = {}
    for name in reversed(names):
        chains[name] = max((chains[it] + weights[it] for it in chains if name in crates[it]),
                           default=0)
    return chains


def size_of(crate: str) -> int:
    """How many bytes the sources of a crate have."""
    folder = os.path.join(TOP, 'crates', crate)
    return sum(os.path.getsize(it) for it in files_below(folder, NO_SOURCES['proved']))


class Shares:
    """What each crate has of the processors while crates are proved side by side. One that the
    longest chain of those that are left begins with gets all, even where others are at work."""

    def __init__(self, names: list[str], crates: dict[str, list[str]]) -> None:
        weights = {it: LOAD + size_of(it) for it in names}
        above = chains_above(names, crates, weights)
        self.chains = {it: above[it] + weights[it] for it in names}
        self.steps = chains_above(names, crates, dict.fromkeys(names, 1))
        self.in_work: set[str] = set()
        self.left = set(names)

    def begin(self, name: str) -> tuple[int, int]:
        """Gives how many jobs a crate that is begun has, and how nice these are."""
        self.in_work.add(name)
        if self.chains[name] == max(self.chains[it] for it in self.left):
            return job_count(), 0
        return max(2, job_count() // len(self.in_work)), NICE_NEAR.get(self.steps[name], NICE)

    def end(self, name: str) -> None:
        """Notes that a crate is done."""
        self.in_work.discard(name)
        self.left.discard(name)
