"""What the processors' time goes to, as Linux counts it for the whole machine."""
from __future__ import annotations

from typing import NamedTuple

STAT = '/proc/stat'


class Shares(NamedTuple):
    """Percents of the time of all processors: those that were idle, and those that other machines
    of the same host took."""
    idle: int
    taken: int


def ticks(stat: str = STAT) -> list[int]:
    """The ticks so far of all processors: by programs, by those that are nice, by the system, none
    at work, none while a disk is, by two kinds of interrupts, and by other machines. None where the
    system doesn't count them."""
    try:
        with open(stat, encoding='utf-8') as counts:
            return [int(it) for it in counts.readline().split()[1:9]]
    except OSError:
        return []


def shares_since(before: list[int], stat: str = STAT) -> Shares | None:
    """The shares since there were so many ticks; none where the system doesn't count them."""
    # Linux may take back some that it had counted as waiting for a disk.
    gone = [max(0, after - was) for after, was in zip(ticks(stat), before)]
    if len(gone) < 8 or sum(gone) <= 0:
        return None
    return Shares(*(round(100 * it / sum(gone)) for it in (gone[3] + gone[4], gone[7])))
