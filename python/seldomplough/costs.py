"""What scripts cost, in seconds of a processor, and how they are grouped into jobs by it.

The cost is that of the samples which slots follow, of the cells that they search, and of the lines
of `counts`. A slot that searches is taken to find its satellite and to follow it to the end or to
its `stop`. So the cost is an upper bound on each slot's work; noise costs less. The figures are
those of docs/PERFORMANCE.md for the build for x86-64-v3, rounded up."""

from __future__ import annotations

from typing import Dict, List, Sequence, Tuple

from seldomplough.codes import HALF_CHIPS
from seldomplough.commands.answers import read_script
from seldomplough.numbers import NUMBER
from seldomplough.scripts import CLIENTS, Search

# Seconds for a sample that a slot follows, and for one that a job reads.
FOLLOWED, READ = 0.6e-9, 0.4e-9
# Seconds for a cell of a search, of one period of so many samples a second.
CELL, CELL_RATE = 45e-9, 2046000
# Seconds for a line of `count`, and code periods in a second.
LINE, PERIODS = 2e-6, 1000
# How many words each verb has that takes a slot's time.
LENGTHS = {'hold': 6, 'track': 6, 'acquire': 8, 'counts': 4, 'stop': 3}


def of_script(script: bytes, rate: int, samples: int) -> float:
    """The seconds that a script costs over so many samples, at `rate` samples a second."""
    begun: Dict[str, int] = {}
    result = 0.0
    for time, verb, slot, numbers in _commands(script):
        left = max(0, samples - time)
        if verb == 'stop':
            result += FOLLOWED * max(0, min(time, samples) - begun.pop(slot, time))
        elif verb == 'counts':
            result += LINE * min(numbers[0], left * PERIODS / rate)
        elif slot not in begun and left:
            begun[slot] = time
            if verb == 'acquire':
                search = Search(min(numbers[2], 40), min(numbers[3], 10))
                begun[slot] += search.length(rate)
                cells = HALF_CHIPS * (2 * search.bins + 1) * search.periods
                done = min(1.0, left / search.length(rate))
                result += CELL * cells * done * rate / CELL_RATE
    return result + sum(FOLLOWED * max(0, samples - it) for it in begun.values())


def _commands(script: bytes) -> List[Tuple[int, str, str, List[int]]]:
    """The time, verb, slot and further numbers of lines that take time and look right."""
    result = []
    for asked in read_script(script):
        words = asked.text.split()
        verb = words[1] if len(words) > 2 else ''
        rest = [words[0], *words[2:]]
        if LENGTHS.get(verb) == len(words) and all(map(NUMBER.fullmatch, rest)):
            result.append((int(words[0]), verb, words[2], [int(it) for it in words[3:]]))
    return result


def groups(costs: Sequence[float], read: float, seconds: float) -> List[Tuple[int, int]]:
    """Neighbouring scripts in groups for a job each: the first and the last of each, from 1 on.

    A group has eight scripts at most. With what its job reads, which costs `read`, it costs at most
    `seconds` where it has more than one script."""
    result: List[Tuple[int, int]] = []
    total = 0.0
    for at, cost in enumerate(costs, 1):
        if result and at - result[-1][0] < CLIENTS and total + cost <= seconds:
            result[-1] = result[-1][0], at
            total += cost
        else:
            result.append((at, at))
            total = read + cost
    return result
