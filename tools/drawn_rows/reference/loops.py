"""The loops that steer a tracking channel, and what they answer. (This project's own.)

Dumps are numbered from 1. Up to number 199 the frequency is pulled in, from number 200 on the phase
is held. From number 200 on, twenty dumps are a window."""
from __future__ import annotations

from typing import Callable, NamedTuple, Sequence

from .signal import NOTHING, Shift, Sums

# What v and its slow part u stay within.
LIMIT = 1 << 30

# The first dump of the first window, and the dumps of a window.
FIRST, WINDOW = 200, 20

# The bad windows, one after the other, after which the lock ends and the signal is lost.
UNLOCKED, LOST = 10, 50


class Loops(NamedTuple):
    """How many dumps were taken, the last one, the slow part u, and the shift."""
    taken: int
    last: Sums
    u: int
    v: int
    w: int


def limited(value: int) -> int:
    """The nearest value within the limits."""
    return max(-LIMIT, min(LIMIT, value))


def signed(value: int, by: int) -> int:
    """A value, turned where the other is below zero. Zero counts as plus."""
    return -value if by < 0 else value


def ratio(value: int, size: int) -> int:
    """4096 times a value over a size that is 1 at least, rounded down."""
    return 4096 * value // max(1, size)


def frequency_error(before: Sums, now: Sums) -> int:
    """How far the carrier has turned since the dump before."""
    cross = before.ip * now.qp - now.ip * before.qp
    dot = before.ip * now.ip + before.qp * now.qp
    return ratio(signed(cross, dot), abs(cross) + abs(dot))


def phase_error(now: Sums) -> int:
    """How far the carrier is from the prompt sum in phase, by either sign of it."""
    return ratio(signed(now.qp, now.ip), abs(now.ip) + abs(now.qp))


def code_error(now: Sums) -> int:
    """How much stronger the early chips are than the late ones."""
    early, late = now.ie ** 2 + now.qe ** 2, now.il ** 2 + now.ql ** 2
    return ratio(early - late, early + late)


def after_dump(loops: Loops, now: Sums) -> Loops:
    """The loops after one more dump. The slow part is limited first, and v is made of that; w is
    set by each dump, and isn't summed up."""
    number = loops.taken + 1
    if number < FIRST:
        slow = shift = limited(loops.u + 160 * frequency_error(loops.last, now))
    else:
        slow = limited(loops.u + 6 * phase_error(now))
        shift = limited(slow + 170 * phase_error(now))
    return Loops(number, now, slow, shift, 16 * code_error(now))


def loops_after(v: int, dumps: Sequence[Sums]) -> Loops:
    """The loops after some dumps. Before the first the sums are zero, and u begins as v."""
    loops = Loops(0, NOTHING, v, v, 0)
    for it in dumps:
        loops = after_dump(loops, it)
    return loops


def steering(v: int) -> Callable[[list[Sums]], Shift]:
    """The shift of a tracking channel after its dumps."""
    def shift(dumps: list[Sums]) -> Shift:
        loops = loops_after(v, dumps)
        return Shift(loops.v, loops.w)

    return shift


def is_good(window: Sequence[Sums]) -> bool:
    """Whether the sizes of the prompt sums in phase are twice those in quadrature, or more."""
    return sum(abs(it.ip) for it in window) >= 2 * sum(abs(it.qp) for it in window)


class Answers(NamedTuple):
    """What is answered with each dump that has an answer, and whether the loops are locked after
    each number of dumps."""
    by_dump: dict[int, str]
    locked: list[bool]


def answers(dumps: Sequence[Sums]) -> Answers:
    """A counter of bad windows, which a good one sets to 0, and a flag. Nothing comes after the
    dump with which the signal is lost."""
    by_dump, locked, bad = {}, [False], 0
    for number in range(1, len(dumps) + 1):
        is_locked = locked[-1]
        if number >= FIRST + WINDOW - 1 and (number - FIRST + 1) % WINDOW == 0:
            if is_good(dumps[number - WINDOW:number]):
                bad = 0
                if not is_locked:
                    is_locked, by_dump[number] = True, 'lock'
            else:
                bad += 1
                if bad == UNLOCKED and is_locked:
                    is_locked, by_dump[number] = False, 'unlock'
                if bad == LOST:
                    by_dump[number] = 'lost'
        locked.append(is_locked)
    return Answers(by_dump, locked)


def until_lost(dumps: Sequence[Sums]) -> list[Sums]:
    """The dumps up to the one with which the signal is lost."""
    lost = [number for number, it in answers(dumps).by_dump.items() if it == 'lost']
    return list(dumps[:lost[0]] if lost else dumps)


def pushes(dumps: Sequence[Sums]) -> list[int]:
    """The prompt sums in phase that the search for bits has: those after the last lock, while it
    lasts. Neither the dump that brings it nor the one that ends it is among them."""
    found = answers(dumps)
    given: list[int] = []
    for number, it in enumerate(dumps, 1):
        if number in found.by_dump:
            given = []
        elif found.locked[number]:
            given.append(it.ip)
    return given
