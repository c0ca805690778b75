"""Kinds of what lock and the search for bits are made of: windows that are whole or lack a dump,
runs of good and bad ones about 10 and 50; pushes whose sign changes each time, so that two places
come to four changes; sums of a bit of 0 and beside it. And shifts at both limits."""
from __future__ import annotations

from random import Random

from .. import antt, values
from ..reference import loops as reference
from ..reference.loops import FIRST, LIMIT, WINDOW
from ..reference.signal import Sums
from .bits import changes
from .drawing import either, sums
from .loops import BAD, GOOD, windows
from .registry import Row, kind


@kind('sgn', count=20)
def sgn(r: Random) -> Row:
    number = r.choice([0, 1, -1, either(r, 1 << 40)])
    return antt.integer(number), antt.integer(-1 if number < 0 else 1)


@kind('loops_start', count=20)
def loops_start(r: Random) -> Row:
    v = either(r, LIMIT)
    return antt.integer(v), values.loops(reference.loops_after(v, []))


@kind('shift_after', group=4, count=8)
def shift_after(r: Random) -> Row:
    v, count = either(r, LIMIT), r.choice([0, 0, 198, 199])
    dumps = [sums(r)] * count + [sums(r) for _ in range(r.randint(0, 3))]
    return (f'{antt.integer(v)} {antt.listed(dumps, values.sums)}',
            values.shift(reference.steering(v)(dumps)))


def window_dumps(r: Random, most: int = 3) -> list[Sums]:
    """Dumps with some windows at least, of which the last may not be whole."""
    made = [sums(r)] * (FIRST - 1) + windows(r, most) + [GOOD] * WINDOW
    return made + [BAD] * r.choice([0, 1, 19])


def dumps_text(dumps: list[Sums]) -> str:
    """Dumps as a list."""
    return antt.listed(dumps, values.sums)


def count_of(dumps: list[Sums]) -> int:
    """How many windows are whole."""
    return max(0, len(dumps) - (FIRST - 1)) // WINDOW


def window_at(dumps: list[Sums], number: int) -> list[Sums]:
    """A window."""
    first = FIRST - 1 + WINDOW * number
    return dumps[first:first + WINDOW]


def good_among(dumps: list[Sums], last: int, count: int) -> bool:
    """Whether one of the last of the first windows is good."""
    return any(reference.is_good(window_at(dumps, it))
               for it in range(max(0, count - last), count))


@kind('window', group=5, count=10)
def window(r: Random) -> Row:
    dumps = window_dumps(r)
    number = r.randrange(count_of(dumps))
    return f'{dumps_text(dumps)} {number}', dumps_text(window_at(dumps, number))


@kind('window_count', count=20)
def window_count(r: Random) -> Row:
    count = r.choice([0, 198, 199, 218, 219, 220, 238, 239, r.randint(0, 400)])
    return dumps_text([GOOD] * count), str(count_of([GOOD] * count))


@kind('any_good', group=5, count=10)
def any_good(r: Random) -> Row:
    dumps = window_dumps(r)
    count, last = r.randint(0, count_of(dumps)), r.randint(0, 4)
    return f'{dumps_text(dumps)} {last} {count}', antt.boolean(good_among(dumps, last, count))


def after_bad_ones(r: Random, border: int) -> tuple[list[Sums], int]:
    """Windows of which about so many are bad after a good one or none, and how many."""
    good, bad = r.randint(0, 1), border + r.randint(-1, 1)
    return ([BAD] * (FIRST - 1) + [GOOD] * (WINDOW * good) + [BAD] * (WINDOW * bad), good + bad)


@kind('is_locked_after', group=2, count=8)
def is_locked_after(r: Random) -> Row:
    dumps, count = after_bad_ones(r, 10)
    return f'{dumps_text(dumps)} {count}', antt.boolean(good_among(dumps, 10, count))


@kind('is_lost_after', group=1, count=4)
def is_lost_after(r: Random) -> Row:
    dumps, count = after_bad_ones(r, 50)
    is_lost = count >= 50 and not good_among(dumps, 50, count)
    return f'{dumps_text(dumps)} {count}', antt.boolean(is_lost)


@kind('pushes_by', group=1, count=2)
def pushes_by(r: Random) -> Row:
    dumps = [GOOD] * 219 + [r.choice([GOOD, BAD]) for _ in range(r.randint(0, 9))]
    count = r.choice([len(dumps), r.randint(217, len(dumps))])
    return (f'{dumps_text(dumps)} {count}',
            antt.listed(reference.pushes(dumps[:count]), antt.integer))


@kind('push_at', count=20)
def push_at(r: Random) -> Row:
    pushes = [either(r, 180009) for _ in range(r.randint(1, 9))]
    number = r.choice([0, len(pushes) - 1, r.randrange(len(pushes))])
    return f'{antt.listed(pushes, antt.integer)} {number}', antt.integer(pushes[number])


@kind('bit_of', group=10, count=20)
def bit_of(r: Random) -> Row:
    first, number = r.randint(0, 30), r.randint(0, 2)
    pushes = [r.randint(-9, 9) for _ in range(first + 20 * number + r.choice([20, 25]))]
    at = first + 20 * number
    pushes[at + 19] = r.choice([0, 0, -1, 1]) - sum(pushes[at:at + 19])
    return (f'{antt.listed(pushes, antt.integer)} {first} {number}',
            antt.boolean(sum(pushes[at:at + 20]) < 0))


@kind('reset_up_to', group=1, count=2)
def reset_up_to(r: Random) -> Row:
    """Signs that change each time, but for some: two places come to four changes at push 62."""
    first, since = r.randint(1, 4), 0
    pushes = [1] * first + [-1 if it % 2 else 1 for it in range(68 - first)]
    until = r.randint(58, 66)
    for number in range(1, until + 1):
        if sum(it >= 4 for it in changes(pushes, since, number)) >= 2:
            since = number
    return f'{antt.listed(pushes, antt.integer)} {until}', str(since)
