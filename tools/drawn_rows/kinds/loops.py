"""Kinds of the loops and of lock: sums of either sign, zeros, u near both limits, dumps 197 to 201,
thousands of them; windows that are good or bad by one, of sums that change their sign, or of zeros;
runs of bad windows of 9 to 11 and of 48 to 50."""
from __future__ import annotations

from random import Random

from .. import antt, values
from ..reference import loops as reference
from ..reference.loops import LIMIT, Loops
from ..reference.signal import NOTHING, Sums
from . import drawing
from .drawing import either, size, sums
from .registry import Row, kind

GOOD, BAD, EQUAL = Sums(0, 0, 2, 1, 0, 0), Sums(0, 0, -1, 1, 0, 0), Sums(0, 0, 1, 1, 0, 0)

# Pairs of sums in phase and in quadrature whose signs change; together they are a good window.
SIGNS = ((3, 1), (-3, -1), (3, -1), (-3, 1), (1, -2), (-1, 2))


@kind('clamp_shift')
def clamp_shift(r: Random) -> Row:
    end = r.choice([LIMIT, -LIMIT]) + r.randint(-1, 1)
    number = r.choice([either(r, 1 << 32), end])
    return antt.integer(number), antt.integer(reference.limited(number))


@kind('ratio')
def ratio(r: Random) -> Row:
    number, by = either(r, 1 << 45), size(r, 1 << 45)
    return f'{antt.integer(number)} {by}', antt.integer(reference.ratio(number, by))


@kind('frequency_error')
def frequency_error(r: Random) -> Row:
    before, now = sums(r), sums(r)
    return (f'{values.sums(before)} {values.sums(now)}',
            antt.integer(reference.frequency_error(before, now)))


@kind('phase_error')
def phase_error(r: Random) -> Row:
    now = sums(r)
    return values.sums(now), antt.integer(reference.phase_error(now))


@kind('code_error')
def code_error(r: Random) -> Row:
    now = sums(r)
    return values.sums(now), antt.integer(reference.code_error(now))


@kind('loops_after_dump', count=100)
def loops_after_dump(r: Random) -> Row:
    taken = r.choice([0, 197, 198, 199, 200, 256, 4095, 65535, size(r, 1 << 30)])
    last, now = sums(r), sums(r)
    u = r.choice([either(r, LIMIT), r.choice([1, -1]) * (LIMIT - size(r, 700000))])
    before = Loops(taken, last, u, reference.limited(u + either(r, 700000)),
                   either(r, drawing.GREATEST_CORRECTION))
    return (f'{values.loops(before)} {values.sums(now)}',
            values.loops(reference.after_dump(before, now)))


@kind('loops_after', group=4, count=8)
def loops_after(r: Random) -> Row:
    v, count = either(r, LIMIT), r.choice([0, 196, 198, 199, r.randint(0, 250)])
    dumps = [r.choice([sums(r), EQUAL])] * count + [sums(r) for _ in range(r.randint(0, 3))]
    return (f'{antt.integer(v)} {antt.listed(dumps, values.sums)}',
            values.loops(reference.loops_after(v, dumps)))


def close_window(r: Random) -> list[Sums]:
    """A window of sums of either sign that is good or bad by one."""
    half = r.choice([r.randint(1, 40), r.randint(70000, 90000)])
    one = Sums(0, 0, r.choice([1, -1]) * (2 * half + r.randint(-1, 1)), 0, 0, 0)
    two = Sums(0, 0, 0, r.choice([1, -1]) * half, 0, 0)
    others = [Sums(0, 0, *it, 0, 0) for it in SIGNS[:r.choice([0, 4, 6])]]
    made = [one, two, *others]
    return made + [NOTHING] * (20 - len(made))


def windows(r: Random, most: int) -> list[Sums]:
    """So many windows at most: runs of good and of bad ones, some close, some of zeros."""
    good, made = r.choice([.1, .5, .9]), []
    for _ in range(r.randint(0, most)):
        at = r.random()
        if at < .25:
            made += close_window(r)
        elif at < .35:
            made += [NOTHING] * 20
        else:
            run = 1 if len(made) > 15 * most else r.choice([1, 1, 2, 9, 10, 11])
            made += [GOOD if r.random() < good else BAD] * (20 * run)
    return made[:20 * most]


def bad_runs(r: Random) -> list[Sums]:
    """Bad windows as many as end a lock or lose the signal, or one more or fewer."""
    made = []
    for _ in range(r.randint(1, 2)):
        made += [GOOD] * (20 * r.randint(0, 2))
        made += [BAD] * (20 * r.choice([9, 10, 11, 48, 49, 50]))
    return made + [GOOD] * r.choice([0, 1, 20])


def lock_dumps(r: Random, most: int = 70) -> list[Sums]:
    """Dumps with windows, of which the last may not be whole, up to the one that loses the
    signal."""
    made = bad_runs(r) if most > 50 and r.random() < .4 else windows(r, most)
    made += [EQUAL] * r.choice([0, 0, 0, 0, 1, 19])
    return reference.until_lost([sums(r)] * 199 + made)


def at_answer(r: Random, dumps: list[Sums]) -> list[Sums]:
    """These dumps, often just up to one with an answer."""
    ends = sorted(reference.answers(dumps).by_dump)
    return dumps[:r.choice(ends)] if ends and r.random() < .6 else dumps


@kind('news_of', group=4, count=24)
def news_of(r: Random) -> Row:
    dumps = at_answer(r, lock_dumps(r))
    news = reference.answers(dumps).by_dump.get(len(dumps), 'nothing')
    return antt.listed(dumps, values.sums), news


@kind('is_locked', group=4, count=12)
def is_locked(r: Random) -> Row:
    dumps = lock_dumps(r)
    return (antt.listed(dumps, values.sums),
            antt.boolean(reference.answers(dumps).locked[-1]))


@kind('is_good', group=10, count=20)
def is_good(r: Random) -> Row:
    dumps = lock_dumps(r, 3)
    while len(dumps) < 219:
        dumps = lock_dumps(r, 3) if r.random() < .5 else [sums(r)] * 199 + close_window(r)
    first = 199 + 20 * r.randrange((len(dumps) - 199) // 20)
    return (f'{antt.listed(dumps, values.sums)} {(first - 199) // 20}',
            antt.boolean(reference.is_good(dumps[first:first + 20])))


@kind('is_lost_with', group=5, count=20)
def is_lost_with(r: Random) -> Row:
    dumps = lock_dumps(r)
    if r.random() < .2:
        # Just as many bad windows as lose the signal.
        dumps = [sums(r)] * 199 + [BAD] * 1000
    count = max(0, len(dumps) - r.choice([0, 0, 0, 1, 20]))
    is_lost = count > 0 and reference.answers(dumps).by_dump.get(count) == 'lost'
    return f'{antt.listed(dumps, values.sums)} {count}', antt.boolean(is_lost)


@kind('pushes_of', group=1, count=2)
def pushes_of(r: Random) -> Row:
    dumps = [r.choice([GOOD, BAD])] * 199
    for _ in range(r.randint(1, 3)):
        dumps += [GOOD] * (20 * r.randint(1, 2)) + [BAD] * r.choice([0, 5, 20, 200, 205])
    dumps += [Sums(0, 0, r.randint(-9, 9), 0, 0, 0) for _ in range(r.randint(0, 9))]
    return (antt.listed(dumps, values.sums),
            antt.listed(reference.pushes(dumps), antt.integer))
