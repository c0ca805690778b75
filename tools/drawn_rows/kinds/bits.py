"""Kinds of the bits' edge: pushes whose sign changes at one place modulo 20, and at others now and
then; up to 700 of them; places that come to four changes; sums of 20 pushes of 0 and beside it."""
from __future__ import annotations

from random import Random

from .. import antt
from ..reference import message as reference
from .registry import Row, kind


def drawn_pushes(r: Random, count: int) -> list[int]:
    """Pushes that change their sign mostly at one place, some of them 0 or of the other sign."""
    place, made, sign = r.randrange(20), [], 1
    wrong = r.choice([0, 0, .05])
    for number in range(count):
        if number % 20 == place and r.random() < .9:
            sign = -sign
        if r.random() < wrong:
            made.append(-sign * r.randint(0, 9))
        else:
            made.append(sign * r.choice([0, 1, 5]))
    return made


def changes(pushes: list[int], since: int, until: int) -> list[int]:
    """The changes at each place modulo 20 after one push, up to another."""
    counters = [0] * 20
    for number in range(since + 1, until + 1):
        counters[number % 20] += reference.is_change(pushes, number)
    return counters


@kind('edge_of', group=1, count=4)
def edge_of(r: Random) -> Row:
    pushes = drawn_pushes(r, r.choice([20, 40, 60]))
    return antt.listed(pushes, antt.integer), antt.optional(reference.edge(pushes))


@kind('bits_after', group=4, count=20)
def bits_after(r: Random) -> Row:
    pushes = [r.randint(-3, 3) for _ in range(r.randint(20, 110))]
    first = r.choice([None, r.randint(0, len(pushes)), len(pushes) % 20 + 1,
                      (len(pushes) + 1) % 20])
    for at in range(len(pushes) if first is None else first, len(pushes) - 19, 20):
        wanted = r.choice([0, 0, -1, 1])
        pushes[at + 19] = max(-9, min(9, wanted - sum(pushes[at:at + 19])))
    return (f'{antt.listed(pushes, antt.integer)} {antt.optional(first)}',
            antt.listed(reference.bits_after(pushes, first), antt.boolean))


@kind('is_change', group=10)
def is_change(r: Random) -> Row:
    pushes = [r.randint(-2, 2) for _ in range(r.randint(1, 12))]
    number = r.randrange(len(pushes))
    return (f'{antt.listed(pushes, antt.integer)} {number}',
            antt.boolean(reference.is_change(pushes, number)))


@kind('changes_at', group=5, count=40)
def changes_at(r: Random) -> Row:
    pushes = drawn_pushes(r, r.choice([r.randint(30, 90), r.randint(300, 700)]))
    until = r.choice([len(pushes) - 1, r.randrange(len(pushes))])
    since = r.choice([0, r.randint(0, until)])
    place = r.choice([r.randrange(20), until % 20])
    if r.random() < .4:
        # After a push that is a change itself, which isn't counted.
        since = r.choice([0, *(it for it in range(1, until + 1)
                               if reference.is_change(pushes, it))])
        place = since % 20
    return (f'{antt.listed(pushes, antt.integer)} {place} {since} {until}',
            str(changes(pushes, since, until)[place]))


def changing_at(r: Random, pushes: list[int], place: int) -> list[int]:
    """Pushes with a change at most numbers of one more place."""
    made = list(pushes)
    for number in range(place, len(made), 20):
        if r.random() < .85:
            made[number:] = [-it if it else -1 for it in made[number:]]
    return made


@kind('is_crowded', group=3, count=15)
def is_crowded(r: Random) -> Row:
    pushes = drawn_pushes(r, r.randint(60, 120))
    for place in r.sample(range(20), 2):
        pushes = changing_at(r, pushes, place)
    since, until = r.choice([0, 0, r.randrange(len(pushes))]), r.randrange(len(pushes))
    until = max(since, until)
    # Often just where the second place comes to four changes.
    for number in range(since + 1, len(pushes)):
        if sum(it >= 4 for it in changes(pushes, since, number)) >= 2 and r.random() < .8:
            until = number - r.choice([0, 0, 1])
            break
    is_so = sum(it >= 4 for it in changes(pushes, since, until)) >= 2
    return f'{antt.listed(pushes, antt.integer)} {since} {until}', antt.boolean(is_so)
