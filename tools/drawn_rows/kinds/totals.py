"""Kinds of products and of sums over ranges: of functions, which are given as lists; empty ranges
and whole ones; tests that nothing passes; answers that may be missing."""
from __future__ import annotations

from random import Random
from typing import Optional, Sequence

from .. import antt, values
from ..reference import signal as reference
from ..reference.signal import Sample, Sums
from . import drawing
from .drawing import either, size
from .pieces import ends, function, whole
from .registry import Row, kind


def products(value: Sample, cosine: int, sine: int) -> tuple[int, int]:
    """A sample times the conjugate of the carrier, in phase and in quadrature."""
    return (value[0] * cosine + value[1] * sine, value[1] * cosine - value[0] * sine)


def product_kind(name: str, part: int) -> None:
    """A kind of one part of a product."""
    @kind(name, count=40)
    def _(r: Random) -> Row:
        value, = drawing.samples(r, 1)
        cosine, sine = r.choice(list(zip(reference.COSINES, reference.SINES)))
        return (f'{values.sample(value)} {antt.integer(cosine)} {antt.integer(sine)}',
                antt.integer(products(value, cosine, sine)[part]))


product_kind('wiped_in_phase', 0)
product_kind('wiped_quadrature', 1)


class Products:
    """Samples, carriers and chips of some offsets, and a range of these."""

    def __init__(self, r: Random) -> None:
        count = r.randint(1, 6)
        self.samples = drawing.samples(r, count)
        self.carriers = [r.choice(list(zip(reference.COSINES, reference.SINES)))
                         for _ in range(count)]
        self.chips = [[r.choice([1, -1]) for _ in range(count)] for _ in range(3)]
        self.first, self.end = ends(r, count)

    def sums(self, chips: Sequence[int]) -> tuple[int, int]:
        """Both sums with such chips."""
        parts = [products(self.samples[it], *self.carriers[it]) for it in
                 range(self.first, self.end)]
        signs = chips[self.first:self.end]
        return (sum(a * it for (a, _), it in zip(parts, signs)),
                sum(b * it for (_, b), it in zip(parts, signs)))

    def sample_text(self) -> str:
        """The samples, as a function."""
        return function([values.sample(it) for it in self.samples], '(real (pos 0))')

    def waves(self) -> list[str]:
        """The carriers, cosine and sine, as functions."""
        return [whole_function([it[part] for it in self.carriers]) for part in (0, 1)]

    def replica(self) -> str:
        """The carriers and all chips, as a replica."""
        cosine, sine = self.waves()
        early, prompt, late = map(whole_function, self.chips)
        return antt.record(cos=cosine, sin=sine, early=early, prompt=prompt, late=late)


def whole_function(numbers: Sequence[int]) -> str:
    """A function that gives these whole numbers."""
    return function([antt.integer(it) for it in numbers], '(pos 0)')


def sum_kind(name: str, part: int) -> None:
    """A kind of a sum of products, in phase or in quadrature."""
    @kind(name, group=4, count=12)
    def _(r: Random) -> Row:
        it = Products(r)
        chips = it.chips[0]
        return (' '.join([it.sample_text(), *it.waves(), whole_function(chips), str(it.first),
                          str(it.end)]), antt.integer(it.sums(chips)[part]))


sum_kind('in_phase_sum', 0)
sum_kind('quadrature_sum', 1)


@kind('six_sums', group=2, count=6)
def six_sums(r: Random) -> Row:
    it = Products(r)
    made = Sums(*(value for chips in it.chips for value in it.sums(chips)))
    return f'{it.sample_text()} {it.replica()} {it.first} {it.end}', values.sums(made)


@kind('power_over', group=2, count=6)
def power_over(r: Random) -> Row:
    it = Products(r)
    in_phase, quadrature = it.sums(it.chips[1])
    return (f'{it.sample_text()} {it.replica()} {it.first} {it.end}',
            str(in_phase ** 2 + quadrature ** 2))


@kind('square', count=20)
def square(r: Random) -> Row:
    number = either(r, 1 << 40)
    return antt.integer(number), str(number ** 2)


@kind('total', group=10, count=20)
def total(r: Random) -> Row:
    numbers = whole(r, r.randint(1, 8))
    count = r.choice([0, len(numbers), r.randint(0, len(numbers))])
    return f'{whole_function(numbers)} {count}', antt.integer(sum(numbers[:count]))


@kind('sum_between', group=10, count=20)
def sum_between(r: Random) -> Row:
    numbers = whole(r, r.randint(1, 8))
    first, end = ends(r, len(numbers))
    return f'{whole_function(numbers)} {first} {end}', antt.integer(sum(numbers[first:end]))


@kind('between', count=20)
def between(r: Random) -> Row:
    first, end = ends(r, 12)
    return f'{first} {end}', antt.listed(range(first, end))


def maybe(r: Random) -> Optional[int]:
    """A number, or none."""
    return r.choice([None, size(r, 99)])


@kind('or_else', count=20)
def or_else(r: Random) -> Row:
    first, other = maybe(r), maybe(r)
    return (f'{antt.optional(first)} {antt.optional(other)}',
            antt.optional(other if first is None else first))


@kind('least_below', group=10, count=20)
def least_below(r: Random) -> Row:
    passing = [r.random() < .25 for _ in range(r.randint(1, 9))]
    count = r.choice([0, len(passing), r.randint(0, len(passing))])
    test = function([antt.boolean(it) for it in passing], 'false')
    least = next((at for at, it in enumerate(passing[:count]) if it), None)
    return f'{test} {count}', antt.optional(least)


@kind('natural', count=20)
def natural(r: Random) -> Row:
    number = either(r, 1 << 40)
    return antt.integer(number), str(max(0, number))
