"""How numbers, settings, samples and sums are drawn: both ends of a range first, then small ones,
then any. Each draw is by what a seed gives, so that it can be made again."""
from __future__ import annotations

from random import Random
from typing import Optional

from ..reference.acquisition import Plan
from ..reference.signal import CODE, Sample, Settings, Shift, Sums

# The greatest size of a sum, of a shift and of its correction, and the last time.
GREATEST_SUM = 180009
GREATEST_SHIFT, GREATEST_CORRECTION = 1 << 30, 65536
LAST_TIME = 1 << 40

SAMPLE_PARTS = (-3, -1, 1, 3)


def size(r: Random, high: int) -> int:
    """From 0 to a highest number: the ends, small ones, and any."""
    at = r.random()
    if at < .15:
        return r.choice([0, min(1, high), high, max(0, high - 1)])
    if at < .6:
        return min(high, int(2 ** r.uniform(0, high.bit_length())))
    return r.randint(0, high)


def either(r: Random, high: int) -> int:
    """Of either sign, and of such a size."""
    return size(r, high) * r.choice([1, -1])


def near(r: Random, number: int, by: int = 1) -> int:
    """A number, or one beside it, and not below 0."""
    return max(0, number + r.randint(-by, by))


def settings(r: Random) -> Settings:
    """Settings that a receiver takes: rates at both ends, with a rest, and of which the usual step
    of the code is no whole number."""
    rate = r.choice([2046000, 20000000, 2046999, 4092000, r.randint(2046000, 20000000)])
    half = rate // 2
    return Settings(rate, r.choice([0, half, -half, r.randint(-half, half)]))


def slow(r: Random, most: int = 20000) -> Settings:
    """So few samples a second that the code runs through in 2 to 20: no receiver takes it, but the
    definitions do, and compute it soon."""
    rate = r.randint(2000, most)
    return Settings(rate, r.randint(-rate, rate))


def shift(r: Random) -> Shift:
    """A shift of any size."""
    return Shift(either(r, GREATEST_SHIFT), either(r, GREATEST_CORRECTION))


def satellite(r: Random) -> int:
    """A satellite, often one of both ends."""
    return r.choice([1, 32, *(r.randint(1, 32) for _ in range(6))])


def code_phase(r: Random, step: int = 1 << 32) -> int:
    """A phase of the code, often less than some step before its end."""
    return r.choice([0, size(r, CODE - 1), CODE - 1 - min(CODE - 1, size(r, step))])


def sums(r: Random, high: int = GREATEST_SUM) -> Sums:
    """Six sums of like sizes, some of them 0."""
    most = r.choice([1, 3, 50, high])
    return Sums(*(r.choice([0, *(r.randint(-most, most) for _ in range(3))]) for _ in range(6)))


def samples(r: Random, count: int) -> list[Sample]:
    """Samples, real ones or complex ones."""
    is_complex = r.random() < .4
    return [(r.choice(SAMPLE_PARTS), r.choice(SAMPLE_PARTS) if is_complex else 0)
            for _ in range(count)]


def plan(r: Random, bins: Optional[int] = None) -> Plan:
    """A plan, with each number at either end often."""
    side = r.choice([0, 40, size(r, 40)]) if bins is None else bins
    return Plan(satellite(r), r.choice([-6000, 6000, 0, r.randint(-6000, 6000)]), side,
                r.randint(1, 10), 1 + size(r, 999))


def start(r: Random) -> tuple[str, tuple[int, ...]]:
    """How a slot is started, in any of three ways."""
    return r.choice([('hold', (satellite(r), either(r, 16000), size(r, 2045))),
                     ('track', (satellite(r), either(r, 16000), size(r, 2045))),
                     ('acquire', tuple(plan(r)))])
