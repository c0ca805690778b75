"""Kinds of what samples, codes and sums are made of: bits of a byte at both ends and over two
bytes, registers after some shifts, products of a sample and the carrier, sums over empty ranges and
whole ones, numbers below zero."""
from __future__ import annotations

from random import Random
from typing import Sequence

from .. import antt, values
from ..reference import signal as reference
from . import drawing
from .drawing import either
from .registry import Row, kind
from .signal import packed


def function(items: Sequence[str], other: str) -> str:
    """A function that gives these for 0, 1 and on."""
    return f'(λ k. get_or {antt.listed(items)} k {other})'


def whole(r: Random, count: int) -> list[int]:
    """Whole numbers of either sign."""
    return [either(r, 1 << r.choice([2, 40])) for _ in range(count)]


def ends(r: Random, most: int) -> tuple[int, int]:
    """Two places in order, often both ends or one place."""
    first = r.choice([0, r.randint(0, most)])
    return first, r.choice([most, first, r.randint(first, most)])


@kind('real', count=20)
def real(r: Random) -> Row:
    value = either(r, 3)
    return antt.integer(value), values.complex_sample((value, 0))


@kind('samples_per_byte', count=20)
def samples_per_byte(r: Random) -> Row:
    packing, per = r.choice(list(reference.SAMPLES_PER_BYTE.items()))
    return packing, str(per)


@kind('sign_of', count=10, is_whole=True)
def sign_of(r: Random) -> Row:
    bits = [r.randint(0, 1) for _ in range(r.randint(1, 6))]
    return f'map sign_of {antt.listed(bits)}', antt.listed([1 - 2 * it for it in bits],
                                                           antt.integer)


@kind('bit_in', count=40)
def bit_in(r: Random) -> Row:
    data = packed(r)[1]
    if r.random() < .1:
        # More bytes than 12 or 16 bits count.
        data = [0] * r.choice([4096, 65536]) + [r.randint(1, 255)]
    place = r.choice([0, *range(8 * len(data) - 8, 8 * len(data)), r.randrange(8 * len(data))])
    return f'{antt.listed(data)} {place}', str(data[place // 8] >> 7 - place % 8 & 1)


@kind('two_bits_at', count=40)
def two_bits_at(r: Random) -> Row:
    data = packed(r)[1]
    place = r.randrange(8 * len(data) - 1)
    sign, magnitude = (data[it // 8] >> 7 - it % 8 & 1 for it in (place, place + 1))
    return (f'{antt.listed(data)} {place}',
            antt.integer((1 - 2 * sign) * (1 + 2 * magnitude)))


@kind('sample_count', count=20)
def sample_count(r: Random) -> Row:
    packing, data, count = packed(r)
    return f'{packing} {antt.listed(data)}', str(count)


@kind('sample_at', count=20)
def sample_at(r: Random) -> Row:
    made = drawing.samples(r, r.randint(1, 9))
    number = r.choice([0, len(made) - 1, r.randrange(len(made))])
    return f'{values.samples(made)} {number}', values.complex_sample(made[number])


def register(r: Random) -> list[int]:
    """Ten stages."""
    return [r.randint(0, 1) for _ in range(10)]


@kind('stage', count=30)
def stage(r: Random) -> Row:
    stages, number = register(r), r.choice([1, 10, r.randint(1, 10)])
    return f'{antt.listed(stages)} {number}', str(stages[number - 1])


@kind('xor_of_stages', count=20)
def xor_of_stages(r: Random) -> Row:
    stages, taps = register(r), r.choice([*reference.FED_BACK, *reference.STAGES])
    return (f'{antt.listed(taps)} {antt.listed(stages)}',
            str(sum(stages[it - 1] for it in taps) % 2))


@kind('shift_register', count=20)
def shift_register(r: Random) -> Row:
    stages, taps = register(r), r.choice(reference.FED_BACK)
    fed = sum(stages[it - 1] for it in taps) % 2
    return f'{antt.listed(taps)} {antt.listed(stages)}', antt.listed([fed, *stages[:-1]])


@kind('register_after', group=5, count=10)
def register_after(r: Random) -> Row:
    of, count = r.randrange(2), r.choice([0, 1, r.randint(2, 40)])
    return (f'{antt.listed(reference.FED_BACK[of])} {count}',
            antt.listed(reference.REGISTERS[count][of]))


def stages(satellites: Sequence[int]) -> str:
    """The stages of these satellites."""
    return antt.listed([reference.STAGES[it - 1] for it in satellites], antt.listed)


@kind('selection_of', group=2, count=2, is_whole=True)
def selection_of(r: Random) -> Row:
    """All satellites."""
    satellites = r.sample(range(1, 33), 32)
    return f'map selection_of {antt.listed(satellites)}', stages(satellites)


@kind('code_phase_selections', group=2, count=2, is_whole=True)
def code_phase_selections(r: Random) -> Row:
    """All satellites."""
    satellites = r.sample(range(1, 33), 32)
    places = antt.listed([it - 1 for it in satellites])
    return f'map (λ it. get_or code_phase_selections it []) {places}', stages(satellites)


@kind('chip_after', group=5, count=10)
def chip_after(r: Random) -> Row:
    satellite, number = drawing.satellite(r), r.choice([0, 9, 10, r.randint(0, 60)])
    return f'{satellite} {number}', str(reference.chip(satellite, number))


@kind('chip_sign', group=5, count=10)
def chip_sign(r: Random) -> Row:
    satellite, number = drawing.satellite(r), r.choice([0, 9, 10, r.randint(0, 60)])
    return f'{satellite} {number}', antt.integer(1 - 2 * reference.chip(satellite, number))


def table_kind(name: str, table: Sequence[int]) -> None:
    """A kind of a wave's table."""
    @kind(name, count=16, is_whole=True)
    def _(r: Random) -> Row:
        place = r.randrange(8)
        return f'get_or {name} {place} (pos 0)', antt.integer(table[place])


table_kind('cosines', reference.COSINES)
table_kind('sines', reference.SINES)
