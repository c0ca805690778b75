"""Kinds of words and subframes: words that pass and those with a bit changed, with each prior;
headers right in all but one thing; streams of both polarities, with subframes, gaps of 1 to 301
bits and changed bits; each ID from 0 to 7."""
from __future__ import annotations

from random import Random
from typing import Optional

from .. import antt, values
from ..reference import message as reference
from ..reference.message import PREAMBLE, Words
from .drawing import size
from .registry import Row, kind

DATA = 1 << 24


@kind('checked_data')
def checked_data(r: Random) -> Row:
    prior = r.randrange(4)
    word = r.choice([reference.encode(r.randrange(DATA), prior), r.randrange(1 << 30)])
    if r.random() < .4:
        word ^= 1 << r.randrange(30)
    return f'{word} {prior}', antt.optional(reference.check(word, prior))


def handover_word(r: Random, ident: int) -> int:
    """Any time and flags, and an ID."""
    return r.randrange(1 << 17) << 7 | r.randrange(4) << 5 | ident << 2


def data_words(r: Random, ident: Optional[int] = None) -> Words:
    """The data of a subframe's ten words."""
    number = r.randint(1, 5) if ident is None else ident
    return [PREAMBLE << 16 | r.randrange(1 << 16), handover_word(r, number),
            *(r.choice([0, r.randrange(DATA)]) for _ in range(8))]


def word_as_sent(data: int, prior: int, ends: Optional[int]) -> int:
    """The word of some data; where its last two bits have to be certain ones, with two bits of
    these changed so that they are."""
    if ends is None:
        return reference.encode(data, prior)
    words = (reference.encode(data & ~3 | it, prior) for it in range(4))
    return next(it for it in words if it & 3 == ends)


def with_words(bits: list[int], words: Words) -> list[int]:
    """Bits, and behind them words of a subframe. The second and the last one end in 0, 0 before
    any inversion of the whole stream, which shows in the last bit so far."""
    made, inverted = list(bits), bits[-1]
    for at, data in enumerate(words):
        ends = 3 * inverted if at in (1, 9) else None
        word = word_as_sent(data or 0, reference.number_of(made[-2:]), ends)
        made += [word >> it & 1 for it in reversed(range(30))]
    return made


def stream(r: Random, count: int = 2) -> list[int]:
    """Some bits, and subframes with gaps, of either polarity; in half of them changed bits."""
    polarity = r.randint(0, 1)
    bits = [r.randint(0, 1) for _ in range(r.randint(0, 8))] + [polarity] * 2
    for _ in range(count):
        bits = with_words(bits, data_words(r))
        bits += r.choice([[], [], [bits[-1]] * r.choice([1, 5, 297, 300, 301]),
                          [r.randint(0, 1), bits[-1], bits[-1]]])
        if len(bits) > 700:
            break
    if r.random() < .5:
        for _ in range(r.randint(1, 3)):
            bits[r.randrange(r.choice([0, 75]), len(bits))] ^= 1
    return bits


def cut(r: Random, bits: list[int], often: float) -> list[int]:
    """Bits, often just up to a subframe's end."""
    ends = [it + 300 for it in reference.whole_starts(bits)]
    return bits[:r.choice(ends)] if ends and r.random() < often else bits


@kind('found_by', group=1, count=6)
def found_by(r: Random) -> Row:
    bits = cut(r, stream(r), .85)
    return values.bits(bits), values.found(reference.found(bits))


@kind('starts_of', group=1, count=4)
def starts_of(r: Random) -> Row:
    bits = stream(r)
    return values.bits(bits), antt.listed(reference.starts(bits))


@kind('subframe_at', group=2, count=12)
def subframe_at(r: Random) -> Row:
    bits = stream(r, 1)
    last = len(bits) - 300
    place = r.randint(2, last) if r.random() < .3 else (reference.starts(bits) or [2])[0]
    place = min(place, last)
    return (f'{values.bits(bits)} {place}',
            values.subframe(reference.subframe(bits, place)))


@kind('gap_from')
def gap_from(r: Random) -> Row:
    awaited = r.choice([None, size(r, 1 << 20)])
    on = r.choice([0, 1, 299, 300, 301, 600, size(r, 100000)])
    start = (awaited or 0) + on
    return (f'{antt.optional(awaited)} {start}',
            antt.optional(reference.gap_before(awaited, start)))


@kind('id_in')
def id_in(r: Random) -> Row:
    data = size(r, DATA - 1)
    return str(data), str(reference.ident([None, data]))


@kind('tow_in')
def tow_in(r: Random) -> Row:
    data = size(r, DATA - 1)
    return str(data), str(reference.time_of_week([None, data]))


@kind('has_preamble')
def has_preamble(r: Random) -> Row:
    first = r.choice([PREAMBLE, PREAMBLE ^ 255, PREAMBLE ^ 1 << r.randrange(8), r.randrange(256)])
    return str(first << 16 | r.randrange(1 << 16)), antt.boolean(first == PREAMBLE)


@kind('is_header')
def is_header(r: Random) -> Row:
    wrong = r.choice([None, None, None, 'prior', 'last', 'preamble'])
    prior = r.choice([1, 2]) if wrong == 'prior' else r.choice([0, 3])
    last = r.randrange(4) if wrong == 'last' else prior
    begins = r.choice([0x74, 0x8A, r.randrange(256)]) if wrong == 'preamble' else PREAMBLE
    words: list[Optional[int]] = [
        begins << 16 | r.randrange(1 << 16),
        handover_word(r, r.randrange(8)) | r.randrange(4)]
    first, second = (None if r.random() < .05 else it for it in words)
    return (f'{prior} {antt.optional(first)} {antt.optional(second)} {last}',
            antt.boolean(reference.is_header(prior, first, second, last)))
