"""Kinds of places among bits: bits, words and the two bits before them at either end; headers right
or with one bit changed, with all their 60 bits or one fewer, and places beside them; a subframe
that the last bit makes whole, or doesn't."""
from __future__ import annotations

from random import Random

from .. import antt, values
from ..reference import message
from . import frames
from .registry import Row, kind
from .words import word_and_prior


def some_bits(r: Random, count: int) -> list[int]:
    """Bits of which nothing is known."""
    return [r.randint(0, 1) for _ in range(count)]


@kind('bit_number', count=10, is_whole=True)
def bit_number(r: Random) -> Row:
    bits = some_bits(r, r.randint(1, 6))
    return f'map bit_number {values.bits(bits)}', antt.listed(bits)


@kind('number_at', count=20)
def number_at(r: Random) -> Row:
    bits = some_bits(r, r.randint(1, 40))
    place = r.randrange(len(bits))
    count = r.choice([0, 1, len(bits) - place, r.randint(0, len(bits) - place)])
    return (f'{values.bits(bits)} {place} {count}',
            str(message.number_of(bits[place:place + count])))


@kind('word_at', group=10, count=20)
def word_at(r: Random) -> Row:
    bits = some_bits(r, r.randint(30, 40))
    place = r.choice([0, len(bits) - 30, r.randint(0, len(bits) - 30)])
    return f'{values.bits(bits)} {place}', str(message.number_of(bits[place:place + 30]))


@kind('prior_at', count=20)
def prior_at(r: Random) -> Row:
    bits = some_bits(r, r.randint(2, 12))
    place = r.choice([2, len(bits), r.randint(2, len(bits))])
    return f'{values.bits(bits)} {place}', str(message.number_of(bits[place - 2:place]))


@kind('checked_at', group=5, count=20)
def checked_at(r: Random) -> Row:
    word, prior = word_and_prior(r)
    place = r.randint(2, 6)
    bits = [*some_bits(r, place - 2), prior >> 1, prior & 1,
            *(word >> it & 1 for it in reversed(range(30))), *some_bits(r, 2)]
    return f'{values.bits(bits)} {place}', antt.optional(message.check(word, prior))


def whole_header(r: Random) -> tuple[list[int], int]:
    """Some bits with a header, and its place."""
    place = r.randint(2, 6)
    bits = [*some_bits(r, place - 2), *[r.randint(0, 1)] * 2]
    return frames.with_words(bits, frames.data_words(r))[:place + 60], place


def header(r: Random) -> tuple[list[int], int]:
    """Some bits with a header, in two of five with one of its bits changed, and its place."""
    bits, place = whole_header(r)
    if r.random() < .4:
        bits[r.randrange(place - 2, len(bits))] ^= 1
    return bits, place


@kind('is_candidate', group=2, count=10)
def is_candidate(r: Random) -> Row:
    bits, place = header(r)
    if r.random() < .6:
        bits = bits[:len(bits) - r.choice([0, 0, 0, 1])] + some_bits(r, r.choice([0, 0, 2]))
        place = max(0, place + r.choice([0, 0, 0, 0, -1, 1, -place]))
    return (f'{values.bits(bits)} {place}',
            antt.boolean(message.is_candidate(bits, place)))


@kind('candidate_from', group=1, count=6)
def candidate_from(r: Random) -> Row:
    bits, place = header(r)
    first = max(0, place + r.choice([-6, -1, 0, 0, 1]))
    found = [it for it in range(first, len(bits)) if message.is_candidate(bits, it)]
    return f'{values.bits(bits)} {first}', antt.optional(found[0] if found else None)


@kind('starts_from', group=1, count=4)
def starts_from(r: Random) -> Row:
    bits, place = header(r)
    most, first = r.choice([0, 1, 2, 2, 2]), r.choice([0, 2, place, place, place + 1])
    found = [it for it in range(first, len(bits)) if message.is_candidate(bits, it)]
    return f'{values.bits(bits)} {most} {first}', antt.listed(found[:min(1, most)])


@kind('starts_of_header', group=1, count=3, of='starts_of')
def starts_of_header(r: Random) -> Row:
    """Of fewer bits than a subframe has."""
    bits, _ = header(r)
    return values.bits(bits), antt.listed(message.starts(bits))


def second_kind(name: str, ahead: int) -> None:
    """A kind of starts, with a second header so many bits after the first one."""
    @kind(name, group=1, count=1, of='starts_from')
    def _(r: Random) -> Row:
        (bits, place), words = whole_header(r), frames.data_words(r)
        bits += some_bits(r, ahead - 62) + [r.randint(0, 1)] * 2
        bits = frames.with_words(bits, words)[:len(bits) + 60]
        found = [it for it in message.starts(bits) if it >= place]
        return f'{values.bits(bits)} 2 {place}', antt.listed(found[:2])


second_kind('starts_from_near', 299)
second_kind('starts_from_next', 300)


@kind('found_among', group=1, count=6)
def found_among(r: Random) -> Row:
    """Starts among bits of a subframe's length or more, the last of which ends with them, or not.
    Its words are those that pass, whatever begins there."""
    more = r.choice([0, 5, 300, 301, 340])
    bits = some_bits(r, 2) + some_bits(r, 300 + more)
    last = len(bits) - 300 + r.choice([0, 0, 0, 1])
    awaited = r.choice([None, last, last - r.randint(1, 2)])
    told, due, before = None, awaited, [2] * (more >= 300)
    if before:
        awaited, due = None, 302
    if last + 300 == len(bits):
        told = message.Found(message.subframe(bits, last), message.gap_before(due, last))
    starts = antt.listed([*before, last])
    return f'{values.bits(bits)} {antt.optional(awaited)} {starts}', values.found(told)
