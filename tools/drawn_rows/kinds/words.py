"""Kinds of words: each bit of a word with each prior, words that pass and those with a bit changed;
words of a subframe that are missing, and what the handover word tells."""
from __future__ import annotations

from random import Random
from typing import Callable

from .. import antt, values
from ..reference import fields, message
from ..reference.message import Words
from . import frames
from .drawing import size
from .pages import page_words
from .pieces import function
from .registry import Row, kind

WORD = 1 << 30


def word_and_prior(r: Random) -> tuple[int, int]:
    """A word, of which most pass, and the two bits before it."""
    prior = r.randrange(4)
    word = r.choice([message.encode(r.randrange(frames.DATA), prior), r.randrange(WORD)])
    return word ^ (1 << r.randrange(30)) * (r.random() < .3), prior


@kind('word_bit', count=30)
def word_bit(r: Random) -> Row:
    word, number = r.randrange(WORD), r.choice([1, 30, r.randint(1, 30)])
    return f'{word} {number}', str(word >> 30 - number & 1)


@kind('data_bit', count=30)
def data_bit(r: Random) -> Row:
    word, prior = word_and_prior(r)
    number = r.choice([1, 24, r.randint(1, 24)])
    return f'{word} {prior} {number}', str(word >> 30 - number & 1 ^ prior & 1)


def equation(number: int) -> str:
    """The equation of one of the six parity bits, from 0 on."""
    star, places = message.PARITY[number]
    return antt.record(place=25 + number, star=star[1:], data_places=antt.listed(places))


@kind('parity_bit', group=10, count=20)
def parity_bit(r: Random) -> Row:
    data, prior, number = r.randrange(frames.DATA), r.randrange(4), r.randrange(6)
    bits = ['0', *(str(data >> 24 - it & 1) for it in range(1, 25))]
    return (f'{function(bits, "0")} {prior} {equation(number)}',
            str(message.parity(data, prior) >> 5 - number & 1))


def broken(word: int, prior: int) -> int:
    """The parity bits that aren't as they have to be."""
    return message.parity(message.turned(word >> 6, prior), prior) ^ word & 63


@kind('holds', group=10, count=20)
def holds(r: Random) -> Row:
    (word, prior), number = word_and_prior(r), r.randrange(6)
    is_so = not broken(word, prior) >> 5 - number & 1
    return f'{word} {prior} {equation(number)}', antt.boolean(is_so)


@kind('passes', group=10, count=20)
def passes(r: Random) -> Row:
    word, prior = word_and_prior(r)
    return f'{word} {prior}', antt.boolean(not broken(word, prior))


@kind('data_of', group=10, count=20)
def data_of(r: Random) -> Row:
    word, prior = word_and_prior(r)
    return f'{word} {prior}', str(message.turned(word >> 6, prior))


def words_of(r: Random) -> Words:
    """The words of a subframe, now and then one of them missing."""
    words = page_words(r)
    if r.random() < .3:
        words[r.randrange(2, 10)] = None
    return words


@kind('word_of', count=20)
def word_of(r: Random) -> Row:
    words, number = words_of(r), r.choice([1, 10, r.randint(1, 10)])
    return f'{values.subframe(words)} {number}', antt.optional(words[number - 1])


def handed_over(name: str, read: Callable[[Words], int]) -> None:
    """A kind of what the handover word tells."""
    @kind(name, count=20)
    def _(r: Random) -> Row:
        words: Words = frames.data_words(r)
        words[1] = size(r, frames.DATA - 1)
        return values.subframe(words), str(read(words))


handed_over('id_of', message.ident)
handed_over('tow_of', message.time_of_week)


@kind('is_complete', count=20)
def is_complete(r: Random) -> Row:
    words = words_of(r)
    if r.random() < .3:
        words[r.choice([0, 1, 9])] = None
    return values.subframe(words), antt.boolean(None not in words)


@kind('sv_id', count=20)
def sv_id(r: Random) -> Row:
    words = page_words(r)
    words[2] = size(r, frames.DATA - 1)
    return values.subframe(words), str(fields.sv_id(words))
