"""Kinds of what lines are read by: digits of 1 to 14, ranges and values at both ends and one past
them, refusals of which the first is answered, lines of a script one after the other."""
from __future__ import annotations

from random import Random
from typing import Optional

from .. import antt, values
from ..reference import scripts as reference
from ..reference.acquisition import Plan
from ..reference.scripts import Command, VERBS
from .drawing import either, size
from .registry import Row, kind
from .scripts import number_text, right_words, spoilt_words

# The names of the ranges, with the verb and the place where each stands.
RANGES = {'satellites': ('hold', 0), 'doppler_shifts': ('hold', 1), 'half_chips': ('hold', 2),
          'centres': ('acquire', 1), 'side_bins': ('acquire', 2), 'dwells': ('acquire', 3),
          'thresholds': ('acquire', 4), 'dump_counts': ('counts', 0)}


@kind('is_number', count=40)
def is_number(r: Random) -> Row:
    word = number_text(r)
    return antt.text(word), antt.boolean(reference.number_in(word.encode()) is not None)


def range_text(low: int, high: int) -> str:
    """A range as a record."""
    return antt.record(low=antt.integer(low), high=antt.integer(high))


@kind('up_to', count=10)
def up_to(r: Random) -> Row:
    low = size(r, 99)
    high = low + size(r, 9999)
    return f'{low} {high}', range_text(low, high)


@kind('around_zero', count=10)
def around_zero(r: Random) -> Row:
    most = size(r, 16000)
    return str(most), range_text(-most, most)


def outcome(made: object) -> str:
    """Values, or the number of a refusal."""
    if isinstance(made, list):
        return f'(Ok {antt.listed(made, antt.integer)})'
    return f'(Err {made})'


def within(r: Random, low: int, high: int) -> int:
    """A value of a range: its ends, one past them, and any."""
    return r.choice([low, high, low - 1, high + 1, r.randint(low, high)])


@kind('value_in', count=80)
def value_in(r: Random) -> Row:
    """Against each of the ranges, by name."""
    name, (verb, place) = r.choice(list(RANGES.items()))
    low, high = VERBS[verb][place]
    value: Optional[int] = r.choice([within(r, low, high)] * 5 + [None])
    others = r.choice([[], [either(r, 99)], 7, 8])
    made: object = 7 if value is None else 8
    if value is not None and low <= value <= high:
        made = [value, *others] if isinstance(others, list) else others
    return (f'{name} {antt.optional(value, antt.integer)} {outcome(others)}', outcome(made))


@kind('with_value', count=20)
def with_value(r: Random) -> Row:
    value, others = either(r, 99), r.choice([[], [either(r, 9)], [1, 2], 7, 8])
    made = [value, *others] if isinstance(others, list) else others
    return f'{antt.integer(value)} {outcome(others)}', outcome(made)


@kind('values_in', group=5, count=40)
def values_in(r: Random) -> Row:
    """The words after a slot by the ranges of a verb."""
    verb = r.choice(['hold', 'acquire'])
    words = spoilt_words(r, right_words(r, verb)[1:])[:len(VERBS[verb])]
    words += ['0'] * (len(VERBS[verb]) - len(words))
    made: object = []
    for word, (low, high) in zip(words, VERBS[verb]):
        value = reference.signed_number_in(word.encode())
        if value is None or not low <= value <= high:
            made = 7 if value is None else 8
            break
        made = [*(made if isinstance(made, list) else []), value]
    names = {'hold': 'start_ranges', 'acquire': 'plan_ranges'}
    return f'{names[verb]} {antt.listed(words, antt.text)}', outcome(made)


def named_values(r: Random, count: int) -> list[int]:
    """Values of words, none below zero."""
    return [size(r, 1 << 40) for _ in range(count)]


@kind('number', count=20)
def number(r: Random) -> Row:
    given = named_values(r, r.randint(1, 5))
    place = r.choice([0, len(given) - 1])
    return f'{antt.listed(given, antt.integer)} {place}', str(given[place])


@kind('integer', count=20)
def integer(r: Random) -> Row:
    given = [either(r, 16000) for _ in range(r.randint(1, 5))]
    place = r.choice([0, len(given) - 1])
    return f'{antt.listed(given, antt.integer)} {place}', antt.integer(given[place])


@kind('plan_of', count=20)
def plan_of(r: Random) -> Row:
    given = [r.randint(*it) for it in VERBS['acquire']]
    return antt.listed(given, antt.integer), values.plan(Plan(*given))


def asked_of(made: object) -> str:
    """A command, or the number of a refusal."""
    if isinstance(made, Command):
        asked = antt.record(slot=made.slot, request=values.request(made.verb, made.values))
        return f'(Ok {asked})'
    return f'(Err {made})'


def meaning_kind(verb: str) -> None:
    """A kind of what a verb means, by the values of its words."""
    @kind(f'{verb}_verb', group=10, count=20, is_whole=True)
    def _(r: Random) -> Row:
        slot, given = r.randint(0, 7), [r.choice([*it, r.randint(*it)]) for it in VERBS[verb]]
        return (f'meant {verb}_verb (Ok {antt.listed([slot, *given], antt.integer)})',
                asked_of(Command(verb, slot, tuple(given))))


for it in VERBS:
    meaning_kind(it)


@kind('meant', count=10)
def meant(r: Random) -> Row:
    verb = r.choice(list(VERBS))
    given = [r.randint(*it) for it in [(0, 7), *VERBS[verb]]]
    if r.random() < .3:
        return f'{verb}_verb (Err 8)', '(Err 8)'
    return (f'{verb}_verb (Ok {antt.listed(given, antt.integer)})',
            asked_of(Command(verb, given[0], tuple(given[1:]))))


@kind('command_with', group=10, count=40)
def command_with(r: Random) -> Row:
    slots, verb = r.choice([1, 4, 8]), r.choice(list(VERBS))
    words = spoilt_words(r, right_words(r, verb))
    if r.random() < .1:
        return f'{slots} None {antt.listed(words, antt.text)}', '(Err 5)'
    made = reference.command([verb.encode(), *(it.encode() for it in words)], slots)
    return (f'{slots} (Some {verb}_verb) {antt.listed(words, antt.text)}', asked_of(made))


@kind('command_in', group=10, count=60)
def command_in(r: Random) -> Row:
    slots, verb = r.choice([1, 4, 8]), r.choice(list(VERBS))
    words = spoilt_words(r, right_words(r, verb))
    name = r.choice([verb] * 5 + ['fly', 'Stop', verb + 'p', verb[:-1]])
    given = [name, *words] if r.random() < .9 else []
    made = reference.command([it.encode() for it in given], slots)
    return f'verbs {slots} {antt.listed(given, antt.text)}', asked_of(made)
