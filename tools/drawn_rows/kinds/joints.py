"""Kinds of what joins definitions: sets of pages with each page, all of some that may be missing,
what is told sample by sample, time by time and client by client."""
from __future__ import annotations

from random import Random
from typing import Optional

from .. import antt, values
from ..reference.fields import FIELDS
from . import drawing
from .clients import texts
from .drawing import size
from .fields import field_text
from .pages import pages_text, trios
from .registry import Row, kind
from .runs import Client, clients_text
from .sets import told_with, whole_list


@kind('reported_with', group=5, count=20)
def reported_with(r: Random) -> Row:
    """With a page that isn't the last one too."""
    pages = trios(r)
    told, at = told_with(pages), r.randrange(len(pages))
    before = [it for it in told[:at] if it]
    return (f'ephemerides {pages_text(pages)} {at} {whole_list(before[-1] if before else None)}',
            whole_list(told[at]))


@kind('with_first', count=20)
def with_first(r: Random) -> Row:
    first: Optional[int] = r.choice([None, size(r, 9)])
    others = r.choice([None, list[int](), [size(r, 9), size(r, 9)]])
    told = None if first is None or others is None else [first, *others]
    return (f'{{A = ℕ}} {antt.optional(first)} {antt.optional(others, antt.listed)}',
            antt.optional(told, antt.listed))


@kind('all_there', count=20)
def all_there(r: Random) -> Row:
    them = [r.choice([None, *(size(r, 9) for _ in range(6))]) for _ in range(r.randint(0, 5))]
    return (f'{{A = ℕ}} {antt.listed(them, antt.optional)}',
            antt.optional(None if None in them else them, antt.listed))


@kind('health_field', group=10, count=20)
def health_field(r: Random) -> Row:
    number = r.choice([0, 23, r.randrange(24)])
    return str(number), field_text(FIELDS['health'][4 + number])


@kind('at_each_sample', group=5, count=10)
def at_each_sample(r: Random) -> Row:
    """All samples so far are told with each."""
    first, more = (drawing.samples(r, r.randint(0, 3)) for _ in range(2))
    told = [it for count in range(len(more)) for it in first + more[:count + 1]]
    return (f'{{A = Sample}} (λ (them : List Sample). them) {values.samples(first)}'
            f' {values.samples(more)}', values.samples(told))


@kind('at_each_time', group=5, count=10)
def at_each_time(r: Random) -> Row:
    """At each time up to the last one the samples before it are known."""
    samples = drawing.samples(r, r.randint(0, 9))
    return (f'(λ (them : List Sample). end_line them ∷ []) {values.samples(samples)}',
            texts([f'{time} end' for time in range(len(samples) + 1)]))


@kind('for_each_client', group=5, count=10)
def for_each_client(r: Random) -> Row:
    """Each has its number before its lines."""
    clients: list[Client] = [(1, list(b'abc'[:r.randint(0, 3)])) for _ in range(r.randint(0, 8))]
    return (f'(λ (it : Client). it.script ∷ it.script ∷ []) {clients_text(clients)}',
            texts([f'{number} {bytes(script).decode()}'
                   for number, (_, script) in enumerate(clients, 1) for _ in range(2)]))
