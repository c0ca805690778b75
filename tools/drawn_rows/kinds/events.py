"""Kinds of what events are put together by: of one that may be missing, of the last of a list and
of those before it, of what the loops answer."""
from __future__ import annotations

from random import Random

from .. import antt, values
from ..reference import loops
from ..reference import slots as reference
from ..reference.slots import Event
from .drawing import size
from .loops import lock_dumps
from .registry import Row, kind
from .slots import events
from .texts import drawn_event


@kind('when', count=20)
def when(r: Random) -> Row:
    is_so, event = r.random() < .5, drawn_event(r)
    return f'{antt.boolean(is_so)} {values.event(event)}', events([event] * is_so)


@kind('events_of', count=20)
def events_of(r: Random) -> Row:
    number = r.choice([None, size(r, 999)])
    return (f'gap {antt.optional(number)}',
            events([] if number is None else [Event('gap', number)]))


def numbers(r: Random) -> list[int]:
    """Some numbers."""
    return [size(r, 99) for _ in range(r.choice([0, 1, r.randint(2, 6)]))]


@kind('last_of', count=20)
def last_of(r: Random) -> Row:
    them = numbers(r)
    return f'{{A = ℕ}} {antt.listed(them)}', antt.optional(them[-1] if them else None)


@kind('front_of', count=20)
def front_of(r: Random) -> Row:
    them = numbers(r)
    return f'{{A = ℕ}} {antt.listed(them)}', antt.listed(them[:-1])


@kind('news_events', count=20)
def news_events(r: Random) -> Row:
    news = r.choice(['nothing', 'lock', 'unlock', 'lost'])
    return news, events([] if news == 'nothing' else [Event(news)])


@kind('steered_events', group=1, count=4)
def steered_events(r: Random) -> Row:
    dumps = lock_dumps(r, 3)
    ends = sorted(loops.answers(dumps).by_dump)
    dumps = dumps[:r.choice(ends)] if ends else dumps
    return antt.listed(dumps, values.sums), events(reference.steered_events(dumps))
