"""Kinds of the texts of lines: numbers at both ends of their ranges and below zero, words that are
missing, all kinds of reports, states with and without lock and edge."""
from __future__ import annotations

from random import Random
from typing import Any, Callable

from .. import antt, values
from ..reference import lines as reference
from ..reference.acquisition import Cell
from ..reference.fields import EPHEMERIS, FIELDS, Page
from ..reference.message import Words
from ..reference.sets import Almanacs, Ephemeris, Report
from ..reference.slots import Event, View
from . import drawing
from .drawing import either, size
from .frames import data_words
from .registry import Row, kind


def field_values(r: Random, of: str) -> list[int]:
    """A value for each field of a kind, of as many bits as it has."""
    return [either(r, (1 << len(it.places) - 1) - 1) if it.is_signed
            else size(r, (1 << len(it.places)) - 1) for it in FIELDS[of]]


def report(r: Random) -> Report:
    """A set, or a page of a kind that is reported by itself."""
    of = r.choice(['ephemeris', *reference.PAGES])
    if of == 'ephemeris':
        return Ephemeris([it for of in EPHEMERIS for it in field_values(r, of)])
    return Page(of, field_values(r, of))


def words(r: Random) -> Words:
    """The words of a subframe, some of them missing."""
    made = data_words(r)
    return made[:2] + [None if r.random() < .2 else it for it in made[2:]]


def cell(r: Random) -> tuple[int, Cell]:
    """A satellite, and the cell that a search has named."""
    return drawing.satellite(r), Cell(r.randint(-40, 40), size(r, 2045), size(r, 1 << 60),
                                      r.random() < .5)


DRAWN: dict[str, Callable[[Random], Any]] = {
    'acq': cell, 'count': drawing.sums, 'gap': lambda r: size(r, drawing.LAST_TIME), 'sub': words,
    'page': report, 'als': lambda r: Almanacs(r.randint(0, 255), [r.randint(0, 255)
                                                                  for _ in range(32)]),
    'lock': lambda _: None, 'unlock': lambda _: None, 'lost': lambda _: None,
    'bits': lambda _: None,
}


def drawn_event(r: Random, of: str = '') -> Event:
    """What a slot tells, of any kind where none is named."""
    kind_of_it = of or r.choice([*DRAWN, 'acq', 'page', 'page'])
    return Event(kind_of_it, DRAWN[kind_of_it](r))


@kind('event_text', group=3, count=40)
def event_text(r: Random) -> Row:
    slot, event = r.randint(0, 7), drawn_event(r)
    return f'{slot} {values.event(event)}', antt.text(reference.event_text(slot, event))


@kind('line_of', group=3, count=20)
def line_of(r: Random) -> Row:
    client, slot, time = r.randint(1, 8), r.randint(0, 7), size(r, drawing.LAST_TIME)
    event = drawn_event(r)
    told = antt.record(client=client, slot=slot, time=time, event=values.event(event))
    return told, antt.text(reference.joined(client, time, reference.event_text(slot, event)))


def drawn_view(r: Random) -> View:
    """A state of any kind."""
    state, satellite = r.choice(['idle', 'acquire', 'hold', 'track']), drawing.satellite(r)
    if state == 'idle':
        return View(state)
    if state == 'acquire':
        return View(state, (satellite, size(r, 165726), 2046 * r.randint(1, 81)))
    numbers = (satellite, size(r, 1 << 30))
    if state == 'hold':
        return View(state, numbers)
    return View(state, numbers, drawing.shift(r), r.random() < .5, r.random() < .5)


@kind('view_text', group=5)
def view_text(r: Random) -> Row:
    slot, view = r.randint(0, 7), drawn_view(r)
    return f'{slot} {values.view(view)}', antt.text(reference.view_text(slot, view))


@kind('at_time', group=10)
def at_time(r: Random) -> Row:
    time, said = size(r, drawing.LAST_TIME), r.choice(['ok', 'err 9', 'end'])
    return f'{time} {antt.text(said)}', antt.text(reference.joined(time, said))
