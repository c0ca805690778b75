"""Kinds of the lines of a client, at one time and all: events before answers, by slot and
script; refused lines among commands; a sample with a dump and one without."""
from __future__ import annotations

from random import Random
from typing import NamedTuple

from .. import antt, values
from ..reference import lines as reference
from ..reference import scripts
from ..reference.scripts import Entry
from ..reference.signal import Sample, Settings
from . import drawing
from .commands import asked_of
from .registry import Row, kind
from .runs import Client, drawn_script


def client_text(it: Client) -> str:
    """A client as a record."""
    return antt.record(slots=it[0], script=antt.text(it[1]))


class Alone(NamedTuple):
    """A client over a few samples."""
    settings: Settings
    samples: list[Sample]
    client: Client

    def before(self) -> str:
        """The settings."""
        return values.settings(self.settings)

    def texts(self, part: str) -> list[str]:
        """What it is told at the last time, with or without the answers."""
        told = reference.Client(self.settings, self.samples, *self.client)
        for time in range(len(self.samples)):
            list(told.answers(time))
        events = list(told.events(len(self.samples)))
        answers = list(told.answers(len(self.samples)))
        return {'events': events, 'answers': answers, 'both': events + answers}[part]


def drawn_alone(r: Random, most: int = 3) -> Alone:
    """A client with a slot or two."""
    slots = r.choice([1, 2])
    return Alone(drawing.slow(r, 8000), drawing.samples(r, r.randint(1, most)),
                 (slots, drawn_script(r, slots)))


def telling(r: Random) -> Alone:
    """One that mostly is told of events and of answers at the last time."""
    it = drawn_alone(r)
    while r.random() < .99 and not (it.texts('events') and it.texts('answers')):
        it = drawn_alone(r)
    return it


def texts(them: list[str]) -> str:
    """Texts as a list."""
    return antt.listed(them, antt.text)


def timed(it: Alone, told: list[str]) -> str:
    """Texts after the last time."""
    return texts([reference.joined(len(it.samples), one) for one in told])


def last_time_kind(name: str, part: str, has_times: bool) -> None:
    """A kind of what a client is told at the last time."""
    @kind(name, group=1, count=6)
    def _(r: Random) -> Row:
        it = telling(r)
        told = it.texts(part)
        return (f'{it.before()} {client_text(it.client)} {values.samples(it.samples)}',
                timed(it, told) if has_times else texts(told))


last_time_kind('event_texts', 'events', False)
last_time_kind('answer_texts', 'answers', False)
last_time_kind('lines_alone_at', 'both', True)


def entries_text(entries: list[Entry]) -> str:
    """Entries as a list."""
    return antt.listed(entries, values.entry)


def entries_of(it: Alone, until: int) -> list[Entry]:
    """The entries of its script before a time."""
    return [entry for entry in scripts.script(*it.client) if entry.time < until]


@kind('slot_event_texts', group=1, count=6)
def slot_event_texts(r: Random) -> Row:
    it = telling(r)
    entries, slot = entries_of(it, len(it.samples)), r.randrange(it.client[0])
    told = [one for one in it.texts('events') if one.split()[1] == str(slot)]
    return (f'{it.before()} {values.samples(it.samples)} {entries_text(entries)} {slot}',
            texts(told))


def answered(r: Random) -> tuple[Alone, list[Entry], int]:
    """A client, its entries up to the last time, and the number of one that is answered then; of
    the first, where none is."""
    while True:
        it = drawn_alone(r)
        entries = entries_of(it, len(it.samples) + 1)
        at = [number for number, one in enumerate(entries) if one.time == len(it.samples)]
        if at or entries and r.random() < .2:
            return it, entries, r.choice(at or [0])


def answer_to(it: Alone, entries: list[Entry], number: int) -> list[str]:
    """The answer to an entry, if it is of the last time."""
    last = len(it.samples)
    before = sum(one.time == last for one in entries[:number])
    return it.texts('answers')[before:before + 1] if entries[number].time == last else []


@kind('entry_answer_texts', group=1, count=6)
def entry_answer_texts(r: Random) -> Row:
    it, entries, number = answered(r)
    return (f'{it.before()} {values.samples(it.samples)} {entries_text(entries)}'
            f' ({number}, {values.entry(entries[number])})', texts(answer_to(it, entries, number)))


@kind('reply_text', group=1, count=6)
def reply_text(r: Random) -> Row:
    it, entries, number = answered(r)
    while entries[number].time != len(it.samples):
        it, entries, number = answered(r)
    return (f'{it.before()} {values.samples(it.samples)} {entries_text(entries[:number])}'
            f' {asked_of(entries[number].what)}', antt.text(answer_to(it, entries, number)[0]))


@kind('timed_texts', group=10, count=20)
def timed_texts(r: Random) -> Row:
    made = drawing.samples(r, r.randint(0, 12))
    told = [r.choice(['ok', 'end', 'err 9']) for _ in range(r.randint(0, 3))]
    return (f'{values.samples(made)} {texts(told)}',
            texts([reference.joined(len(made), it) for it in told]))


@kind('end_line', count=10)
def end_line(r: Random) -> Row:
    made = drawing.samples(r, r.choice([0, 9, 10, r.randint(0, 20)]))
    return values.samples(made), antt.text(f'{len(made)} end')


@kind('is_of_client', group=10, count=30)
def is_of_client(r: Random) -> Row:
    mine, other = r.choice([1, 2, 8, 11]), r.choice([1, 2, 8, 11, 12])
    line = r.choice([f'{other} 5 ok', f'{mine} 5 ok', str(mine), f'{mine}', f'{mine}x 5', ''])
    return f'{mine} {antt.text(line)}', antt.boolean(line.startswith(f'{mine} '))


@kind('alone', group=1, count=3)
def alone(r: Random) -> Row:
    it = drawn_alone(r, 4)
    return (f'{it.before()} {values.samples(it.samples)} {client_text(it.client)}',
            texts(reference.alone_lines(it.settings, it.samples, *it.client)))
