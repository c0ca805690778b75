"""Kinds of tasks and of what is due of them: shares of both ends and past them, limits at the
number of samples and to both sides of it, readings that end, fail or go on."""
from __future__ import annotations

from random import Random
from typing import NamedTuple

from .. import antt, values
from ..reference import lines as reference
from ..reference import signal
from ..reference import slots
from ..reference.signal import Sample, Settings
from . import drawing
from .drawing import size
from .registry import Row, kind
from .runs import Client, bytes_of, clients_text, drawn_script
from .slots import asked

PACKINGS = list(signal.SAMPLES_PER_BYTE)


@kind('is_share', count=20)
def is_share(r: Random) -> Row:
    slots_of = r.choice([0, 1, 8, 9, r.randint(0, 20)])
    return str(slots_of), antt.boolean(1 <= slots_of <= 8)


class Task(NamedTuple):
    """A task, what was read of it, and how reading ended."""
    settings: Settings
    packing: str
    clients: list[Client]
    limit: int
    data: list[int]
    end: str

    def text(self) -> str:
        """The task as a record."""
        return antt.record(settings=values.settings(self.settings, self.packing),
                           shares=antt.listed([it[0] for it in self.clients]),
                           scripts=antt.listed([it[1] for it in self.clients], antt.text),
                           limit=self.limit)

    def arguments(self) -> str:
        """The task and its input."""
        return f'{self.text()} {antt.record(bytes=antt.listed(self.data), end=self.end)}'

    def came(self) -> int:
        """How many samples came."""
        return len(self.data) * signal.SAMPLES_PER_BYTE[self.packing]

    def samples(self) -> list[Sample]:
        """The samples that are taken: those up to the limit."""
        return [signal.sample(self.packing, self.data, it)
                for it in range(min(self.limit, self.came()))]

    def lines(self, has_ends: bool) -> list[str]:
        """The lines of these samples."""
        samples = self.samples()
        return (reference.body_lines(self.settings, samples, self.clients)
                + reference.end_lines(samples, self.clients) * has_ends)


def drawn_task(r: Random, most: int) -> Task:
    """One or two clients, and bytes with some samples at most."""
    packing = r.choice(PACKINGS)
    per = signal.SAMPLES_PER_BYTE[packing]
    data = [r.randrange(256) for _ in range(r.randint(0, most // per))]
    shares = [r.choice([1, 2]) for _ in range(r.randint(1, 2))]
    limit = r.choice([0, drawing.near(r, per * len(data)), 1 << 40])
    return Task(drawing.slow(r, 8000), packing, [(it, drawn_script(r, it)) for it in shares],
                limit, data, r.choice(['exhausted', 'exhausted', 'failed', 'unfinished']))


@kind('clients_of', group=5, count=10)
def clients_of(r: Random) -> Row:
    it = drawn_task(r, 8)
    return it.text(), clients_text(it.clients)


@kind('taken_samples', group=10, count=20)
def taken_samples(r: Random) -> Row:
    it = drawn_task(r, 24)
    return it.arguments(), antt.listed(it.samples(), values.complex_sample)


def text_kind(name: str, count: int) -> None:
    """A kind of a task's text. It has its ends where reading came to its end within the limit."""
    @kind(name, group=1, count=count)
    def _(r: Random) -> Row:
        it = drawn_task(r, 4)
        is_whole = it.end == 'exhausted' and it.came() <= it.limit
        has_ends = {'body_text': False, 'full_text': True, 'due_text': is_whole}[name]
        return it.arguments(), antt.text(bytes_of(it.lines(has_ends)))


text_kind('body_text', 2)
text_kind('full_text', 2)
text_kind('due_text', 6)


@kind('bank_events_at_end', group=1, count=4)
def bank_events_at_end(r: Random) -> Row:
    """Slots of which one of a client, or all of it, have commands. They tell of a dump that ends
    with the last sample."""
    settings, samples = drawing.slow(r, 5000), drawing.samples(r, r.randint(1, 4))
    slot, verb = slots.Slot(settings, samples), r.choice(['hold', 'track'])
    given = (drawing.satellite(r), 0, 2045)
    slot.answer(0, verb, given)
    slot.answer(0, 'counts', (9,))
    samples = samples[:max(it for it in range(5) if slot.events(it))]
    commands = antt.listed([antt.record(time=0, request=values.request(verb, given)),
                            antt.record(time=0, request='(counts 9)')])
    keys = [(r.randint(1, 4), r.randint(5, 7)), (r.randint(5, 8), r.randint(0, 3))]
    mine = r.choice(keys)[0]
    told = [antt.record(client=client, slot=number, time=len(samples), event=values.event(it))
            for client, number in keys if client == mine for it in slot.events(len(samples))]
    pairs = antt.listed([f'({client}, {number})' for client, number in keys])
    asked_for = f'(λ c. λ s. if c == {mine} then {commands} else [])'
    return (f'{values.settings(settings)} {pairs} {asked_for}'
            f' {values.samples(samples)}', antt.listed(told))


@kind('with_command', group=5, count=20)
def with_command(r: Random) -> Row:
    """What one slot has, which is that of the command or another."""
    client, slot, time = r.randint(1, 3), r.randint(0, 2), size(r, 99)
    command = values.request(*asked(r))
    asked_for = r.choice([(client, slot)] * 2 + [(client, slot + 1), (client + 1, slot),
                                                 (slot, client)])
    before = antt.record(time=0, request='state')
    more = [antt.record(time=time, request=command)] * (asked_for == (client, slot))
    return (f'(λ c. λ s. {before} ∷ []) {client} {slot} {time} {command}'
            f' {asked_for[0]} {asked_for[1]}', antt.listed([before, *more]))
