"""Kinds of lives and states: lives over a few samples whose dumps end at the last one, begun by any
command, ended by `stop`, or refused; counts that are asked for at the time of a dump; searches at
the end of the dwell and at the due time."""
from __future__ import annotations

from random import Random
from typing import Optional

from .. import antt, values
from ..reference import acquisition
from ..reference import slots as reference
from ..reference.signal import Dump, NOTHING, Sample, Settings
from ..reference.slots import Event, Life, Slot
from . import drawing
from .drawing import size
from .registry import Row, kind
from .slots import asked, events, life

Command = tuple[int, str, tuple[int, ...]]


class Counted:
    """A holding life, dumps that have come, and one more. Dumps come at a time each."""

    def __init__(self, r: Random) -> None:
        times = sorted(r.randint(1, 20) for _ in range(r.randint(0, 6)))
        self.wanted = r.choice([1, 1, r.randint(0, 4)])
        self.since = r.choice([r.randint(0, 9), (times or [0])[-1]])
        self.before = [Dump(it, NOTHING) for it in times]
        self.dump = Dump((times or [1])[-1] + r.randint(0, 3), drawing.sums(r))

    def dumps(self) -> str:
        """All dumps, the one more as the last."""
        return antt.listed([*self.before, self.dump], values.dump)

    def life(self) -> str:
        """The life."""
        return life('(hold 1 (pos 0) 0)', self.wanted, self.since)

    def events(self) -> list[Event]:
        """What the dump has it tell."""
        left = reference.unprinted(self.wanted, self.since, [it.time for it in self.before])
        return [Event('count', self.dump.sums)] * (left > 0)


@kind('dump_events', group=10, count=30)
def dump_events(r: Random) -> Row:
    it = Counted(r)
    return f'{it.life()} {it.dumps()} {values.dump(it.dump)}', events(it.events())


@kind('last_dump_events', group=10, count=30)
def last_dump_events(r: Random) -> Row:
    it, is_there = Counted(r), r.random() < .8
    now = it.dump.time + r.choice([0, 0, 0, 1])
    told = it.events() if is_there and now == it.dump.time else []
    return (f'{it.life()} {now} {it.dumps() if is_there else "[]"}'
            f' {antt.optional(it.dump if is_there else None, values.dump)}', events(told))


@kind('life_wanting', count=20)
def life_wanting(r: Random) -> Row:
    start, time, wanted = values.start(*drawing.start(r)), size(r, 999), size(r, 1000000)
    return (f'{life(start, size(r, 9), size(r, 9), 3)} {time} {wanted}',
            life(start, wanted, time, 3))


def life_text(it: Optional[Life], verb: str = '', given: tuple[int, ...] = ()) -> str:
    """A life, or none."""
    if it is None:
        return 'None'
    return f'(Some {life(values.start(verb, given), it.wanted, it.since, it.begun)})'


class Followed:
    """A slot over a few samples, with commands up to the end of them, or to so many before it."""

    def __init__(self, r: Random, early: int = 0) -> None:
        self.settings: Settings = drawing.slow(r, 5000)
        self.samples: list[Sample] = drawing.samples(r, r.randint(1, 6))
        self.commands: list[Command] = []
        self.slot = Slot(self.settings, self.samples)
        self.begun: tuple[str, tuple[int, ...]] = ('', ())
        time = 0
        for _ in range(r.randint(1, 4)):
            time = min(len(self.samples) - early, time + r.choice([0, 0, 1, 2]))
            self.give(time, *asked(r))

    def give(self, time: int, verb: str, given: tuple[int, ...]) -> None:
        """Gives a command."""
        before = self.slot.life
        self.slot.answer(time, verb, given)
        self.commands.append((time, verb, given))
        if self.slot.life is not before:
            self.begun = verb, given

    def samples_text(self) -> str:
        """The settings and the samples."""
        return f'{values.settings(self.settings)} {values.samples(self.samples)}'

    def commands_text(self) -> str:
        """The commands as a list."""
        return antt.listed(self.commands, lambda it: antt.record(
            time=it[0], request=values.request(it[1], it[2])))

    def latest(self) -> str:
        """The latest life that isn't stopped."""
        return life_text(self.slot.life, *self.begun)

    def now(self) -> str:
        """The life that is on after the last sample."""
        return life_text(self.slot.on(len(self.samples)), *self.begun)


@kind('life_of', group=1, count=6)
def life_of(r: Random) -> Row:
    it = Followed(r)
    return f'{it.samples_text()} {it.commands_text()}', it.latest()


@kind('life_now', group=1, count=6)
def life_now(r: Random) -> Row:
    it = Followed(r)
    return f'{it.samples_text()} {it.commands_text()}', it.now()


@kind('still_on', group=1, count=6)
def still_on(r: Random) -> Row:
    it = Followed(r)
    return f'{it.samples_text()} {it.latest()}', it.now()


@kind('events_at_end', group=1, count=6)
def events_at_end(r: Random) -> Row:
    it = Followed(r, early=1)
    while r.random() < .99 and not it.slot.events(len(it.samples)):
        it = Followed(r, early=1)
    return (f'{it.samples_text()} {it.commands_text()}',
            events(it.slot.events(len(it.samples))))


@kind('waiting_view', group=5, count=20)
def waiting_view(r: Random) -> Row:
    settings, plan, begun = drawing.settings(r), drawing.plan(r), size(r, 1 << 30)
    due = acquisition.due_time(settings, plan, begun)
    time = r.choice([begun, acquisition.dwell_end(settings, plan, begun) + r.randint(-5, 5),
                     due - 1, begun + size(r, due - begun - 1)])
    told = Life(settings, [], begun, 'acquire', tuple(plan)).view(time)
    return (f'{values.settings(settings)} {time} {begun} (acquire {values.plan(plan)})',
            values.view(told))
