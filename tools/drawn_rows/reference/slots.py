"""One slot, followed through its commands in the order of time. (This project's own.)

A life begins with a `hold`, `track` or `acquire` that comes while the slot is idle; else that is
refused, 9. It ends by `stop`, by an acquisition that has found nothing when it is due, and by the
dump with which the loops lose the signal. `counts` and `stop` of an idle slot are refused, 10. What
samples end by a time has ended before the commands of that time. `counts` asks for so many of the
dumps that end after it, and is kept when a search goes on as tracking."""
from __future__ import annotations

from typing import Any, NamedTuple, Optional, Sequence

from . import acquisition, loops, message, sets
from .acquisition import Cell, Plan
from .fields import page
from .signal import Channel, Dump, HALF_CHIP, Sample, Settings, Shift, Sums, segments

STARTS = ('hold', 'track', 'acquire')


class Event(NamedTuple):
    """What a slot tells: its kind, and what comes with it."""
    kind: str
    value: Any = None


class View(NamedTuple):
    """A state that is shown. The numbers are the satellite and the dumps, or while searching the
    satellite, the cells done and all cells."""
    state: str
    numbers: tuple[int, ...] = ()
    shift: Optional[Shift] = None
    is_locked: bool = False
    has_edge: bool = False


class Answer(NamedTuple):
    """What a command is answered: `ok`, `err` with a number, or a state."""
    kind: str
    value: Any = None


def bit_events(bits: Sequence[object], found: Optional[message.Found]) -> list[Event]:
    """What comes with the last bit: a gap, then the subframe, then what its page has reported."""
    if not found:
        return []
    events = [Event('gap', found.gap)] * (found.gap is not None) + [Event('sub', found.words)]
    if page(found.words):
        pages = [page(message.subframe(bits, it)) for it in message.whole_starts(bits)]
        events += report_events(sets.reports([it for it in pages if it]))
    return events


def report_events(told: sets.Reports) -> list[Event]:
    """A page's own report, and then a set of almanacs."""
    return ([Event('page', told.report)] * (told.report is not None)
            + [Event('als', told.almanacs)] * (told.almanacs is not None))


def steered_events(dumps: Sequence[Sums]) -> list[Event]:
    """What the last dump of a tracking slot tells beside its sums."""
    news = loops.answers(dumps).by_dump.get(len(dumps))
    events, pushes = [Event(news)] if news else [], loops.pushes(dumps)
    first = message.edge(pushes)
    if first is None:
        return events
    events += [Event('bits')] * (first == len(pushes) - 1)
    since = len(pushes) - first
    if since % 20 == 0 and since:
        bits = message.bits_after(pushes, first)
        events += bit_events(bits, message.found(bits))
    return events


def tracking_view(satellite: int, shift: Shift, dumps: Sequence[Sums]) -> View:
    """The state of a tracking slot."""
    return View('track', (satellite, len(dumps)), shift, loops.answers(dumps).locked[-1],
                message.edge(loops.pushes(dumps)) is not None)


def unprinted(wanted: int, since: int, dumps: Sequence[int]) -> int:
    """How many dumps are still to be printed, after those at some times."""
    return max(0, wanted - sum(it > since for it in dumps))


class Life:
    """A life of a slot, from the command that begins it on."""

    def __init__(self, settings: Settings, samples: Sequence[Sample], begun: int, verb: str,
                 values: tuple[int, ...]) -> None:
        self.settings, self.samples, self.begun, self.verb = settings, samples, begun, verb
        self.wanted, self.since = 0, begun
        self.plan = Plan(*values) if verb == 'acquire' else None
        self.cell: Optional[Cell] = None
        self.satellite = values[0]
        if not self.plan:
            shift = Shift(values[1] * 65536, 0)
            steering = loops.steering(shift.v) if verb == 'track' else lambda _: shift
            self.channel = Channel(values[0], begun, values[2] * HALF_CHIP, steering)

    def due(self) -> int:
        """When the life's search ends; where it has none, when it begins."""
        plan = self.plan
        return acquisition.due_time(self.settings, plan, self.begun) if plan else self.begun

    def is_found(self) -> bool:
        """Whether there is a channel to follow once the search is due."""
        if self.plan and not self.cell:
            self.cell = acquisition.result(self.settings, self.plan, self.samples, self.begun)
            self.channel = acquisition.found_channel(self.settings, self.plan, self.begun,
                                                     self.cell)
        return not self.cell or self.cell.is_found

    def dumps(self, time: int) -> list[Dump]:
        """The dumps that end by a time, up to the one with which the signal is lost."""
        if time < self.due() or not self.is_found():
            return []
        made = segments(self.settings, self.samples[:time], self.channel)[0]
        if self.verb == 'hold':
            return made
        return made[:len(loops.until_lost([it.sums for it in made]))]

    def is_on(self, time: int) -> bool:
        """Whether samples have not ended it by a time."""
        if time < self.due():
            return True
        if not self.is_found():
            return False
        answers = loops.answers([it.sums for it in self.dumps(time)])
        return self.verb == 'hold' or 'lost' not in answers.by_dump.values()

    def events(self, time: int) -> list[Event]:
        """What the sample before a time has it tell."""
        events, dumps = [], self.dumps(time)
        if self.plan and self.due() == time:
            self.is_found()
            events.append(Event('acq', (self.plan.satellite, self.cell)))
        if not dumps or dumps[-1].time != time:
            return events
        if unprinted(self.wanted, self.since, [it.time for it in dumps[:-1]]):
            events.append(Event('count', dumps[-1].sums))
        if self.verb == 'hold':
            return events
        return events + steered_events([it.sums for it in dumps])

    def view(self, time: int) -> View:
        """Its state at a time."""
        if self.plan and time < self.due():
            return View('acquire', (
                self.satellite,
                acquisition.cells_done(self.settings, self.plan, self.begun, time),
                acquisition.cell_count(self.plan)))
        dumps = [it.sums for it in self.dumps(time)]
        if self.verb == 'hold':
            return View('hold', (self.satellite, len(dumps)))
        return tracking_view(self.satellite, self.channel.steering(dumps), dumps)


class Slot:
    """A slot on a list of samples. Its commands are given in their order, each by its time."""

    def __init__(self, settings: Settings, samples: Sequence[Sample]) -> None:
        self.settings, self.samples = settings, samples
        self.life: Optional[Life] = None

    def on(self, time: int) -> Optional[Life]:
        """The life that is on."""
        return self.life if self.life and self.life.is_on(time) else None

    def events(self, time: int) -> list[Event]:
        """What the sample before a time has it tell. The commands of that time come later."""
        life = self.on(time - 1) if time else None
        return life.events(time) if life else []

    def answer(self, time: int, verb: str, values: tuple[int, ...]) -> Answer:
        """What a command is answered, and done."""
        life = self.on(time)
        if verb == 'state':
            return Answer('state', life.view(time) if life else View('idle'))
        if bool(life) == (verb in STARTS):
            return Answer('err', 9 if life else 10)
        if verb == 'counts' and life:
            life.wanted, life.since = values[0], time
        else:
            self.life = (Life(self.settings, self.samples, time, verb, values)
                         if verb in STARTS else None)
        return Answer('ok')
