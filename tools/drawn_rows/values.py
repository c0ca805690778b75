"""Values of the reference as they stand in a row, by the records of the definitions."""
from __future__ import annotations

from typing import Any, Callable, Optional, Sequence

from .antt import boolean, integer, listed, optional, record
from .reference.acquisition import Cell, Plan
from .reference.fields import Page
from .reference.loops import Loops
from .reference.message import Found, Words
from .reference.scripts import Command, Entry
from .reference.sets import Almanacs, Ephemeris, Report, Reports
from .reference.signal import Channel, Dump, Phases, Sample, Segment, Settings, Shift, Sums
from .reference.slots import Answer, Event, View


def sums(it: Sums) -> str:
    """Six sums, by a short name that each module of rows has."""
    return f'(counts6 {" ".join(map(integer, it))})'


def settings(it: Settings, packing: str = 'real1') -> str:
    """The settings of a receiver."""
    return record(rate=it.rate, offset=integer(it.offset), packing=packing)


def plan(it: Plan) -> str:
    """The plan of a search."""
    return record(prn=it.satellite, centre=integer(it.centre), bins=it.bins, dwell=it.dwell,
                  threshold=it.threshold)


def complex_sample(it: Sample) -> str:
    """A sample by both parts."""
    return record(in_phase=integer(it[0]), quadrature=integer(it[1]))


def sample(it: Sample) -> str:
    """A sample; a real one by its value alone."""
    return complex_sample(it) if it[1] else f'(real {integer(it[0])})'


def samples(them: Sequence[Sample]) -> str:
    """A list of samples."""
    return listed(them, sample)


def phases(it: Phases) -> str:
    """Phases and steps."""
    return record(**it._asdict())


def segment(it: Segment) -> str:
    """A segment."""
    return record(**it._asdict())


def shift(it: Shift) -> str:
    """A shift."""
    return record(v=integer(it.v), w=integer(it.w))


def dump(it: Dump) -> str:
    """The sums of a segment, at their time."""
    return record(time=it.time, counts=sums(it.sums))


def progress(dumps: Sequence[Dump], last: Segment) -> str:
    """The dumps of a channel, and the segment that is open."""
    return record(dumps=listed(dumps, dump), open_segment=segment(last))


def parts(it: Channel) -> str:
    """What `parts_of` gives of a channel: its numbers, and its shift at first."""
    numbers = listed((it.satellite, it.start, it.code))
    return f'({numbers[1:-1]}, {shift(it.steering([]))})'


def loops(it: Loops) -> str:
    """The state of the loops."""
    return record(taken=it.taken, last=sums(it.last), u=integer(it.u), v=integer(it.v),
                  w=integer(it.w))


def start(verb: str, values: Sequence[int]) -> str:
    """How a slot is started."""
    if verb == 'acquire':
        return f'(acquire {plan(Plan(*values))})'
    return f'({verb} {values[0]} {integer(values[1])} {values[2]})'


def request(verb: str, values: Sequence[int]) -> str:
    """What a command asks for."""
    if verb in ('hold', 'track', 'acquire'):
        return f'(begin {start(verb, values)})'
    return f'(counts {values[0]})' if verb == 'counts' else verb


def entry(it: Entry) -> str:
    """What a line asks."""
    if isinstance(it.what, Command):
        asked = record(slot=it.what.slot, request=request(it.what.verb, it.what.values))
        return record(time=it.time, what=f'(Ok {asked})')
    return record(time=it.time, what=f'(Err {it.what})')


def bits(them: Sequence[object]) -> str:
    """Bits of the message."""
    return listed(them, boolean)


def subframe(words: Words) -> str:
    """The words of a subframe."""
    return record(words=listed(words, optional))


def found(it: Optional[Found]) -> str:
    """A subframe with the gap before it, or none."""
    return optional(it, lambda it: record(subframe=subframe(it.words), gap=optional(it.gap)))


def page(it: Page) -> str:
    """A page."""
    return record(kind=it.kind, values=listed(it.values, integer))


def report(it: Report) -> str:
    """A report."""
    if isinstance(it, Ephemeris):
        return f'(ephemeris {listed(it.values, integer)})'
    return f'(single {page(it)})'


def almanacs(it: Almanacs) -> str:
    """A set of almanacs."""
    return record(toa=integer(it.time), health=listed(it.health, integer))


def reports(it: Reports) -> str:
    """What a page has reported."""
    return record(page=optional(it.report, report), set=optional(it.almanacs, almanacs))


def cell(it: Cell) -> str:
    """A cell."""
    return record(bin=integer(it.bin), half_chip=it.half_chip, power=it.power,
                  found=boolean(it.is_found))


EVENTS: dict[str, Callable[[Any], str]] = {
    'acq': lambda it: f'(acquired {it[0]} {cell(it[1])})',
    'count': lambda it: f'(count {sums(it)})',
    'sub': lambda it: f'(subframe {subframe(it)})', 'gap': lambda it: f'(gap {it})',
    'page': lambda it: f'(reported {report(it)})', 'als': lambda it: f'(almanacs {almanacs(it)})',
    'lock': lambda _: 'locked', 'unlock': lambda _: 'unlocked', 'lost': lambda _: 'signal_lost',
    'bits': lambda _: 'edge',
}


def event(it: Event) -> str:
    """What a slot tells."""
    return EVENTS[it.kind](it.value)


def view(it: View) -> str:
    """A state that is shown."""
    verbs = {'idle': 'idle', 'acquire': 'acquiring', 'hold': 'holding', 'track': 'tracking'}
    words = [verbs[it.state], *map(str, it.numbers)]
    if it.shift:
        words += [shift(it.shift), boolean(it.is_locked), boolean(it.has_edge)]
    return words[0] if len(words) == 1 else f'({" ".join(words)})'


def answer(it: Answer) -> str:
    """What a command is answered."""
    if it.kind == 'ok':
        return 'accepted'
    return f'(refused {it.value})' if it.kind == 'err' else f'(shown {view(it.value)})'
