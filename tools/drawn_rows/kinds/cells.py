"""Kinds of cells and their numbers, and of segments one after the other: the first and the last
cell of a plan, powers that are equal, a channel before its first dump, segments that are fewer or
more than the samples have."""
from __future__ import annotations

from random import Random
from typing import Optional

from .. import antt, values
from ..reference import acquisition as reference
from ..reference import signal
from ..reference.signal import Channel, Dump, Phases, Segment
from . import drawing
from .drawing import size
from .pieces import function
from .registry import Row, kind
from .segments import channel, open_segment


@kind('cell_count', count=20)
def cell_count(r: Random) -> Row:
    plan = drawing.plan(r)
    return values.plan(plan), str(reference.cell_count(plan))


def drawn_cell(r: Random, plan: reference.Plan) -> int:
    """A cell of a plan, often the first or the last of a bin."""
    first = reference.HALF_CHIPS * r.randint(0, 2 * plan.bins)
    return first + r.choice([0, 1, 2045, size(r, 2045)])


@kind('half_chip_of', count=20)
def half_chip_of(r: Random) -> Row:
    cell = drawn_cell(r, drawing.plan(r))
    return str(cell), str(cell % reference.HALF_CHIPS)


@kind('bin_shift', count=20)
def bin_shift(r: Random) -> Row:
    plan = drawing.plan(r)
    number = r.choice([-plan.bins, plan.bins, r.randint(-plan.bins, plan.bins)])
    return (f'{values.plan(plan)} {antt.integer(number)}',
            values.shift(reference.bin_shift(plan, number)))


@kind('cell_shift', count=20)
def cell_shift(r: Random) -> Row:
    plan = drawing.plan(r)
    cell = drawn_cell(r, plan)
    return (f'{values.plan(plan)} {cell}',
            values.shift(reference.bin_shift(plan, reference.bin_of(plan, cell))))


@kind('is_greatest', group=10, count=20)
def is_greatest(r: Random) -> Row:
    powers = [r.randint(0, 4) for _ in range(r.randint(1, 9))]
    count, cell = r.randint(0, len(powers)), r.randrange(len(powers))
    is_so = all(it <= powers[cell] for it in powers[:count])
    return (f'{function([str(it) for it in powers], "0")} {count} {cell}', antt.boolean(is_so))


@kind('counts_of', count=20)
def counts_of(r: Random) -> Row:
    dumps = [Dump(size(r, 1 << 40), drawing.sums(r)) for _ in range(r.randint(0, 4))]
    return (antt.listed(dumps, values.dump), antt.listed([it.sums for it in dumps], values.sums))


@kind('first_progress', group=5, count=20)
def first_progress(r: Random) -> Row:
    text, made = channel(r, r.random() < .5, size(r, drawing.LAST_TIME))
    return text, values.progress([], Segment(made.start, made.code, 0))


@kind('next_end', group=2, count=10)
def next_end(r: Random) -> Row:
    it = open_segment(r)
    while it.drawn.end > 12:
        it = open_segment(r)
    count = max(0, it.drawn.end + r.choice([-1, 0, 0, 2]))
    settings, text, before = it.arguments()
    return (f'{settings} {text} {values.samples(drawing.samples(r, count))} {before}',
            antt.optional(it.drawn.end if it.drawn.end <= count else None))


@kind('closed_if_ended', group=1, count=5)
def closed_if_ended(r: Random) -> Row:
    it = open_segment(r)
    while it.drawn.end - it.drawn.segment.start > 3:
        it = open_segment(r)
    segment, phases, end = it.drawn
    count = max(segment.start, end + r.choice([-1, 0, 0, 1]))
    made, dumps = drawing.samples(r, count), it.dumps
    if end <= count:
        sums = signal.six_sums(made, segment.start, end, it.channel.satellite, phases)
        dumps, segment = [*dumps, Dump(end, sums)], signal.next_segment(segment, phases, end)
    settings, text, before = it.arguments()
    return (f'{settings} {text} {values.samples(made)} {before}',
            values.progress(dumps, segment))


class Followed:
    """A channel over a few samples, at so slow a rate that several segments end."""

    def __init__(self, r: Random) -> None:
        self.settings, self.samples = drawing.slow(r, 5000), drawing.samples(r, r.randint(3, 8))
        self.text, self.channel = channel(r, r.random() < .4, r.randint(0, 2))

    def arguments(self) -> str:
        """The settings, the channel and the samples."""
        return f'{values.settings(self.settings)} {self.text} {values.samples(self.samples)}'

    def after(self, most: Optional[int] = None) -> tuple[list[Dump], Segment]:
        """The dumps, so many at most, and the segment that is open after them."""
        dumps, last = signal.segments(self.settings, self.samples, self.channel)
        if most is None or most >= len(dumps):
            return dumps, last
        until = dumps[most].time - 1
        return signal.segments(self.settings, self.samples[:until], self.channel)


@kind('after_segments', group=1, count=4)
def after_segments(r: Random) -> Row:
    it, most = Followed(r), r.randint(0, 4)
    return f'{it.arguments()} {most}', values.progress(*it.after(most))


@kind('dumps_of', group=1, count=3)
def dumps_of(r: Random) -> Row:
    it = Followed(r)
    return it.arguments(), antt.listed(it.after()[0], values.dump)


@kind('replica_of', group=1, count=6, is_whole=True)
def replica_of(r: Random) -> Row:
    """All five of a replica at one offset."""
    satellite, offset = drawing.satellite(r), r.choice([0, 1, size(r, 1 << 20)])
    phases = Phases(drawing.code_phase(r), size(r, signal.CYCLE - 1), size(r, signal.CYCLE - 1),
                    size(r, signal.CYCLE - 1))
    code, carrier = signal.after(phases, offset)
    told = [signal.COSINES[carrier >> 29], signal.SINES[carrier >> 29]]
    told += [signal.chip_sign(satellite, code + ahead)
             for ahead in (signal.HALF_CHIP, 0, -signal.HALF_CHIP)]
    replica = f'(replica_of {satellite} {values.phases(phases)})'
    parts = [f'{replica}.{it} {offset}' for it in ('cos', 'sin', 'early', 'prompt', 'late')]
    return ' ∷ '.join([*parts, '[]']), antt.listed(told, antt.integer)[1:-1]


@kind('tracked_channel', group=5, count=20, is_whole=True)
def tracked_channel(r: Random) -> Row:
    """What it has, and its shift after no dump or one."""
    text, made = channel(r, False, size(r, drawing.LAST_TIME))
    sums = [drawing.sums(r) for _ in range(r.randint(0, 1))]
    told = Channel(made.satellite, made.start, made.code, lambda _: made.steering(sums))
    return f'parts_after {text} {antt.listed(sums, values.sums)}', values.parts(told)


@kind('doppler_shift', count=20)
def doppler_shift(r: Random) -> Row:
    doppler = drawing.either(r, 16000)
    return antt.integer(doppler), antt.integer(doppler * 65536)
