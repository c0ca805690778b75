"""Kinds of segments and channels: ends at the very sample, one before and one after; codes that
begin just before their end, so that a segment is of one sample; carriers that wrap."""
from __future__ import annotations

from random import Random
from typing import NamedTuple

from .. import antt, values
from ..reference import loops, signal
from ..reference.signal import CYCLE, Channel, Dump, HALF_CHIP, Phases, Segment, Settings, Shift
from . import drawing
from .drawing import either, size
from .registry import Row, kind


class Drawn(NamedTuple):
    """A segment, its phases and its end."""
    segment: Segment
    phases: Phases
    end: int


def drawn(r: Random, settings: Settings, start: int) -> Drawn:
    """A segment from a sample on, at a shift of up to 256 Hz."""
    steps = signal.steps(settings, Shift(either(r, 1 << 24), drawing.shift(r).w))
    # Now and then the code comes to its very end.
    code = r.choice([drawing.code_phase(r, steps[0]), signal.CODE - steps[0] * r.randint(1, 2)])
    segment = Segment(start, max(0, code), size(r, CYCLE - 1))
    return Drawn(segment, Phases(segment.code, segment.carrier, *steps),
                 signal.segment_end(segment, steps[0]))


def any_segment(r: Random) -> Drawn:
    """One at a usual or slow rate, at any time."""
    settings = r.choice([drawing.settings(r), drawing.slow(r)])
    return drawn(r, settings, size(r, drawing.LAST_TIME))


@kind('next_segment')
def next_segment(r: Random) -> Row:
    segment, phases, end = any_segment(r)
    end += r.choice([0, 0, 1, size(r, 100000)])
    return (f'{values.segment(segment)} {values.phases(phases)} {end}',
            values.segment(signal.next_segment(segment, phases, end)))


@kind('is_through')
def is_through(r: Random) -> Row:
    segment, phases, end = any_segment(r)
    time = max(0, end + r.choice([-2, -1, 0, 1]))
    return (f'{values.segment(segment)} {phases.code_step} {time}', antt.boolean(time >= end))


@kind('end_by', group=5)
def end_by(r: Random) -> Row:
    segment, phases, end = drawn(r, drawing.slow(r), r.randint(0, 20))
    count = max(0, end + r.choice([-3, -1, 0, 1, 5]))
    return (f'{values.segment(segment)} {phases.code_step} {count}',
            antt.optional(end if end <= count else None))


@kind('phases_of')
def phases_of(r: Random) -> Row:
    settings, shift = drawing.settings(r), drawing.shift(r)
    segment = Segment(5, drawing.code_phase(r), size(r, CYCLE - 1))
    phases = Phases(segment.code, segment.carrier, *signal.steps(settings, shift))
    return (f'{values.settings(settings)} {values.shift(shift)} {values.segment(segment)}',
            values.phases(phases))


def channel(r: Random, is_held: bool, begun: int) -> tuple[str, Channel]:
    """A channel that a command gives, as a text and as the reference has it."""
    satellite, doppler, half = drawing.satellite(r), either(r, 16000), size(r, 2045)
    shift = Shift(doppler * 65536, 0)
    steering = (lambda _: shift) if is_held else loops.steering(shift.v)
    text = (f'({"held" if is_held else "tracked"}_channel {begun} {satellite}'
            f' {antt.integer(doppler)} {half})')
    return text, Channel(satellite, begun, half * HALF_CHIP, steering)


@kind('progress', group=1, count=4)
def progress(r: Random) -> Row:
    settings, samples = drawing.slow(r, 5000), drawing.samples(r, r.randint(4, 9))
    if r.random() < .4:
        # The code runs through with each sample.
        settings = settings._replace(rate=1000)
    text, made = channel(r, r.random() < .6, r.randint(0, 2))
    return (f'{values.settings(settings)} {text} {values.samples(samples)}',
            values.progress(*signal.segments(settings, samples, made)))


@kind('held_channel', group=5, is_whole=True)
def held_channel(r: Random) -> Row:
    text, made = channel(r, r.random() < .5, size(r, drawing.LAST_TIME))
    return f'parts_of {text}', values.parts(made)


class Open(NamedTuple):
    """A tracking channel with some dumps, and its open segment."""
    settings: Settings
    text: str
    channel: Channel
    dumps: list[Dump]
    drawn: Drawn

    def arguments(self) -> tuple[str, str, str]:
        """The settings, the channel and its progress, as texts."""
        return (values.settings(self.settings), self.text,
                values.progress(self.dumps, self.drawn.segment))


def open_segment(r: Random) -> Open:
    """One whose code has come to anywhere, mostly to near its end."""
    settings, (text, made) = drawing.slow(r), channel(r, False, r.randint(0, 3))
    dumps = [Dump(1, drawing.sums(r)) for _ in range(r.randint(0, 3))]
    steps = signal.steps(settings, made.steering([it.sums for it in dumps]))
    far = 1 << 34 if r.random() < .8 else signal.CODE
    segment = Segment(made.start + r.randint(0, 3), drawing.code_phase(r, far), size(r, CYCLE - 1))
    phases = Phases(segment.code, segment.carrier, *steps)
    return Open(settings, text, made, dumps,
                Drawn(segment, phases, signal.segment_end(segment, steps[0])))


@kind('open_phases', group=5, count=40)
def open_phases(r: Random) -> Row:
    it = open_segment(r)
    return ' '.join(it.arguments()), values.phases(it.drawn.phases)


@kind('closed_at', group=1, count=5)
def closed_at(r: Random) -> Row:
    it = open_segment(r)
    while it.drawn.end - it.drawn.segment.start > 3:
        it = open_segment(r)
    segment, phases, end = it.drawn
    samples = drawing.samples(r, end + r.randint(0, 2))
    sums = signal.six_sums(samples, segment.start, end, it.channel.satellite, phases)
    settings, text, before = it.arguments()
    return (f'{settings} {text} {values.samples(samples)} {before} {end}',
            values.progress([*it.dumps, Dump(end, sums)],
                            signal.next_segment(segment, phases, end)))
