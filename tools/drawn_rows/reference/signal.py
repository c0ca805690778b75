"""Samples, codes, steps, phases, the six sums and segments. The codes are those of IS-GPS-200,
sections 3.2.1.3 and 3.3.2.3; packings, steps and the carrier's table are this project's own.

A sample is a pair: its part in phase, and its part in quadrature, which is 0 of a real sample. Each
division rounds toward minus infinity, as Python's does."""
from __future__ import annotations

from typing import Callable, NamedTuple, Sequence

Sample = tuple[int, int]

# A whole code, in 2^-32 chip, and a whole cycle of the carrier, in 2^-32 cycle.
CODE = 1023 << 32
CYCLE = 1 << 32
HALF_CHIP = 1 << 31

# By the top three bits of the carrier's phase.
COSINES = (2, 1, -1, -2, -2, -1, 1, 2)
SINES = (1, 2, 2, 1, -1, -2, -2, -1)

SAMPLES_PER_BYTE = {'real1': 8, 'real2': 4, 'iq1': 4, 'iq2': 2}

# The two stages of the second register of which each satellite's code is made, from satellite 1 on.
STAGES = ((2, 6), (3, 7), (4, 8), (5, 9), (1, 9), (2, 10), (1, 8), (2, 9), (3, 10), (2, 3), (3, 4),
          (5, 6), (6, 7), (7, 8), (8, 9), (9, 10), (1, 4), (2, 5), (3, 6), (4, 7), (5, 8), (6, 9),
          (1, 3), (4, 6), (5, 7), (6, 8), (7, 9), (8, 10), (1, 6), (2, 7), (3, 8), (4, 9))

# The stages whose sum comes into stage 1 with each shift, of both registers.
FED_BACK = ((3, 10), (2, 3, 6, 8, 9, 10))


class Settings(NamedTuple):
    """Samples a second, and the intermediate frequency in Hz."""
    rate: int
    offset: int


class Shift(NamedTuple):
    """The Doppler shift in 1/65536 Hz, and the code's own in 1/65536 chip a second."""
    v: int
    w: int


class Sums(NamedTuple):
    """The sums of the early, prompt and late chips, in phase and in quadrature."""
    ie: int
    qe: int
    ip: int
    qp: int
    il: int
    ql: int


class Phases(NamedTuple):
    """The phases of code and carrier at a sample, and the steps with each sample from there on."""
    code: int
    carrier: int
    code_step: int
    carrier_step: int


class Segment(NamedTuple):
    """Where a run of the code begins, and with which phases."""
    start: int
    code: int
    carrier: int


class Dump(NamedTuple):
    """The sums of a segment, at the time of its end."""
    time: int
    sums: Sums


class Channel(NamedTuple):
    """A satellite from a sample on: the code's phase there, and the shift after each list of sums
    so far. The carrier begins at phase 0."""
    satellite: int
    start: int
    code: int
    steering: Callable[[list[Sums]], Shift]


NOTHING = Sums(0, 0, 0, 0, 0, 0)


def sample(packing: str, data: Sequence[int], number: int) -> Sample:
    """A sample of bytes, the earliest being in the top bits. A sign bit of 1 is minus; a second
    bit of 1 makes the size 3 in place of 1. In a complex one the part in phase comes first."""
    per = SAMPLES_PER_BYTE[packing]
    width = 8 // per
    low = width * (per - 1 - number % per)
    bits = [data[number // per] >> low + place & 1 for place in reversed(range(width))]
    part = 2 if packing.endswith('2') else 1
    values = [(1 - 2 * bits[at]) * (1 + 2 * sum(bits[at + 1:at + part]))
              for at in range(0, width, part)]
    return values[0], values[1] if packing.startswith('iq') else 0


def registers() -> list[tuple[list[int], list[int]]]:
    """Both registers after each number of shifts, stage 1 first. Both begin with ones. With each
    shift all stages move on by one."""
    states, first, second = [], [1] * 10, [1] * 10
    for _ in range(1023):
        states.append((first, second))
        first, second = ([sum(it[stage - 1] for stage in fed) % 2, *it[:-1]]
                         for it, fed in zip((first, second), FED_BACK))
    return states


REGISTERS = registers()


def chip(satellite: int, number: int) -> int:
    """A chip, which is read after so many shifts, modulo 1023: stage 10 of the first register, and
    the satellite's two stages of the second one, summed modulo 2."""
    first, second = REGISTERS[number % 1023]
    return (first[9] + sum(second[it - 1] for it in STAGES[satellite - 1])) % 2


def chip_sign(satellite: int, phase: int) -> int:
    """The sign of the chip at a phase of the code: plus for 0."""
    return 1 - 2 * chip(satellite, phase % CODE >> 32)


def carrier_step(settings: Settings, v: int) -> int:
    """The carrier's step: a cycle for each Hz in a second, all rounded down once."""
    return (settings.offset * 65536 + v) * 65536 // settings.rate % CYCLE


def code_step(settings: Settings, shift: Shift) -> int:
    """The code's step. A chip has 1,540 cycles of the carrier, so the code follows the Doppler
    shift in that proportion, rounded down before the rest."""
    return (1023000 * 65536 + shift.v // 1540 + shift.w) * 65536 // settings.rate


def steps(settings: Settings, shift: Shift) -> tuple[int, int]:
    """The steps of code and carrier."""
    return code_step(settings, shift), carrier_step(settings, shift.v)


def after(phases: Phases, count: int) -> tuple[int, int]:
    """The phases of code and carrier so many samples on, each within its cycle."""
    return ((phases.code + count * phases.code_step) % CODE,
            (phases.carrier + count * phases.carrier_step) % CYCLE)


def wiped(value: Sample, phase: int) -> Sample:
    """A sample times the conjugate of the carrier at a phase."""
    cosine, sine = COSINES[phase >> 29], SINES[phase >> 29]
    return (value[0] * cosine + value[1] * sine, value[1] * cosine - value[0] * sine)


def six_sums(samples: Sequence[Sample], start: int, end: int, satellite: int,
             phases: Phases) -> Sums:
    """The sums over the samples from the start to before the end, where the phases are those at the
    start. The early chip is half a chip ahead, the late one half a chip behind."""
    sums = [0] * 6
    for number in range(start, end):
        code, carrier = after(phases, number - start)
        parts = wiped(samples[number], carrier)
        for at, ahead in enumerate((HALF_CHIP, 0, -HALF_CHIP)):
            sign = chip_sign(satellite, code + ahead)
            sums[2 * at] += parts[0] * sign
            sums[2 * at + 1] += parts[1] * sign
    return Sums(*sums)


def segment_end(segment: Segment, step: int) -> int:
    """The least time after its start by which the code has run through."""
    return segment.start + max(1, -((segment.code - CODE) // step))


def next_segment(segment: Segment, phases: Phases, end: int) -> Segment:
    """The segment after one that ends: the code goes on past its cycle, the carrier in its own."""
    count = end - segment.start
    return Segment(end, segment.code + count * phases.code_step - CODE,
                   (segment.carrier + count * phases.carrier_step) % CYCLE)


def segments(settings: Settings, samples: Sequence[Sample],
             channel: Channel) -> tuple[list[Dump], Segment]:
    """The dumps of a channel that end within the samples, and the segment that is open then."""
    dumps: list[Dump] = []
    segment = Segment(channel.start, channel.code, 0)
    while True:
        shift = channel.steering([it.sums for it in dumps])
        phases = Phases(segment.code, segment.carrier, *steps(settings, shift))
        end = segment_end(segment, phases.code_step)
        if end > len(samples):
            return dumps, segment
        dumps.append(Dump(end, six_sums(samples, segment.start, end, channel.satellite, phases)))
        segment = next_segment(segment, phases, end)
