"""Kinds of the signal: floors, samples, chips, steps, phases and the six sums. All four packings;
chips at both ends of a code and past it; phases at both ends of a chip and of an eighth of a cycle;
shifts at their limits, and steps of rates that don't divide them."""
from __future__ import annotations

from random import Random

from .. import antt, values
from ..reference import acquisition
from ..reference import signal as reference
from ..reference.signal import CODE, CYCLE, HALF_CHIP, Phases
from . import drawing
from .drawing import either, size
from .registry import Row, kind

EIGHTH = 1 << 29


def dividend(r: Random) -> tuple[int, int]:
    """A number of up to 71 bits, and a rate by which it is divided."""
    return either(r, 1 << 70), size(r, 20000000) + 1


@kind('floor_div')
def floor_div(r: Random) -> Row:
    number, by = dividend(r)
    return f'{antt.integer(number)} {by}', antt.integer(number // by)


@kind('floor_mod')
def floor_mod(r: Random) -> Row:
    number, by = dividend(r)
    return f'{antt.integer(number)} {by}', str(number % by)


def packed(r: Random) -> tuple[str, list[int], int]:
    """Bytes in a packing, and how many samples they have."""
    packing = r.choice(list(reference.SAMPLES_PER_BYTE))
    data = [r.choice([0, 255, r.randint(0, 255)]) for _ in range(r.randint(1, 12))]
    return packing, data, len(data) * reference.SAMPLES_PER_BYTE[packing]


@kind('sample')
def sample(r: Random) -> Row:
    packing, data, count = packed(r)
    number = r.randrange(count)
    return (f'{packing} {antt.listed(data)} {number}',
            values.complex_sample(reference.sample(packing, data, number)))


def unpacked(packing: str, data: list[int], first: int, end: int) -> str:
    """Samples of bytes as a list."""
    return antt.listed([reference.sample(packing, data, it) for it in range(first, end)],
                       values.complex_sample)


@kind('samples_from', group=5)
def samples_from(r: Random) -> Row:
    packing, data, count = packed(r)
    first = r.randint(0, count)
    end = r.randint(first, count)
    return (f'{packing} {antt.listed(data)} {first} {end - first}',
            unpacked(packing, data, first, end))


@kind('samples', group=5, count=20)
def samples(r: Random) -> Row:
    packing, data, count = packed(r)
    return f'{packing} {antt.listed(data)}', unpacked(packing, data, 0, count)


@kind('chip', count=8)
def chip(r: Random) -> Row:
    satellite, number = drawing.satellite(r), r.choice([size(r, 1022), r.randint(0, 5000)])
    return f'{satellite} {number}', str(reference.chip(satellite, number))


@kind('samples_per_ms')
def samples_per_ms(r: Random) -> Row:
    settings = drawing.settings(r)
    return values.settings(settings), str(acquisition.period(settings))


@kind('carrier_step')
def carrier_step(r: Random) -> Row:
    settings, v = drawing.settings(r), either(r, drawing.GREATEST_SHIFT)
    return (f'{values.settings(settings)} {antt.integer(v)}',
            str(reference.carrier_step(settings, v)))


@kind('code_step')
def code_step(r: Random) -> Row:
    settings, shift = drawing.settings(r), drawing.shift(r)
    return (f'{values.settings(settings)} {antt.integer(shift.v)} {antt.integer(shift.w)}',
            str(reference.code_step(settings, shift)))


@kind('code_phase_after')
def code_phase_after(r: Random) -> Row:
    phase, step, count = size(r, CODE - 1), size(r, CYCLE - 1), size(r, 1 << 30)
    made = reference.after(Phases(phase, 0, step, 0), count)[0]
    return f'{phase} {step} {count}', str(made)


@kind('carrier_phase_after')
def carrier_phase_after(r: Random) -> Row:
    phase, step, count = size(r, CYCLE - 1), size(r, CYCLE - 1), size(r, 1 << 30)
    made = reference.after(Phases(0, phase, 0, step), count)[1]
    return f'{phase} {step} {count}', str(made)


def sign_kind(name: str, ahead: int) -> None:
    """A kind of the sign of the chip so far ahead of a phase. The first chips are computed
    soonest."""
    @kind(name, count=30)
    def _(r: Random) -> Row:
        satellite, number = drawing.satellite(r), size(r, 20)
        within = r.choice([0, HALF_CHIP - 1, HALF_CHIP, CYCLE - 1, r.randrange(CYCLE)])
        phase = (number << 32) + max(within, number == 0 and HALF_CHIP)
        return f'{satellite} {phase}', antt.integer(reference.chip_sign(satellite, phase + ahead))


sign_kind('early_sign', HALF_CHIP)
sign_kind('prompt_sign', 0)
sign_kind('late_sign', -HALF_CHIP)


def of_unlike_ends(r: Random) -> int:
    """A satellite whose first chip isn't its last one."""
    while True:
        satellite = drawing.satellite(r)
        if reference.chip(satellite, 1022) != reference.chip(satellite, 0):
            return satellite


@kind('late_sign_at_start', group=1, count=1, of='late_sign')
def late_sign_at_start(r: Random) -> Row:
    """Less than half a chip after the start it is the last chip's."""
    satellite, phase = of_unlike_ends(r), r.choice([0, HALF_CHIP - 1])
    return f'{satellite} {phase}', antt.integer(1 - 2 * reference.chip(satellite, 1022))


@kind('early_sign_at_end', group=1, count=1, of='early_sign')
def early_sign_at_end(r: Random) -> Row:
    """Half a chip before the end, or less, it is the first chip's."""
    satellite, phase = of_unlike_ends(r), CODE - r.choice([1, HALF_CHIP])
    return f'{satellite} {phase}', antt.integer(1 - 2 * reference.chip(satellite, 0))


def wave_kind(name: str, table: tuple[int, ...]) -> None:
    """A kind of a wave, by the top three bits of the phase."""
    @kind(name)
    def _(r: Random) -> Row:
        phase = r.randrange(8) * EIGHTH + r.choice([0, EIGHTH - 1, r.randrange(EIGHTH)])
        return str(phase), antt.integer(table[phase // EIGHTH])


wave_kind('cosine', reference.COSINES)
wave_kind('sine', reference.SINES)


@kind('counts_over', group=2, count=4)
def counts_over(r: Random) -> Row:
    settings, count, satellite = drawing.slow(r), r.randint(0, 12), drawing.satellite(r)
    made, start = drawing.samples(r, count), r.randint(0, count)
    end = r.randint(start, count)
    steps = reference.steps(settings, reference.Shift(either(r, 1 << 24), 0))
    phases = Phases(drawing.code_phase(r), size(r, CYCLE - 1), *steps)
    return (f'{satellite} {values.phases(phases)} {values.samples(made)} {start} {end}',
            values.sums(reference.six_sums(made, start, end, satellite, phases)))


@kind('sum_of_counts', count=40)
def sum_of_counts(r: Random) -> Row:
    one, two = drawing.sums(r), drawing.sums(r)
    both = reference.Sums(*(a + b for a, b in zip(one, two)))
    return f'{values.sums(one)} {values.sums(two)}', values.sums(both)


@kind('phases_after', count=40)
def phases_after(r: Random) -> Row:
    """The code's phase isn't taken back by a cycle here: a segment ends where it comes to one."""
    step, count = 1 + size(r, CYCLE - 2), 0
    phase = size(r, CODE - 1)
    count = size(r, (CODE - 1 - phase) // step)
    phases = Phases(phase, size(r, CYCLE - 1), step, size(r, CYCLE - 1))
    made = reference.after(phases, count)
    return (f'{values.phases(phases)} {count}',
            values.phases(Phases(*made, phases.code_step, phases.carrier_step)))
