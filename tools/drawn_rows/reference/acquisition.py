"""Acquisition: the powers of all cells of a plan over its dwell, the cell that is named, and when.
(This project's own.)

The cells come by bin from the lowest on, and in a bin by half chip, of which there are 2,046. Bins
are 250 Hz apart. A cell is summed up over each period of floor(rate / 1000) samples by itself."""
from __future__ import annotations

from typing import NamedTuple, Sequence

from .signal import Channel, HALF_CHIP, Phases, Sample, Settings, Shift, Sums, after, code_step
from .signal import six_sums, steps
from .loops import steering

HALF_CHIPS = 2046


class Plan(NamedTuple):
    """The satellite, the centre in Hz, the bins to each side, the periods of the dwell, and the
    threshold in tenths of the mean power."""
    satellite: int
    centre: int
    bins: int
    dwell: int
    threshold: int


class Cell(NamedTuple):
    """A cell with its power, and whether the signal is found there."""
    bin: int
    half_chip: int
    power: int
    is_found: bool


def cell_count(plan: Plan) -> int:
    """How many cells a plan has."""
    return HALF_CHIPS * (2 * plan.bins + 1)


def bin_of(plan: Plan, cell: int) -> int:
    """The bin of a cell, 0 in the middle."""
    return cell // HALF_CHIPS - plan.bins


def bin_shift(plan: Plan, number: int) -> Shift:
    """The shift at a bin."""
    return Shift((plan.centre + 250 * number) * 65536, 0)


def cell_phases(settings: Settings, plan: Plan, cell: int) -> Phases:
    """The phases with which a cell's replica begins, and its steps."""
    shift = bin_shift(plan, bin_of(plan, cell))
    return Phases(cell % HALF_CHIPS * HALF_CHIP, 0, *steps(settings, shift))


def period(settings: Settings) -> int:
    """How many samples a millisecond has, rounded down."""
    return settings.rate // 1000


def power(settings: Settings, plan: Plan, samples: Sequence[Sample], start: int,
          cell: int) -> int:
    """The power of a cell: both prompt sums of each period squared, and added up."""
    phases, total = cell_phases(settings, plan, cell), 0
    for number in range(plan.dwell):
        first = number * period(settings)
        begin = Phases(*after(phases, first), phases.code_step, phases.carrier_step)
        sums: Sums = six_sums(samples, start + first, start + first + period(settings),
                              plan.satellite, begin)
        total += sums.ip ** 2 + sums.qp ** 2
    return total


def named(plan: Plan, powers: Sequence[int]) -> Cell:
    """The first cell that no other exceeds. It is found where ten times its power is the threshold
    times the mean of all, or more."""
    greatest = max(powers)
    cell = list(powers).index(greatest)
    return Cell(bin_of(plan, cell), cell % HALF_CHIPS, greatest,
                10 * greatest * cell_count(plan) >= plan.threshold * sum(powers))


def result(settings: Settings, plan: Plan, samples: Sequence[Sample], start: int) -> Cell:
    """The cell that a whole search names."""
    return named(plan, [power(settings, plan, samples, start, it)
                        for it in range(cell_count(plan))])


def dwell_end(settings: Settings, plan: Plan, start: int) -> int:
    """When all samples of the search are there."""
    return start + plan.dwell * period(settings)


def due_time(settings: Settings, plan: Plan, start: int) -> int:
    """When the cell is named: four samples for each cell after the dwell."""
    return dwell_end(settings, plan, start) + 4 * cell_count(plan)


def cells_done(settings: Settings, plan: Plan, start: int, time: int) -> int:
    """How many cells are done by a time: none up to the end of the dwell."""
    return min(cell_count(plan), max(0, time - dwell_end(settings, plan, start)) // 4)


def found_channel(settings: Settings, plan: Plan, start: int, cell: Cell) -> Channel:
    """What is tracked from the due time on: the code has gone on since the start at the cell's
    step, and the carrier begins anew."""
    shift, due = bin_shift(plan, cell.bin), due_time(settings, plan, start)
    begin = Phases(cell.half_chip * HALF_CHIP, 0, code_step(settings, shift), 0)
    return Channel(plan.satellite, due, after(begin, due - start)[0], steering(shift.v))
