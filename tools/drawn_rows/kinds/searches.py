"""Kinds of acquisition: plans with each number at either end; times at the end of the dwell, at the
due time, and five samples to both sides; cells of equal power, and thresholds just met and just
missed; rates whose milliseconds have a rest."""
from __future__ import annotations

from random import Random

from .. import antt, values
from ..reference import acquisition as reference
from ..reference.acquisition import Cell, Plan
from ..reference.signal import Settings
from . import drawing
from .drawing import size
from .registry import Row, kind


@kind('bin_of')
def bin_of(r: Random) -> Row:
    plan = drawing.plan(r)
    cell = size(r, reference.cell_count(plan) - 1)
    return f'{values.plan(plan)} {cell}', antt.integer(reference.bin_of(plan, cell))


@kind('cell_phases')
def cell_phases(r: Random) -> Row:
    settings, plan = drawing.settings(r), drawing.plan(r)
    cell = size(r, reference.cell_count(plan) - 1)
    return (f'{values.settings(settings)} {values.plan(plan)} {cell}',
            values.phases(reference.cell_phases(settings, plan, cell)))


@kind('dwell_end')
def dwell_end(r: Random) -> Row:
    settings, plan, start = drawing.settings(r), drawing.plan(r), size(r, drawing.LAST_TIME)
    return (f'{values.settings(settings)} {values.plan(plan)} {start}',
            str(reference.dwell_end(settings, plan, start)))


@kind('due_time')
def due_time(r: Random) -> Row:
    settings, plan, start = drawing.settings(r), drawing.plan(r), size(r, drawing.LAST_TIME)
    return (f'{values.settings(settings)} {values.plan(plan)} {start}',
            str(reference.due_time(settings, plan, start)))


@kind('cells_done')
def cells_done(r: Random) -> Row:
    settings, plan, start = drawing.settings(r), drawing.plan(r), size(r, drawing.LAST_TIME)
    ends = [start, reference.dwell_end(settings, plan, start),
            reference.due_time(settings, plan, start)]
    time = max(start, r.choice([*(drawing.near(r, it, 5) for it in ends),
                                start + size(r, 1000000)]))
    return (f'{values.settings(settings)} {values.plan(plan)} {start} {time}',
            str(reference.cells_done(settings, plan, start, time)))


@kind('power_of', group=2, count=8)
def power_of(r: Random) -> Row:
    rate = r.choice([1999, 2500, 2000, r.randint(1000, 3999)])
    settings = Settings(rate, r.randint(-700, 700))
    dwell = r.choice([1, 3, 4])
    if r.random() < .3:
        # A sample for each period.
        settings, dwell = settings._replace(rate=r.choice([1000, 1500])), r.choice([5, 9, 10])
    plan = Plan(drawing.satellite(r), r.randint(-6000, 6000), r.randint(0, 2), dwell, 10)
    start = r.randint(0, 3)
    count = reference.dwell_end(settings, plan, start) + r.randint(0, 2)
    samples, cell = drawing.samples(r, count), r.randrange(reference.cell_count(plan))
    return (f'{values.settings(settings)} {values.plan(plan)} {values.samples(samples)} {start}'
            f' {cell}', str(reference.power(settings, plan, samples, start, cell)))


@kind('greatest_of', group=5)
def greatest_of(r: Random) -> Row:
    powers = [r.randint(0, 4) for _ in range(r.randint(1, 12))]
    return (f'(λ k. get_or {antt.listed(powers)} k 0) {len(powers)}',
            antt.optional(powers.index(max(powers))))


@kind('named_cell', group=1, count=24)
def named_cell(r: Random) -> Row:
    bins = r.choice([0, 0, 0, 0, 0, 1])
    count = reference.HALF_CHIPS * (1 + 2 * bins)
    usual, at = r.choice([0, 0, 1, 20]), r.choice([0, 1, 5, r.randrange(60), count - 1])
    powers = [usual] * count
    powers[at] = max(usual, r.choice([0, 1, 7, 20, r.randint(0, 90), 1 << 20, 1 << 60]))
    if at > 60:
        # The first cell, which is nearly as great, shows of each other one that it isn't greatest.
        powers[at], powers[0] = max(usual + 2, powers[at]), max(usual + 1, powers[at] - 1)
    border = 10 * powers[at] * count // max(1, sum(powers))
    threshold = r.choice([border, border + 1, border - 1, 1 + size(r, 999)])
    plan = Plan(drawing.satellite(r), 0, bins, 1, min(1000, max(1, threshold)))
    return (f'{values.plan(plan)} (λ k. if k == {at} then {powers[at]} else'
            f' if k == 0 then {powers[0]} else {usual})',
            values.cell(reference.named(plan, powers)))


@kind('found_channel', group=1, count=15, is_whole=True)
def found_channel(r: Random) -> Row:
    settings, plan = r.choice([drawing.settings(r), drawing.slow(r)]), drawing.plan(r)
    start = size(r, 1 << 30)
    cell = Cell(r.randint(-plan.bins, plan.bins), size(r, 2045), 1, True)
    made = reference.found_channel(settings, plan, start, cell)
    return (f'parts_of (found_channel {values.settings(settings)} {values.plan(plan)} {start}'
            f' {values.cell(cell)})', values.parts(made))


class Search:
    """A search of samples that are all alike, at its due time or one beside it. The cell that it
    names isn't computed: the row says of which search it is."""

    def __init__(self, r: Random) -> None:
        self.settings, self.plan = Settings(1000, 0), drawing.plan(r, bins=0)
        self.begun = r.randint(1, 9)
        self.due = reference.due_time(self.settings, self.plan, self.begun)
        self.count = self.due + r.choice([-1, 0, 0, 0, 1])
        self.samples = f'(replicate {self.count} (real (pos 1)))'

    def arguments(self, start: str) -> str:
        """The settings, the samples, the begin, and a start."""
        return f'{values.settings(self.settings)} {self.samples} {self.begun} {start}'

    def result(self) -> str:
        """The cell, as a term."""
        return (f'(result_of {values.settings(self.settings)} {values.plan(self.plan)}'
                f' {self.samples} {self.begun})')


@kind('due_events', group=1, count=12, unfolded=())
def due_events(r: Random) -> Row:
    search = Search(r)
    told = f'acquired {search.plan.satellite} {search.result()} ∷ []'
    return (search.arguments(values.start('acquire', search.plan)),
            told if search.count == search.due else '[]')


@kind('found_nothing', group=1, count=8, unfolded=())
def found_nothing(r: Random) -> Row:
    search, acquires = Search(r), r.random() < .7
    start = values.start('acquire', search.plan) if acquires else '(hold 1 (pos 0) 0)'
    is_due = acquires and search.count >= search.due
    return (search.arguments(start), f'not {search.result()}.found' if is_due else 'false')
