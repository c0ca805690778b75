"""Pictures of a run as numbers and names, before they are drawn."""

from __future__ import annotations

import math
from statistics import mean, median_low
from typing import Callable, Dict, Iterable, Iterator, List, NamedTuple, Optional, Tuple

from seldomplough.codes import HALF_CHIPS
from seldomplough.commanded import Command, Commanded
from seldomplough.curves import Curve, Mark, Picture, Wanted
from seldomplough.failures import Failure
from seldomplough.lines import Acq, Bits, Count, Line, Lock, StateTrack
from seldomplough.replies import PARTS

# The most points of a curve whose points aren't joined, and the code periods of a mean.
MOST_POINTS = 500
PERIODS = 20
# The times whose sums the plane shows, in seconds: while the loops pull in, and once they have.
EARLY, LATE = (0.0, 0.2), (1.0, 1.3)

SUM, SIZE = '[samples]', 'sqrt(I^2 + Q^2) [samples]'
TIME = 'time [s]'


class Dumps(NamedTuple):
    """The dumps of one slot with their seconds, and where it locked and found the bits' edge."""

    counts: List[Tuple[float, Count]]
    marks: List[Mark]


def dumps(lines: Iterable[Line], wanted: Wanted) -> Dumps:
    """The dumps of a slot: of all that are wanted, the one that has the first dump."""
    counts: List[Tuple[float, Count]] = []
    marks: Dict[Tuple[int, int, str], Mark] = {}
    place: Optional[Tuple[int, int]] = None
    for line in lines:
        if not (isinstance(line, (Count, Lock, Bits)) and wanted.takes(line)):
            continue
        second = line.time / wanted.rate
        if isinstance(line, Count):
            place = place or (line.client, line.slot)
            if place == (line.client, line.slot):
                counts.append((second, line))
        else:
            marks.setdefault((line.client, line.slot, line.kind), Mark(second, line.kind))
    if place is None:
        raise Failure('no `count` lines of that slot and time')
    return Dumps(counts, [mark for key, mark in marks.items() if key[:2] == place])


def prompt(lines: Iterable[Line], wanted: Wanted) -> Picture:
    """The prompt sums of a slot over time, some of them where they are many."""
    counts, marks = dumps(lines, wanted)
    curves = Curve('in phase (IP)'), Curve('in quadrature (QP)')
    for second, line in counts[:: math.ceil(len(counts) / MOST_POINTS)]:
        for curve, value in zip(curves, (line.ip, line.qp)):
            curve.add(second, value)
    title = 'Prompt sums of each code period'
    return Picture(title, TIME, f'sum {SUM}', list(curves), is_joined=False, marks=marks)


def scatter(lines: Iterable[Line], wanted: Wanted) -> Picture:
    """The prompt sums of a slot against each other: while the loops pull in, and later."""
    curves = Curve(f'first {EARLY[1]} s'), Curve(f'{LATE[0]} s to {LATE[1]} s')
    for second, line in dumps(lines, wanted).counts:
        for curve, (since, until) in zip(curves, (EARLY, LATE)):
            if since <= second < until:
                curve.add(line.ip, line.qp)
    x_title, y_title = f'in phase: IP {SUM}', f'in quadrature: QP {SUM}'
    title = 'Prompt sums of each code period'
    return Picture(title, x_title, y_title, list(curves), is_joined=False, is_plane=True)


def sizes(line: Count) -> Tuple[float, float, float]:
    """The sizes of the early, prompt and late sums."""
    return math.hypot(line.ie, line.qe), math.hypot(line.ip, line.qp), math.hypot(line.il, line.ql)


def correlators(lines: Iterable[Line], wanted: Wanted) -> Picture:
    """The sizes of the early, prompt and late sums of a slot over time, means of code periods."""
    counts, marks = dumps(lines, wanted)
    curves = Curve('early'), Curve('prompt'), Curve('late')
    for at in range(PERIODS, len(counts) + 1, PERIODS):
        group = [sizes(line) for _, line in counts[at - PERIODS : at]]
        for curve, values in zip(curves, zip(*group)):
            curve.add(counts[at - 1][0], mean(values))
    title = f'Sizes of the sums, means of {PERIODS} code periods'
    return Picture(title, TIME, SIZE, list(curves), from_zero=True, marks=marks)


def by_satellite(points: Iterable[Tuple[int, float, float]], what: str) -> List[Curve]:
    """A curve for each satellite of these points, by its number."""
    curves: Dict[int, Curve] = {}
    for satellite, x, y in points:
        curves.setdefault(satellite, Curve(f'satellite {satellite}')).add(x, y)
    if not curves:
        raise Failure(f'no {what} of that slot and time')
    return [curves[it] for it in sorted(curves)]


def doppler(lines: Iterable[Line], wanted: Wanted) -> Picture:
    """The Doppler shifts of tracked satellites over time, from `state` lines."""
    points = (
        (line.satellite, line.time / wanted.rate, line.v / PARTS)
        for line in lines
        if isinstance(line, StateTrack) and wanted.takes(line)
    )
    curves = by_satellite(points, '`state` lines of tracking slots')
    title = 'Doppler shift of tracked satellites'
    return Picture(title, TIME, 'V / 65536 [Hz]', curves)


def bins(lines: Iterable[Line], wanted: Wanted) -> Picture:
    """The powers of a run's acquisitions over the Doppler shifts of their strongest bins."""
    commanded, points = Commanded(wanted.scripts), []
    for line in lines:
        commanded.feed(line)
        if isinstance(line, Acq) and wanted.takes(line):
            command = commanded.of(line)
            if command is not None:
                points.append((line.satellite, line.doppler_hz(command.shift), line.power / 1000))
    curves = by_satellite(sorted(points), '`acq` lines that the scripts ask for')
    title, x_title = 'Power of the strongest half chip of each bin', 'Doppler shift of the bin [Hz]'
    return Picture(title, x_title, 'POWER / 1000 [squared samples]', curves, from_zero=True)


def triangle(lines: Iterable[Line], wanted: Wanted) -> Picture:
    """The mean sizes of the sums of slots that hold a satellite, over the offset of their codes.

    It is counted from the middle one of the half chips at which slots hold the satellite. The first
    dump of a slot is left out, since it isn't of a whole period."""
    commanded = Commanded(wanted.scripts)
    started: Dict[Tuple[int, int], Command] = {}
    held: Dict[int, Dict[int, List[Tuple[float, float, float]]]] = {}
    for line in lines:
        commanded.feed(line)
        if not (isinstance(line, Count) and wanted.takes(line)):
            continue
        command = commanded.of(line)
        if command is None or command.half_chip is None:
            continue
        if started.get((line.client, line.slot)) is command:
            places = held.setdefault(command.satellite, {})
            places.setdefault(command.half_chip, []).append(sizes(line))
        started[line.client, line.slot] = command
    points = [(it, *point) for it, places in held.items() for point in offsets(places)]
    curves = by_satellite(points, '`count` lines of what the scripts hold')
    x_title = 'offset of the replica from the half chip found [chips]'
    title = 'Mean size of the sums over the offset of the code'
    return Picture(title, x_title, f'mean of {SIZE}', curves, from_zero=True)


def offsets(held: Dict[int, List[Tuple[float, float, float]]]) -> Iterator[Tuple[float, float]]:
    """The mean sizes over the offsets in chips, of early, prompt and late sums by half chip."""
    first = min(held)
    turned = {it: (it - first + HALF_CHIPS // 2) % HALF_CHIPS - HALF_CHIPS // 2 for it in held}
    middle = median_low(turned.values())
    groups: Dict[int, List[float]] = {}
    for half_chip, values in held.items():
        for beside, column in zip((-1, 0, 1), zip(*values)):
            groups.setdefault(turned[half_chip] - middle + beside, []).extend(column)
    for at, group in sorted(groups.items()):
        yield at / 2, mean(group)


PICTURES: Dict[str, Callable[[Iterable[Line], Wanted], Picture]] = {
    it.__name__: it for it in (prompt, scatter, correlators, doppler, bins, triangle)
}
"""What makes each picture, by its name."""
NEED_SCRIPTS = ('bins', 'triangle')
