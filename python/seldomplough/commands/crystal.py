"""Searches for how far a radio's crystal is off, and prints the receiver's options for it.

It assumes that all of the radio goes by one crystal. Give the rate and the offset as the radio was
set. Each E, in parts in a million (ppm), is searched for all satellites, as far to each side as
half a step. Then all that were found within 5 kHz of an E are tracked with its options, up to
`bits`. Noise is found now and then and has no bits.

A row has E, how many satellites were found near it, how many of these have bits, and the lowest and
the highest of their Doppler shifts. Satellites have shifts of up to 5 kHz on both sides of 0. So of
the E with most `bits` the last row takes the one at which the shifts lie evenly about 0. The last
line has its options. The true E may differ by as much as leaves all shifts within 5 kHz.

An E is left out where the receiver refuses its rate or offset, as each slow crystal's at a rate of
2046000. Standard error names those. The status is 1 where no satellite has bits.

    seldomplough crystal --rate 2048000 --format iq1 examples/crystal.iq1
"""

from __future__ import annotations

import argparse
from concurrent.futures import ThreadPoolExecutor
from typing import Dict, List, NamedTuple, Sequence, Tuple

from seldomplough import files, numbers, programs
from seldomplough.benches import Bench, Start, bench_of
from seldomplough.commands import options, recorded
from seldomplough.crystals import CARRIER, MILLION, SHIFT, is_taken, middle, tuned
from seldomplough.events import HZ_A_BIN
from seldomplough.failures import WORDS, Failure, one_line
from seldomplough.recordings import Tuning
from seldomplough.scripts import SATELLITES, Search

# Milliseconds of a search, its threshold in tenths of the mean power, and its most bins.
PERIODS, THRESHOLD, MOST_BINS = 6, 55, 40


class Seen(NamedTuple):
    """A satellite where it was found strongest: its power, the E of that search in ppm, its shift
    from there in Hz, and its half chip."""

    power: int
    ppm: float
    shift: int
    half_chip: int


class Tracked(NamedTuple):
    """An E in ppm: how many satellites were found near it, and the shifts in Hz of those with
    bits."""

    ppm: float
    near: int
    shifts: Dict[int, float]

    def row(self) -> str:
        """Its row of the table."""
        ends = '-'
        if self.shifts:
            ends = f'{min(self.shifts.values()):.0f} to {max(self.shifts.values()):.0f}'
        return f'{self.ppm:g} {self.near} {len(self.shifts)} {ends}\n'


class Hunt:
    """The search for a crystal over the beginning of a recording."""

    def __init__(self, bench: Bench, meant: Tuning, step: float, satellites: Sequence[int]) -> None:
        self.bench = bench
        self.meant = meant
        self.half_step = CARRIER * step / 2 / MILLION
        self.satellites = satellites
        self.seen: Dict[int, Seen] = {}

    def search(self, ppm: float) -> List[Tuple[int, Seen]]:
        """What is found beside the offset of a crystal."""
        bins = min(MOST_BINS, -(-round(self.half_step) // HZ_A_BIN))
        search = Search(bins, PERIODS, THRESHOLD)
        found = self.bench.search(tuned(self.meant, ppm), search, self.satellites)
        return [(it, Seen(at.power, ppm, at.shift, at.half_chip)) for it, at in found.items()]

    def take(self, found: Sequence[Tuple[int, Seen]]) -> None:
        """Keeps each satellite where it is strongest."""
        for satellite, seen in found:
            self.seen[satellite] = max(seen, self.seen.get(satellite, seen))

    def track(self, ppm: float) -> Tracked:
        """Tracks the satellites near the offset of a crystal."""
        tuning = tuned(self.meant, ppm)
        near = []
        for satellite, seen in sorted(self.seen.items()):
            shift = seen.shift + tuned(self.meant, seen.ppm).offset - tuning.offset
            if abs(shift) <= SHIFT + self.half_step:
                near.append(Start(satellite, shift, seen.half_chip))
        states = self.bench.track(tuning, near)
        return Tracked(ppm, len(near), {it: float(at.doppler_hz) for it, at in states.items()})


def add(subparsers: options.Subparsers) -> None:
    """Adds the command's words."""
    parser = options.command(subparsers, 'crystal')
    recorded.add(parser)
    ppm = numbers.decimal(-1000, 1000)
    parser.add_argument(
        '--from', type=ppm, default=-50.0, dest='first', metavar='PPM', help='-50 if not given'
    )
    parser.add_argument(
        '--to', type=ppm, default=50.0, dest='last', metavar='PPM', help='50 if not given'
    )
    parser.add_argument(
        '--step',
        type=numbers.decimal(1, 10),
        default=5.0,
        metavar='PPM',
        help='1 to 10; 5 if not given',
    )
    parser.add_argument(
        '--satellites',
        type=numbers.satellites,
        default=list(SATELLITES),
        metavar='LIST',
        help='such as 1,5,8-12; 1-32 if not given',
    )
    parser.add_argument(
        '--seconds',
        type=numbers.decimal(1, 60),
        default=6.0,
        metavar='S',
        help='of the recording to track; 6 if not given',
    )
    options.add_jobs(parser)
    options.add_programs(parser)
    parser.set_defaults(run=run)


def run(arguments: argparse.Namespace) -> int:
    """Searches, tracks and prints."""
    if arguments.first > arguments.last:
        raise Failure('crystal: --from is greater than --to', WORDS)
    recording = recorded.recording(arguments)
    meant = recording.tuning
    every = asked(meant, arguments.first, arguments.last, arguments.step)
    receiver = programs.find(programs.RECEIVER, arguments.receiver)
    pack = programs.find(programs.PACK, arguments.pack) if recording.kind else receiver
    bench = bench_of(recording, int(arguments.seconds * meant.rate), receiver, pack)
    hunt = Hunt(bench, meant, arguments.step, arguments.satellites)
    with ThreadPoolExecutor(arguments.jobs) as pool:
        for found in pool.map(hunt.search, every):
            hunt.take(found)
        tracked = list(pool.map(hunt.track, every))
    with files.write() as sink:
        sink.write('# ppm found bits shifts in Hz\n')
        for it in tracked:
            if it.near:
                sink.write(it.row())
        good = [it for it in tracked if it.shifts]
        if not good:
            raise Failure(f'{one_line(recording.name)}: no satellite has bits')
        sink.write(conclusion(hunt, good))
    return 0


def asked(meant: Tuning, first: float, last: float, step: float) -> List[float]:
    """The ppm that are searched. Those that the receiver refuses are said and left out."""
    count = int((last - first) / step + 1e-9) + 1
    every = [first + at * step for at in range(count)]
    left = [it for it in every if not is_taken(tuned(meant, it))]
    if left:
        text = ' '.join(f'{it:g}' for it in left)
        files.say(f'crystal: the receiver refuses the rate or offset at {text} ppm')
    return [it for it in every if it not in left]


def conclusion(hunt: Hunt, good: Sequence[Tracked]) -> str:
    """The last row, where it differs from those before, and the options."""
    it = min(good, key=lambda it: (-len(it.shifts), abs(middle(it.shifts.values()))))
    ppm, text = it.ppm, ''
    best = round(ppm - middle(it.shifts.values()) * MILLION / CARRIER, 1)
    if best != ppm and is_taken(tuned(hunt.meant, best)):
        ppm, text = best, hunt.track(best).row()
    return text + ' '.join(tuned(hunt.meant, ppm).words()) + '\n'
