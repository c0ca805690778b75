"""Runs of the receiver over the beginning of a recording: what is found, and what has bits."""

from __future__ import annotations

from collections import Counter
from concurrent.futures import ThreadPoolExecutor
from dataclasses import dataclass
from typing import Dict, List, NamedTuple, Sequence

from seldomplough import feeds, programs, scripts
from seldomplough.lines import Acq, Line, StateTrack, read
from seldomplough.programs import Program, Stage
from seldomplough.recordings import FORMATS, Recording, Tuning, beginning, opened
from seldomplough.scripts import CLIENTS, SLOTS, Script, Search

# Samples after a search is due, so that its line comes for sure: they fill bytes.
SPARE = 8


class Found(NamedTuple):
    """What a search found: the power, the Doppler shift in Hz and the half chip."""

    power: int
    shift: int
    half_chip: int


class Start(NamedTuple):
    """Where a satellite is tracked from: its shift in Hz and its half chip at the first sample."""

    satellite: int
    shift: int
    half_chip: int


@dataclass(frozen=True)
class Bench:
    """The receiver, and packed samples of a recording's beginning."""

    receiver: Program
    format: str
    packed: bytes

    @property
    def samples(self) -> int:
        """How many samples there are."""
        return len(self.packed) * 8 // FORMATS[self.format]

    @property
    def energy(self) -> float:
        """The mean square of the samples, of both parts together."""
        bits = FORMATS[self.format]
        places = range(0, 8, bits)
        total = 0
        for byte, count in Counter(self.packed).items():
            total += count * sum(
                _square(byte >> at & (1 << bits) - 1, self.format) for at in places
            )
        return total / (self.samples or 1)

    def lines(self, tuning: Tuning, asked: Sequence[Script], samples: int) -> List[Line]:
        """The lines that scripts get of so many samples."""
        data = self.packed[: samples * FORMATS[self.format] // 8]
        with scripts.written(asked) as paths:
            words = [*tuning.words(), '--format', self.format, *paths]
            stage = Stage(self.receiver, words, paths)
            with programs.running([stage], feeds.of_bytes(data)) as stream:
                return list(read(stream))

    def search(
        self, tuning: Tuning, search: Search, satellites: Sequence[int], jobs: int = 1
    ) -> Dict[int, Found]:
        """The satellites that a search at the first sample finds, by so many runs at once."""
        due = search.length(tuning.rate) + SPARE
        parts = [it for it in (satellites[at::jobs] for at in range(jobs)) if it]

        def run(part: Sequence[int]) -> List[Line]:
            rows = [search.command(0, at % SLOTS, number) for at, number in enumerate(part)]
            return self.lines(tuning, by_four(rows), due)

        with ThreadPoolExecutor(jobs) as pool:
            lines = [line for part in pool.map(run, parts) for line in part]
        return {
            it.satellite: Found(it.power, it.doppler_hz(search.centre), it.half_chip)
            for it in lines
            if isinstance(it, Acq) and it.found
        }

    def track(self, tuning: Tuning, starts: Sequence[Start]) -> Dict[int, StateTrack]:
        """The last states of those satellites that have bits at the end, at most 32."""
        if not starts:
            return {}
        rows = [
            f'0 track {at % SLOTS} {it.satellite} {it.shift} {it.half_chip}'
            for at, it in enumerate(starts[: CLIENTS * SLOTS])
        ]
        asked = by_four(rows)
        for script in asked:
            script += [f'{self.samples} state {slot}' for slot in range(len(script))]
        lines = self.lines(tuning, asked, self.samples)
        return {it.satellite: it for it in lines if isinstance(it, StateTrack) and has_bits(it)}


def has_bits(state: StateTrack) -> bool:
    """Whether the edge of the data bits is found."""
    return state.stage == 'bits'


def _square(code: int, form: str) -> int:
    """The square of the sample of some bits, of both parts together."""
    if form.endswith('1'):
        return FORMATS[form]
    # A magnitude is the low bit of two.
    return sum(9 if code >> at & 1 else 1 for at in range(0, FORMATS[form], 2))


def by_four(rows: Script) -> List[Script]:
    """Scripts of four lines each."""
    return [rows[at : at + SLOTS] for at in range(0, len(rows), SLOTS)]


def bench_of(recording: Recording, samples: int, receiver: Program, pack: Program) -> Bench:
    """The bench of at most so many samples at the beginning of a recording."""
    size = recording.bytes_of(samples)
    if recording.kind is None:
        return Bench(receiver, recording.format, beginning(recording.name, size))
    with opened([Stage(pack, recording.pack_words())], recording.name, size) as stream:
        return Bench(receiver, recording.format, stream.read())
