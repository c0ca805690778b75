"""Tries of a recording: under which assumptions its satellites have bits.

The code is real, so that a search finds satellites in an inverted spectrum too, at the frequency of
the other sign. Only their codes run the wrong way there. So what a search finds is tracked twice,
as it stands and inverted. The right one is that with more `bits`; of equals, that whose loops have
to correct the code less."""

from __future__ import annotations

from dataclasses import dataclass, replace
from statistics import fmean
from typing import Dict, NamedTuple, Optional, Tuple

from seldomplough.benches import Bench, Found, Start
from seldomplough.crystals import CARRIER, MILLION, SHIFT, is_taken, middle, tuned
from seldomplough.lines import StateTrack
from seldomplough.recordings import ALIASES, PAIRS, Recording, Tuning
from seldomplough.scripts import SATELLITES, Search

# A search about the offset: satellites, and a crystal that is off by 3 ppm. And one about the
# offset of a crystal that is off by more. Both reach 10 kHz to each side.
NEAR, WIDE = Search(bins=40), Search(bins=40, periods=6, threshold=55)
# The mirrored one is preferred where its corrections are so much smaller.
SMALLER = 2.0
# The most that are tracked: the strongest.
MOST = 12


class Outcome(NamedTuple):
    """A recording as it was tracked, and the last states of the satellites that have bits."""

    recording: Recording
    states: Dict[int, StateTrack]
    ppm: float = 0.0
    strength: float = 0.0
    """The powers that these satellites were found with, in parts of the samples' mean square."""

    @property
    def rank(self) -> Tuple[int, float]:
        """The greater, the better: how many have bits, and how strong they are."""
        return len(self.states), self.strength

    @property
    def correction(self) -> float:
        """The mean size of the codes' corrections, in chips a second."""
        values = [abs(it.code_correction_chips_per_s) for it in self.states.values()]
        return fmean(map(float, values)) if values else 0.0


@dataclass(frozen=True)
class Trial:
    """A recording with an assumption of its kind, packing and tuning, and its packed samples."""

    recording: Recording
    bench: Bench
    jobs: int

    def found(self, ppm: float = 0.0) -> Dict[int, Found]:
        """What a search finds about the offset, or about that of a crystal that is off."""
        tuning = tuned(self.recording.tuning, ppm)
        search = WIDE if ppm else NEAR
        return self.bench.search(tuning, search, list(SATELLITES), self.jobs)

    def tracked(self, found: Dict[int, Found], ppm: float = 0.0) -> Optional[Outcome]:
        """The better one of both ways to track what was found, None where none has bits."""
        offset = tuned(self.recording.tuning, ppm).offset
        strongest = sorted(found, key=lambda it: -found[it].power)[:MOST]
        places = {it: offset + found[it].shift for it in strongest}
        # What lies near the believed offset comes first: noise may have been found elsewhere.
        near = {
            it: at for it, at in places.items() if abs(at - self.recording.tuning.offset) <= SHIFT
        }
        places = near or places
        plain = self._track(self.recording, self.bench, places, found)
        other = mirrored(self.recording)
        bench = self.bench
        if self.recording.format.startswith(PAIRS):
            bench = replace(bench, packed=conjugate(bench.packed, bench.format))
        turned = self._track(other, bench, {it: -at for it, at in places.items()}, found)
        return better(plain, turned)

    def refined(self, outcome: Outcome) -> Outcome:
        """The outcome with all satellites about its offset, which a search beside it may miss."""
        recording, bench = outcome.recording, self.bench
        if recording.packing != self.recording.packing:
            bench = replace(bench, packed=conjugate(bench.packed, bench.format))
        found = Trial(recording, bench, self.jobs).found()
        if not found:
            return outcome
        places = {it: recording.tuning.offset + at.shift for it, at in found.items()}
        again = self._track(recording, bench, places, found, 0)
        again = again._replace(ppm=round(outcome.ppm + again.ppm, 1))
        return again if len(again.states) >= len(outcome.states) else outcome

    def _track(
        self,
        recording: Recording,
        bench: Bench,
        places: Dict[int, int],
        found: Dict[int, Found],
        farthest: int = SHIFT,
    ) -> Outcome:
        """Tracks satellites at their places in the spectrum, in Hz.

        Where one is farther from the offset than `farthest`, the crystal is off by what lays all
        evenly about it."""
        meant = recording.tuning
        shifts = [it - meant.offset for it in places.values()]
        ppm = 0.0
        if max(max(shifts), -min(shifts)) > farthest:
            ppm = round(-middle(shifts) * MILLION / (CARRIER - meant.offset), 1)
        tuning = tuned(meant, ppm)
        if not is_taken(tuning):
            return Outcome(recording, {}, ppm)
        starts = [
            Start(it, at - tuning.offset, found[it].half_chip)
            for it, at in places.items()
            if abs(at - tuning.offset) <= 2 * SHIFT
        ]
        states = bench.track(tuning, starts)
        strength = sum(found[it].power for it in states) / (bench.energy or 1.0)
        return Outcome(replace(recording, tuning=tuning), states, ppm, strength)


def better(plain: Outcome, turned: Outcome) -> Optional[Outcome]:
    """The one of two that the lines speak for, None where they speak for none."""
    if not plain.states and not turned.states:
        return None
    if len(plain.states) != len(turned.states):
        return max(plain, turned, key=lambda it: len(it.states))
    return turned if plain.correction > SMALLER * turned.correction else plain


def mirrored(recording: Recording) -> Recording:
    """The recording with its spectrum inverted: a frequency F becomes -F."""
    tuning = Tuning(recording.tuning.rate, -recording.tuning.offset)
    packing, kind = recording.packing, recording.kind
    if kind is None and recording.format.startswith(PAIRS):
        # Where the packing is a kind too `pack` can turn it round.
        kind = ALIASES.get(recording.format)
    if recording.format.startswith(PAIRS):
        word = '--conjugate'
        rest = tuple(it for it in packing if it != word)
        packing = rest if word in packing else (*packing, word)
        return replace(recording, tuning=tuning, packing=packing, kind=kind)
    return replace(recording, tuning=tuning)


def conjugate(packed: bytes, form: str) -> bytes:
    """Packed pairs with the sign of the part in quadrature inverted, as `pack --conjugate` does."""
    signs = 0x55 if form == 'iq1' else 0x22
    return packed.translate(bytes(it ^ signs for it in range(256)))
