"""How far a radio's crystal is off, and what that does to its recordings.

All of the radio goes by one crystal, as in an RTL-SDR. Where that is fast by E ppm, the samples
come at R (1 + E/10^6) a second in place of R. The tuner's frequency F, which is 1575.42 MHz less
the offset, is too high by F E/10^6, so the offset is less by as much. This holds for pairs and for
real samples, with any number of mixers, and where the sampling folds the signal: each of these
frequencies is a multiple of the crystal's."""

from __future__ import annotations

from typing import Iterable

from seldomplough.numbers import GREATEST_RATE, LEAST_RATE
from seldomplough.recordings import Tuning

# The carrier L1 in Hz.
CARRIER = 1575420000
# The greatest Doppler shift of a satellite for a radio at rest, in Hz.
SHIFT = 5000
MILLION = 1e6


def tuned(meant: Tuning, ppm: float) -> Tuning:
    """The true tuning of a radio whose crystal is fast by so many ppm, where `meant` was set."""
    fast = ppm / MILLION
    rate = round(meant.rate * (1 + fast))
    return Tuning(rate, round(meant.offset - (CARRIER - meant.offset) * fast))


def is_taken(tuning: Tuning) -> bool:
    """Whether the receiver takes a rate and an offset."""
    return LEAST_RATE <= tuning.rate <= GREATEST_RATE and 2 * abs(tuning.offset) <= tuning.rate


def middle(shifts: Iterable[float]) -> float:
    """Half way between the highest and the lowest of some shifts, in Hz."""
    values = list(shifts)
    return (max(values) + min(values)) / 2
