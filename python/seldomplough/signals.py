"""Signals of satellites as made recordings have them."""

from __future__ import annotations

import argparse
import math
import random
import re
from statistics import NormalDist
from typing import List, NamedTuple, Tuple

from seldomplough.codes import HALF_CHIPS, STAGES, chips
from seldomplough.crystals import CARRIER
from seldomplough.failures import shown
from seldomplough.numbers import GREATEST_SHIFT

# The standard deviation of the noise in each part, and how many levels it has.
DEVIATION = 20
LEVELS = 65536
# The greatest noise in a byte, and what that leaves for the satellites.
ROOM = 127 - math.ceil(DEVIATION * NormalDist().inv_cdf(1 - 0.5 / LEVELS))

CHIPS_A_SECOND, BITS_A_SECOND = 1023000, 50
CHIPS_A_BIT = CHIPS_A_SECOND // BITS_A_SECOND
# From here on a signal is too strong to be one, in dB-Hz.
TOO_DENSE = 60

PAIRS, REAL = 'iq-i8', 'i8'

NUMBER = r'(-?[0-9]{1,9}(?:\.[0-9]{1,9})?)'
WORD = re.compile(f'([0-9]{{1,2}}):{NUMBER}:{NUMBER}:{NUMBER}')


class Settings(NamedTuple):
    """What a recording is made by: seconds, samples a second, the offset in Hz, the crystal in
    parts in a million, its kind and the seed of what is drawn by chance."""

    seconds: int = 1
    rate: int = 2046000
    offset: int = 0
    crystal: float = 0.0
    kind: str = PAIRS
    seed: int = 1

    @property
    def parts(self) -> int:
        """How many numbers a sample has."""
        return 2 if self.kind == PAIRS else 1

    def true_rate_and_offset(self) -> Tuple[float, float]:
        """The samples a second, and where the carrier lies in Hz, by the radio's own crystal."""
        fast = self.crystal / 1e6
        tuner = (CARRIER - self.offset) * (1 + fast)
        return self.rate * (1 + fast), CARRIER - tuner


class Satellite(NamedTuple):
    """A satellite of a recording: its number, its Doppler shift in Hz, the half chip of its code at
    sample 0, its C/N0 in dB-Hz, and the word that names all that."""

    number: int
    doppler: float
    half_chip: float
    density: float
    word: str


class Signal(NamedTuple):
    """The signal of a satellite: the chips that have gone by sample 0 and go by in a sample, what
    the carrier turns in a sample, the signs of its chips, and its data bits times its amplitude."""

    start: float
    speed: float
    turn: float
    signs: List[int]
    bits: List[float]
    amplitude: float


def satellite(word: str) -> Satellite:
    """A type of argparse: SATELLITE:DOPPLER:HALF:CN0."""
    found = WORD.fullmatch(word)
    if not found:
        raise argparse.ArgumentTypeError(f"'{shown(word)}' isn't SATELLITE:DOPPLER:HALF:CN0")
    number = int(found[1])
    doppler, half_chip, density = map(float, found.groups()[1:])
    if not (
        1 <= number <= len(STAGES)
        and abs(doppler) <= GREATEST_SHIFT
        and 0 <= half_chip < HALF_CHIPS
        and 0 <= density < TOO_DENSE
    ):
        raise argparse.ArgumentTypeError(
            f"'{shown(word)}': 1 to 32, -{GREATEST_SHIFT} to {GREATEST_SHIFT} Hz, half chip 0 to "
            f'{HALF_CHIPS - 1}, below {TOO_DENSE} dB-Hz'
        )
    return Satellite(number, doppler, half_chip, density, word)


def signal(it: Satellite, settings: Settings) -> Signal:
    """The signal of a satellite in a recording."""
    rate, offset = settings.true_rate_and_offset()
    # With a variance v in each part, noise has the density 2 v / rate in pairs and in real samples.
    # The power of an amplitude a is a^2 in pairs, and a^2 / 2 in real samples.
    ratio = 10 ** (it.density / 10) / rate * 4 / settings.parts
    amplitude = DEVIATION * math.sqrt(ratio)
    drawn = random.Random(f'{settings.seed} {it.word}')
    signs = [drawn.choice((1, -1)) for _ in range(BITS_A_SECOND * settings.seconds + 3)]
    return Signal(
        it.half_chip / 2,
        CHIPS_A_SECOND * (1 + it.doppler / CARRIER) / rate,
        2 * math.pi * (offset + it.doppler) / rate,
        [1 - 2 * chip for chip in chips(it.number)],
        [sign * amplitude for sign in signs],
        amplitude,
    )
