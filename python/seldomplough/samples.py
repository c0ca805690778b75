"""The samples of made recordings: by numpy where it is installed, else ten times slower without.

`tools/maker` of a checkout is quicker, and sends a message. This stands beside it since the
companion is installed where nothing can be compiled, and since examples and the lines of pages are
of these bytes: their noise is that of Python's generator."""

from __future__ import annotations

import math
import random
import sys
from array import array
from statistics import NormalDist
from typing import Any, Callable, Iterator, List, Optional, Sequence

from seldomplough.codes import CHIPS
from seldomplough.failures import WORDS, Failure
from seldomplough.signals import CHIPS_A_BIT, DEVIATION, LEVELS, ROOM, Settings, Signal

# Samples that are made at once.
SIZE = 65536
# What makes the bytes of a block: of the noise's levels and the number of its first sample.
Maker = Callable[[bytes, int], bytes]


def recording(
    settings: Settings, signals: Sequence[Signal], module: Optional[Any] = None
) -> Iterator[bytes]:
    """The bytes of a recording. `module` is numpy, where it is to be used.

    The noise is drawn as levels of 16 bits, each a quantile of the normal distribution."""
    if sum(it.amplitude for it in signals) > ROOM:
        raise Failure('made: the satellites are too strong together for samples of a byte', WORDS)
    levels = [DEVIATION * NormalDist().inv_cdf((it + 0.5) / LEVELS) for it in range(LEVELS)]
    if module is None:
        make = plain(settings, signals, levels)
    else:
        make = by(module, settings, signals, levels)
    noise = random.Random(settings.seed)
    total = settings.seconds * settings.rate
    for first in range(0, total, SIZE):
        numbers = settings.parts * min(SIZE, total - first)
        yield make(noise.getrandbits(16 * numbers).to_bytes(2 * numbers, sys.byteorder), first)


def numpy() -> Optional[Any]:
    """The module numpy, None where it isn't installed."""
    try:
        import numpy as module
    except ImportError:
        return None
    return module


def complement(value: float) -> int:
    """The byte of two's complement of the nearest whole number."""
    return int(value + 128.5) ^ 128


def plain(settings: Settings, signals: Sequence[Signal], levels: List[float]) -> Maker:
    """Makes blocks without numpy."""
    parts = settings.parts
    if not signals:
        # A level of the noise is a byte then, whatever the sample's number is.
        table = [complement(it) for it in levels]
        return lambda drawn, first: bytes(map(table.__getitem__, array('H', drawn)))

    def make(drawn: bytes, first: int) -> bytes:
        values = [levels[it] for it in array('H', drawn)]
        numbers = range(first, first + len(values) // parts)
        block = [values[at::parts] for at in range(parts)]
        for it in signals:
            places = [int(it.start + it.speed * j) for j in numbers]
            sizes = [it.signs[at % CHIPS] * it.bits[at // CHIPS_A_BIT] for at in places]
            for part, wave in zip(block, (math.cos, math.sin)):
                part[:] = [x + a * wave(it.turn * j) for x, a, j in zip(part, sizes, numbers)]
        for at in range(parts):
            values[at::parts] = block[at]
        return bytes(map(complement, values))

    return make


def by(module: Any, settings: Settings, signals: Sequence[Signal], levels: List[float]) -> Maker:
    """Makes blocks by numpy, step by step as without it."""
    parts, of_levels = settings.parts, module.array(levels)
    codes = [(it, module.array(it.signs, float), module.array(it.bits)) for it in signals]

    def make(drawn: bytes, first: int) -> bytes:
        values = of_levels[module.frombuffer(drawn, module.uint16)]
        numbers = module.arange(first, first + len(values) // parts, dtype=float)
        for it, signs, bits in codes:
            places = (it.start + it.speed * numbers).astype(module.int64)
            sizes = signs[places % CHIPS] * bits[places // CHIPS_A_BIT]
            for at, wave in zip(range(parts), (module.cos, module.sin)):
                values[at::parts] += sizes * wave(it.turn * numbers)
        result: bytes = ((values + 128.5).astype(module.uint8) ^ 128).tobytes()
        return result

    return make
