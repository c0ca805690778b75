"""Made recordings with something wrong in them, or in what is believed of them."""
from __future__ import annotations

import random
import subprocess
from array import array
from dataclasses import dataclass
from typing import Callable, Dict, Iterator, List, Tuple

from made_runs import maker, name

SECONDS = 2
# The rate of pairs, and that of single values with the offset of their signal, in Hz.
PAIRS_RATE, REAL_RATE, REAL_OFFSET = 2048000, 2400000, 620000
# An offset of pairs that isn't 0, in Hz.
OFFSET = 430000
# The carrier L1 in Hz.
CARRIER = 1575420000
# The standard deviation of the maker's noise.
DEVIATION = 20

Change = Callable[[bytes], bytes]
Bytes = List[bytes]


def by_table(values: Bytes) -> Change:
    """The change of each signed byte into what the table has for -128 to 127."""
    return lambda data: b''.join([values[it + 128] for it in array('b', data)])


def signed(value: int) -> bytes:
    """A signed byte, clipped."""
    return max(-128, min(127, value)).to_bytes(1, 'little', signed=True)


def scaled(factor: float, added: int = 0) -> Change:
    """The change of signed bytes by a factor and a mean."""
    return by_table([signed(round(factor * it) + added) for it in range(-128, 128)])


def words(is_high_first: bool) -> Change:
    """Numbers of 16 bits."""
    values = [(100 * it).to_bytes(2, 'big', signed=True) for it in range(-128, 128)]
    return by_table(values if is_high_first else [it[::-1] for it in values])


def floats(data: bytes) -> bytes:
    """Floats of 32 bits."""
    return array('f', [it / 128 for it in array('b', data)]).tobytes()


def bits(codes: Tuple[int, int, int, int], width: int, is_low_first: bool = True) -> Change:
    """Values of a few bits, by the codes of 1, 3, -1 and -3."""
    table = bytes(codes[2 * (it > 127) + (abs(it - 256 * (it > 127)) > DEVIATION)]
                  for it in range(256))
    places = range(0, 8, width) if is_low_first else range(8 - width, -1, -width)

    def change(data: bytes) -> bytes:
        coded = data.translate(table)
        columns = [coded[at::len(places)] for at in range(len(places))]
        return bytes(sum(it << at for it, at in zip(row, places)) for row in zip(*columns))

    return change


def same(data: bytes) -> bytes:
    """No change."""
    return data


def unsigned(data: bytes) -> bytes:
    """Unsigned bytes about 128."""
    return bytes(it ^ 128 for it in data)


def conjugate(data: bytes) -> bytes:
    """Pairs with their spectrum turned round."""
    values = array('b', data)
    values[1::2] = array('b', [min(127, -it) for it in values[1::2]])
    return values.tobytes()


def exchanged(data: bytes) -> bytes:
    """Pairs with their parts exchanged."""
    values = array('b', data)
    values[::2], values[1::2] = values[1::2], values[::2]
    return values.tobytes()


KINDS: Dict[str, Change] = {
    'u8': unsigned, 'i8': same, 'i16': words(False), 'i16be': words(True), 'f32': floats,
    'bits2-low': bits((0, 1, 3, 2), 2), 'bits2-sm-low': bits((0, 1, 2, 3), 2),
    'bits1-low': bits((0, 0, 1, 1), 1), 'bits1-high': bits((0, 0, 1, 1), 1, False),
}


@dataclass(frozen=True)
class Case:
    """A recording: what it is, the words that say what is believed of it, its true kind, its rate,
    its offset, what is changed in the made bytes before they become that kind, and how many
    satellites are in it."""
    what: str
    words: str
    kind: str = 'iq-i8'
    rate: int = PAIRS_RATE
    offset: int = 0
    change: Change = same
    satellites: int = 3

    def drawn(self, seed: int) -> Tuple[Dict[int, float], bytes]:
        """The satellites with their Doppler shifts in Hz, and the bytes, by chance."""
        chance = random.Random(f'{seed} {self.what} {self.words}')
        shifts = {it: round(chance.uniform(-4000, 4000), 1)
                  for it in chance.sample(range(1, 33), self.satellites)}
        named = [name(it, shift, chance.uniform(0, 2045.9), round(chance.uniform(45, 48), 1),
                      chance.randrange(1000)) for it, shift in shifts.items()]
        is_pairs = self.kind.startswith('iq-')
        command = [maker(), '--samples', SECONDS * self.rate, '--rate', self.rate,
                   '--offset', self.offset, '--kind', 'iq-i8' if is_pairs else 'i8',
                   '--seed', chance.randrange(10**6), *named]
        made = subprocess.run(list(map(str, command)), stdout=subprocess.PIPE, check=True).stdout
        return shifts, KINDS[self.kind.split('iq-')[-1]](self.change(made))


def real(what: str, words: str, kind: str = 'i8', change: Change = same,
         offset: int = REAL_OFFSET) -> Case:
    """A case of single values."""
    return Case(what, words, kind, REAL_RATE, offset, change)


PAIRS_WORDS = f'--rate {PAIRS_RATE}'
REAL_WORDS = f'--rate {REAL_RATE} --offset {REAL_OFFSET}'
BYTES = f'--kind iq-i8 {PAIRS_WORDS}'


def kinds() -> Iterator[Case]:
    """Each kind, given and not given."""
    for kind in KINDS:
        pairs = f'iq-{kind}'
        yield Case(pairs, PAIRS_WORDS, pairs)
        yield Case(pairs, f'--kind {pairs} {PAIRS_WORDS}', pairs)
        yield real(kind, REAL_WORDS, kind)
        yield real(kind, f'--kind {kind} {REAL_WORDS}', kind)
    yield Case('iq-i8', '')
    yield Case('i8 at a quarter of 2048000', '', 'i8', PAIRS_RATE, PAIRS_RATE // 4)


def wrong_kinds() -> Iterator[Case]:
    """Another kind is believed."""
    for kind, believed in (('u8', 'i8'), ('i8', 'u8'), ('i16be', 'i16'), ('i16', 'i8'),
                           ('f32', 'i16'), ('bits2-sm-low', 'bits2-low'),
                           ('bits1-high', 'bits1-low')):
        yield Case(f'iq-{kind}', f'--kind iq-{believed} {PAIRS_WORDS}', f'iq-{kind}')
    yield Case('iq-i8', f'--kind i8 {PAIRS_WORDS}')
    yield real('i8', f'--kind iq-i8 {REAL_WORDS}')


def wrong_tunings() -> Iterator[Case]:
    """Another offset, sense of the spectrum, rate or crystal is believed."""
    away = f'{BYTES} --offset {OFFSET}'
    yield Case(f'offset {-OFFSET}', away, offset=-OFFSET)
    yield Case('offset 0', away)
    yield Case(f'offset {OFFSET}', BYTES, offset=OFFSET)
    yield real('i8 at a quarter of the rate', f'--kind i8 --rate {REAL_RATE}',
               offset=REAL_RATE // 4)
    yield Case('mirrored', BYTES, change=conjugate)
    yield Case(f'offset {OFFSET}, mirrored', away, offset=OFFSET, change=conjugate)
    yield Case('parts exchanged', BYTES, change=exchanged)
    yield real('i8, mirrored', f'--kind i8 {REAL_WORDS}', offset=-REAL_OFFSET)
    yield Case('rate 2500000', BYTES, rate=2500000)
    yield Case('rate 4092000', '--kind iq-i8 --rate 2046000', rate=4092000)
    for ppm in (30, -30):
        rate, tuned = (round(it * (1 + ppm / 1e6)) for it in (PAIRS_RATE, CARRIER))
        yield Case(f'crystal {ppm:+} ppm', f'--kind iq-u8 {PAIRS_WORDS}', 'iq-u8', rate,
                   CARRIER - tuned)


def wrong_levels() -> Iterator[Case]:
    """The level is too low or too high, the mean is off, or no satellite is there."""
    for what, change in (('mean of 0.75 rms', scaled(1, 15)), ('rms 0.47', scaled(0.47 / 20)),
                         ('clipped, rms 200', scaled(10))):
        for kind in ('iq-i8', 'iq-u8'):
            yield Case(f'{kind}, {what}', f'--kind {kind} {PAIRS_WORDS}', kind, change=change)
        yield real(f'i8, {what}', f'--kind i8 {REAL_WORDS}', change=change)
    yield Case('noise alone', BYTES, satellites=0)
    yield Case('zeros', PAIRS_WORDS, change=lambda data: bytes(len(data)), satellites=0)


def cases() -> List[Case]:
    """All."""
    return [*wrong_kinds(), *wrong_tunings(), *wrong_levels(), *kinds()]
