"""Makes recordings: the bytes of `tools/maker`, in other kinds of values."""

from __future__ import annotations

import subprocess
from array import array
from functools import lru_cache
from typing import List, Tuple

from conftest import built

RATE = 2048000
# Satellite, Doppler shift in Hz, half chip, C/N0 in dB-Hz, and periods of its message.
SATELLITES = ('3:1250:700:48:0', '6:-2100:67:47:3', '17:3300:1510:47:5')
SHIFTS = {3: 1250, 6: -2100, 17: 3300}
# The values of all bytes of two's complement.
SIGNED = [it - 256 * (it > 127) for it in range(256)]


@lru_cache(maxsize=None)
def made(
    offset: int = 0,
    kind: str = 'iq-i8',
    rate: int = RATE,
    seconds: float = 2,
    satellites: Tuple[str, ...] = SATELLITES,
) -> bytes:
    """Signed bytes of a made recording: noise with a deviation of 20, and satellites."""
    words = ['--samples', str(int(rate * seconds)), '--rate', str(rate), '--offset', str(offset)]
    command = [built('maker', 'maker'), *words, '--kind', kind, *satellites]
    return subprocess.run(command, stdout=subprocess.PIPE, check=True).stdout


def scaled(data: bytes, factor: float, added: int = 0) -> bytes:
    """Signed bytes times a factor and with a mean, clipped at the ends of the range."""
    values = (round(factor * it) + added for it in SIGNED)
    return data.translate(bytes(max(-128, min(127, it)) % 256 for it in values))


def unsigned(data: bytes) -> bytes:
    """Signed bytes as unsigned ones about 128."""
    return data.translate(bytes(it ^ 128 for it in range(256)))


def widened(data: bytes, values: List[bytes]) -> bytes:
    """Each byte as the bytes that a table has for it, all of one length."""
    size = len(values[0])
    result = bytearray(size * len(data))
    # A loop over millions of samples would take seconds for each recording.
    for at in range(size):
        result[at::size] = data.translate(bytes(it[at] for it in values))
    return bytes(result)


def words16(data: bytes, order: str) -> bytes:
    """Signed bytes times 100 as numbers of 16 bits."""
    values = [(100 * it).to_bytes(2, 'little', signed=True) for it in SIGNED]
    return widened(data, values if order == 'little' else [it[::-1] for it in values])


def floats(data: bytes) -> bytes:
    """Signed bytes over 128 as floats."""
    return widened(data, [array('f', [it / 128]).tobytes() for it in SIGNED])


def conjugate(data: bytes) -> bytes:
    """Pairs of signed bytes with their spectrum turned round."""
    values = bytearray(data)
    values[1::2] = data[1::2].translate(bytes(min(127, -it) % 256 for it in SIGNED))
    return bytes(values)


def bits(data: bytes, width: int, code: Tuple[int, int, int, int]) -> bytes:
    """Bits of signed bytes, the earliest in the low ones: the codes of +1, +3, -1 and -3."""

    def coded(it: int) -> int:
        return code[2 * (it < 0) + (abs(it) > 20)]

    table = bytes(map(coded, SIGNED))
    codes = data.translate(table)
    places = 8 // width
    size = len(data) // places
    columns = (codes[at : size * places : places] for at in range(places))
    # No code leaves its byte, so that all bytes are shifted at once.
    whole = sum(int.from_bytes(it, 'little') << width * at for at, it in enumerate(columns))
    return whole.to_bytes(size, 'little')
