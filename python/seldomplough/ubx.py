"""u-blox messages of subframes: UBX-RXM-SFRBX, which gpsd's gpsdecode and RTKLIB's convbin read."""

from __future__ import annotations

import struct
from typing import Iterable, Iterator

# For each of a word's six parity bits: the last bit of the word before that begins its sum, 29 or
# 30, and the data bits that follow (IS-GPS-200, section 20.3.5.2, table 20-XIV).
PARITY = (
    (29, (1, 2, 3, 5, 6, 10, 11, 12, 13, 14, 17, 18, 20, 23)),
    (30, (2, 3, 4, 6, 7, 11, 12, 13, 14, 15, 18, 19, 21, 24)),
    (29, (1, 3, 4, 5, 7, 8, 12, 13, 14, 15, 16, 19, 20, 22)),
    (30, (2, 4, 5, 6, 8, 9, 13, 14, 15, 16, 17, 20, 21, 23)),
    (30, (1, 3, 5, 6, 7, 9, 10, 14, 15, 16, 17, 18, 21, 22, 24)),
    (29, (3, 5, 6, 8, 9, 10, 11, 13, 15, 19, 22, 23, 24)),
)

# How each message begins, and the class and identity of this one.
PREAMBLE = b'\xb5b'
RXM_SFRBX = 2, 0x13
# The numbers of its body: its version, and what stands for GPS.
VERSION = 2
GPS = 0


def parity(data: int, before: int) -> int:
    """The six parity bits of 24 data bits. `before` is the last two bits of the word before."""
    bits = 0
    for start, places in PARITY:
        bit = before >> (30 - start) & 1
        for place in places:
            bit ^= data >> (24 - place) & 1
        bits = bits << 1 | bit
    return bits


def words(data: Iterable[int]) -> Iterator[int]:
    """The words of a subframe as the message has them: two bits of 0, 24 data bits, six of parity.

    Data bits that were sent inverted are turned back, as in the lines. The word before a subframe
    ends with 00."""
    before = 0
    for it in data:
        checks = parity(it, before)
        yield it << 6 | checks
        before = checks & 3


def checksum(data: bytes) -> bytes:
    """The two bytes of the sum at a message's end (Fletcher's, of RFC 1145)."""
    first = second = 0
    for byte in data:
        first = first + byte & 0xFF
        second = second + first & 0xFF
    return bytes((first, second))


def message(satellite: int, data: Iterable[int]) -> bytes:
    """The message of a subframe of a GPS satellite: the 24 data bits of each of its ten words."""
    numbers = GPS, satellite, 0, 0, 10, 0, VERSION, 0
    body = struct.pack('<8B10I', *numbers, *words(data))
    checked = struct.pack('<2BH', *RXM_SFRBX, len(body)) + body
    return PREAMBLE + checked + checksum(checked)
