"""What the words of a subframe say that no other line has: flags, and two pages of subframe 4.

Bits count from 1 within the subframe, as in IS-GPS-200, figure 20-1."""

from __future__ import annotations

from dataclasses import dataclass
from typing import Dict, Optional, Sequence, Tuple

from seldomplough.dates import SUBFRAMES_A_WEEK
from seldomplough.events import DATA_BITS, Sub

# The subframe of both pages, and the SV ID of the one of configurations (sections 20.3.3.5.1.3 and
# 20.3.3.5.1.4).
PAGES_SUBFRAME, CONFIGURATIONS_SV = 4, 63
CONFIGURATION_BITS, HEALTH_BITS = 4, 6
# The first bits of the stretches that have the configurations of satellites 1 to 32 side by side,
# and how many each has; and those of the healths of satellites 25 to 32.
CONFIGURATIONS = (69, 4), (91, 6), (121, 6), (151, 6), (181, 6), (211, 4)
HEALTHS = (229, 1), (241, 4), (271, 3)
FIRST_OF_HEALTHS = 25

# The page of corrections (section 20.3.3.5.1.9). After data ID, SV ID and two bits, which say who
# can use them, it has so many corrections of six bits, through all words. They count 0.3 m, and the
# least number of six bits stands for none.
CORRECTIONS_SV, CORRECTIONS, CORRECTION_BITS = 52, 30, 6
METRES = 0.3
NO_CORRECTION = -(1 << CORRECTION_BITS - 1)
BEFORE_CORRECTIONS = 10
AVAILABILITY = 69, 2

# Where each page has its SV ID, and which subframes have almanacs.
SV_ID = 63, 6
PAGES = 4, 5

# The subframes in a frame, and the frames after which pages come again (section 20.3.4.1).
SUBFRAMES, FRAMES = 5, 25
# The satellites whose almanacs subframe 4 has, by its pages (table 20-V).
SATELLITES_OF_4 = {2: 25, 3: 26, 4: 27, 5: 28, 7: 29, 8: 30, 9: 31, 10: 32}
MOST_OF_5 = 24


@dataclass(frozen=True)
class Flags:
    """The flags of a subframe that `satellite` sent, None where the word is damaged.

    With `alert` the user range accuracy may be worse than the message says. `anti_spoof` says that
    the P code is encrypted. With `integrity_status` the signal has the enhanced level of integrity
    assurance."""

    satellite: Optional[int]
    integrity_status: Optional[bool]
    alert: Optional[bool]
    anti_spoof: Optional[bool]


@dataclass(frozen=True)
class Configurations:
    """The page with SV ID 63: whether anti-spoof is on and the configuration of satellites 1 to 32,
    and the health of satellites 25 to 32, six bits each."""

    satellite: Optional[int]
    anti_spoof: Dict[int, bool]
    configurations: Dict[int, int]
    healths: Dict[int, int]


@dataclass(frozen=True)
class Corrections:
    """The page with SV ID 52: corrections of pseudoranges in its order, None where there is none.

    By `availability` they are for all (0), are encrypted (1), or there are none (2)."""

    satellite: Optional[int]
    availability: int
    corrections_m: Tuple[Optional[float], ...]


def flags_of(sub: Sub, satellite: Optional[int] = None) -> Flags:
    """The flags of a subframe."""
    return Flags(satellite, sub.integrity_status, sub.alert, sub.anti_spoof)


def sv_id(sub: Sub) -> Optional[int]:
    """The SV ID of a whole subframe 4 or 5, None of any other."""
    is_page = sub.id in PAGES and None not in sub.words
    return sub.bits(*SV_ID) if is_page else None


def configurations_of(sub: Sub, satellite: Optional[int] = None) -> Optional[Configurations]:
    """What a whole subframe says that is the page of configurations, None of any other."""
    if sub.id != PAGES_SUBFRAME or sv_id(sub) != CONFIGURATIONS_SV:
        return None
    codes = _row(sub, CONFIGURATIONS, CONFIGURATION_BITS, 1)
    return Configurations(
        satellite,
        {at: bool(it >> 3) for at, it in codes.items()},
        {at: it & 7 for at, it in codes.items()},
        _row(sub, HEALTHS, HEALTH_BITS, FIRST_OF_HEALTHS),
    )


def _row(sub: Sub, stretches: Sequence[Sequence[int]], size: int, number: int) -> Dict[int, int]:
    """The values of so many bits each that stand in these stretches, by satellite from a number."""
    result: Dict[int, int] = {}
    for first, count in stretches:
        for at in range(count):
            value = sub.bits(first + size * at, size)
            assert value is not None
            result[number + len(result)] = value
    return result


def corrections_of(sub: Sub, satellite: Optional[int] = None) -> Optional[Corrections]:
    """What a whole subframe says that is the page of corrections, None of any other."""
    availability = sub.bits(*AVAILABILITY)
    if sub.id != PAGES_SUBFRAME or sv_id(sub) != CORRECTIONS_SV or availability is None:
        return None
    data = ''.join(f'{it or 0:0{DATA_BITS}b}' for it in sub.words[2:])[BEFORE_CORRECTIONS:]
    found = (int(data[CORRECTION_BITS * it :][:CORRECTION_BITS], 2) for it in range(CORRECTIONS))
    signed = (it + 2 * NO_CORRECTION if it >= -NO_CORRECTION else it for it in found)
    metres = tuple(None if it == NO_CORRECTION else METRES * it for it in signed)
    return Corrections(satellite, availability, metres)


def place_of(sub: Sub) -> Optional[int]:
    """The satellite whose almanac has its place in this subframe, by the time of week."""
    # The time of week is that of the next subframe. Pages begin anew with each week.
    frame = (sub.tow - 1) % SUBFRAMES_A_WEEK // SUBFRAMES
    page = frame % FRAMES + 1
    if sub.id == 4:
        return SATELLITES_OF_4.get(page)
    return page if sub.id == 5 and page <= MOST_OF_5 else None
