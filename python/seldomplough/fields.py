"""The 90 fields of pages: names, sizes, scale factors and units (IS-GPS-200, section 20.3.3).

A field's value is its integer times its scale factor, in the standard's unit. Angles are in
semicircles there, and in radians by the standard's value of pi. All values are exact."""

from __future__ import annotations

from fractions import Fraction
from typing import Iterator, NamedTuple, Optional, Tuple

# The value of pi that the standard gives for these angles (IS-GPS-200, section 20.3.3.4.3).
PI = Fraction(31415926535898, 10**13)

# The units of angles, and what they are called in radians.
RADIANS = {'semicircles': 'rad', 'semicircles_per_s': 'rad_per_s'}
# The same in degrees, of which a semicircle has these.
DEGREES = {'semicircles': 'deg', 'semicircles_per_s': 'deg_per_s'}
DEGREES_A_SEMICIRCLE = 180


class Field(NamedTuple):
    """A field: how many bits it has, whether it is in two's complement, and its scale factor."""

    name: str
    bits: int
    is_signed: bool
    exponent: int
    unit: Optional[str] = None
    """The standard's unit as the end of a name, as `s_per_s`; None for a code or a count."""
    step: int = 1
    """What the scale factor has besides the power of two."""

    @property
    def least(self) -> int:
        """The least integer that the field can have."""
        return -(1 << self.bits - 1) if self.is_signed else 0

    @property
    def greatest(self) -> int:
        """The greatest integer that the field can have."""
        return (1 << self.bits - self.is_signed) - 1

    @property
    def scale(self) -> Fraction:
        """The scale factor."""
        return self.step * Fraction(2) ** self.exponent

    def value(self, integer: int) -> Fraction:
        """The value of an integer of this field, in the standard's unit."""
        return integer * self.scale

    def radians(self, integer: int) -> Fraction:
        """The value of an integer of this field, an angle or its rate, in radians (per second)."""
        return self.value(integer) * PI

    def degrees(self, integer: int) -> Fraction:
        """The same in degrees (per second)."""
        return self.value(integer) * DEGREES_A_SEMICIRCLE

    def named(self, integer: int) -> Iterator[Tuple[str, Fraction]]:
        """What an integer of this field means, under names with a unit."""
        if self.unit:
            yield f'{self.name}_{self.unit}', self.value(integer)
        if self.unit in RADIANS:
            yield f'{self.name}_{RADIANS[self.unit]}', self.radians(integer)
            yield f'{self.name}_{DEGREES[self.unit]}', self.degrees(integer)


def _unsigned(name: str, bits: int, exponent: int, unit: Optional[str], step: int = 1) -> Field:
    return Field(name, bits, False, exponent, unit, step)


def _signed(name: str, bits: int, exponent: int, unit: str) -> Field:
    return Field(name, bits, True, exponent, unit)


CLOCK = (
    _unsigned('wn', 10, 0, 'weeks'),
    _unsigned('l2', 2, 0, None),
    _unsigned('ura', 4, 0, None),
    _unsigned('health', 6, 0, None),
    _unsigned('iodc', 10, 0, None),
    _unsigned('l2p', 1, 0, None),
    _signed('tgd', 8, -31, 's'),
    _unsigned('toc', 16, 4, 's'),
    _signed('af2', 8, -55, 's_per_s2'),
    _signed('af1', 16, -43, 's_per_s'),
    _signed('af0', 22, -31, 's'),
)
"""The clock: subframe 1, table 20-I."""

EPHEMERIS = (
    _unsigned('iode', 8, 0, None),
    _signed('crs', 16, -5, 'm'),
    _signed('dn', 16, -43, 'semicircles_per_s'),
    _signed('m0', 32, -31, 'semicircles'),
    _signed('cuc', 16, -29, 'rad'),
    _unsigned('e', 32, -33, 'dimensionless'),
    _signed('cus', 16, -29, 'rad'),
    _unsigned('sqrta', 32, -19, 'sqrt_m'),
    _unsigned('toe', 16, 4, 's'),
    _unsigned('fit', 1, 0, None),
    _unsigned('aodo', 5, 0, 's', 900),
    _signed('cic', 16, -29, 'rad'),
    _signed('om0', 32, -31, 'semicircles'),
    _signed('cis', 16, -29, 'rad'),
    _signed('i0', 32, -31, 'semicircles'),
    _signed('crc', 16, -5, 'm'),
    _signed('w', 32, -31, 'semicircles'),
    _signed('omdot', 24, -43, 'semicircles_per_s'),
    _unsigned('iode3', 8, 0, None),
    _signed('idot', 14, -43, 'semicircles_per_s'),
)
"""The ephemeris: subframes 2 and 3, table 20-III."""

EPH = CLOCK + EPHEMERIS
"""The 31 fields of an `eph` line."""

ALM = (
    _unsigned('data', 2, 0, None),
    _unsigned('sv', 6, 0, None),
    _unsigned('e', 16, -21, 'dimensionless'),
    _unsigned('toa', 8, 12, 's'),
    _signed('di', 16, -19, 'semicircles'),
    _signed('omdot', 16, -38, 'semicircles_per_s'),
    _unsigned('health', 8, 0, None),
    _unsigned('sqrta', 24, -11, 'sqrt_m'),
    _signed('om0', 24, -23, 'semicircles'),
    _signed('w', 24, -23, 'semicircles'),
    _signed('m0', 24, -23, 'semicircles'),
    _signed('af0', 11, -20, 's'),
    _signed('af1', 11, -38, 's_per_s'),
)
"""The 13 fields of an `alm` line: table 20-VI."""

INCLINATION = Fraction(3, 10)
"""What the inclination of an almanac is above `di`, in semicircles (section 20.3.3.5.2.1)."""

UTC = (
    _unsigned('data', 2, 0, None),
    _unsigned('sv', 6, 0, None),
    _signed('al0', 8, -30, 's'),
    _signed('al1', 8, -27, 's_per_semicircle'),
    _signed('al2', 8, -24, 's_per_semicircle2'),
    _signed('al3', 8, -24, 's_per_semicircle3'),
    _signed('be0', 8, 11, 's'),
    _signed('be1', 8, 14, 's_per_semicircle'),
    _signed('be2', 8, 16, 's_per_semicircle2'),
    _signed('be3', 8, 16, 's_per_semicircle3'),
    _signed('a1', 24, -50, 's_per_s'),
    _signed('a0', 32, -30, 's'),
    _unsigned('tot', 8, 12, 's'),
    _unsigned('wnt', 8, 0, 'weeks'),
    _signed('dtls', 8, 0, 's'),
    _unsigned('wnlsf', 8, 0, 'weeks'),
    _unsigned('dn', 8, 0, 'days'),
    _signed('dtlsf', 8, 0, 's'),
)
"""The 18 fields of a `utc` line, the ionosphere's first: tables 20-IX and 20-X."""

HLT = (
    _unsigned('data', 2, 0, None),
    _unsigned('sv', 6, 0, None),
    _unsigned('toa', 8, 12, 's'),
    _unsigned('wna', 8, 0, 'weeks'),
    *(_unsigned(f'h{satellite}', 6, 0, None) for satellite in range(1, 25)),
)
"""The 28 fields of an `hlt` line: the health of satellites 1 to 24, section 20.3.3.5.1.3."""
