"""The fields against the definitions that the receiver is proved by."""

from __future__ import annotations

import math
from fractions import Fraction

import printed
import pytest

from seldomplough import fields

TABLES = {'eph': fields.EPH, 'alm': fields.ALM, 'utc': fields.UTC, 'hlt': fields.HLT}


@pytest.mark.parametrize('kind', TABLES)
def test_fields_are_those_of_the_definitions(kind: str) -> None:
    ours = [(it.name, it.bits, it.is_signed, it.exponent) for it in TABLES[kind]]
    assert ours == [tuple(it) for it in printed.FIELDS[kind]]


def test_there_are_90_fields() -> None:
    assert [len(it) for it in TABLES.values()] == [31, 13, 18, 28]


def test_ranges_of_two_bits_of_each_kind() -> None:
    signed = fields.Field('x', 2, True, 0)
    unsigned = fields.Field('x', 2, False, 0)
    assert (signed.least, signed.greatest) == (-2, 1)
    assert (unsigned.least, unsigned.greatest) == (0, 3)


@pytest.mark.parametrize(
    'kind, name, integer, value',
    [
        # RINEX files of navigation messages have these numbers for one unit of each.
        ('eph', 'af0', 1, 4.656612873077e-10),
        ('eph', 'af1', 1, 1.136868377216e-13),
        ('eph', 'toe', 25200, 403200.0),
        # The square root of the nominal half axis, 26559.7 km.
        ('eph', 'sqrta', 2701952512, 5153.565430),
        # The age of data offset counts 900 s, up to 27900 s.
        ('eph', 'aodo', 31, 27900.0),
        ('alm', 'toa', 147, 602112.0),
        ('utc', 'dtls', 18, 18.0),
        ('utc', 'be3', -1, -65536.0),
    ],
)
def test_values_in_the_units_of_the_standard(
    kind: str, name: str, integer: int, value: float
) -> None:
    field = next(it for it in TABLES[kind] if it.name == name)
    assert float(field.value(integer)) == pytest.approx(value, rel=1e-9)


def test_radians_take_pi_of_the_standard() -> None:
    field = next(it for it in fields.EPH if it.name == 'm0')
    assert field.value(2**30) == Fraction(1, 2)
    assert float(field.radians(2**30)) == pytest.approx(math.pi / 2, rel=1e-13)
    assert field.radians(-(2**31)) == -Fraction('3.1415926535898')


def test_each_value_with_a_scale_has_a_unit() -> None:
    for table in TABLES.values():
        assert all(it.unit for it in table if it.exponent or it.step != 1)
