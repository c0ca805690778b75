"""Ways from the text of YUMA and SEM back to the words of almanacs, by the places and scale factors
of the definitions. Nothing of the package under test is used."""

from __future__ import annotations

from fractions import Fraction
from typing import Dict, Iterator, List, NamedTuple

import made_pages
import printed

PI = Fraction('3.1415926535898')
ANGLES = ('di', 'om0', 'omdot', 'w', 'm0')
INCLINATION = Fraction(3, 10)
# The labels of YUMA, by field.
YUMA = {
    'sv': 'ID', 'health': 'Health', 'e': 'Eccentricity', 'toa': 'Time of Applicability(s)',
    'di': 'Orbital Inclination(rad)', 'omdot': 'Rate of Right Ascen(r/s)',
    'sqrta': 'SQRT(A)  (m 1/2)', 'om0': 'Right Ascen at Week(rad)',
    'w': 'Argument of Perigee(rad)', 'm0': 'Mean Anom(rad)', 'af0': 'Af0(s)', 'af1': 'Af1(s/s)',
    'week': 'week',
}  # fmt: skip


class Back(NamedTuple):
    """An almanac as it was read: its values by field, and the words of its page."""

    values: Dict[str, Fraction]
    words: List[int]


def yuma(text: str) -> Iterator[Back]:
    """The almanacs of a text of YUMA."""
    for block in text.split('******** Week ')[1:]:
        head, *rows = block.splitlines()
        found = dict(it.split(':') for it in rows if it)
        assert set(found) == set(YUMA.values()) and len(rows) == 14
        values = {name: Fraction(found[label].strip()) for name, label in YUMA.items()}
        assert head == f'{int(values["week"]):4d} almanac for PRN-{int(values["sv"]):02d} ********'
        for name in ANGLES:
            values[name] /= PI
        values['di'] -= INCLINATION
        yield Back(values, words(values))


def sem(text: str) -> Iterator[Back]:
    """The almanacs of a text of SEM."""
    head, *blocks = text.split('\n\n')
    first, second = head.splitlines()
    assert int(first[:2]) == len(blocks) and len(first[4:].rstrip()) <= 24
    week, toa = map(Fraction, second.split())
    for block in blocks:
        rows = [it.split() for it in block.splitlines()]
        assert [len(it) for it in rows] == [1, 1, 1, 3, 3, 3, 1, 1]
        names = 'sv number ura e di omdot sqrta om0 w m0 af0 af1 health configuration'.split()
        values = dict(zip(names, (Fraction(it) for row in rows for it in row)))
        values.update(week=week, toa=toa)
        yield Back(values, words(values))


def words(values: Dict[str, Fraction]) -> List[int]:
    """Words 3 to 10 of the page that has these values, without its data ID and health."""
    bits = [0] * 300
    for field in printed.FIELDS['alm']:
        if field.name in ('data', 'health'):
            continue
        count = values[field.name] / Fraction(2) ** field.exponent
        assert abs(count - round(count)) < Fraction(1, 100)
        parts = made_pages.PLACES['almanac_fields'][field.name]
        places = [it for first, last in parts for it in range(first, last + 1)]
        for at, place in enumerate(reversed(places)):
            bits[place - 1] = round(count) >> at & 1
    return [int(''.join(map(str, bits[30 * it :][:24])), 2) for it in range(2, 10)]


def masked(sent: List[int]) -> List[int]:
    """Words 3 to 10 that were sent, without data ID, health and the two bits before the parity."""
    third, fourth, fifth, *rest, last = sent[2:]
    return [third & 0x3FFFFF, fourth, fifth & 0xFFFF00, *rest, last & 0xFFFFFC]
