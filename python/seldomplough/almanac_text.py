"""The text of almanacs as the US Coast Guard's Navigation Center gives them: YUMA and SEM, by
ICD-GPS-870. Angles are in radians in YUMA and in semicircles in SEM. Weeks are modulo 1024."""

from __future__ import annotations

from fractions import Fraction
from typing import Iterator, Sequence

from seldomplough.almanacs import Known
from seldomplough.dates import WEEKS
from seldomplough.fields import INCLINATION, PI
from seldomplough.lines import Alm

# The accuracy's index of a satellite of which none is known: no prediction (20.3.3.3.1.3).
NO_URA = 15
# What SEM has where the message has nothing: the satellite's own number, and its configuration.
NO_NUMBER = NO_CONFIGURATION = 0


def yuma(rows: Sequence[Known]) -> Iterator[str]:
    """The almanacs as YUMA, a block for each. Their weeks are known."""
    for it in rows:
        if it.line is not None and it.week is not None:
            yield from _block(it.satellite, it.line, it.week % WEEKS, it.health or 0)


def _block(satellite: int, line: Alm, week: int, health: int) -> Iterator[str]:
    inclination = float(INCLINATION * PI + line.radians('di'))
    yield f'******** Week {week:4d} almanac for PRN-{satellite:02d} ********\n'
    yield f'ID:                         {satellite:02d}\n'
    yield f'Health:                     {health:03d}\n'
    yield f'Eccentricity:              {_scientific(line.value("e"))}\n'
    yield f'Time of Applicability(s):  {float(line.value("toa")):.4f}\n'
    yield f'Orbital Inclination(rad):  {inclination: .10f}\n'
    yield f'Rate of Right Ascen(r/s):  {_scientific(line.radians("omdot"))}\n'
    yield f'SQRT(A)  (m 1/2):          {float(line.value("sqrta")): .6f}\n'
    yield f'Right Ascen at Week(rad):  {_scientific(line.radians("om0"))}\n'
    yield f'Argument of Perigee(rad):  {float(line.radians("w")): .9f}\n'
    yield f'Mean Anom(rad):            {_scientific(line.radians("m0"))}\n'
    yield f'Af0(s):                    {_scientific(line.value("af0"))}\n'
    yield f'Af1(s/s):                  {_scientific(line.value("af1"))}\n'
    yield f'week:                        {week}\n'
    yield '\n'


def _scientific(value: Fraction) -> str:
    """A number with ten digits after `0.`, and three digits of the exponent."""
    digits, exponent = f'{float(value): .9E}'.split('E')
    power = int(exponent) + 1 if value else 0
    return f'{digits[0]}0.{digits[1]}{digits[3:]}E{power:+04d}'


def sem(rows: Sequence[Known], name: str = 'SELDOMPLOUGH.ALM') -> Iterator[str]:
    """The almanacs as SEM, of which there is one at least. All have one time and a known week."""
    found = [it for it in rows if it.line is not None and it.week is not None]
    first = found[0]
    assert first.line is not None and first.week is not None
    yield f'{len(found):2d}  {name}\n'
    yield f'{first.week % WEEKS:4d} {int(first.line.value("toa")):6d}\n'
    for it in found:
        assert it.line is not None
        yield '\n'
        yield from _sem_block(it, it.line)


def _sem_block(it: Known, line: Alm) -> Iterator[str]:
    yield f'{it.satellite}\n{NO_NUMBER}\n{NO_URA if it.ura is None else it.ura}\n'
    for names in ('e', 'di', 'omdot'), ('sqrta', 'om0', 'w'), ('m0', 'af0', 'af1'):
        yield ' '.join(f'{float(line.value(name)):21.14E}' for name in names) + '\n'
    yield f'{it.health or 0}\n'
    if it.configuration is None:
        yield f'{NO_CONFIGURATION}\n'
    else:
        yield f'{bool(it.anti_spoof) << 3 | it.configuration}\n'
