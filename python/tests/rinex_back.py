"""A way from the text of a RINEX navigation file back to the words of subframes 1 to 3, by the
places and scale factors of the definitions. Nothing of the package under test is used."""

from __future__ import annotations

import datetime
from fractions import Fraction
from typing import Dict, Iterator, List, NamedTuple, Sequence

import made_pages
import printed

PI = Fraction('3.1415926535898')
WEEK = 604800
ANGLES = ('dn', 'm0', 'om0', 'i0', 'w', 'omdot', 'idot')
# The metres of each index of the user range accuracy, as the standard lists them.
METRES = [2.0, 2.8, 4.0, 5.7, 8.0, 11.3, 16.0, *(2.0**it for it in range(5, 14))]
# A record's numbers after the epoch, in the order of RINEX's description.
NAMES = (
    'af0 af1 af2 iode crs dn m0 cuc e cus sqrta toe cic om0 cis i0 crc w omdot idot l2 week l2p '
    'ura health tgd iodc sent hours'
).split()


class Back(NamedTuple):
    """A record as it was read: its satellite, its integers by field, the words that these are, and
    what RINEX has beside them: its week, the seconds in it when it was sent, the hours of the fit.
    """

    satellite: int
    integers: Dict[str, int]
    words: List[List[int]]
    week: int
    sent_s: int
    hours: int


def records(text: str, version: int) -> Iterator[Back]:
    """The records of a file of GPS satellites."""
    lines = text.split('END OF HEADER\n')[1].splitlines()
    assert len(lines) % 8 == 0
    for at in range(0, len(lines), 8):
        yield record(lines[at : at + 8], version)


def record(lines: Sequence[str], version: int) -> Back:
    """The record of eight lines."""
    head, margin = (23, 4) if version == 3 else (22, 3)
    texts = [lines[0][head + 19 * it :][:19] for it in range(3)]
    texts += [line[margin + 19 * it :][:19] for line in lines[1:] for it in range(4)]
    shown = [Fraction(it.replace('D', 'E').strip()) for it in texts if it]
    assert len(shown) == len(NAMES)
    values = dict(zip(NAMES, shown))
    words = lines[0][:head].replace('G', ' ').split()
    satellite, year, month, day, hour, minute = map(int, words[:6])
    if version == 2:
        year += 2000
    assert float(words[6]).is_integer()
    epoch = datetime.datetime(year, month, day, hour, minute, int(float(words[6])))
    values['toc'] = Fraction((epoch - datetime.datetime(1980, 1, 6)).total_seconds()) % WEEK
    values['ura'] = Fraction(METRES.index(float(values['ura'])))
    week, sent = int(values['week']), int(values['sent'])
    values['wn'] = Fraction((week + (sent - 1) // WEEK) % 1024)
    found = integers(values)
    return Back(satellite, found, words_of(found, sent // 6 % 100800), week, sent, values['hours'])


def integers(values: Dict[str, Fraction]) -> Dict[str, int]:
    """The integers that were sent, by field, each exact within what the text's digits leave."""
    result = {}
    for field in printed.FIELDS['eph']:
        if field.name in ('fit', 'aodo', 'iode3'):
            continue
        unit = Fraction(2) ** field.exponent * (PI if field.name in ANGLES else 1)
        count = values[field.name] / unit
        assert abs(count - round(count)) < Fraction(1, 100)
        result[field.name] = round(count)
    result['iode3'] = result['iode']
    result['fit'] = int(values['hours'] != 4)
    return result


def words_of(found: Dict[str, int], tow: int) -> List[List[int]]:
    """The words of subframes 1 to 3 that have these integers, and 0 in all other places."""
    result = []
    for number, name in made_pages.LISTS.items():
        bits = [0] * 300
        for field, parts in made_pages.PLACES[name].items():
            places = [it for first, last in parts for it in range(first, last + 1)]
            for at, place in enumerate(reversed(places)):
                bits[place - 1] = found.get(field, 0) >> at & 1
        words = [int(''.join(map(str, bits[30 * it :][:24])), 2) for it in range(10)]
        words[1] = tow - 1 + number << 7 | number << 2
        result.append(words)
    return result


def masked(subframes: Sequence[Sequence[int]]) -> List[List[int]]:
    """The same of words that were sent: what RINEX doesn't have is 0."""
    result = []
    for (number, name), words in zip(made_pages.LISTS.items(), subframes):
        found = {**made_pages.integers(words, name), 'aodo': 0}
        kept = words_of(found, 0)[number - 1]
        result.append([0, words[1] & ~0x63, *kept[2:]])
    return result
