"""Subframes of words, and the lines of pages that they hold, by the definitions of the fields.
These are read as text. Nothing of the package under test is used."""

from __future__ import annotations

import random
import re
from typing import Dict, List, Sequence

import printed

# The lists of the definitions, by the subframe or by the kind of page.
LISTS = {1: 'clock_fields', 2: 'eph2_fields', 3: 'eph3_fields'}
PAGES = {'alm': 'almanac_fields', 'utc': 'utc_fields', 'hlt': 'health_fields'}
PREAMBLE = 0x8B


def subframe(number: int, tow: int, body: Sequence[int], flags: int = 0) -> List[int]:
    """The ten words of a subframe: eight words after two that say its number and time. `flags` are
    the two bits after the time."""
    return [PREAMBLE << 16, tow << 7 | flags << 5 | number << 2, *body]


def drawn(chance: random.Random, first: int) -> List[int]:
    """Eight words by chance. The first eight bits, which are data ID and SV ID, are given."""
    return [first << 16 | chance.randrange(2**16), *(chance.randrange(2**24) for _ in range(7))]


def sub(time: int, words: Sequence[int], slot: int = 0) -> str:
    """The `sub` line of words."""
    tow, number = words[1] >> 7, words[1] >> 2 & 7
    shown = ' '.join(f'{it:06x}' for it in words)
    return f'1 {time} sub {slot} {number} {tow} {shown}\n'


def _parts(name: str) -> Dict[str, List[List[int]]]:
    """The first and last bits of the parts of each field of a list."""
    with open(printed.DEFINITIONS, encoding='utf-8') as file:
        body = file.read().split(f'abbrev pub {name} : List Field\n')[1].split('\n\n')[0]
    return {
        field: [[int(it) for it in part] for part in re.findall(r'bits (\d+) (\d+)', parts)]
        for _, field, parts, _, _ in printed.FIELD.findall(body)
    }


PLACES = {name: _parts(name) for name in (*LISTS.values(), *PAGES.values())}
# The definitions make the 24 healths by a rule: four in each of words 4 to 9, six bits each.
for _at in range(24):
    _first = 91 + 30 * (_at // 4) + 6 * (_at % 4)
    PLACES['health_fields'][f'h{_at + 1}'] = [[_first, _first + 5]]


def integers(words: Sequence[int], name: str) -> Dict[str, int]:
    """The integers of the fields of a list, without regard to signs."""
    bits = ''.join(f'{it:024b}------' for it in words)
    return {
        field: int(''.join(bits[first - 1 : last] for first, last in parts), 2)
        for field, parts in PLACES[name].items()
    }


def put(words: List[int], name: str, **values: int) -> None:
    """Puts values into the fields of a list."""
    for field, value in values.items():
        places = [it for a, b in PLACES[name][field] for it in range(a, b + 1)]
        for at, place in enumerate(reversed(places)):
            mask = 1 << 23 - (place - 1) % 30
            words[(place - 1) // 30] &= ~mask
            words[(place - 1) // 30] |= mask * (value >> at & 1)


def page(kind: str, time: int, found: Dict[str, int], slot: int = 0) -> str:
    """The line of a kind of page of these integers."""
    texts = []
    for field in printed.FIELDS[kind]:
        value = found[field.name]
        if field.is_signed and value >> field.bits - 1:
            value -= 1 << field.bits
        texts.append(f'{field.name}={value}:{field.exponent}')
    return f'1 {time} {kind} {slot} {" ".join(texts)}\n'


def lines_of(kind: str, time: int, words: Sequence[int], slot: int = 0) -> str:
    """The `sub` line of words and the line of the page of subframe 4 or 5 that they are."""
    return sub(time, words, slot) + page(kind, time, integers(words, PAGES[kind]), slot)


def ephemeris(time: int, subframes: Sequence[Sequence[int]], slot: int = 0) -> str:
    """The lines of subframes 1 to 3."""
    found: Dict[str, int] = {}
    for name, words in zip(LISTS.values(), subframes):
        found.update(integers(words, name))
    return ''.join(sub(time, it, slot) for it in subframes) + page('eph', time, found, slot)


def satellite(number: int, time: int = 0, slot: int = 0) -> str:
    """The `state` line of a slot that tracks a satellite."""
    return f'1 {time} state {slot} track {number} 5 0 0 bits\n'
