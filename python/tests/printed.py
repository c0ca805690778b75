"""Makes printed lines of each kind. It reads the definitions of the fields as text, and nothing of
the package under test."""

from __future__ import annotations

import os
import random
import re
from functools import partial
from typing import Callable, Dict, Iterator, List, NamedTuple

TOP = os.path.realpath(os.path.join(os.path.dirname(__file__), '..', '..'))
DEFINITIONS = os.path.join(TOP, 'crates', 'definitions', 'specs', 'Fields.antt')
LISTS = {
    'clock': 'clock_fields',
    'eph2': 'eph2_fields',
    'eph3': 'eph3_fields',
    'alm': 'almanac_fields',
    'utc': 'utc_fields',
    'hlt': 'health_fields',
}
FIELD = re.compile(
    r'(un)?signed \(codes "(\w+)"\) \(((?:bits \d+ \d+(?: ∷ )?)+) ∷ \[\]\) \((pos|minus) (\d+)\)'
)


class Defined(NamedTuple):
    """A field as it is defined."""

    name: str
    bits: int
    is_signed: bool
    exponent: int


def defined_list(text: str, name: str) -> List[Defined]:
    """The fields of a list of the definitions."""
    body = text.split(f'abbrev pub {name} : List Field\n')[1].split('\n\n')[0]
    result = []
    for unsigned, field, parts, sign, exponent in FIELD.findall(body):
        places = [int(b) - int(a) + 1 for a, b in re.findall(r'bits (\d+) (\d+)', parts)]
        power = -int(exponent) if sign == 'minus' else int(exponent)
        result.append(Defined(field, sum(places), not unsigned, power))
    assert len(result) == body.count('codes "')
    return result


def defined() -> Dict[str, List[Defined]]:
    """The fields of each kind of page, by its word."""
    with open(DEFINITIONS, encoding='utf-8') as file:
        text = file.read()
    lists = {kind: defined_list(text, name) for kind, name in LISTS.items()}
    lists['eph'] = lists.pop('clock') + lists.pop('eph2') + lists.pop('eph3')
    # The definitions make the 24 healths by a rule: six bits each, without a sign or a scale.
    lists['hlt'] += [Defined(f'h{it}', 6, False, 0) for it in range(1, 25)]
    return lists


FIELDS = defined()


def integer(field: Defined, chance: random.Random) -> int:
    """An integer that a field can have, often one at an end."""
    low = -(1 << field.bits - 1) if field.is_signed else 0
    high = low + (1 << field.bits) - 1
    return chance.choice((low, high, 0, chance.randint(low, high), chance.randint(low, high)))


def page(kind: str, chance: random.Random) -> str:
    """The text of a page after its slot."""
    return ' '.join(f'{it.name}={integer(it, chance)}:{it.exponent}' for it in FIELDS[kind])


def word(chance: random.Random) -> str:
    """A word of a subframe."""
    return chance.choice(('------', '000000', 'ffffff', f'{chance.randrange(2**24):06x}'))


def state(chance: random.Random) -> str:
    """The text of a state after its slot."""
    satellite, dumps = chance.randint(1, 32), chance.randrange(10**6)
    stage = chance.choice(('open', 'lock', 'bits'))
    v, w = chance.randint(-(2**30), 2**30), chance.randint(-(2**20), 2**20)
    return chance.choice(
        (
            'idle',
            f'acquire {satellite} {dumps} {165726}',
            f'hold {satellite} {dumps}',
            f'track {satellite} {dumps} {v} {w} {stage}',
        )
    )


def acq(chance: random.Random) -> str:
    """The text of an acquisition after its slot."""
    found = chance.choice(('found', 'none'))
    numbers = f'{chance.randint(-40, 40)} {chance.randrange(2046)} {chance.randrange(10**8)}'
    return f'{chance.randint(1, 32)} {found} {numbers}'


def sums(chance: random.Random) -> str:
    """Six sums."""
    return ' '.join(str(chance.choice((0, chance.randint(-6138, 6138)))) for _ in range(6))


def sub(chance: random.Random) -> str:
    """The text of a subframe after its slot."""
    words = ' '.join(word(chance) for _ in range(10))
    return f'{chance.randrange(8)} {chance.randrange(2**17)} {words}'


def als(chance: random.Random) -> str:
    """The text of a set of almanacs after its slot."""
    healths = ' '.join(str(chance.randrange(256)) for _ in range(32))
    return f'toa={chance.randrange(256)}:12 {healths}'


def msg(chance: random.Random) -> str:
    """The text of a message after its slot."""
    return bytes(chance.randrange(256) for _ in range(22)).hex()


# What follows the slot, by the kind of line. None where no slot is.
SLOT_TEXTS: Dict[str, Callable[[random.Random], str]] = {
    'count': sums,
    'acq': acq,
    'lock': lambda chance: '',
    'unlock': lambda chance: '',
    'lost': lambda chance: '',
    'bits': lambda chance: '',
    'gap': lambda chance: str(chance.randrange(300)),
    'sub': sub,
    **{kind: partial(page, kind) for kind in FIELDS},
    'als': als,
    'msg': msg,
    'state': state,
}
TEXTS: Dict[str, Callable[[random.Random], str]] = {
    'ok': lambda chance: '',
    'end': lambda chance: '',
    'err': lambda chance: str(chance.randint(1, 10)),
}
ALL_KINDS = sorted([*SLOT_TEXTS, *TEXTS])


def line(kind: str, time: int, chance: random.Random) -> str:
    """A line of a kind, without its line feed."""
    words = [str(chance.randint(1, 8)), str(time), kind]
    if kind in SLOT_TEXTS:
        words += [str(chance.randrange(8)), SLOT_TEXTS[kind](chance)]
    else:
        words.append(TEXTS[kind](chance))
    return ' '.join(it for it in words if it)


def lines(count: int, seed: int) -> Iterator[str]:
    """So many lines of all kinds, without their line feeds."""
    chance, time = random.Random(seed), 0
    for at in range(count):
        time += chance.choice((0, 1, 2046, 10**6))
        kind = ALL_KINDS[at % len(ALL_KINDS)]
        yield line(kind, min(time, 2**40), chance)
