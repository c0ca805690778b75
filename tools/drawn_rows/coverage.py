"""Which definitions are drawn themselves, and why each other one isn't."""
from __future__ import annotations

import re
from typing import Iterator, Mapping, NamedTuple, Optional, Sequence

from . import rows
from .definitions import Definitions, Key
from .kinds import KINDS, Kind


class Reason(NamedTuple):
    """Why a definition isn't drawn: a word, the kind through which it is reached, if it is, and of
    `size` the limit."""
    why: str
    kind: str = ''
    limit: str = ''


def reached(kind: str) -> Reason:
    """It is a part of another, and all that it gives shows there."""
    return Reason('reached', kind)


# What a word says of the type of a definition, where it can be told by that.
SHAPES = {
    'constant': r'[^→]*',
    'function': r'.*(\([^()]*→.*\).*→|→ (Option )?Channel$).*',
    'relation': r'.*→ Type 0',
}
WORDS = {
    'type': 'a type of values', 'constant': 'one value, which takes nothing',
    'function': 'it takes or gives a function', 'relation': 'a proposition, which has no equation',
    'size': 'too large to be computed', 'reached': 'a part of another',
}

# How many inputs of a kind are looked at for what they rest on.
DRAWN = 4

EDGE = 'an edge has 301 pushes, and 60 are computed'
BITS = 'a page has 302 bits, and they are drawn as the bits of one subframe'

# All definitions that aren't drawn.
TABLE: Mapping[str, Reason] = {
    'BitEdge.has_edge': Reason('size', 'tracking_view', EDGE),
    'BitEdge.bits_of': Reason('size', 'steered_events', EDGE),
    'Codes.g1_taps': Reason('constant', 'chip'), 'Codes.g2_taps': Reason('constant', 'chip'),
    'Correlation.no_counts': Reason('constant'),
    'DataSets.kind_number': reached('is_of'),
    'DataSets.ephemerides': Reason('constant', 'reports_of'),
    'DataSets.almanac_sets': Reason('constant', 'reports_of_almanacs'),
    'Events.pages_among': Reason('size', 'bit_events', BITS),
    'Events.page_events': Reason('size', 'bit_events', BITS),
    'Events.push_events': Reason('size', 'steered_events', EDGE),
    'Events.life_events': reached('events_at_end'),
    'Fields.characters_of_word': reached('message_fields'),
    'Lives.channel_of': Reason('function', 'life_now'),
    'Lives.dumps_of_channel': reached('life_now'),
    'Loops.no_counts': Reason('constant', 'loops_start'),
    'Oscillators.code_cycle': Reason('constant', 'code_phase_after'),
    'Oscillators.carrier_cycle': Reason('constant', 'carrier_phase_after'),
    'Parity.equations': Reason('constant', 'passes'),
    'Runs.BeginsWith': Reason('relation'), 'Runs.IsUntouched': Reason('relation'),
    'Runs.AreRight': Reason('relation'), 'Runs.IsAnswer': Reason('relation'),
    **{f'Scripts.{it}': Reason('constant', 'entry_of') for it in (
        'satellites', 'doppler_shifts', 'half_chips', 'start_ranges', 'centres', 'side_bins',
        'dwells', 'thresholds', 'plan_ranges', 'dump_counts', 'verbs')},
}


class Told(NamedTuple):
    """A definition, the kinds that draw it, and why there are none."""
    name: str
    kinds: Sequence[Kind]
    reason: Optional[Reason]

    def line(self) -> str:
        """What is printed of it."""
        if self.kinds:
            return f'{self.name}: drawn by {" ".join(it.name for it in self.kinds)}'
        if not self.reason:
            return f'{self.name}: neither drawn nor in the table'
        why, kind, limit = self.reason
        return (f'{self.name}: {why}, {limit or WORDS.get(why, "")}'
                + f'; reached by {kind}' * bool(kind))


def told_of(definitions: Definitions, table: Mapping[str, Reason] = TABLE) -> list[Told]:
    """All definitions, by module."""
    kinds: dict[Optional[Key], list[Kind]] = {}
    for it in KINDS.values():
        kinds.setdefault(definitions.key(it.definition), []).append(it)
    types = {key: Reason('type') for key in definitions.types}
    return [Told('.'.join(key), kinds.get(key, []), table.get('.'.join(key), types.get(key)))
            for key in [*definitions.types, *definitions.heads]]


def faults_of(it: Told, definitions: Definitions) -> Iterator[str]:
    """What is wrong with what is said of a definition."""
    module, _, name = it.name.partition('.')
    if it.kinds and it.reason:
        yield 'is drawn, and stands in the table'
    if not it.kinds and not it.reason:
        yield 'is neither drawn nor in the table'
    if not it.reason:
        return
    why, kind, limit = it.reason
    if why not in WORDS or (why == 'size') != bool(limit) or why == 'reached' and not kind:
        yield f'has no reason: {why}'
    shape = SHAPES.get(why)
    if shape and not re.fullmatch(shape, definitions.heads[module, name]):
        yield f'is none: {why}'
    if kind and not reaches(kind, (module, name), definitions):
        yield f'is not reached by {kind}'


def reaches(kind: str, key: Key, definitions: Definitions) -> bool:
    """Whether what a kind draws rests on a definition."""
    drawn = rows.drawn(KINDS[kind], '1', DRAWN) if kind in KINDS else []
    return any(key in definitions.below_term(it.left(row)) for it in drawn for row in it.rows)


def faults(definitions: Definitions, table: Mapping[str, Reason] = TABLE) -> list[str]:
    """What is wrong with the kinds and the table: a definition that is in neither or in both, a
    reason that isn't so, a name that is none."""
    told = told_of(definitions, table)
    known = {it.name for it in told}
    return ([f'{it.name} {why}' for it in told for why in faults_of(it, definitions)]
            + [f'{it} is in the table, and is no definition' for it in table if it not in known])
