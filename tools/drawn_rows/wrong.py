"""Tries wrong definitions: each is put into a copy of its module, and the rows of the kind that
must refuse it are checked over that copy and over copies of all above it."""
from __future__ import annotations

import re
from typing import Optional, Sequence

from definition_trials import imports, modules_above, modules_below, numbered, refusals

from . import (slips, slips_of_joints, slips_of_lines, slips_of_parts, slips_of_seldom,
               slips_of_slots, slips_of_sums, slips_of_words)
from .definitions import Definitions
from .kinds import KINDS
from .rows import MODULE, drawn, module_text
from .slips import Wrong

# How many are tried in one check.
AT_ONCE = 60

# In how many days each has its turn.
TURNS = 21

# About as many equations as this are computed while the copies of one are read.
PER_COPY = 6


def read() -> list[Wrong]:
    """All wrong definitions."""
    modules = (slips, slips_of_slots, slips_of_sums, slips_of_words, slips_of_lines,
               slips_of_parts, slips_of_joints, slips_of_seldom)
    return [it for module in modules for it in module.SLIPS]


def cost(it: Wrong) -> float:
    """About what it costs to try one: its copies, and the equations of its kind."""
    kind = KINDS[it.kind]
    return PER_COPY + kind.usual / kind.group


def of_turn(turn: int) -> list[Wrong]:
    """Those that have their turn on one of so many days: the costliest first, each on the day that
    costs least so far."""
    days: list[list[Wrong]] = [[] for _ in range(TURNS)]
    for it in sorted(read(), key=cost, reverse=True):
        min(days, key=lambda day: sum(map(cost, day))).append(it)
    return days[turn]


def changed(it: Wrong, text: str) -> str:
    """A module's text with the wrong definition. It stands where the right one did, and with it
    the words that the module lacks."""
    if text.count(it.old) != 1:
        raise SystemExit(f'drawn-rows: {it.module} has not once: {it.old}')
    made = text.replace(it.old, it.new)
    if not it.needs:
        return made
    return re.sub(r'^(?=use )', f'use {it.needs}\n', made, count=1, flags=re.M)


def modules_of(it: Wrong, number: int, texts: dict[str, str], seed: str) -> dict[str, str]:
    """The copies of one wrong definition, and the rows over them."""
    now = {**texts, it.module: changed(it, texts[it.module])}
    kind = KINDS[it.kind]
    rows = module_text(drawn(kind, seed, kind.usual), Definitions(now))
    copied = modules_above(it.module, now) & modules_below(imports(rows) | {it.module}, now)
    return numbered({**{name: now[name] for name in sorted(copied)}, MODULE: rows}, copied, number)


def modules(part: Sequence[Wrong], texts: dict[str, str], seed: str) -> dict[str, str]:
    """The copies of some wrong definitions, and the rows over them."""
    return {name: text for number, it in enumerate(part)
            for name, text in modules_of(it, number, texts, seed).items()}


def passing(part: Sequence[Wrong], said: Optional[str]) -> dict[Wrong, str]:
    """Those of which the prover refused no row, and why. What isn't a definition has no rows that
    could be refused."""
    if said is None or not re.search('^logic=', said, re.M):
        raise SystemExit(f'drawn-rows: the prover gave no answer\n{(said or "")[-2000:]}')
    found, left = refusals(said), {}
    for number, it in enumerate(part):
        at = [line for line in found[number] if not line.startswith(f'{MODULE}:')]
        if at:
            left[it] = f'no definition at {at[0]}'
        elif not found[number]:
            left[it] = 'not refused'
    return left
