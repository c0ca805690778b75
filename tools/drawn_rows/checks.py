"""Checks equations and wrong definitions in rooms of their own, and tells what was refused."""
from __future__ import annotations

import resource
import sys
from typing import NamedTuple, Optional, Sequence

from definition_trials import LAWS, SPECS, Trial, read_texts, refusals
from room_folders import new_folder

from . import rows, wrong
from .definitions import Definitions
from .rows import Equation, MODULE
from .slips import Wrong

# How many inputs that were refused are told of one kind, and how long a term is told.
TOLD, LONG = 3, 400


class Checked(NamedTuple):
    """The equations that were refused, and the seconds of a processor that the check took."""
    refused: list[Equation]
    seconds: float


def texts_of_definitions() -> dict[str, str]:
    """The texts of the definitions, without the laws."""
    return {name: text for name, text in read_texts(SPECS).items() if name not in LAWS}


def used() -> float:
    """The seconds of processors that ended children have taken."""
    it = resource.getrusage(resource.RUSAGE_CHILDREN)
    return it.ru_utime + it.ru_stime


def answer(modules: dict[str, str], seconds: int) -> Optional[str]:
    """What the prover says of modules; nothing where it takes longer."""
    with new_folder('edits') as folder:
        trial = Trial(folder)
        trial.write(modules)
        return trial.check(seconds)


def check(equations: Sequence[Equation], definitions: Definitions, seconds: int) -> Checked:
    """Checks equations in a room of their own."""
    text, before = rows.module_text(equations, definitions), used()
    said = answer({f'{MODULE}_t0': text}, seconds)
    if said is None:
        raise SystemExit(f'drawn-rows: no answer in {seconds} s')
    lines = [int(it.rpartition(':')[2]) for it in refusals(said)[0]]
    if not lines and 'logic=proved' not in said:
        raise SystemExit(said[-2000:])
    try:
        found = rows.refused(text, lines, {it.name: it for it in equations})
    except ValueError as why:
        raise SystemExit(f'drawn-rows: {why}\n{said[-1000:]}') from why
    return Checked(found, used() - before)


def shortened(term: str) -> str:
    """A term, or its beginning and its end where it is long."""
    return term if len(term) <= LONG else f'{term[:LONG // 2]} .. {term[-LONG // 2:]}'


def tell(refused: Sequence[Equation], definitions: Definitions, seconds: int) -> None:
    """Tells of the first inputs of each kind that were refused: those of an equation of several
    are checked one by one."""
    for kind in {it.kind.name: it.kind for it in refused}.values():
        own = [it for it in refused if it.kind == kind]
        if kind.group > 1:
            own = check([part for it in own[:TOLD] for part in it.apart()], definitions,
                        seconds).refused
        for it in own[:TOLD]:
            print(f'{kind.definition}: it does not give what the reference says\n'
                  f'  of      {shortened(it.left(it.rows[0]))}\n'
                  f'  it says {shortened(it.rows[0][1])}')


def not_refused(chosen: Sequence[Wrong], seed: str, seconds: int) -> list[Wrong]:
    """Tries wrong definitions, each against its kind. Prints and gives those that weren't
    refused."""
    texts, passes = texts_of_definitions(), []
    for at in range(0, len(chosen), wrong.AT_ONCE):
        part, before = chosen[at:at + wrong.AT_ONCE], used()
        left = wrong.passing(part, answer(wrong.modules(part, texts, seed), seconds))
        for it, why in left.items():
            print(f'{it.kind}: {why}: {it.module}: {it.old} -> {it.new}', flush=True)
        passes += list(left)
        print(f'drawn-rows: {len(part)} wrong definitions, {used() - before:.0f} s of a processor',
              file=sys.stderr, flush=True)
    return passes
