"""Drawn inputs as rows: equations between what a definition gives and what the reference says, and
the module that has them."""
from __future__ import annotations

import random
import re
from typing import Iterable, Mapping, NamedTuple, Sequence

from .definitions import Definitions, words_in
from .kinds.registry import KINDS, Kind, Row

# Inputs of kinds with equations of so many are computed soon, and half of them are drawn at least;
# of the others so many are drawn where each has as many as it says.
SOON = 10
USUAL = sum(it.usual for it in KINDS.values() if it.group < SOON)

MODULE = 'DrawnRows'

HEAD = '''-- Drawn rows.
use Rattle.std.proofs.Common.{◌≡◌, [], ◌∷◌, ◌++◌, refl}
use Rattle.std.specs.Prelude.{ℕ, ℤ, pos, negsuc, List, Bool, true, false, Option, Some, None}
use Rattle.std.specs.Prelude.{Result, Ok, Err, codes, get_or, replicate, map, not}
use Rattle.std.specs.Prelude.{if◌then◌else◌, ◌==◌, ◌||◌, ◌&&◌}
'''

# Where the words stand that the library of the prover has apart.
APART = {'xor': 'mathlib.Core.Bool', 'digits': 'Rattle.std.specs.Fmt',
         'is_some': 'Rattle.std.specs.Option', 'take': 'Rattle.std.specs.Prelude',
         'flat_map': 'Rattle.std.specs.Prelude'}

# Short names: six sums, and what is computed of a channel, which has a function in it, at first and
# after some dumps.
HELPERS = {
    'counts6': '''abbrev counts6 : ℤ → ℤ → ℤ → ℤ → ℤ → ℤ → Counts
counts6 ie qe ip qp il ql = record { ie = ie; qe = qe; ip = ip; qp = qp; il = il; ql = ql }
''',
    'parts_of': '''abbrev parts_of : Channel → List ℕ × Shift
parts_of c = (c.prn ∷ c.start ∷ c.code ∷ [], c.steering [])
''',
    'parts_after': '''abbrev parts_after : Channel → List Counts → List ℕ × Shift
parts_after c dumps = (c.prn ∷ c.start ∷ c.code ∷ [], c.steering dumps)
''',
}


class Equation(NamedTuple):
    """An equation of one input or more of a kind."""
    name: str
    kind: Kind
    rows: Sequence[Row]

    def left(self, row: Row) -> str:
        """What is computed for an input."""
        return row[0] if self.kind.is_whole else f'{self.kind.definition} {row[0]}'

    def sides(self) -> tuple[str, str]:
        """Both sides. Those of more than one input are lists."""
        lefts, rights = [self.left(it) for it in self.rows], [it[1] for it in self.rows]
        if len(self.rows) == 1:
            return lefts[0], rights[0]
        return ' ∷ '.join([*lefts, '[]']), ' ∷ '.join([*rights, '[]'])

    def unfolded(self, definitions: Definitions) -> list[str]:
        """The names that are unfolded in it."""
        if self.kind.unfolded is not None:
            return list(self.kind.unfolded)
        below = definitions.below_term(' '.join(map(self.left, self.rows)))
        return sorted(name for home, name in below if (home, name) in definitions.unfoldable)

    def text(self, definitions: Definitions) -> str:
        """The row."""
        left, right = self.sides()
        unfolded = self.unfolded(definitions)
        line = f'unfolding {" ".join(unfolded)}\n' if unfolded else ''
        return f'{self.name} : {left}\n    ≡ {right}\n{line}{self.name} = refl\n'

    def apart(self) -> list[Equation]:
        """An equation for each of its inputs."""
        return [Equation(f'{self.name}_{at}', self.kind, [it]) for at, it in enumerate(self.rows)]


def drawn(kind: Kind, seed: str, count: int) -> list[Equation]:
    """So many inputs of a kind, by a seed, in equations."""
    r = random.Random(f'{seed} {kind.name}')
    rows = [kind.draw(r) for _ in range(count)]
    return [Equation(f'{kind.name}_s{seed}_{at}', kind, rows[at:at + kind.group])
            for at in range(0, count, kind.group)]


def count_of(kind: Kind, at: int, seeds: Sequence[str], share: float) -> int:
    """How many inputs of the kind at a place are drawn: a share of what it says. Of one that is
    computed soon that is half at least. Of every third other one it is one at least, by the
    seeds."""
    if kind.group >= SOON:
        return max(1, round(max(share, .5) * kind.usual))
    is_its_turn = (at + sum(map(int, seeds))) % 3 == 0
    return max(int(is_its_turn), round(share * kind.usual))


def drawn_of_all(kinds: Iterable[Kind], seeds: Sequence[str], inputs: int) -> list[Equation]:
    """Some inputs of each kind, about so many of all those that aren't computed soon. The seeds
    share them."""
    equations = []
    for at, kind in enumerate(kinds):
        count = count_of(kind, at, seeds, inputs / USUAL)
        for number, seed in enumerate(seeds):
            own = (count + (at // 3 + number) % len(seeds)) // len(seeds)
            equations += drawn(kind, seed, own)
    return equations


def imports(words: set[str], definitions: Definitions) -> list[str]:
    """The lines that import what words name."""
    homes: dict[str, list[str]] = {}
    for word in sorted(words - set(HELPERS)):
        key = definitions.key(word)
        home = APART.get(word) or (key and f'Rattle.definitions.specs.{key[0]}')
        if home:
            homes.setdefault(home, []).append(word)
    return [f'use {home}.{{{", ".join(names)}}}' for home, names in homes.items()]


def module_text(equations: Sequence[Equation], definitions: Definitions) -> str:
    """The module of rows."""
    rows = '\n'.join(it.text(definitions) for it in equations)
    helpers = '\n'.join(text for name, text in HELPERS.items() if name in rows)
    unfolded = {name for it in equations for name in it.unfolded(definitions)}
    words = words_in(helpers + rows.replace('unfolding', '')) | unfolded
    lines = '\n'.join(imports(words, definitions))
    return f'{HEAD}{lines}\n\n{helpers}\n{rows}'


def refused(text: str, lines: Iterable[int],
            equations: Mapping[str, Equation]) -> list[Equation]:
    """The equations of a module in which these lines stand, from 1 on. Another line is none of a
    row, and whoever reads it has no rows at all."""
    told, found = text.split('\n'), {}
    for line in lines:
        at = line - 1
        while at > 0 and not re.match(r'[a-z]\w* [:=] ', told[at]):
            at -= 1
        name = told[at].split(' ')[0]
        if name not in equations:
            raise ValueError(f'line {line}: {told[line - 1][:200]}')
        found[name] = equations[name]
    return list(found.values())
