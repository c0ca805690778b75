"""Rows of tools/turned for names: which other ones in scope stand in their places, and what is
turned at two places, worked out by hand for small definitions."""
from __future__ import annotations

import importlib.machinery
import importlib.util
import os
import sys
from types import ModuleType

from hostile_rows.runs import Rows

from .commands import TOP, run

TOOLS = os.path.join(TOP, 'tools')
sys.path.insert(0, TOOLS)
from name_turns import turns_of_kinds, unread_places
from turns import Turn

TURNED = os.path.join(TOOLS, 'turned')

HEAD = '''use Rattle.std.specs.Prelude.{ℕ, ◌+◌, ◌-◌, ◌==◌, Bool, List, Option, Some, None}

pub record Span : Type 0 where
  pub first : ℕ
  pub last : ℕ
  pub name : List ℕ

pub record Test : Type 0 where
  pub holds : ℕ → Bool
  pub low : ℕ

'''

Found = tuple[int, str, str]

# A definition, and its turns of single names and of pairs: the line below the head, what stood
# there and what does now.
TURNS: tuple[tuple[str, tuple[Found, ...], tuple[Found, ...]], ...] = (
    # A field of a name in scope is a name too. One field for the next is a turn of a word.
    ('reaches : Span → ℕ → ℕ\nreaches s n = f n (s.last + 3)\n', (
        (2, 'n', 's.first'), (2, 'n', 's.last'), (2, 's.last', 'n')),
     ((2, 'n (s.last', 's.last (n'),)),
    # What a `let` is given is in scope after its `in`. A name at all its places.
    ('wide : Span → ℕ\nwide s = let w = s.last - s.first in w + w\n', (
        (2, 'w', 's.first'), (2, 'w', 's.last'), (2, 'w', 's.first'), (2, 'w', 's.last')), (
        (2, 'w + w', 's.first + s.first'), (2, 'w + w', 's.last + s.last'),
        (2, 's.last - s.first', 's.first - s.last'))),
    # What patterns bind. Arguments with others between them are exchanged, and names are.
    ('given : Option ℕ → List ℕ → ℕ → ℕ\ngiven (Some m) (x ∷ xs) n = f m (x + 1) n xs\n', (
        (2, 'm', 'x'), (2, 'm', 'n'), (2, 'x', 'm'), (2, 'x', 'n'), (2, 'n', 'm'), (2, 'n', 'x')), (
        (2, 'm (x', 'x (m'), (2, 'm (x + 1) n', 'n (x + 1) m'), (2, 'x + 1) n', 'n + 1) x'))),
    # An arm has what its pattern binds, and another arm hasn't.
    ('named : Option ℕ → ℕ → ℕ\nnamed o n = elim o [\n  | Some k ↦ k + n\n  | None ↦ n\n]\n', (
        (3, 'k', 'n'), (3, 'n', 'k')), ()),
    # A function's own argument, of a list's elements or by a type.
    ('each : List ℕ → ℕ → List ℕ\neach xs n = map (λ i. i + n) xs\n', (
        (2, 'i', 'n'), (2, 'n', 'i')), ((2, 'i + n', 'n + i'),)),
    ('all_of : List Span → ℕ → Bool\nall_of xs n = list_all (λ (s : Span). n == s.last) xs\n', (
        (2, 'n', 's.first'), (2, 'n', 's.last'), (2, 's.last', 'n')), (
        (2, 'n == s.last', 's.last == n'),)),
    # Values of a record, of which the first is a function. A field's own name is no place.
    ('test : ℕ → ℕ → Test\ntest n low = record { holds = λ i. i == n; low = low }\n', (
        (2, 'i', 'n'), (2, 'i', 'low'), (2, 'n', 'low'), (2, 'n', 'i'), (2, 'low', 'n')), (
        (2, 'i == n', 'n == i'), (2, 'n; low = low', 'low; low = n'))),
    ('span : ℕ → ℕ → List ℕ → Span\nspan a b c = record { first = a; name = c; last = b + 1 }\n', (
        (2, 'a', 'b'), (2, 'b', 'a')), (
        (2, 'a; name = c; last = b', 'b; name = c; last = a'),
        (2, 'a; name = c; last = b + 1', 'b + 1; name = c; last = a'))),
    # Two branches: what they give, and their order.
    ('kind : ℕ → ℕ\nkind n = if n == 1 then 5 else if n == 2 then 6 else 7\n', (), (
        (2, '5 else if n == 2 then 6', '6 else if n == 2 then 5'),
        (2, 'n == 1 then 5 else if n == 2 then 6', 'n == 2 then 6 else if n == 1 then 5'))),
    # No type is told of what a kit's function gives that isn't known, nor of a pair's halves.
    ('unknown : ℕ → ℕ\nunknown n = let m = some_of n in m + n\n', (), ()),
    ('halves : List (ℕ × ℕ) → ℕ → List ℕ\nhalves xs n = map (λ (a, b). a + n) xs\n', (), ()),
)

# How many places of names are left out of those that have any.
UNREAD = {'unknown': 1, 'halves': 1}


def found_in(text: str, kind: str) -> list[Found]:
    """The turns of a kind below the head."""
    texts = {'Spans': f'{HEAD}abbrev pub {text}'}
    return [(it.line - HEAD.count('\n'), it.was, it.now)
            for it in turns_of_kinds('Spans', texts, [kind])]


def turns(rows: Rows, _: str) -> None:
    """Each definition has exactly these turns, and as many places left out."""
    for text, names, pairs in TURNS:
        name = text.partition(' ')[0]
        for kind, wanted in (('names', names), ('pairs', pairs)):
            found = found_in(text, kind)
            rows.say(f'the {kind} of {name}', [f'{sorted(found)}, and not {sorted(wanted)}']
                     * (sorted(found) != sorted(wanted)))
        left = unread_places('Spans', {'Spans': f'{HEAD}abbrev pub {text}'})
        rows.say(f'left out of {name}', [str(left)] * (left != UNREAD.get(name, 0)))


def kinds(rows: Rows, _: str) -> None:
    """A turn that two kinds have is of the first, and all kinds together have each once."""
    texts = {'Spans': f'{HEAD}abbrev pub reaches : ℕ → ℕ → ℕ\nreaches m n = f m n\n'}
    found = {it: [(turn.was, turn.now) for turn in turns_of_kinds('Spans', texts, it)]
             for it in (('words',), ('pairs',), ('words', 'names', 'pairs'))}
    rows.say('the kinds of turns', [str(found)] * (list(found.values()) != [
        [('m n', 'n m')], [], [('m n', 'n m'), ('m', 'n'), ('n', 'm')]]))


def command() -> ModuleType:
    """The tool as a module."""
    loader = importlib.machinery.SourceFileLoader('turned', TURNED)
    spec = importlib.util.spec_from_loader('turned', loader)
    assert spec
    turned = importlib.util.module_from_spec(spec)
    loader.exec_module(turned)
    return turned


def ill_typed(rows: Rows, _: str) -> None:
    """What is refused as a definition, or above it, is refused by no row."""
    made = [Turn('Loops', 'ratio', line, 'a', 'b', '') for line in range(4)]
    said = ('proofs/LoopRows_t1.antt:9:3: error: `gain`: expected type\n'
            './proofs/Loops_t2.antt:16:3: error: `ratio`: expected type\n'
            './proofs/LoopRows_t2.antt:9:3: error: 1 declaration that depends on it\n'
            './proofs/Lives_t3.antt:5:3: error: `life`: expected type\n'
            './proofs/LoopRows_t3.antt:4:3: error: `life`: expected type\n')
    turned = command()
    found = turned.verdicts(said, made[1:], made[:1])
    wanted = {made[1]: 'LoopRows:9', made[2]: turned.NO_DEFINITION, made[3]: turned.NO_DEFINITION}
    rows.say('ill-typed turns', [str(found)] * (found != wanted))


def order(rows: Rows, _: str) -> None:
    """The rows of the loops themselves are tried before those that stand on whole lives."""
    found = command().quick_first('Loops', ['AnswerRows', 'LoopRows'])
    rows.say('which rows are tried first', [str(found)] * (found != [['LoopRows'], ['AnswerRows']]))


def words(rows: Rows, folder: str) -> None:
    """Kinds that are named are turned alone, and one that there isn't is refused."""
    for kind, wanted in (('names', ('n', 'k')), ('pairs', ('n - k) n', 'k - n) k'))):
        outcome = run([TURNED, '--list', '--kinds', kind, '--names', 'any_good', 'Lock'], folder)
        line = f'specs/Lock.antt:30: {wanted[0]} -> {wanted[1]}  (any_good)'
        rows.say(f'tools/turned --kinds {kind}', [str(outcome)[:300]]
                 * (line not in outcome.said.splitlines() or 'between' in outcome.said))
    outcome = run([TURNED, '--list', '--kinds', 'names,nothing', 'Lock'], folder)
    is_said = outcome.errors.endswith('no kind nothing\n') and not outcome.said
    rows.say('tools/turned --kinds nothing', [str(outcome)[-300:]]
             * (outcome.status != 2 or not is_said))


ROWS = (turns, kinds, ill_typed, order, words)
