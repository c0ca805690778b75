"""Rows of tools/turned: the turns of small definitions, worked out by hand, and its words."""
import importlib.machinery
import importlib.util
import os
import sys

from .commands import TOP, run

TOOLS = os.path.join(TOP, 'tools')
sys.path.insert(0, TOOLS)
from turns import turns_of

TURNED = os.path.join(TOOLS, 'turned')

# A record whose fields may be taken for each other, and definitions below it.
HEAD = '''-- No turn is in a comment: a + 7.
use Rattle.std.specs.Prelude.{ℕ, ◌+◌, nat_le, Bool, List}

pub record Span : Type 0 where
  pub first : ℕ
  pub last : ℕ
  pub name : List ℕ

'''

# A definition, and each of its turns: the line below the head, what stood there and what does now.
TURNS = (
    # A bound, a field for another of its type, a sign, a number by one, two arguments.
    ('reaches : Span → ℕ → Bool\nreaches s n = nat_le n (s.last + 3)\n', (
        (2, 'nat_le', 'nat_lt'), (2, 's.last', 's.first'), (2, '+', '-'), (2, '3', '4'),
        (2, '3', '2'), (2, 'n (s.last + 3)', '(s.last + 3) n'))),
    # Only what stands after the first `=` is turned, and no type.
    ('from_two : ℕ → ℕ\nfrom_two 2 = 0\n', ((2, '0', '1'),)),
    ('feed : ℕ\nfeed = 0x0a\n', ((2, '0x0a', '11'), (2, '0x0a', '9'))),
    # The branches of a condition, and the values of a record's fields.
    ('span : ℕ → ℕ → Span\nspan a b = if a == b then empty else record { first = a; last = b }\n', (
        (2, 'a == b', 'not (a == b)'), (2, 'a == b', 'nat_le (a) (b)'),
        (2, 'a == b', 'nat_le (b) (a)'), (2, 'a; last = b', 'b; last = a'))),
    # Each side of an equation ends at its bracket, or at a word that binds less.
    ('meets : ℕ → ℕ → Bool\nmeets a b = a && (f (b + c) == d) || e\n', (
        (2, '&&', '||'), (2, '+', '-'), (2, '||', '&&'),
        (2, 'f (b + c) == d', 'nat_le (f (b + c)) (d)'),
        (2, 'f (b + c) == d', 'nat_le (d) (f (b + c))'))),
    # The last letter of a text, and the pieces of one that is joined.
    ('named : List ℕ\nnamed = codes "no" ++ tail\n', (
        (2, '"no"', '"nn"'), (2, 'codes "no" ++ tail', 'tail ++ codes "no"'))),
    # Arms, and what a thing that isn't there is taken for.
    ('given : Option ℕ → ℕ\ngiven o = elim o [\n  | Some n ↦ n\n  | None ↦ 5\n]\n', (
        (4, 'None', 'Some 0'), (4, '5', '6'), (4, '5', '4'), (3, 'n | None ↦ 5', '5 | None ↦ n'))),
    # Two clauses of a definition exchanged. The arguments of `min` mean the same both ways.
    ('least : ℕ → ℕ\nleast zero = here\nleast (suc n) = min n there\n', (
        (3, 'min', 'max'),
        (2, 'here least (suc n) = min n there', 'min n there least (suc n) = here'))),
    ('places : List ℕ\nplaces = a ∷ f b c ∷ []\n', (
        (2, 'b c', 'c b'), (2, 'a ∷ f b c', 'f b c ∷ a'), (2, 'f b c ∷ []', '[] ∷ f b c'))),
    ('each : List ℕ → List ℕ\neach xs = map (λ i. i / 2) xs\n', (
        (2, '/', '%'), (2, '2', '3'), (2, '2', '1'), (2, '(λ i. i / 2) xs', 'xs (λ i. i / 2)'))),
)


def turns(rows, _):
    """Each definition has exactly these turns, in this order."""
    above = HEAD.count('\n')
    for text, wanted in TURNS:
        name = text.partition(' ')[0]
        found = [(it.line - above, it.was, it.now)
                 for it in turns_of('Spans', {'Spans': f'{HEAD}abbrev pub {text}'})]
        rows.say(f'the turns of {name}', [f'{it} is missing' for it in wanted if it not in found]
                 + [f'{it} is there' for it in found if it not in wanted]
                 + ['their order'] * (sorted(found) == sorted(wanted) and found != list(wanted)))


def texts(rows, _):
    """A turned text differs in its place alone, and in the word that it lacked above."""
    definition = 'abbrev pub reaches : ℕ → ℕ → Bool\nreaches a b = nat_le a b\n'
    found = {it.now: it.text for it in turns_of('Spans', {'Spans': HEAD + definition})}
    turned = definition.replace('nat_le', 'nat_lt')
    wanted = {'nat_lt': HEAD.replace('\nuse ', '\nuse Rattle.std.specs.Prelude.{nat_lt}\nuse ')
                        + turned, 'b a': HEAD + definition.replace('a b\n', 'b a\n')}
    rows.say('the text of a turn', [f'{it!r}: {found.get(it)!r}' for it in wanted
                                    if found.get(it) != wanted[it]])


# A file of rows: two that are computed, and one that is proved by a lemma with a part of its own.
ROWS_FILE = '''-- Rows.
use Rattle.definitions.specs.Spans.{feed, span}

feed_is_ten : feed ≡ 10
feed_is_ten = refl

-- A comment.
span_of_two : span 1 2 ≡ two
unfolding span
span_of_two = refl

lemma : (n : ℕ) → n ≡ n
lemma n = same n
  where
    other : ℕ
    other = 1

    same : (n : ℕ) → n ≡ n
    same n = refl

pair : span 1 1 ≡ two
pair = lemma 1
'''


def kept_rows(rows, _):
    """Of a file of rows stays what rests on a name, and all that isn't computed, whole."""
    loader = importlib.machinery.SourceFileLoader('turned', TURNED)
    turned = importlib.util.module_from_spec(importlib.util.spec_from_loader('turned', loader))
    loader.exec_module(turned)
    feed, span = (ROWS_FILE[ROWS_FILE.index(it):ROWS_FILE.index(end)] for it, end in (
        ('feed_is_ten', '-- A comment'), ('span_of_two', 'lemma')))
    for name, gone in (('feed_is_ten', span), ('span_of_two', feed)):
        wanted = ROWS_FILE.replace(gone, '').split()
        found = turned.rows_on(ROWS_FILE, {name}).split()
        rows.say(f'the rows on {name}', [f'it is {found}'] * (
            found != [it for it in wanted if it not in ('--', 'Rows.', 'A', 'comment.')]))


def words(rows, folder):
    """Definitions that are named are turned alone, and what there isn't is refused."""
    outcome = run([TURNED, '--list', '--names', 'chip_sign,selection_of', 'Codes'], folder)
    at = [line.rpartition('(')[2] for line in outcome.said.splitlines()]
    rows.say('tools/turned --names', [str(outcome)[:300]] * (
        set(at) != {'selection_of)', 'chip_sign)'}))
    for given, said in ((['Nothing'], 'no module Nothing'),
                        (['--beside', 'NoRows', 'Codes'], 'no file of rows NoRows'),
                        (['--names', 'chip,nothing', 'Codes'], 'no definition nothing'),
                        (['--copies', '0', 'Codes'], "invalid positive value: '0'")):
        outcome = run([TURNED, '--list', *given], folder)
        is_said = outcome.errors.endswith(f'{said}\n') and not outcome.said
        rows.say(f'tools/turned {" ".join(given)}', [str(outcome)[-300:]]
                 * (outcome.status != 2 or not is_said))


ROWS = (turns, texts, kept_rows, words)
