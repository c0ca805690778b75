"""Rows of the wrong definitions that tools/edits tries: of which files each has copies, what these
name, and what counts as refused."""
import os
import sys

from .commands import TOP, write

sys.path.insert(0, os.path.join(TOP, 'tools'))
from wrong_bodies import Edit
from wrong_definitions import (Copies, Modules, answers_of, can_copy, home_of_law,
                               with_copies)

# A crate: a lemma leads to what it is of, and to what that stands on, and another file doesn't. A
# type that its code declares leads to the units.
FILES = {
    'src/lib.rt': 'mod tally;\n',
    'src/tally.rt': 'ghost use Rattle.tally.specs.Units.{one};\npub struct Tally {}\n\n'
                    'impl Tally {\n    ghost use Rattle.tally.specs.Sums.{sum};\n}\n',
    'specs/Lib.antt': 'pub mod Counts\npub mod Sums\npub mod Units\n',
    'specs/Counts.antt': 'pub count : ℕ\ncount = 3\n',
    'specs/Sums.antt': 'use Rattle.tally.specs.Counts.{count}\nuse Rattle.tally.specs.Units.{one}\n'
                       'pub sum : ℕ\nsum = count + one\n',
    'specs/Units.antt': 'pub one : ℕ\none = 1\n',
    'proofs/Lib.antt': 'pub mod SumLemmas\nmod UnitLemmas\n',
    'proofs/SumLemmas.antt': 'use Rattle.std.specs.Prelude.{ℕ}\nuse Rattle.tally.specs.Sums.{sum}\n'
                             'module _ (n : ℕ) where\n  pub sum-is : sum ≡ 4\n  sum-is = refl\n',
    'proofs/CodeLemmas.antt': 'use Rattle.tally.specs.Sums.{sum}\n'
                              'use Rattle.tally.specs.contracts.tally.Tally.{Adds}\n'
                              'adds : Adds\nadds = refl\n',
    'proofs/TypeLemmas.antt': 'use Rattle.tally.specs.Sums.{sum}\n'
                              'use Rattle.tally.specs.declared.tally.Tally.{Tally}\n'
                              'of-type : Tally → sum ≡ 4\nof-type _ = refl\n',
    'proofs/UnitLemmas.antt': 'use Rattle.tally.specs.Units.{one}\none-is : one ≡ 1\none-is = refl',
}

# The copies of an edit of the counts, and the lists of files with them.
MADE = {
    'specs/CountsWrong1.antt': 'pub count : ℕ\ncount = 2\n',
    'specs/SumsWrong1.antt': 'use Rattle.tally.specs.CountsWrong1.{count}\n'
                             'use Rattle.tally.specs.Units.{one}\npub sum : ℕ\nsum = count + one\n',
    'proofs/SumLemmasWrong1.antt':
        FILES['proofs/SumLemmas.antt'].replace('specs.Sums.', 'specs.SumsWrong1.'),
    'specs/Lib.antt': 'pub mod Counts\npub mod CountsWrong1\npub mod Sums\npub mod SumsWrong1\n'
                      'pub mod Units\n',
    'proofs/Lib.antt': 'pub mod SumLemmas\npub mod SumLemmasWrong1\nmod UnitLemmas\n',
}

COUNTS = ('file: specs/Counts.antt', 'old: count = 3', 'new: count = 2')
UNITS = ('file: specs/Units.antt', 'old: one = 1', 'new: one = 2')


def edit(folder, goal, *texts):
    """An edit of the crate."""
    path = os.path.join(folder, 'wrong.edit')
    write(path, '\n'.join(['# turns: law sums', f'# goal: {goal}', *texts]))
    return Edit(path)


def modules(folder):
    """The files of the crate, in a folder."""
    for file, text in FILES.items():
        write(os.path.join(folder, file), text)
    return Modules('tally', folder)


def copies(rows, folder):
    """The files between a lemma and what is changed are copied, and name each other."""
    given = modules(folder)
    wrong = Copies(edit(folder, 'proofs/SumLemmas sum-is', *COUNTS), 1, given)
    made = with_copies([wrong], given)
    rows.say('copies of definitions', [f'{file}: {made.get(file)}' for file in {*made, *MADE}
                                       if made.get(file) != MADE.get(file)])
    right = Copies(wrong.edit, 1, given, is_right=True).made()
    wanted = {file.replace('Wrong', 'Right'): text.replace('Wrong', 'Right').replace('= 2', '= 3')
              for file, text in MADE.items() if 'Lib' not in file}
    rows.say('copies with nothing changed', [str(right)] * (right != wanted))


def copied(rows, folder):
    """An edit has copies where it changes what its lemma leads to, and no code."""
    given = modules(folder)
    for name, goal, texts, wanted in (
            ('a count', 'proofs/SumLemmas sum-is', COUNTS, True),
            ('a lemma by its name', 'sum-is', COUNTS, True),
            ('two definitions', 'sum-is', COUNTS + UNITS, True),
            ('a lemma of another file', 'proofs/UnitLemmas sum-is', COUNTS, False),
            ('no lemma', 'proofs/SumLemmas sum-was', COUNTS, False),
            ('what leads nowhere', 'proofs/UnitLemmas one-is', COUNTS, False),
            ('a lemma of code', 'adds', COUNTS, False),
            ('a lemma of a type', 'of-type', COUNTS, True),
            ('what a type leads to', 'of-type', UNITS, False),
            ('code', 'sum-is', (*COUNTS, 'file: src/lib.rt', 'old: a', 'new: b'), False)):
        found = can_copy(edit(folder, goal, *texts), given)
        rows.say(f'copied: {name}', [str(found)] * (found != wanted))


def refused(rows, folder):
    """A lemma counts that fails itself in the copies of its edit."""
    wrong = Copies(edit(folder, 'proofs/SumLemmas sum-is', *COUNTS), 1, modules(folder))
    fails = 'the two types differ'
    for name, line, wanted in (
            ('itself', f'./proofs/SumLemmasWrong1.antt:5:3: error: `sum-is`: {fails}', True),
            ('another', f'./proofs/SumLemmasWrong1.antt:5:3: error: `sum-was`: {fails}', False),
            ('of another edit', f'./proofs/SumLemmasWrong11.antt:5:3: error: `sum-is`: {fails}',
             False),
            ('by what it cites', './proofs/SumLemmasWrong1.antt:5:3: error: 1 declaration that '
             'depends on `sum`, which was rejected, was not checked: sum-is', False)):
        rows.say(f'a lemma refused, {name}', [line] * (wrong.is_refused(line) != wanted))
    line = './specs/SumsWrong1.antt:1:1: error: `sum`: `count` is not in scope'
    found = wrong.faults(f'logic=not-proved\n{line}\n{line.replace("Wrong1", "Right1")}')
    rows.say('what is refused in copies', [str(found)] * (found != [line]))


def entry(rows, folder):
    """A law's answers lead to the lemmas of all copies, and prove nothing."""
    given = modules(folder)
    wrong = [Copies(edit(folder, goal, *COUNTS), number, given)
             for number, goal in enumerate(('proofs/SumLemmas sum-is', 'sum-is'), 1)]
    lines = answers_of(wrong, given).split('\n')
    wanted = [f'use Rattle.tally.proofs.SumLemmasWrong{it} as Wrong{it}' for it in (1, 2)]
    rows.say('what a law leads to', [str(lines)] * (lines[:2] != wanted))
    rows.say('what a law proves', [str(lines)] * any(it.startswith('pub ') for it in lines))
    sources = {'src/lib.rt': 'mod laws;\n', 'src/laws.rt': 'pub fn sums()\n    ensures { ⊤ }\n{}\n'}
    found = home_of_law('sums', sources)
    rows.say('where a law is proved', [found] * (found != 'proofs/laws/sums'))


ROWS = (copies, copied, refused, entry)
