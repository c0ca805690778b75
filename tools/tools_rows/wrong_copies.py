"""Rows of the wrong bodies that tools/edits tries: where an edit changes what, its copy, and what
counts as refused."""
import os
import sys

from .commands import TOP, write

sys.path.insert(0, os.path.join(TOP, 'tools'))
from answers import Answers
from bare_bodies import REFUSED
from lone_goals import bodies_of
from second_bodies import home_of, with_seconds
from trials import why_not_refused
from wrong_bodies import BadEdit, Edit, functions, refusals as refusals_in, without_those

SOURCE = '''//! Counts.
#![tactic(auto)]

impl Tally {
    /// The count.
    pub fn count(&self) -> u64
        requires few { self.now.count < 9 }
        ensures value { result ≡ self.now.count }
        ensures most { result ≤ 9 }
        ensures long { (other : ℕ) → other ≡ result
            → other ≤ 9 }
    {
        self.count
    }

    /// One more.
    pub fn add(&mut self) {
        self.count += 1;
    }
}

impl From<u64> for Tally {
    fn from(count: u64) -> Tally {
        Tally { count }
    }
}
'''

# The functions that edits turn.
COUNT = SOURCE[SOURCE.index('    /// The count.'):SOURCE.index('\n    /// One more.')]
FROM = SOURCE[SOURCE.index('    fn from'):SOURCE.rindex('}\n')]

# The copy of `count` with a wrong body, and its contract: the clause that the edit turns, and the
# shortest of the others.
COPY = '''#[tactic(auto)]
    /// The count.
    pub fn count_body1(&self) -> u64
        requires few { self.now.count < 9 }
        ensures value { result ≡ self.now.count }
        ensures most { result ≤ 9 }


    {
        0
    }
'''

# What stands in the place of a trait's method.
IN_PLACE = '''#[tactic(auto)]
    fn from(count: u64) -> Tally {
        Tally { count: 0 }
    }
'''

# What the prover says where `add` has no body, and the lemma `count-is` fails.
SAID = '''note: src/lib.rt:6:5: it is not proved that it returns this (`returns-clause-value`)
note: src/lib.rt:17:5: it is not proved that this is not reached (`unreachable`)
./proofs/Tallies.antt:3:1: error: `count-is`: the two types differ
./proofs/Tallies.antt:9:1: error: 1 declaration that depends on `count-is`, which was rejected, \
was not checked: count-grows
logic=not-proved'''

# What the prover says of a proof that names what an edit took away, and of one that doesn't prove
# its goal any more.
LACKING = (
    '`value`: `c.add` has no field `result`',
    '`value`: `add-sums` is not in scope',
    '`value`: module `Tallies` has no `sums`',
    '`value`: record `Tally.count_body1.Lts.After-self` (nearest: .count)',
    '`value`: `.result` projects from a record, but this has type `ℕ`',
    '`value`: `goal.After-self`: module `Tally.count_body1.Goals`',
    '`value`: `sums` was not admitted')
SHOWING = (
    '`value`: `omega`: the goal does not follow from what it read',
    '`value`: the two types differ where one has module `Tally` in it')

VALUE = ('clause value of Tally::count', 'returns-clause-value src/lib.rt')


def edit(folder, turns, goal, *texts):
    """An edit of the source."""
    path = os.path.join(folder, 'wrong.edit')
    write(path, '\n'.join([f'# turns: {turns}', f'# goal: {goal}', 'file: src/lib.rt', *texts]))
    return Edit(path)


def given(_):
    """The text of a file of the crate."""
    return SOURCE


def places(rows, folder):
    """An old text stands once: in the file, or in the functions with a name."""
    for name, texts, wanted in (
            ('twice', ['old: self.count', 'new: 0'], 'an old text stands 2 times'),
            ('not there', ['inside: add', 'old: self.now', 'new: 0'], 'an old text stands 0 times'),
            ('no function', ['inside: sub', 'old: self.count', 'new: 0'],
             'an old text stands 0 times'),
            ('in one', ['inside: count', 'old:         self.count', 'new:         0'], None)):
        try:
            said = edit(folder, *VALUE, *texts).texts(given)['src/lib.rt']
            faults = [said] * (wanted is not None
                               or said != SOURCE.replace('        self.count\n', '        0\n'))
        except BadEdit as why:
            faults = [str(why)] * (wanted is None or wanted not in str(why))
        rows.say(f'an old text, {name}', faults)


def copies(rows, folder):
    """A copy has the clause that its edit turns and one more. A trait's method has no copy."""
    write(os.path.join(folder, 'src', 'lib.rt'), SOURCE)
    zero = ['inside: count', 'old:         self.count', 'new:         0']
    whole = COPY.replace('9 }\n\n\n', '9 }\n        ensures long { (other : ℕ) → other ≡ result\n'
                         '            → other ≤ 9 }\n')
    for name, turned, texts, called, wanted in (
            ('a method', VALUE, zero, 'Tally::count_body1', f'{COUNT}\n{COPY}'),
            ('no clause', ('the invariant', 'returns src/lib.rt'), zero, 'Tally::count_body1',
             f'{COUNT}\n{whole}'),
            ('a method of a trait', ('the clause of TallyFromU64::from', 'returns src/lib.rt'),
             ['old: Tally { count }', 'new: Tally { count: 0 }'], 'TallyFromU64::from',
             f'\n{IN_PLACE}')):
        wrong = edit(folder, *turned, *texts)
        body, = bodies_of({wrong: wrong.place(given)}, folder)
        made = with_seconds([body], given)['src/lib.rt']
        right = FROM if body.is_in_place else COUNT
        faults = [made] * (made != SOURCE.replace(right, wanted))
        faults += [body.full_name()] * (body.full_name() != called)
        first = made.split('\n')[body.place[1].first - 1]
        rows.say(f'a copy of {name}', faults + [first] * (first != '#[tactic(auto)]'))


def unproved(rows, folder):
    """A copy's proof is that of its function, with an answer that is refused at once. A method of a
    trait that stands in an `impl` has a proof, and one in the trait has none."""
    write(os.path.join(folder, 'src', 'lib.rt'), SOURCE)
    one = 'pub returns-clause-value : goal.returns-clause-value\nreturns-clause-value c = refl\n'
    write(os.path.join(folder, 'proofs', 'Tally', 'count', 'Answers.antt'), one)
    wrong = edit(folder, *VALUE, 'inside: count', 'old:         self.count', 'new:         0')
    body, = bodies_of({wrong: wrong.place(given)}, folder)
    body.copy_proof(folder)
    path = os.path.join(folder, 'proofs', 'Tally', 'count_body1', 'Answers.antt')
    with open(path, encoding='utf-8') as source:
        text = source.read()
    rows.say('the proof of a copy', [text] * (text != f'{one}\n{REFUSED}'))
    homes = [home_of(('src/lib.rt', it), folder) for it in functions(SOURCE)]
    wanted = [os.path.join(folder, 'proofs', it)
              for it in ('Tally/count', 'Tally/add', 'TallyFromU64/from')]
    rows.say('where functions are proved', [str(homes)] * (homes != wanted))
    trait = 'pub trait Counts {\n    fn count(&self) -> u64 {\n        0\n    }\n}\n'
    write(os.path.join(folder, 'trait', 'src', 'lib.rt'), trait)
    place = 'src/lib.rt', next(functions(trait))
    home = home_of(place, os.path.join(folder, 'trait'))
    rows.say('where a method in a trait is proved', [str(home)] * (home is not None))


def answers(rows, _):
    """Answers to some goals, with all that stands between."""
    texts = ['use A.{b}\n', 'pub one : goal.one\none c =\n    b c\n', 'helper : B\nhelper = b\n',
             'pub two : goal.two\nunfolding b\ntwo c = refl\n']
    found = Answers('\n'.join(texts))
    rows.say('the names of answers', [f'{[*found.answers]}'] * ([*found.answers] != ['one', 'two']))
    for kept, wanted in (('one', [0, 2, 1]), ('two', [0, 2, 3]), ('three', [0, 2])):
        text = found.of_goals(lambda it, goal=kept: it == goal)
        rows.say(f'the answer to {kept}', [text] * (
            text.split() != ''.join(texts[it] for it in wanted).split()))


def refusals(rows, folder):
    """A goal counts that fails itself, and none of a function without its body."""
    others = [('src/lib.rt', it) for it in functions(SOURCE) if it.name == 'add']
    said = without_those(SAID, others)
    kept = [it for it in SAID.split('\n') if 'unreachable' not in it]
    rows.say('what is said of others', [said] * (said.split('\n') != kept))
    for goal, is_refused in (('returns-clause-value src/lib.rt', True),
                             ('count-is proofs/Tallies', True), ('unreachable src/lib.rt', False),
                             ('count-grows proofs/Tallies', False)):
        why = why_not_refused(edit(folder, 'a clause', goal, 'old: a', 'new: b'), said)
        rows.say(f'the goal {goal}', [str(why)] * (is_refused != (why is None)))
    why = why_not_refused(edit(folder, *VALUE, 'old: a', 'new: b'), 'logic=proved')
    rows.say('no goal', [str(why)] * ('no goal was refused' not in str(why)))


def lacks(rows, _):
    """A proof that names what an edit took away is no refusal: it shows no clause."""
    for texts, counts in ((LACKING, False), (SHOWING, True)):
        for text in texts:
            line = f'./proofs/Tally/count/Answers.antt:4:9: error: {text}'
            rows.say(f'said of an answer: {text}', [line] * (bool(refusals_in(line)) != counts))


ROWS = (places, copies, unproved, answers, refusals, lacks)
