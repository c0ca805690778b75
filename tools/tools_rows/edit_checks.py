"""Rows of which edits tools/edits tries in one check, and of what the prover says there of each
crate."""
import os
import sys

from .commands import TOP

sys.path.insert(0, os.path.join(TOP, 'tools'))
from edit_checks import MOST_EDITS, groups_of
from trial_rooms import of_crate

# Libraries, each over those before it but for the last, and a program of this repository.
CRATES = {'low': [], 'middle': ['low'], 'high': ['low', 'middle'], 'other': [],
          'receiver_cli': ['high']}

HALF = MOST_EDITS // 2

# How many edits crates have, and which are tried together.
GROUPS = (
    ('few of each', {'low': 1, 'middle': 2, 'high': 3, 'other': 4},
     [['low', 'middle', 'high', 'other']]),
    ('none of what lies between', {'low': 1, 'high': 1, 'other': 1}, [['low', 'other'], ['high']]),
    ('as many as one check takes', {'low': HALF, 'middle': MOST_EDITS - HALF},
     [['low', 'middle']]),
    ('one more', {'low': HALF, 'middle': MOST_EDITS - HALF, 'other': 1},
     [['low', 'middle'], ['other']]),
    ('too many of what lies between', {'low': 1, 'middle': MOST_EDITS, 'high': 1},
     [['low'], ['middle'], ['high']]),
    ('of a program', {'high': 1, 'receiver_cli': 1, 'other': 1}, [['high', 'other'],
                                                                  ['receiver_cli']]))

# What the prover says of two libraries whose sources it reads, and of the crate above them.
SAID = '''note: ../low/src/tally.rt:6:5: it is not proved that it returns this (`returns`)
../low/proofs/Tallies.antt:3:1: error: `count-is`: the two types differ
../lower/proofs/Tallies.antt:9:1: error: `sum-is`: the two types differ
../low/out/made.antt:1:1: error: `made`: the two types differ
./proofs/Tallies.antt:1:1: error: `own-is`: the two types differ
fn low::tally::count: not proved'''

OF_LOW = '''note: src/tally.rt:6:5: it is not proved that it returns this (`returns`)
proofs/Tallies.antt:3:1: error: `count-is`: the two types differ'''


def groups(rows, _):
    """Crates share a check where none that is built lies between them, as long as it isn't too
    much."""
    for name, counts, wanted in GROUPS:
        places = {it: dict.fromkeys(range(counts.get(it, 0))) for it in CRATES}
        made = groups_of(places, CRATES)
        alone = [sorted(it) for it in made] != [sorted(it) for it in wanted]
        rows.say(f'edits of one check, {name}', [str(made)] * alone)


def said(rows, _):
    """What is said of one of several crates is said of its own sources and proofs."""
    found = of_crate(SAID, 'low')
    rows.say('what is said of one of several crates', [found] * (found != OF_LOW))


ROWS = (groups, said)
