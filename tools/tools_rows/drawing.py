"""Rows of tools/drawn-rows: its words, and what needs no prover. The reference's codes begin with
the chips that IS-GPS-200 prints in octal, and its parity, subframes and sets meet worked rows."""
from __future__ import annotations

import os
import sys
from random import Random
from typing import Any

from .commands import TOP, changes, contents, run

TOOLS = os.path.join(TOP, 'tools')
sys.path.insert(0, TOOLS)
from definition_trials import SPECS, read_texts
from drawn_rows import antt, coverage, rows as drawn, wrong
from drawn_rows.checks import texts_of_definitions
from drawn_rows.definitions import Definitions
from drawn_rows.kinds import KINDS
from drawn_rows.reference import fields, loops, message, scripts, sets, signal
from drawn_rows.reference.signal import Settings, Shift, Sums

DRAWN = os.path.join(TOOLS, 'drawn-rows')

# The first ten chips of each satellite: one digit for the first, three for three each.
OCTAL = ('1440 1620 1710 1744 1133 1455 1131 1454 1626 1504 1642 1750 1764 1772 1775 1776 1156 1467'
         ' 1633 1715 1746 1763 1063 1706 1743 1761 1770 1774 1127 1453 1625 1712').split()


def first_chips(satellite: int) -> str:
    """The first ten chips of a satellite, one digit for the first, and three for three each."""
    chips = [signal.chip(satellite, it) for it in range(10)]
    return f'{chips[0]}{message.number_of(chips[1:]):03o}'


# Worked values: what it is, what the reference gives, and what must come out.
WORKED = (
    ('the octal first chips', [first_chips(it) for it in range(1, 33)], OCTAL),
    ('a carrier step', signal.carrier_step(Settings(4092000, 0), -65536), 4294966246),
    ('a code step', signal.code_step(Settings(4092000, 0), Shift(1540 * 65536, 0)), 1073742873),
    ('two-bit samples', [signal.sample('real2', [0x72], it)[0] for it in range(4)], [3, -3, 1, -1]),
    ('complex samples', [signal.sample('iq2', [0x4B, 0x2D], it) for it in range(4)],
     [(3, 1), (-1, -3), (1, -1), (-3, 3)]),
    ('words that pass', [message.check(0x22C00012, 0), message.check(0x00002104, 2),
                         message.check(0x3FFFFFD6, 1), message.check(0x3FFFFFFF, 3)],
     [0x8B0000, 0x84, 0, 0]),
    ('a loop from rest', loops.loops_after(
        0, [Sums(2, 0, 1, 0, 1, 0), Sums(1, 0, 2, -1, 2, 0)])[3:], (-218560, -39328)),
    ('a lock that ends', loops.answers([Sums(0, 0, 2, 1, 0, 0)] * 219
                                       + [Sums(0, 0, 1, 1, 0, 0)] * 1000).by_dump,
     {219: 'lock', 419: 'unlock', 1219: 'lost'}),
    ('an edge', message.edge([1 - 2 * (it // 20 % 2) for it in range(340)]), 320),
    ('an almanac whose af0 is split', [fields.page([0x8B0000, 0x14, 0x010000, *[0] * 6, 0x800004])
                                       .values[-2:]], [[-1023, 0]]),
    ('refusals of a script', [it.what for it in scripts.script(
        4, b'4 fly 0\n6 stop\n6 stop z\n6 hold 4 z 0 0\n5 stop 0\nx\n\r\n' + b'x' * 81)],
     [5, 6, 7, 8, 4, 3, 2, 1]),
)


def worked(rows: Any, _: str) -> None:
    """The reference gives what worked rows of the specification say."""
    for name, given, wanted in WORKED:
        rows.say(name, [f'it is {given}'] * (given != wanted))
    almanacs = [fields.Page('almanac', [0, it, 0, 5, *[0] * 9]) for it in range(1, 33)]
    told = sets.reports(almanacs).almanacs
    rows.say('a set of almanacs', [f'it is {told}'] * (told != (5, [0] * 32)))


def draws(rows: Any, _: str) -> None:
    """A seed gives the same inputs each time, and each kind draws some that differ."""
    for kind in KINDS.values():
        first, again = drawn.drawn(kind, '1', 4), drawn.drawn(kind, '1', 4)
        made = {kind.draw(Random(it)) for it in range(40)}
        rows.say(f'the kind {kind.name}', ['it is not the same'] * (first != again)
                 + ['it is nearly one input'] * (len(made) < 3))


def terms(rows: Any, _: str) -> None:
    """Values as terms: runs told once, texts by lines, numbers below zero."""
    for given, wanted in ((antt.listed([1, 2]), '(1 ∷ 2 ∷ [])'), (antt.listed([]), '[]'),
                          (antt.listed([7] * 9 + [1]), '(replicate 9 7 ++ 1 ∷ [])'),
                          (antt.integer(-1), '(negsuc 0)'), (antt.text('a b'), '(codes "a b")'),
                          (antt.text([97, 10, 10]), '(codes "a" ++ (10 ∷ []) ++ (10 ∷ []))'),
                          (antt.text([9]), '(9 ∷ [])')):
        rows.say(f'the term {wanted}', [f'it is {given}'] * (given != wanted))


def slips(rows: Any, _: str) -> None:
    """Each wrong definition stands in for text that its module has once, and has its turn on one
    day of a week. No kind has none."""
    texts = read_texts(SPECS)
    for it in wrong.read():
        rows.say(f'{it.module}: {it.new[:40]}', ['its place is not there once'] * (
            texts[it.module].count(it.old) != 1))
    turns = [it for turn in range(wrong.TURNS) for it in wrong.of_turn(turn)]
    rows.say('turns of wrong definitions', ['one is left out or has two']
             * (sorted(turns) != sorted(wrong.read())) + ['a day has none']
             * (not all(map(wrong.of_turn, range(wrong.TURNS)))))
    bare = set(KINDS) - {it.kind for it in wrong.read()}
    rows.say('kinds without a wrong definition', [' '.join(sorted(bare))] * bool(bare))


# Tables that are wrong: what is put into the right one, and what is said of it.
WRONG_TABLES = (
    ({'Codes.g1_taps': None}, 'Codes.g1_taps is neither drawn nor in the table'),
    ({'Codes.chip': coverage.reached('chip_sign')}, 'Codes.chip is drawn, and stands in the table'),
    ({'Codes.chips': coverage.reached('chip')},
     'Codes.chips is in the table, and is no definition'),
    ({'Codes.g1_taps': coverage.reached('ratio')}, 'Codes.g1_taps is not reached by ratio'),
    ({'Codes.g1_taps': coverage.reached('chips')}, 'Codes.g1_taps is not reached by chips'),
    ({'Codes.g1_taps': coverage.reached('')}, 'Codes.g1_taps has no reason: reached'),
    ({'Codes.g1_taps': coverage.Reason('size')}, 'Codes.g1_taps has no reason: size'),
    ({'Codes.g1_taps': coverage.Reason('dull')}, 'Codes.g1_taps has no reason: dull'),
    ({'Codes.g1_taps': coverage.Reason('function')}, 'Codes.g1_taps is none: function'),
    ({'Codes.g1_taps': coverage.Reason('relation')}, 'Codes.g1_taps is none: relation'),
    ({'Lives.dumps_of_channel': coverage.Reason('constant')},
     'Lives.dumps_of_channel is none: constant'),
)


def covered(rows: Any, _: str) -> None:
    """Each definition is drawn, or in the table with a reason that is so."""
    definitions = Definitions(texts_of_definitions())
    rows.say('definitions that are drawn or not', coverage.faults(definitions))
    for changed, said in WRONG_TABLES:
        table = {name: it for name, it in {**coverage.TABLE, **changed}.items() if it}
        found = coverage.faults(definitions, table)
        rows.say(f'a table of which {said}', [f'it says {found}'] * (found != [said]))
    told = [it.line() for it in coverage.told_of(definitions)]
    for line in ('Codes.chip: drawn by chip', 'Codes.g1_taps: constant, one value, which takes'
                 ' nothing; reached by chip', 'Acquisition.Plan: type, a type of values'):
        rows.say(f'the line {line}', ['it is missing'] * (line not in told))


def words(rows: Any, folder: str) -> None:
    """Odd words are refused, and nothing is written."""
    before = contents(folder)
    for given, said in ((['--only', 'nothing'], 'no kind nothing'),
                        (['--seed', 'x'], "invalid seed value: 'x'"),
                        (['--inputs', '0'], "invalid positive value: '0'"),
                        (['--wrong', '--list'], 'not allowed with argument --wrong'),
                        (['--turn', '--wrong'], 'not allowed with argument --turn')):
        outcome = run([DRAWN, *given], folder)
        is_said = outcome.errors.endswith(f'{said}\n') and not outcome.said
        rows.say(f'tools/drawn-rows {" ".join(given)}', [str(outcome)[-300:]]
                 * (outcome.status != 2 or not is_said))
    listed = run([DRAWN, '--list', '--only', 'chip'], folder)
    rows.say('tools/drawn-rows --list', [str(listed)[-300:]] * (listed.said != 'chip chip 8 1\n')
             + changes(before, contents(folder)))


ROWS = (worked, draws, terms, slips, covered, words)
