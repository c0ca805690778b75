"""Rows of what each crate has of the processors while the program is proved."""
import os
import sys

from .commands import TOP

sys.path.insert(0, os.path.join(TOP, 'tools'))
from crate_order import job_count, read_crates, with_those_below
from crate_shares import Shares, chains_above


def chains(rows, _):
    """A chain weighs what stands in it above a crate, where it weighs most."""
    crates = {'a': [], 'b': ['a'], 'c': ['a'], 'd': ['b', 'c']}
    found = chains_above(list(crates), crates, {'a': 8, 'b': 1, 'c': 5, 'd': 2})
    rows.say('chains of crates', [f'{found}'] * (found != {'a': 7, 'b': 2, 'c': 2, 'd': 0}))


def processors(rows, _):
    """The crate that the longest chain begins with has all processors, and others give way."""
    crates = read_crates()
    names = with_those_below(['receiver_cli'], crates)
    shares, most = Shares(names, crates), job_count()
    longest = max(names, key=lambda it: shares.chains[it])
    other = next(it for it in names if not crates[it] and it != longest)
    first, second = shares.begin(longest), shares.begin(other)
    rows.say('the longest chain', [f'{longest}: {first}'] * (first != (most, 0)))
    rows.say('a crate beside it', [f'{other}: {second}'] * (
        second[0] != max(2, most // 2) or second[1] <= 0))
    for name in names[:-1]:
        shares.end(name)
    last = shares.begin(names[-1])
    rows.say('the last crate', [f'{names[-1]}: {last}'] * (last != (most, 0)))


ROWS = (chains, processors)
