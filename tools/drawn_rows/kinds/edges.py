"""Kinds of the edge of the bits, which is too far to be computed: the reset before a push stays a
word, and so does whether a push is the edge."""
from __future__ import annotations

from random import Random

from .. import antt
from ..reference import message
from .bits import drawn_pushes
from .registry import Row, kind


@kind('is_edge', group=5, count=20, unfolded=('xor',))
def is_edge(r: Random) -> Row:
    """A change is one where it is the sixteenth at its place since the last reset before it."""
    pushes = drawn_pushes(r, r.choice([20, 60]))
    changes = [it for it in range(1, len(pushes)) if message.is_change(pushes, it)]
    number = r.choice(changes or [0]) if r.random() < .8 else r.randrange(len(pushes))
    text = antt.listed(pushes, antt.integer)
    told = (f'(changes_at {text} {number % 20} (reset_up_to {text} {number - 1}) {number} == 16)'
            if number in changes else 'false')
    return f'{text} {number}', told


@kind('edge_of_all', group=5, count=10, of='edge_of', unfolded=('edge_of',))
def edge_of_all(r: Random) -> Row:
    """The last push may be the edge too."""
    pushes = drawn_pushes(r, r.choice([0, 1, 20]))
    text, count = antt.listed(pushes, antt.integer), len(pushes)
    return text, f'least_below (is_edge {text}) {count}'
