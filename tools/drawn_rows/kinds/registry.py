"""The kinds of inputs: of each the definition, and how an input of it is drawn."""
from __future__ import annotations

import random
from typing import Callable, NamedTuple, Optional, Sequence

# What a draw gives: the arguments of the definition, and the value that the reference gives.
Row = tuple[str, str]
Draw = Callable[[random.Random], Row]


class Kind(NamedTuple):
    """A kind: its name, its definition, how many inputs stand in one equation, how many of it are
    drawn where nobody says how many, and how one is. Where the arguments are the whole left side
    of the equation, `is_whole`. Where words of the right side stay uncomputed, `unfolded` has those
    that don't."""
    name: str
    definition: str
    group: int
    usual: int
    draw: Draw
    is_whole: bool
    unfolded: Optional[Sequence[str]]


KINDS: dict[str, Kind] = {}


def kind(name: str, group: int = 20, count: int = 60, of: str = '', is_whole: bool = False,
         unfolded: Optional[Sequence[str]] = None) -> Callable[[Draw], Draw]:
    """Has a function draw the inputs of a kind, which has its definition's name, or one of its own
    beside another of the same."""
    def put(draw: Draw) -> Draw:
        assert name not in KINDS
        KINDS[name] = Kind(name, of or name, group, count, draw, is_whole, unfolded)
        return draw

    return put
