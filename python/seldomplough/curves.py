"""What a picture has, and what it is made of."""

from __future__ import annotations

import math
from dataclasses import dataclass, field
from typing import List, NamedTuple, Optional, Sequence

from seldomplough.lines import SlotLine


@dataclass
class Curve:
    """Points by a name."""

    name: str
    xs: List[float] = field(default_factory=list)
    ys: List[float] = field(default_factory=list)

    def add(self, x: float, y: float) -> None:
        """Adds a point."""
        self.xs.append(x)
        self.ys.append(y)


class Mark(NamedTuple):
    """A name at a place of the x axis."""

    x: float
    name: str


@dataclass
class Picture:
    """What is drawn: curves over axes with titles."""

    title: str
    x_title: str
    y_title: str
    curves: List[Curve]
    is_joined: bool = True
    """Whether the points of a curve are joined."""
    is_plane: bool = False
    """Whether both axes have one scale, with 0 in the middle."""
    from_zero: bool = False
    """Whether the y axis begins at 0."""
    marks: Sequence[Mark] = ()


class Wanted(NamedTuple):
    """Which lines a picture is of: the samples a second, and the client, slot and seconds."""

    rate: int
    client: Optional[int] = None
    slot: Optional[int] = None
    since: float = 0.0
    until: float = math.inf
    scripts: Sequence[bytes] = ()
    """The scripts of the clients, for a picture that needs them."""

    def takes(self, line: SlotLine) -> bool:
        """Whether a line is of a slot, a client and a time that are wanted."""
        is_of_slot = self.client in (None, line.client) and self.slot in (None, line.slot)
        return is_of_slot and self.since <= line.time / self.rate <= self.until
