"""The lines of answers to commands, and of the end."""

from __future__ import annotations

from dataclasses import dataclass
from fractions import Fraction
from typing import ClassVar, Sequence, Tuple

from seldomplough.bases import NATURAL, SATELLITE, SIGNED, SLOT, Line, SlotLine

# Shifts count parts of a Hz or of a chip a second.
PARTS = 65536

# What each refusal says: the table of docs/FORMATS.md.
REFUSALS = {
    1: 'the line is longer than 80 bytes',
    2: 'a byte outside 20 to 7E hexadecimal, such as a tab or a carriage return',
    3: "the first word isn't a time, 1 to 13 digits, at most 2^40",
    4: 'the time is before that of the line before',
    5: 'no verb, or an unknown one',
    6: 'another number of words than the verb takes',
    7: 'a word is no number',
    8: 'a number is out of its range',
    9: "the slot isn't idle",
    10: 'the slot is idle',
}


@dataclass(frozen=True)
class Ok(Line):
    """`ok`: a command other than `state` was accepted."""

    __slots__ = ()
    kind = 'ok'


@dataclass(frozen=True)
class End(Line):
    """`end`: the samples came to their end."""

    __slots__ = ()
    kind = 'end'


@dataclass(frozen=True)
class Err(Line):
    """`err`: a command was refused, by the case `refusal`."""

    __slots__ = ('refusal',)

    refusal: int

    kind = 'err'
    form: ClassVar[str] = ' (10|[1-9])'
    names: ClassVar[Tuple[str, ...]] = ('refusal',)
    derived_names: ClassVar[Tuple[str, ...]] = ('reason',)

    @property
    def reason(self) -> str:
        """What the case says in words."""
        return REFUSALS[self.refusal]


@dataclass(frozen=True)
class State(SlotLine):
    """`state`: what a slot does, by its `mode`."""

    __slots__ = ()

    mode: ClassVar[str]

    @classmethod
    def of_words(cls, words: Sequence[str]) -> State:
        """The line of the groups of its pattern. The mode is the fourth, and has no other value."""
        return cls(*map(int, (*words[:3], *words[4:])))


@dataclass(frozen=True)
class StateIdle(State):
    """`state` of an idle slot."""

    __slots__ = ()

    kind = 'state'
    mode = 'idle'
    form: ClassVar[str] = f' {SLOT} (idle)'
    names: ClassVar[Tuple[str, ...]] = ('slot', 'mode')


@dataclass(frozen=True)
class StateAcquire(State):
    """`state` of a slot that searches: `done` of its `cells` are done."""

    __slots__ = ('satellite', 'done', 'cells')

    satellite: int
    done: int
    cells: int

    kind = 'state'
    mode = 'acquire'
    form: ClassVar[str] = f' {SLOT} (acquire) {SATELLITE} {NATURAL} {NATURAL}'
    names: ClassVar[Tuple[str, ...]] = ('slot', 'mode', 'satellite', 'done', 'cells')


@dataclass(frozen=True)
class StateHold(State):
    """`state` of a slot that holds: its dumps since `hold`."""

    __slots__ = ('satellite', 'dumps')

    satellite: int
    dumps: int

    kind = 'state'
    mode = 'hold'
    form: ClassVar[str] = f' {SLOT} (hold) {SATELLITE} {NATURAL}'
    names: ClassVar[Tuple[str, ...]] = ('slot', 'mode', 'satellite', 'dumps')


@dataclass(frozen=True)
class StateTrack(State):
    """`state` of a slot that tracks. `v` is the Doppler shift in 1/65536 Hz, `w` the code's
    correction in 1/65536 chip a second. `stage` is `open`, `lock` where it is locked, or `bits`
    where the bit edge is found."""

    __slots__ = ('satellite', 'dumps', 'v', 'w', 'stage')

    satellite: int
    dumps: int
    v: int
    w: int
    stage: str

    kind = 'state'
    mode = 'track'
    form: ClassVar[
        str
    ] = f' {SLOT} (track) {SATELLITE} {NATURAL} {SIGNED} {SIGNED} (open|lock|bits)'
    names: ClassVar[Tuple[str, ...]] = ('slot', 'mode', 'satellite', 'dumps', 'v', 'w', 'stage')
    derived_names: ClassVar[Tuple[str, ...]] = ('doppler_hz', 'code_correction_chips_per_s')

    @classmethod
    def of_words(cls, words: Sequence[str]) -> StateTrack:
        """The line of the groups of its pattern."""
        client, time, slot, _, *rest, stage = words
        satellite, dumps, v, w = map(int, rest)
        return cls(int(client), int(time), int(slot), satellite, dumps, v, w, stage)

    @property
    def doppler_hz(self) -> Fraction:
        """The Doppler shift in Hz."""
        return Fraction(self.v, PARTS)

    @property
    def code_correction_chips_per_s(self) -> Fraction:
        """What the loop adds to the code's rate beside the Doppler shift, in chips a second."""
        return Fraction(self.w, PARTS)
