"""The lines of what a slot emits, but for pages."""

from __future__ import annotations

from dataclasses import dataclass
from fractions import Fraction
from typing import Any, ClassVar, Optional, Sequence, Tuple

from seldomplough.bases import NATURAL, SATELLITE, SIGNED, SLOT, Raw, SlotLine

# Bits of a message in a second, and seconds of the smallest unit of the time of week in `sub`.
BITS_A_SECOND = 50
SECONDS_A_SUBFRAME = 6
# How far apart the bins of a search are, in Hz.
HZ_A_BIN = 250

# A word's places in the subframe, and how many of them have data (IS-GPS-200, figure 20-1).
WORD_BITS, DATA_BITS = 30, 24
# Where the flags stand: the telemetry word's (section 20.3.3.1), the handover word's (20.3.3.2).
INTEGRITY_STATUS, ALERT, ANTI_SPOOF = 23, 48, 49

WORD = '([0-9a-f]{6}|------)'
WORD_NAMES = tuple(f'w{it}' for it in range(1, 11))


@dataclass(frozen=True)
class Count(SlotLine):
    """`count`: the six sums of a dump, in phase and in quadrature, early, prompt and late."""

    __slots__ = ('ie', 'qe', 'ip', 'qp', 'il', 'ql')

    ie: int
    qe: int
    ip: int
    qp: int
    il: int
    ql: int

    kind = 'count'
    form: ClassVar[str] = f' {SLOT}' + f' {SIGNED}' * 6
    names: ClassVar[Tuple[str, ...]] = ('slot', 'ie', 'qe', 'ip', 'qp', 'il', 'ql')

    def raw(self) -> Tuple[Raw, ...]:
        """The raw values after the time, by `names`."""
        return self.slot, self.ie, self.qe, self.ip, self.qp, self.il, self.ql


@dataclass(frozen=True)
class Acq(SlotLine):
    """`acq`: an acquisition is due. `bin` counts 250 Hz from the search's centre; `half_chip` is
    where the code begins, `power` the sum of the squares of both prompt sums."""

    __slots__ = ('satellite', 'found', 'bin', 'half_chip', 'power')

    satellite: int
    found: bool
    bin: int
    half_chip: int
    power: int

    kind = 'acq'
    form: ClassVar[str] = f' {SLOT} {SATELLITE} (found|none) {SIGNED} {NATURAL} {NATURAL}'
    names: ClassVar[Tuple[str, ...]] = ('slot', 'satellite', 'found', 'bin', 'half_chip', 'power')
    derived_names: ClassVar[Tuple[str, ...]] = ('doppler_from_centre_hz', 'code_phase_chips')

    @classmethod
    def of_words(cls, words: Sequence[str]) -> Acq:
        """The line of the groups of its pattern."""
        client, time, slot, satellite, found, *rest = words
        numbers = map(int, rest)
        return cls(int(client), int(time), int(slot), int(satellite), found == 'found', *numbers)

    @classmethod
    def words_of(cls, values: Sequence[Any]) -> Sequence[str]:
        """The words that show these raw values after the kind."""
        slot, satellite, found, *rest = values
        if not isinstance(found, bool):
            raise TypeError('found')
        return [str(it) for it in (slot, satellite, 'found' if found else 'none', *rest)]

    @property
    def doppler_from_centre_hz(self) -> int:
        """The Doppler shift of the bin, counted from the centre of the search, in Hz."""
        return HZ_A_BIN * self.bin

    def doppler_hz(self, centre: int = 0) -> int:
        """The Doppler shift of the bin of a search about `centre`, both in Hz."""
        return centre + self.doppler_from_centre_hz

    @property
    def code_phase_chips(self) -> Fraction:
        """Where the code begins, in chips."""
        return Fraction(self.half_chip, 2)


@dataclass(frozen=True)
class Lock(SlotLine):
    """`lock`: the loops locked with this dump."""

    __slots__ = ()
    kind = 'lock'


@dataclass(frozen=True)
class Unlock(SlotLine):
    """`unlock`: the loops unlocked with this dump."""

    __slots__ = ()
    kind = 'unlock'


@dataclass(frozen=True)
class Lost(SlotLine):
    """`lost`: the loops lost the signal with this dump."""

    __slots__ = ()
    kind = 'lost'


@dataclass(frozen=True)
class Bits(SlotLine):
    """`bits`: the edge of the data bits was found with this dump."""

    __slots__ = ()
    kind = 'bits'


@dataclass(frozen=True)
class Gap(SlotLine):
    """`gap`: the next subframe starts late, by `bits` data bits."""

    __slots__ = ('bits',)

    bits: int

    kind = 'gap'
    form: ClassVar[str] = f' {SLOT} {NATURAL}'
    names: ClassVar[Tuple[str, ...]] = ('slot', 'bits')
    derived_names: ClassVar[Tuple[str, ...]] = ('late_s',)

    @property
    def late_s(self) -> Fraction:
        """How late the next subframe starts, in seconds."""
        return Fraction(self.bits, BITS_A_SECOND)


@dataclass(frozen=True)
class Sub(SlotLine):
    """`sub`: a subframe. `tow` counts 6 s; a word is its 24 data bits, None where parity fails."""

    __slots__ = ('id', 'tow', 'words')

    id: int
    tow: int
    words: Tuple[Optional[int], ...]

    kind = 'sub'
    form: ClassVar[str] = f' {SLOT} ([0-7]) {NATURAL}' + f' {WORD}' * 10
    names: ClassVar[Tuple[str, ...]] = ('slot', 'id', 'tow', *WORD_NAMES)
    derived_names: ClassVar[Tuple[str, ...]] = (
        'next_subframe_s',
        'words_passed',
        'words_failed',
        'integrity_status',
        'alert',
        'anti_spoof',
    )

    @classmethod
    def of_words(cls, words: Sequence[str]) -> Sub:
        """The line of the groups of its pattern."""
        data = tuple(None if it == '------' else int(it, 16) for it in words[5:])
        return cls(int(words[0]), int(words[1]), int(words[2]), int(words[3]), int(words[4]), data)

    @classmethod
    def words_of(cls, values: Sequence[Any]) -> Sequence[str]:
        """The words that show these raw values after the kind."""
        words = ('------' if it is None else f'{it:06x}' for it in values[3:])
        return [*map(str, values[:3]), *words]

    def raw(self) -> Tuple[Raw, ...]:
        """The raw values after the time, by `names`."""
        return self.slot, self.id, self.tow, *self.words

    @property
    def next_subframe_s(self) -> int:
        """The time of week, in seconds, at which the next subframe begins."""
        return SECONDS_A_SUBFRAME * self.tow

    @property
    def words_passed(self) -> int:
        """How many words have the parity that they were sent with."""
        return len(self.words) - self.words_failed

    @property
    def words_failed(self) -> int:
        """How many words are damaged: their parity fails."""
        return self.words.count(None)

    @property
    def integrity_status(self) -> Optional[bool]:
        """The flag of the telemetry word: the signal has the enhanced level of integrity assurance.
        Like the others it is None where its word is damaged."""
        return self._flag(INTEGRITY_STATUS)

    @property
    def alert(self) -> Optional[bool]:
        """The alert flag of the handover word: the accuracy may be worse than the message says."""
        return self._flag(ALERT)

    @property
    def anti_spoof(self) -> Optional[bool]:
        """The anti-spoof flag of the handover word: the P code is encrypted."""
        return self._flag(ANTI_SPOOF)

    def bits(self, first: int, count: int) -> Optional[int]:
        """The number that bits of one word are, None where it is damaged. `first` counts from 1
        within the subframe."""
        word = self.words[(first - 1) // WORD_BITS]
        if word is None:
            return None
        return word >> DATA_BITS - (first - 1) % WORD_BITS - count & (1 << count) - 1

    def _flag(self, place: int) -> Optional[bool]:
        value = self.bits(place, 1)
        return None if value is None else bool(value)
