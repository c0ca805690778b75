"""The lines of sets of almanacs and of special messages."""

from __future__ import annotations

from dataclasses import dataclass
from typing import Any, ClassVar, Sequence, Tuple

from seldomplough.bases import SIGNED, SLOT, Raw, SlotLine
from seldomplough.failures import Failure

# The characters of a special message that aren't those of ASCII (IS-GPS-200, 20.3.3.5.1.8).
CHARACTERS = {0o370: '\u00b0'}
SATELLITES = range(1, 33)
TOA_SCALE = 4096


@dataclass(frozen=True)
class Als(SlotLine):
    """`als`: almanacs of all satellites for one time, `toa` in 4096 s; their healths from 1 on."""

    __slots__ = ('toa', 'healths')

    toa: int
    healths: Tuple[int, ...]

    kind = 'als'
    form: ClassVar[str] = f' {SLOT} toa={SIGNED}:12' + f' {SIGNED}' * 32
    names: ClassVar[Tuple[str, ...]] = ('slot', 'toa', *(f'h{it}' for it in SATELLITES))
    derived_names: ClassVar[Tuple[str, ...]] = ('toa_s',)

    @classmethod
    def of_words(cls, words: Sequence[str]) -> Als:
        """The line of the groups of its pattern. All its values have eight bits."""
        client, time, slot, toa, *healths = map(int, words)
        for value in (toa, *healths):
            if not 0 <= value <= 255:
                raise Failure(f'has {value}, outside 0 to 255')
        return cls(client, time, slot, toa, tuple(healths))

    @classmethod
    def words_of(cls, values: Sequence[Any]) -> Sequence[str]:
        """The words that show these raw values after the kind."""
        slot, toa, *healths = values
        return [str(slot), f'toa={toa}:12', *map(str, healths)]

    def raw(self) -> Tuple[Raw, ...]:
        """The raw values after the time, by `names`."""
        return self.slot, self.toa, *self.healths

    @property
    def toa_s(self) -> int:
        """The time of applicability, in seconds of its week."""
        return TOA_SCALE * self.toa


@dataclass(frozen=True)
class Msg(SlotLine):
    """`msg`: a special message, its 22 characters as 44 hexadecimal digits."""

    __slots__ = ('hex',)

    hex: str

    kind = 'msg'
    form: ClassVar[str] = f' {SLOT} ([0-9a-f]{{44}})'
    names: ClassVar[Tuple[str, ...]] = ('slot', 'hex')
    derived_names: ClassVar[Tuple[str, ...]] = ('characters',)

    @classmethod
    def of_words(cls, words: Sequence[str]) -> Msg:
        """The line of the groups of its pattern."""
        return cls(int(words[0]), int(words[1]), int(words[2]), words[3])

    @property
    def characters(self) -> str:
        """The message as text. A byte that the standard has no character for is U+FFFD."""
        return ''.join(_character(it) for it in bytes.fromhex(self.hex))


def _character(code: int) -> str:
    return CHARACTERS.get(code, chr(code) if 0x20 <= code < 0x7F else '\ufffd')
