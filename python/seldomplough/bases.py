"""What all printed lines have in common."""

from __future__ import annotations

import re
from dataclasses import dataclass, fields
from fractions import Fraction
from typing import Any, ClassVar, Mapping, Pattern, Sequence, Tuple, Union

# An integer as it is printed: no zeros in front, no sign of zero. All that is printed fits 64 bits.
NATURAL = '(0|[1-9][0-9]{0,17})'
SIGNED = '(0|-?[1-9][0-9]{0,17})'
# Merged lines have clients above 8 too.
CLIENT = '([1-9][0-9]{0,8})'
TIME = '(0|[1-9][0-9]{0,12})'
SLOT = '([0-7])'
SATELLITE = '([1-9]|[12][0-9]|3[0-2])'

# A raw value of a line, an exact one that follows from it, and that as the nearest float.
Raw = Union[int, str, bool, None]
Exact = Union[int, Fraction, str, None]
Nearest = Union[int, float, str, None]


@dataclass(frozen=True)
class Line:
    """A printed line: the number of its client and its time in samples."""

    __slots__ = ('client', 'time')

    client: int
    time: int

    kind: ClassVar[str]
    """The word after the time."""
    form: ClassVar[str] = ''
    """What follows that word, as a regular expression with a group for each raw value."""
    names: ClassVar[Tuple[str, ...]] = ()
    """The names of the raw values after the time."""
    derived_names: ClassVar[Tuple[str, ...]] = ()
    """The names of the values that follow from these, each with its unit."""
    pattern: ClassVar[Pattern[str]]
    """The whole line, without its line feed."""

    def __init_subclass__(cls) -> None:
        """Makes the pattern of a line that has a kind."""
        if hasattr(cls, 'kind'):
            cls.pattern = re.compile(f'{CLIENT} {TIME} {cls.kind}{cls.form}')

    @classmethod
    def of_words(cls, words: Sequence[str]) -> Line:
        """The line of the groups of its pattern."""
        return cls(*map(int, words))

    @classmethod
    def words_of(cls, values: Sequence[Any]) -> Sequence[str]:
        """The words that show these raw values after the kind."""
        return [str(it) for it in values]

    def raw(self) -> Tuple[Raw, ...]:
        """The raw values after the time, by `names`."""
        return tuple(getattr(self, it) for it in self.names)

    def derived(self) -> Tuple[Exact, ...]:
        """The values that follow from the raw ones, by `derived_names`."""
        return tuple(getattr(self, it) for it in self.derived_names)

    def nearest(self) -> Tuple[Nearest, ...]:
        """The same as the nearest floats, where they aren't whole numbers or texts."""
        return tuple(float(it) if isinstance(it, Fraction) else it for it in self.derived())

    def text(self) -> str:
        """The line as it is printed, without its line feed."""
        return ' '.join((str(self.client), str(self.time), self.kind, *self.words_of(self.raw())))

    def seconds(self, rate: int) -> Fraction:
        """The time in seconds, at `rate` samples a second."""
        return Fraction(self.time, rate)

    def __reduce__(self) -> Tuple[Any, ...]:
        """How `pickle` and `copy` make the line again."""
        return type(self), tuple(getattr(self, it.name) for it in fields(self))


@dataclass(frozen=True)
class SlotLine(Line):
    """A printed line of a slot of its client."""

    __slots__ = ('slot',)

    slot: int

    form: ClassVar[str] = f' {SLOT}'
    names: ClassVar[Tuple[str, ...]] = ('slot',)


def text_of(kind: type[Line], record: Mapping[str, Any]) -> str:
    """The text of the line of a kind, by the names of its raw values."""
    words = kind.words_of([record[name] for name in kind.names])
    return ' '.join((str(record['client']), str(record['time']), kind.kind, *words))
