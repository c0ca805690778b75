"""The lines of fields: clock and ephemeris, almanacs, UTC, health."""

from __future__ import annotations

from dataclasses import dataclass
from fractions import Fraction
from typing import Any, ClassVar, Iterator, List, Mapping, NamedTuple, Sequence, Tuple

from seldomplough import fields
from seldomplough.bases import SIGNED, SLOT, Exact, Line, Nearest, Raw, SlotLine
from seldomplough.failures import Failure
from seldomplough.fields import RADIANS, Field


class Derived(NamedTuple):
    """A value that follows from a field: its name with its unit, and what it is of an integer."""

    name: str
    place: int
    scale: Fraction


def _derived_of(table: Sequence[Field]) -> Iterator[Derived]:
    """The values that follow from these fields. Angles are in radians too."""
    for place, field in enumerate(table):
        if field.unit:
            yield Derived(f'{field.name}_{field.unit}', place, field.scale)
        if field.unit in RADIANS:
            yield Derived(f'{field.name}_{RADIANS[field.unit]}', place, field.radians(1))


@dataclass(frozen=True)
class Page(SlotLine):
    """A line of fields. `values` are their integers, in the order of the standard's tables."""

    __slots__ = ('values',)

    values: Tuple[int, ...]

    table: ClassVar[Tuple[Field, ...]] = ()
    """The fields."""
    places: ClassVar[Mapping[str, int]]
    """The place of each field in `table` and `values`, by its name."""
    ranges: ClassVar[List[Tuple[int, int]]]
    """The least and the greatest integer of each field."""
    scaled: ClassVar[Tuple[Derived, ...]]
    """What follows from the fields, as `derived_names` say."""
    ratios: ClassVar[List[Tuple[int, int, int]]]
    """The place, numerator and denominator of each of these."""

    def __init_subclass__(cls) -> None:
        """Makes the form and the names of a kind of page by its fields."""
        words = ''.join(f' {it.name}={SIGNED}:{it.exponent}' for it in cls.table)
        cls.form = f' {SLOT}{words}'
        cls.names = ('slot', *(it.name for it in cls.table))
        cls.ranges = [(it.least, it.greatest) for it in cls.table]
        cls.scaled = tuple(_derived_of(cls.table))
        cls.ratios = [(it.place, *it.scale.as_integer_ratio()) for it in cls.scaled]
        cls.derived_names = tuple(it.name for it in cls.scaled)
        cls.places = {it.name: at for at, it in enumerate(cls.table)}
        super().__init_subclass__()

    @classmethod
    def of_words(cls, words: Sequence[str]) -> Line:
        """The line of the groups of its pattern. A field keeps to its bits."""
        client, time, slot, *values = map(int, words)
        for value, (least, greatest), field in zip(values, cls.ranges, cls.table):
            if not least <= value <= greatest:
                raise Failure(f'has {field.name}={value}, outside {least} to {greatest}')
        return cls(client, time, slot, tuple(values))

    @classmethod
    def words_of(cls, values: Sequence[Any]) -> Sequence[str]:
        """The words that show these raw values after the kind."""
        slot, *integers = values
        pairs = zip(cls.table, integers)
        return [str(slot), *(f'{field.name}={it}:{field.exponent}' for field, it in pairs)]

    def integer(self, name: str) -> int:
        """The integer of the field of a name."""
        return self.values[self.places[name]]

    def value(self, name: str) -> Fraction:
        """The value of the field of a name, in the standard's unit."""
        place = self.places[name]
        return self.table[place].value(self.values[place])

    def radians(self, name: str) -> Fraction:
        """The value of the field of a name, an angle or its rate, in radians (per second)."""
        place = self.places[name]
        return self.table[place].radians(self.values[place])

    def raw(self) -> Tuple[Raw, ...]:
        """The raw values after the time, by `names`."""
        return self.slot, *self.values

    def derived(self) -> Tuple[Exact, ...]:
        """The values that follow from the raw ones, by `derived_names`."""
        return tuple(self.values[it.place] * it.scale for it in self.scaled)

    def nearest(self) -> Tuple[Nearest, ...]:
        """The same as the nearest floats."""
        # A division of whole numbers gives the nearest float.
        return tuple(self.values[at] * above / below for at, above, below in self.ratios)


@dataclass(frozen=True)
class Eph(Page):
    """`eph`: clock and ephemeris of one issue of data."""

    __slots__ = ()
    kind = 'eph'
    table = fields.EPH


@dataclass(frozen=True)
class Alm(Page):
    """`alm`: the almanac of one satellite, `sv`."""

    __slots__ = ()
    kind = 'alm'
    table = fields.ALM


@dataclass(frozen=True)
class Utc(Page):
    """`utc`: the ionosphere and coordinated universal time."""

    __slots__ = ()
    kind = 'utc'
    table = fields.UTC


@dataclass(frozen=True)
class Hlt(Page):
    """`hlt`: the health of satellites 1 to 24."""

    __slots__ = ()
    kind = 'hlt'
    table = fields.HLT
