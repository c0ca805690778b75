"""Kinds of fields: all fields of the tables, one by one; parts in one word and in two; digits at
both ends of two's complement; places at both ends of a word; a word that is missing. And kinds of
pages by their IDs, all 64 in each subframe."""
from __future__ import annotations

from random import Random

from .. import antt, values
from ..reference import fields as reference
from ..reference.fields import FIELDS, Field
from .pages import page_words
from .registry import Row, kind

# The kinds whose fields have names.
NAMED = tuple(it for it in FIELDS if it != 'message')

# A field that stands where a list has none.
NO_FIELD = '(unsigned [] [] (pos 0))'


def parts_of(field: Field) -> list[tuple[int, int]]:
    """The first and the last bit of each part of a field, whose bits stand side by side."""
    parts: list[tuple[int, int]] = []
    for it in field.places:
        if parts and parts[-1][1] == it - 1:
            parts[-1] = (parts[-1][0], it)
        else:
            parts.append((it, it))
    return parts


PARTED = [it for of in NAMED for it in FIELDS[of] if len(parts_of(it)) > 1]


def part_text(part: tuple[int, int]) -> str:
    """A part of a field."""
    return antt.record(first=part[0], last=part[1])


def field_text(field: Field) -> str:
    """A field as a record."""
    return antt.record(name=antt.text(field.name),
                       parts=antt.listed(parts_of(field), part_text),
                       is_signed=antt.boolean(field.is_signed),
                       exponent=antt.integer(field.exponent))


def drawn_part(r: Random) -> tuple[int, int]:
    """A part that stands in one word."""
    word, first = r.randrange(10), r.choice([1, r.randint(1, 24)])
    return 30 * word + first, 30 * word + r.choice([24, first, r.randint(first, 24)])


def drawn_field(r: Random) -> Field:
    """A field of a table, or one of any part."""
    if r.random() < .6:
        return r.choice(FIELDS[r.choice(NAMED)])
    first, last = drawn_part(r)
    return Field('any', list(range(first, last + 1)), r.random() < .5, r.randint(-60, 20))


@kind('bits', count=20)
def bits(r: Random) -> Row:
    part = drawn_part(r)
    return f'{part[0]} {part[1]}', part_text(part)


def making_kind(name: str, is_signed: bool) -> None:
    """A kind of what makes a field."""
    @kind(name, count=10)
    def _(r: Random) -> Row:
        field = drawn_field(r)._replace(is_signed=is_signed)
        return (f'{antt.text(field.name)} {antt.listed(parts_of(field), part_text)}'
                f' {antt.integer(field.exponent)}', field_text(field))


making_kind('unsigned', False)
making_kind('signed', True)


@kind('minus', count=20)
def minus(r: Random) -> Row:
    number = r.choice([0, 1, r.randint(2, 60)])
    return str(number), antt.integer(-number)


@kind('place_of', group=10, count=10, is_whole=True)
def place_of(r: Random) -> Row:
    """Of all fields of a table."""
    of = r.choice(NAMED)
    return (f'map (λ (f : Field). place_of f.name {of}_fields) {of}_fields',
            antt.listed(range(len(FIELDS[of]))))


def table_kind(of: str) -> None:
    """A kind of a table's fields."""
    @kind(f'{of}_fields', count=2 * len(FIELDS[of]), is_whole=True)
    def _(r: Random) -> Row:
        place = r.randrange(len(FIELDS[of]))
        return f'get_or {of}_fields {place} {NO_FIELD}', field_text(FIELDS[of][place])


for it in NAMED:
    table_kind(it)


@kind('fields_of', count=20, is_whole=True)
def fields_of(r: Random) -> Row:
    of = r.choice(NAMED)
    place = r.choice([0, len(FIELDS[of]) - 1, r.randrange(len(FIELDS[of]))])
    return f'get_or (fields_of {of}) {place} {NO_FIELD}', field_text(FIELDS[of][place])


@kind('message_fields', count=22, is_whole=True)
def message_fields(r: Random) -> Row:
    place = r.randrange(len(FIELDS['message']))
    field = FIELDS['message'][place]
    return (f'all_places (get_or message_fields {place} {NO_FIELD})',
            antt.listed(field.places))


@kind('character', count=20, is_whole=True)
def character(r: Random) -> Row:
    first = r.choice([69, 77, 91, 271, 279, r.randint(1, 290)])
    return f'all_places (character {first})', antt.listed(range(first, first + 8))


@kind('places_of', count=20)
def places_of(r: Random) -> Row:
    first, last = drawn_part(r)
    return part_text((first, last)), antt.listed(range(first, last + 1))


@kind('all_places', count=20)
def all_places(r: Random) -> Row:
    field = drawn_field(r)
    return field_text(field), antt.listed(field.places)


def drawn_place(r: Random) -> int:
    """A place of a subframe that holds data."""
    return 30 * r.randrange(10) + r.choice([1, 24, r.randint(1, 24)])


@kind('word_at_place', count=30)
def word_at_place(r: Random) -> Row:
    words, place = page_words(r), r.choice([drawn_place(r), 30 * r.randint(1, 10)])
    return f'{values.subframe(words)} {place}', antt.optional(words[(place - 1) // 30])


@kind('bit_at_place', count=30)
def bit_at_place(r: Random) -> Row:
    words, place = page_words(r), drawn_place(r)
    if r.random() < .3:
        words[(place - 1) // 30] = None
    return f'{values.subframe(words)} {place}', str(reference.bit(words, place))


@kind('number_of', count=30)
def number_of(r: Random) -> Row:
    count, is_signed = r.choice([1, 8, 31, 32, r.randint(1, 32)]), r.random() < .7
    digits = [r.randint(0, 1) for _ in range(count)]
    if r.random() < .3:
        digits[1:] = [r.randint(0, 1)] * (len(digits) - 1)
    number = int(''.join(map(str, digits)), 2) - (is_signed and digits[0]) * (1 << len(digits))
    return (f'{antt.boolean(is_signed)} {antt.listed(digits)}', antt.integer(number))


@kind('value_of', group=10, count=20)
def value_of(r: Random) -> Row:
    words, field = page_words(r), drawn_field(r)
    return (f'{values.subframe(words)} {field_text(field)}',
            antt.integer(reference.value(words, field)))


@kind('is_there', group=10, count=20)
def is_there(r: Random) -> Row:
    """Many are of fields that stand in two words."""
    words, field = page_words(r), r.choice([drawn_field(r), r.choice(PARTED)])
    if r.random() < .7:
        words[(r.choice(field.places) - 1) // 30] = None
    return (f'{values.subframe(words)} {field_text(field)}',
            antt.boolean(reference.is_there(words, field)))


@kind('is_almanac_page', count=60)
def is_almanac_page(r: Random) -> Row:
    number, satellite = r.randrange(8), r.choice([0, 1, 32, 33, r.randrange(64)])
    return (f'{number} {satellite}',
            antt.boolean(reference.kind_of_page(number, satellite) == 'almanac'))


@kind('kind_of', count=40)
def kind_of(r: Random) -> Row:
    words = page_words(r)
    return values.subframe(words), antt.optional(reference.kind_of(words))
