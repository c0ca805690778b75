"""The fields of pages, and the kinds of pages: IS-GPS-200, section 20.3.3, tables 20-I to 20-X.

Bits of a subframe are numbered from 1, those of the parity among them, so that word k begins at bit
30(k - 1) + 1, and its data are the first 24. A field is its bits joined in the order that is named;
`s` marks two's complement. The last number is the power of two of its unit. The places of the
health values, and that the almanac's af0 stands round af1, are told as this project has them."""
from __future__ import annotations

from typing import NamedTuple, Optional

from .message import Words, ident

# Each kind's fields: name, bits, the mark of two's complement, exponent.
TABLES = {
    'clock': '''wn 61-70 0|l2 71-72 0|ura 73-76 0|health 77-82 0|iodc 83-84,211-218 0|l2p 91-91 0
        |tgd 197-204 s -31|toc 219-234 4|af2 241-248 s -55|af1 249-264 s -43|af0 271-292 s -31''',
    'eph2': '''iode 61-68 0|crs 69-84 s -5|dn 91-106 s -43|m0 107-114,121-144 s -31
        |cuc 151-166 s -29|e 167-174,181-204 -33|cus 211-226 s -29|sqrta 227-234,241-264 -19
        |toe 271-286 4|fit 287-287 0|aodo 288-292 0''',
    'eph3': '''cic 61-76 s -29|om0 77-84,91-114 s -31|cis 121-136 s -29|i0 137-144,151-174 s -31
        |crc 181-196 s -5|w 197-204,211-234 s -31|omdot 241-264 s -43|iode3 271-278 0
        |idot 279-292 s -43''',
    'almanac': '''data 61-62 0|sv 63-68 0|e 69-84 -21|toa 91-98 12|di 99-114 s -19
        |omdot 121-136 s -38|health 137-144 0|sqrta 151-174 -11|om0 181-204 s -23|w 211-234 s -23
        |m0 241-264 s -23|af0 271-278,290-292 s -20|af1 279-289 s -38''',
    'utc': '''data 61-62 0|sv 63-68 0|al0 69-76 s -30|al1 77-84 s -27|al2 91-98 s -24
        |al3 99-106 s -24|be0 107-114 s 11|be1 121-128 s 14|be2 129-136 s 16|be3 137-144 s 16
        |a1 151-174 s -50|a0 181-204,211-218 s -30|tot 219-226 12|wnt 227-234 0|dtls 241-248 s 0
        |wnlsf 249-256 0|dn 257-264 0|dtlsf 271-278 s 0''',
    'health': 'data 61-62 0|sv 63-68 0|toa 69-76 12|wna 77-84 0',
    'message': '',
}

# The 24 health values are of six bits, four in each of words 4 to 9. The 22 characters of a message
# are of eight bits: two in word 3, three in each of words 4 to 9, two in word 10.
HEALTHS = [30 * word + 1 + 6 * place for word in range(3, 9) for place in range(4)]
CHARACTERS = [69, 77, *(30 * word + 1 + 8 * it for word in range(3, 9) for it in range(3)), 271,
              279]


class Field(NamedTuple):
    """A field: its bits in order, whether it is in two's complement, the exponent of its unit."""
    name: str
    places: list[int]
    is_signed: bool
    exponent: int


class Page(NamedTuple):
    """A page: its kind, and its fields' values."""
    kind: str
    values: list[int]


def field_of(text: str) -> Field:
    """A field of a table."""
    name, ranges, *rest = text.split()
    ends = [it.split('-') for it in ranges.split(',')]
    places = [at for first, last in ends for at in range(int(first), int(last) + 1)]
    return Field(name, places, 's' in rest, int(rest[-1]))


def all_fields() -> dict[str, list[Field]]:
    """The fields of each kind of pages."""
    fields = {kind: [field_of(it) for it in text.split('|') if it]
              for kind, text in TABLES.items()}
    fields['health'] += [Field(f'h{number}', list(range(at, at + 6)), False, 0)
                         for number, at in enumerate(HEALTHS, 1)]
    fields['message'] = [Field('', list(range(at, at + 8)), False, 0) for at in CHARACTERS]
    return fields


FIELDS = all_fields()
EPHEMERIS = ('clock', 'eph2', 'eph3')


def bit(words: Words, place: int) -> int:
    """A bit of a subframe; 0 in a word that is missing."""
    return (words[(place - 1) // 30] or 0) >> (23 - (place - 1) % 30) & 1


def value(words: Words, field: Field) -> int:
    """The value of a field, in two's complement where it is marked so."""
    made = 0
    for place in field.places:
        made = made << 1 | bit(words, place)
    is_negative = field.is_signed and bit(words, field.places[0])
    return made - (1 << len(field.places)) if is_negative else made


def is_there(words: Words, field: Field) -> bool:
    """Whether no word that has a part of a field is missing."""
    return all(words[(place - 1) // 30] is not None for place in field.places)


def kind_of_page(subframe: int, satellite: int) -> Optional[str]:
    """The kind of a page of subframe 4 or 5, by its SV ID."""
    if subframe in (4, 5) and 1 <= satellite <= 32:
        return 'almanac'
    return {(4, 55): 'message', (4, 56): 'utc', (5, 51): 'health'}.get((subframe, satellite))


def sv_id(words: Words) -> int:
    """The SV ID: bits 63 to 68."""
    return sum(bit(words, place) << (68 - place) for place in range(63, 69))


def kind_of(words: Words) -> Optional[str]:
    """The kind of page that a subframe holds. The first three are of one kind each."""
    number = ident(words)
    return EPHEMERIS[number - 1] if 1 <= number <= 3 else kind_of_page(number, sv_id(words))


def page(words: Words) -> Optional[Page]:
    """The page of a subframe, where no word is missing and it is of a kind."""
    kind = kind_of(words)
    if kind is None or None in words:
        return None
    return Page(kind, [value(words, it) for it in FIELDS[kind]])
