"""Kinds of lines and words of a text: several ends side by side, spaces at both ends, a last line
that isn't ended; and of the texts of fields, words, sets and answers: numbers at both ends of their
ranges and below zero, words that are missing."""
from __future__ import annotations

from random import Random

from .. import antt, values
from ..reference import lines as reference
from ..reference import scripts
from ..reference.fields import FIELDS, Page
from ..reference.slots import Answer, Event
from . import drawing
from .drawing import size
from .fields import drawn_field, field_text
from .registry import Row, kind
from .texts import drawn_event, drawn_view, field_values


def drawn_text(r: Random, end: int) -> list[int]:
    """A text with some bytes that end a piece."""
    return [r.choice([end, end, 97, 98, 32]) for _ in range(r.choice([0, 1, r.randint(2, 12)]))]


def texts(them: list[list[int]]) -> str:
    """Texts as a list."""
    return antt.listed(them, antt.text)


@kind('in_front', count=20)
def in_front(r: Random) -> Row:
    pieces = [drawn_text(r, 97) for _ in range(r.randint(0, 3))]
    first = [[98, *pieces[0]], *pieces[1:]] if pieces else [[98]]
    return f'98 {texts(pieces)}', texts(first)


def ended_pieces(text: list[int], end: int) -> list[list[int]]:
    """The pieces of a text that a byte ends. Nothing after the last end is no piece."""
    found = scripts.pieces(text, end)
    return found if found[-1] else found[:-1]


@kind('pieces_ended_by', count=20)
def pieces_ended_by(r: Random) -> Row:
    end = r.choice([10, 32, 99])
    text = drawn_text(r, end)
    return f'{end} {antt.text(text)}', texts(ended_pieces(text, end))


@kind('lines_of', count=20)
def lines_of(r: Random) -> Row:
    text = drawn_text(r, 10)
    return antt.text(text), texts(scripts.lines_of(text))


@kind('words_of', count=20)
def words_of(r: Random) -> Row:
    line = drawn_text(r, 32)
    return antt.text(line), texts(scripts.words_of(line))


@kind('ended_line', count=20)
def ended_line(r: Random) -> Row:
    line = drawn_text(r, 32)
    return antt.text(line), antt.text([*line, 10])


@kind('as_bytes', count=20)
def as_bytes(r: Random) -> Row:
    lines = [drawn_text(r, 32) for _ in range(r.randint(0, 4))]
    return texts(lines), antt.text([it for line in lines for it in [*line, 10]])


@kind('words_text', count=20)
def words_text(r: Random) -> Row:
    words = [[98, *drawn_text(r, 97)] for _ in range(r.choice([0, 1, r.randint(2, 4)]))]
    joined = [it for word in words for it in [32, *word]][1:]
    return texts(words), antt.text(joined)


@kind('hex_of_bytes', count=20)
def hex_of_bytes(r: Random) -> Row:
    data = [r.choice([0, 9, 10, 15, 16, 255, r.randrange(256)]) for _ in range(r.randint(0, 6))]
    return antt.listed(data), antt.text(bytes(data).hex())


@kind('word_text', count=20)
def word_text(r: Random) -> Row:
    word = r.choice([None, 0, (1 << 24) - 1, size(r, (1 << 24) - 1)])
    return antt.optional(word), antt.text('------' if word is None else f'{word:06x}')


@kind('field_text', count=20)
def told_field(r: Random) -> Row:
    field, value = drawn_field(r), drawing.either(r, 1 << 32)
    return (f'{field_text(field)} {antt.integer(value)}',
            antt.text(f'{field.name}={value}:{field.exponent}'))


@kind('field_texts', group=5, count=10)
def field_texts(r: Random) -> Row:
    of = r.choice(['clock', 'eph2', 'eph3', *(it for it in reference.PAGES if it != 'message')])
    told = field_values(r, of)
    texts_of = [f'{it.name}={value}:{it.exponent}' for it, value in zip(FIELDS[of], told)]
    return (f'{of}_fields {antt.listed(told, antt.integer)}', antt.listed(texts_of, antt.text))


@kind('counts_texts', count=20)
def counts_texts(r: Random) -> Row:
    sums = drawing.sums(r)
    return values.sums(sums), antt.listed([str(it) for it in sums], antt.text)


def reported(r: Random, *kinds: str) -> Event:
    """A report of one of these kinds."""
    while True:
        event = drawn_event(r, 'page')
        if (event.value.kind if isinstance(event.value, Page) else 'ephemeris') in kinds:
            return event


@kind('page_text', group=3, count=9)
def page_text(r: Random) -> Row:
    slot, event = r.randint(0, 7), reported(r, *reference.PAGES)
    return (f'{slot} {values.page(event.value)}',
            antt.text(reference.report_text(slot, event.value)))


@kind('report_text', group=3, count=9)
def report_text(r: Random) -> Row:
    slot, event = r.randint(0, 7), drawn_event(r, 'page')
    return (f'{slot} {values.report(event.value)}',
            antt.text(reference.report_text(slot, event.value)))


@kind('almanacs_text', group=3, count=9)
def almanacs_text(r: Random) -> Row:
    slot, event = r.randint(0, 7), drawn_event(r, 'als')
    if r.random() < .4:
        # No set has such a time, but a number is told as it is.
        event = Event('als', event.value._replace(time=-1 - size(r, 255)))
    return (f'{slot} {values.almanacs(event.value)}',
            antt.text(reference.event_text(slot, event)))


@kind('refusal_text', count=20)
def refusal_text(r: Random) -> Row:
    number = r.choice([1, 10, 9, r.randint(1, 10)])
    return str(number), antt.text(f'err {number}')


@kind('answer_text', group=5, count=20)
def answer_text(r: Random) -> Row:
    slot = r.randint(0, 7)
    given = r.choice([Answer('ok'), Answer('err', r.randint(9, 10)),
                      Answer('state', drawn_view(r))])
    return f'{slot} {values.answer(given)}', antt.text(reference.answer_text(slot, given))


@kind('for_client', count=20)
def for_client(r: Random) -> Row:
    client, line = r.choice([1, 8, 10, r.randint(1, 64)]), drawn_text(r, 32)
    return (f'{client} {antt.text(line)}', antt.text([*f'{client} '.encode(), *line]))
