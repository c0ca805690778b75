"""Kinds of scripts: words of 12 to 14 digits, with signs, zeros in front and wrong bytes; times at
2^40 and beside it; lines by a grammar, right or spoilt in some ways at once: each value at both
ends of its range and one past them, words too many or too few, unknown verbs, lines of 79 to 82
bytes, bytes that aren't printed, lines of spaces."""
from __future__ import annotations

from random import Random

from .. import antt, values
from ..reference import scripts as reference
from ..reference.scripts import LATEST, VERBS
from .drawing import size
from .registry import Row, kind

ODD_NUMBERS = ('', '-', '--1', '+1', '-0', '00', '1-', '1 ', 'x', '1x', '/', ':', '-x', ',5')


@kind('is_printable', count=120)
def is_printable(r: Random) -> Row:
    byte = r.choice([31, 32, 126, 127, 128, 160, 255, r.randrange(256)])
    return str(byte), antt.boolean(reference.is_printable(byte))


def number_text(r: Random) -> str:
    """Digits, with or without a sign, or what is near to a number."""
    count = r.choice([1, 2, 12, 13, 13, 14, 65, 78])
    digits = ''.join(r.choice('0123456789') for _ in range(count))
    return r.choice([digits, digits, digits, '-' + digits, '-' + digits, r.choice(ODD_NUMBERS)])


@kind('number_in')
def number_in(r: Random) -> Row:
    word = number_text(r)
    return antt.text(word), antt.optional(reference.number_in(word.encode()))


@kind('signed_number_in', count=150)
def signed_number_in(r: Random) -> Row:
    word = number_text(r)
    return (antt.text(word),
            antt.optional(reference.signed_number_in(word.encode()), antt.integer))


@kind('time_in')
def time_in(r: Random) -> Row:
    word = r.choice([number_text(r), str(LATEST + r.randint(-1, 1)), str(size(r, LATEST))])
    return antt.text(word), antt.optional(reference.time_in(word.encode()))


def right_words(r: Random, verb: str) -> list[str]:
    """The words of a verb, mostly in range; often at its ends, and one past them."""
    words = [str(r.choice([0, 1, 3, 4, 7]))]
    for low, high in VERBS[verb]:
        within = r.randint(low, high)
        words.append(str(r.choice([within] * 8 + [low, high, low - 1, high + 1])))
    return words


def spoilt_words(r: Random, words: list[str]) -> list[str]:
    """Words, a few of them no numbers or written otherwise, now and then one more or one fewer."""
    made = [it if r.random() >= .06 else r.choice(
        ['z', '-', '-0', '0' + it, '0' * 13, '0' * 14, '-' + '0' * 13, it + 'x', '--1'])
        for it in words]
    made += ['0'] * (r.random() < .12)
    return made[:len(made) - (r.random() < .06)]


def drawn_line(r: Random, latest: int = 60) -> list[int]:
    """A line, right or spoilt in some ways at once."""
    verb = r.choice(list(VERBS))
    words = spoilt_words(r, right_words(r, verb))
    if r.random() < .08:
        verb = r.choice(['fly', 'State', 'holds', '', 'hol', 'stopp', 'state0'])
    time = str(r.randint(0, latest))
    if r.random() < .15:
        time = r.choice(['0', 'x', str(LATEST + r.randint(0, 1))])
    line = ' '.join([time, verb, *words])
    if r.random() < .12:
        padded = line.ljust(r.choice([79, 80, 81, 82]))
        line = r.choice(['', ' ', '   ', padded, ' ' + line.replace(' ', '  ')])
    made = list(line.encode())
    if r.random() < .12:
        made += [r.choice([9, 13, 127, 128, 200, 255, 31])] + [120] * r.choice([0, 0, 80])
    return made


@kind('entry_of', group=5, count=150)
def entry_of(r: Random) -> Row:
    slots, before, line = r.choice([4, 4, 1, 8]), r.choice([0, 0, r.randint(0, 60)]), drawn_line(r)
    made = reference.entry(slots, before, line)
    return (f'verbs {slots} {before} {antt.text(line)}',
            antt.listed([made] if made else [], values.entry))


@kind('script', group=2, count=30)
def script(r: Random) -> Row:
    slots, text = r.choice([4, 4, 1, 8]), []
    for _ in range(r.randint(0, 6)):
        text += [*drawn_line(r), reference.LINE_FEED]
    if r.random() < .3:
        text = text[:-1]
    return (f'verbs {slots} {antt.text(text)}',
            antt.listed(reference.script(slots, text), values.entry))
