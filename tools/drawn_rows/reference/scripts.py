"""Scripts: what each line asks, and when, or by which of eight rules it is refused. (This project's
own.)

A line ends with a line feed, which the last one needn't have. Words are runs of bytes other than
space. The rules, of which the first that applies is answered: 1, more than 80 bytes; 2, a byte
outside 0x20 to 0x7e; 3, a first word that isn't 1 to 13 digits of at most 2^40; 4, a time before
that of the line before; 5, no verb, or an unknown one; 6, another number of words; 7, a word that
isn't 1 to 13 digits after a `-` or none; 8, a value out of range. Rules 7 and 8 go word by word. A
line without words is skipped, unless rule 1 or 2 refuses it. One that rules 1 to 4 refuse has the
time of the line before, which is 0 at first."""
from __future__ import annotations

from typing import NamedTuple, Optional, Sequence, Union

# The ranges of the words after the slot.
SATELLITES, THRESHOLDS = (1, 32), (1, 1000)
STARTS = [SATELLITES, (-16000, 16000), (0, 2045)]
VERBS: dict[str, list[tuple[int, int]]] = {
    'hold': STARTS, 'track': STARTS,
    'acquire': [SATELLITES, (-6000, 6000), (0, 40), (1, 10), THRESHOLDS],
    'counts': [(0, 1000000)], 'state': [], 'stop': [],
}

LINE_FEED, SPACE, MINUS = 10, 32, 45
LONGEST, LATEST = 80, 1 << 40


class Command(NamedTuple):
    """A verb, its slot, and the values of its other words."""
    verb: str
    slot: int
    values: tuple[int, ...]


What = Union[Command, int]


class Entry(NamedTuple):
    """What a line asks, or the number of the rule that refuses it, and its time."""
    time: int
    what: What


def is_printable(byte: int) -> bool:
    """Whether a byte may stand in a line."""
    return 0x20 <= byte <= 0x7E


def number_in(word: Sequence[int]) -> Optional[int]:
    """The number that 1 to 13 digits write."""
    is_number = 1 <= len(word) <= 13 and all(it in b'0123456789' for it in word)
    return int(bytes(word)) if is_number else None


def signed_number_in(word: Sequence[int]) -> Optional[int]:
    """The number that digits write, after a `-` or none."""
    if not word or word[0] != MINUS:
        return number_in(word)
    size = number_in(word[1:])
    return None if size is None else -size


def time_in(word: Sequence[int]) -> Optional[int]:
    """The time that a line begins with."""
    number = number_in(word)
    return number if number is not None and number <= LATEST else None


def pieces(text: Sequence[int], end: int) -> list[list[int]]:
    """What stands between bytes of one kind."""
    found: list[list[int]] = [[]]
    for it in text:
        if it == end:
            found.append([])
        else:
            found[-1].append(it)
    return found


def lines_of(text: Sequence[int]) -> list[list[int]]:
    """The lines of a text. Nothing after the last line feed is no line."""
    found = pieces(text, LINE_FEED)
    return found if found[-1] else found[:-1]


def words_of(line: Sequence[int]) -> list[list[int]]:
    """The words of a line."""
    return [it for it in pieces(line, SPACE) if it]


def command(words: Sequence[Sequence[int]], slots: int) -> What:
    """What the words after the time ask of a client with so many slots, by rules 5 to 8."""
    verb = bytes(words[0]).decode('latin-1') if words else ''
    if verb not in VERBS:
        return 5
    ranges = [(0, slots - 1), *VERBS[verb]]
    if len(words) - 1 != len(ranges):
        return 6
    values = []
    for word, (low, high) in zip(words[1:], ranges):
        number = signed_number_in(word)
        if number is None:
            return 7
        if not low <= number <= high:
            return 8
        values.append(number)
    return Command(verb, values[0], tuple(values[1:]))


def entry(slots: int, before: int, line: Sequence[int]) -> Optional[Entry]:
    """What a line after one of some time asks; nothing where it is skipped."""
    if len(line) > LONGEST:
        return Entry(before, 1)
    if not all(is_printable(it) for it in line):
        return Entry(before, 2)
    words = words_of(line)
    if not words:
        return None
    time = time_in(words[0])
    if time is None or time < before:
        return Entry(before, 3 if time is None else 4)
    return Entry(time, command(words[1:], slots))


def script(slots: int, text: Sequence[int]) -> list[Entry]:
    """What all lines ask."""
    before, found = 0, []
    for line in lines_of(text):
        made = entry(slots, before, line)
        if made:
            found.append(made)
            before = made.time
    return found
