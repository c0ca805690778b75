"""The bits among prompt sums, words, their parity, and subframes. Parity, words and subframes are
those of IS-GPS-200, sections 20.3.2, 20.3.3 and 20.3.5; how the bits and the first word are looked
for is this project's own.

A word is 30 bits as sent. Its prior is the last two bits before it, the earlier one doubled."""
from __future__ import annotations

from typing import NamedTuple, Optional, Sequence

# Of each parity bit the bit of the prior that it takes, and those of the data, from 1 on.
PARITY = (
    ('D29', (1, 2, 3, 5, 6, 10, 11, 12, 13, 14, 17, 18, 20, 23)),
    ('D30', (2, 3, 4, 6, 7, 11, 12, 13, 14, 15, 18, 19, 21, 24)),
    ('D29', (1, 3, 4, 5, 7, 8, 12, 13, 14, 15, 16, 19, 20, 22)),
    ('D30', (2, 4, 5, 6, 8, 9, 13, 14, 15, 16, 17, 20, 21, 23)),
    ('D30', (1, 3, 5, 6, 7, 9, 10, 14, 15, 16, 17, 18, 21, 22, 24)),
    ('D29', (3, 5, 6, 8, 9, 10, 11, 13, 15, 19, 22, 23, 24)),
)

PREAMBLE = 0b10001011

Words = list[Optional[int]]


class Found(NamedTuple):
    """The data of ten words, none where one doesn't pass, and the bits between the end of the
    subframe before and this one, where there are any."""
    words: Words
    gap: Optional[int]


def is_change(pushes: Sequence[int], number: int) -> bool:
    """Whether a push and the one before it differ in being below zero."""
    return number > 0 and (pushes[number] < 0) != (pushes[number - 1] < 0)


def edge(pushes: Sequence[int]) -> Optional[int]:
    """The first push of bit 0, by twenty counters of changes, one for each place modulo 20. One
    that comes to 16 tells it. Two that have come to 4 are no edge: all begin anew."""
    counters = [0] * 20
    for number in range(1, len(pushes)):
        if is_change(pushes, number):
            counters[number % 20] += 1
            if counters[number % 20] == 16:
                return number
        if sum(it >= 4 for it in counters) >= 2:
            counters = [0] * 20
    return None


def bits_after(pushes: Sequence[int], first: Optional[int]) -> list[bool]:
    """The bits of twenty pushes each from one on: 1 where their sum is below zero."""
    if first is None:
        return []
    return [sum(pushes[at:at + 20]) < 0 for at in range(first, len(pushes) - 19, 20)]


def parity(data: int, prior: int) -> int:
    """The six parity bits of data."""
    before = {'D29': prior >> 1 & 1, 'D30': prior & 1}
    made = 0
    for place, numbers in PARITY:
        made = made << 1 | (before[place] + sum(data >> 24 - it & 1 for it in numbers)) % 2
    return made


def turned(data: int, prior: int) -> int:
    """The data as sent, or of what was sent: inverted where the last bit before is 1."""
    return data ^ 0xFFFFFF if prior & 1 else data


def check(word: int, prior: int) -> Optional[int]:
    """The data of a word that passes."""
    data = turned(word >> 6, prior)
    return data if parity(data, prior) == word & 63 else None


def encode(data: int, prior: int) -> int:
    """The word that passes and has these data."""
    return turned(data, prior) << 6 | parity(data, prior)


def number_of(bits: Sequence[object]) -> int:
    """The number that bits write, the earliest being the highest."""
    number = 0
    for it in bits:
        number = number << 1 | bool(it)
    return number


def word_at(bits: Sequence[object], place: int) -> Optional[int]:
    """The data of the word at a place, where it passes with the two bits before it."""
    return check(number_of(bits[place:place + 30]), number_of(bits[place - 2:place]))


def ident(words: Words) -> int:
    """The subframe's ID, which the handover word has: bits 20 to 22."""
    return (words[1] or 0) >> 2 & 7


def time_of_week(words: Words) -> int:
    """The count in the first 17 bits of the handover word."""
    return (words[1] or 0) >> 7


def is_header(prior: int, first: Optional[int], second: Optional[int], last: int) -> bool:
    """Whether two words that pass begin a subframe: the preamble, an ID from 1 to 5, equal bits
    before the first, and the second's last two bits as these, since they are 0 as made."""
    if first is None or second is None or prior not in (0, 3) or last != prior:
        return False
    return first >> 16 == PREAMBLE and 1 <= (second >> 2 & 7) <= 5


def is_candidate(bits: Sequence[object], place: int) -> bool:
    """Whether a subframe may begin at a place, all 60 bits of its first two words being there."""
    if place < 2 or place + 60 > len(bits):
        return False
    return is_header(number_of(bits[place - 2:place]), word_at(bits, place),
                     word_at(bits, place + 30), number_of(bits[place + 58:place + 60]))


def starts(bits: Sequence[object]) -> list[int]:
    """Where subframes begin: at the first candidate, and then at each first one that is no earlier
    than the end of the subframe before."""
    found, place = [], 0
    while place < len(bits):
        is_start = is_candidate(bits, place)
        found += [place] * is_start
        place += 300 if is_start else 1
    return found


def subframe(bits: Sequence[object], place: int) -> Words:
    """The ten words from a place on."""
    return [word_at(bits, place + 30 * it) for it in range(10)]


def whole_starts(bits: Sequence[object]) -> list[int]:
    """The starts whose 300 bits are there."""
    return [it for it in starts(bits) if it + 300 <= len(bits)]


def gap_before(awaited: Optional[int], start: int) -> Optional[int]:
    """The distance of a start from where it was awaited, where it isn't 0. The first one wasn't."""
    return start - awaited if awaited is not None and start != awaited else None


def found(bits: Sequence[object]) -> Optional[Found]:
    """The subframe that the last bit makes whole."""
    awaited = None
    for start in starts(bits):
        if start + 300 == len(bits):
            return Found(subframe(bits, start), gap_before(awaited, start))
        awaited = start + 300
    return None
