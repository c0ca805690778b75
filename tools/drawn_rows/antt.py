"""Numbers, lists and texts as they stand in a row: terms of the language of the definitions, in
brackets where they need them."""
from __future__ import annotations

import itertools
from typing import Any, Callable, Iterable, Optional, Sequence, Union

# The least run of equal elements that is told once.
RUN = 5

# What a code of a text may be in quotes: all that is printed, but for the quote and the backslash.
QUOTED = set(range(32, 127)) - set(b'"\\')


def integer(number: int) -> str:
    """A whole number of either sign."""
    return f'(pos {number})' if number >= 0 else f'(negsuc {-number - 1})'


def boolean(it: object) -> str:
    """A truth value."""
    return 'true' if it else 'false'


def optional(it: Optional[Any], text: Callable[[Any], str] = str) -> str:
    """What may be missing."""
    return 'None' if it is None else f'(Some {text(it)})'


def record(**fields: object) -> str:
    """A record of these fields."""
    return '(record { ' + ' '.join(f'{name} = {it};' for name, it in fields.items()) + ' })'


def runs(values: Iterable[Any], text: Callable[[Any], str]) -> list[tuple[str, int]]:
    """The runs of values that have one text. Of equal values that is made once."""
    found: list[tuple[str, int]] = []
    for value, same in itertools.groupby(values):
        it, count = text(value), len(list(same))
        if found and found[-1][0] == it:
            count += found.pop()[1]
        found.append((it, count))
    return found


def listed(values: Iterable[Any], text: Callable[[Any], str] = str) -> str:
    """A list. A long run of equal elements is told once, so that it's read faster."""
    made = '[]'
    for it, count in reversed(runs(values, text)):
        made = (f'replicate {count} {it} ++ {made}' if count >= RUN
                else f'{it} ∷ ' * count + made)
    return made if made == '[]' else f'({made})'


def quoted(piece: bytes) -> str:
    """A piece of a text in quotes."""
    return f'codes "{piece.decode("ascii")}"'


def text(codes: Union[str, Sequence[int]]) -> str:
    """A text: in quotes where it can stand so, line by line; else as a list of numbers."""
    data = codes.encode('ascii') if isinstance(codes, str) else bytes(codes)
    if not data or not set(data) <= QUOTED | {10}:
        return listed(data)
    pieces: list[str] = []
    for line in data.splitlines(keepends=True):
        pieces += [quoted(line.rstrip(b'\n'))] * (line != b'\n')
        pieces += ['(10 ∷ [])'] * line.endswith(b'\n')
    return f'({" ++ ".join(pieces)})'
