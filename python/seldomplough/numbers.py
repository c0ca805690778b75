"""The numbers of the command line: one parser of words, for argparse's `type`.

Only ASCII digits are digits, and no number has more than thirteen of them."""

from __future__ import annotations

import argparse
import re
from datetime import datetime
from typing import Callable, List, Set

from seldomplough.failures import shown

NUMBER = re.compile('-?[0-9]{1,13}')

# Samples a second: what the receiver takes, and what it takes where no rate is named.
LEAST_RATE, GREATEST_RATE = 2046000, 20000000
USUAL_RATE = 2046000

# The latest time of a line, in samples.
LAST_TIME = 2**40

# The Doppler shifts that the receiver follows, in Hz to each side.
GREATEST_SHIFT = 16000


def integer(low: int, high: int) -> Callable[[str], int]:
    """A type of argparse: an integer from `low` to `high`, both included."""

    def take(word: str) -> int:
        if not NUMBER.fullmatch(word):
            raise argparse.ArgumentTypeError(f"'{shown(word)}' is no number of 1 to 13 digits")
        value = int(word)
        if not low <= value <= high:
            raise argparse.ArgumentTypeError(f'{value} is outside {low} to {high}')
        return value

    return take


rate = integer(LEAST_RATE, GREATEST_RATE)
"""Samples a second."""

client = integer(1, 8)
"""The number of a client, as the receiver counts them."""

shift = integer(-GREATEST_SHIFT, GREATEST_SHIFT)
"""A Doppler shift in Hz."""


def offset(word: str) -> int:
    """The intermediate frequency in Hz, at most half of the greatest rate to either side.

    Here a sign is allowed. The receiver itself takes `--offset 5000 --minus` for -5000."""
    return integer(-GREATEST_RATE // 2, GREATEST_RATE // 2)(word)


DECIMAL = re.compile(r'-?[0-9]{1,6}(\.[0-9]{1,6})?')


def decimal(low: float, high: float) -> Callable[[str], float]:
    """A type of argparse: a decimal number from `low` to `high`, both included."""

    def take(word: str) -> float:
        if not DECIMAL.fullmatch(word):
            raise argparse.ArgumentTypeError(f"'{shown(word)}' is no decimal number")
        value = float(word)
        if not low <= value <= high:
            raise argparse.ArgumentTypeError(f'{value:g} is outside {low:g} to {high:g}')
        return value

    return take


DAY = re.compile('[0-9]{4}-[0-9]{2}-[0-9]{2}')
# Weeks are counted from the first of these days on.
FIRST_DAY, LAST_DAY = '1980-01-06', '2999-12-31'


def day(word: str) -> datetime:
    """A date such as `2020-08-07`."""
    try:
        value = datetime.fromisoformat(word) if DAY.fullmatch(word) else None
    except ValueError:
        value = None
    if value is None:
        raise argparse.ArgumentTypeError(f"'{shown(word)}' is no date such as 2020-08-07")
    if not FIRST_DAY <= word <= LAST_DAY:
        raise argparse.ArgumentTypeError(f'{word} is outside {FIRST_DAY} to {LAST_DAY}')
    return value


def satellites(word: str) -> List[int]:
    """The numbers of satellites in a list such as `1,5,8-12`, in their order."""
    take = integer(1, 32)
    numbers: Set[int] = set()
    for part in word.split(','):
        first, dash, last = part.partition('-')
        numbers.update(range(take(first), take(last if dash else first) + 1))
    if not numbers:
        raise argparse.ArgumentTypeError(f"'{shown(word)}' has no satellite")
    return sorted(numbers)
