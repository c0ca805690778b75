"""The C/A codes of the satellites (IS-GPS-200, section 3.3.2.3).

The receiver is tried with signals that are made of them, here and by `tools/runs-check`. So they
are typed apart from its own: a wrong row of one table for both would find its own signal."""

from __future__ import annotations

from typing import List

# The chips of a code, and its half chips, which are the places that a bin is searched at.
CHIPS = 1023
HALF_CHIPS = 2 * CHIPS

# The stages of the second register that make a satellite's code (IS-GPS-200, table 3-Ia).
STAGES = (
    (2, 6), (3, 7), (4, 8), (5, 9), (1, 9), (2, 10), (1, 8), (2, 9), (3, 10), (2, 3), (3, 4),
    (5, 6), (6, 7), (7, 8), (8, 9), (9, 10), (1, 4), (2, 5), (3, 6), (4, 7), (5, 8), (6, 9),
    (1, 3), (4, 6), (5, 7), (6, 8), (7, 9), (8, 10), (1, 6), (2, 7), (3, 8), (4, 9),
)  # fmt: skip


def chips(number: int) -> List[int]:
    """The 1,023 chips of a satellite, 1 to 32, by two registers that begin with ones."""
    first, second, found = [1] * 10, [1] * 10, []
    one, other = STAGES[number - 1]
    for _ in range(CHIPS):
        found.append(first[9] ^ second[one - 1] ^ second[other - 1])
        first = [first[2] ^ first[9], *first[:9]]
        taps = second[1] ^ second[2] ^ second[5] ^ second[7] ^ second[8] ^ second[9]
        second = [taps, *second[:9]]
    return found
