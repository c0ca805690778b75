"""The codes of the satellites."""

from __future__ import annotations

import pytest

from seldomplough import codes

# The first ten chips of each satellite, the first one on top (IS-GPS-200, table 3-Ia).
FIRST_CHIPS = (
    '1440 1620 1710 1744 1133 1455 1131 1454 1626 1504 1642 1750 1764 1772 1775 1776 '
    '1156 1467 1633 1715 1746 1763 1063 1706 1743 1761 1770 1774 1127 1453 1625 1712'
).split()


@pytest.mark.parametrize('number', range(1, 33))
def test_codes(number: int) -> None:
    chips = codes.chips(number)
    # A code has one chip of 1 more than of 0.
    assert len(chips) == 1023 and sum(chips) == 512
    first = ''.join(map(str, chips[:10]))
    assert f'{int(first, 2):o}' == FIRST_CHIPS[number - 1]
