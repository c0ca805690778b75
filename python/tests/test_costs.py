"""What scripts cost, by the figures of docs/PERFORMANCE.md, and their groups."""

from __future__ import annotations

import pytest

from seldomplough.costs import CELL, FOLLOWED, LINE, groups, of_script


@pytest.mark.parametrize(
    'script, cost',
    [
        (b'', 0),
        (b'0 track 0 3 0 0\n', FOLLOWED * 2046000),
        (b'1000000 hold 0 3 0 0\n0 nothing\n', FOLLOWED * 1046000),
        (b'0 track 0 3 0 0\n46000 stop 0\n', FOLLOWED * 46000),
        (b'9000000 track 0 3 0 0', 0),
        # The slot isn't idle, so the second command is refused.
        (b'0 track 0 3 0 0\n5 track 0 4 0 0\n', FOLLOWED * 2046000),
        (b'0 counts 0 1000000\n', LINE * 1000),
        (b'0 counts 0 7\n0 track 0\n0 hold x 3 0 0', LINE * 7),
        # 4 ms of samples and 4 samples for each of 25 bins of 2,046 cells are 212,784 samples.
        (b'0 acquire 0 1 0 12 4 75\n', CELL * 4 * 2046 * 25 + FOLLOWED * (2046000 - 212784)),
        # The samples end when half of the search is done.
        (b'1939608 acquire 0 1 0 12 4 75\n', CELL * 2 * 2046 * 25),
    ],
)
def test_cost_of_a_script_over_a_second(script: bytes, cost: float) -> None:
    assert of_script(script, 2046000, 2046000) == pytest.approx(cost)


def test_a_search_costs_more_at_a_greater_rate() -> None:
    script = b'0 acquire 0 1 0 0 1 75\n0 stop 0\n'
    assert of_script(script, 4092000, 9999999) == pytest.approx(2 * CELL * 2046)


def test_groups_are_of_neighbours_and_cost_no_more() -> None:
    assert groups([], 1, 5) == []
    assert groups([1, 1, 1, 2, 9, 1], 1, 4) == [(1, 3), (4, 4), (5, 5), (6, 6)]
    assert groups([0] * 10, 0, 1) == [(1, 8), (9, 10)]
    assert groups([7], 7, 1) == [(1, 1)]
