"""C/N0 by the moments method."""

from __future__ import annotations

from typing import List

import pytest
from conftest import Command, refused

from seldomplough.cn0 import Moments


def counts(sums: List[int], period: int = 2046, slot: int = 0) -> str:
    """`count` lines with these prompt sums in phase."""
    return ''.join(f'1 {at * period} count {slot} 0 0 {it} 0 0 0\n' for at, it in enumerate(sums))


def test_two_powers_in_turn(run: Command) -> None:
    # With powers a and b in turn 2 M2^2 - M4 = a b. With 16 and 4 the signal is 8 and the noise 2:
    # 10 log10(4000) = 36.0.
    text = counts([4, 2] * 100 + [4])
    assert run('cn0', given=text.encode()) == (
        0,
        '# second client slot dumps C/N0\n0 1 0 200 36.0\n',
        '',
    )


def test_other_rates_and_seconds(run: Command) -> None:
    text = counts([4, 2] * 700, 4092, 7)
    outcome = run('cn0', '--rate', '4092000', given=text.encode())
    assert outcome.said.splitlines()[1:] == ['0 1 7 999 36.0', '1 1 7 400 36.0']


def test_merged_lines_have_clients_above_eight(run: Command) -> None:
    text = counts([4, 2] * 100 + [4]).replace('1 ', '12 ', 1).replace('\n1 ', '\n12 ')
    said = run('cn0', given=text.encode()).said.splitlines()
    assert said[1:] == ['0 12 0 200 36.0']


def test_no_signal_and_no_noise_have_no_density() -> None:
    assert Moments().density is None
    silent, steady, rare = Moments(), Moments(), Moments()
    for it in range(100):
        silent.take(0)
        steady.take(9)
        rare.take(1000 if it == 0 else 0)
    assert silent.density is steady.density is rare.density is None


def test_what_is_shown_where_there_is_none(run: Command) -> None:
    assert run('cn0', given=counts([5] * 101).encode()).said.splitlines()[1] == '0 1 0 100 -'


def test_dumps_that_are_not_whole_do_not_count(run: Command) -> None:
    text = counts([4, 2] * 100, 2070)
    assert run('cn0', given=text.encode()).said == '# second client slot dumps C/N0\n'


@pytest.mark.parametrize('text', ['', '1 5 ok\n'])
def test_nothing_to_measure(run: Command, text: str) -> None:
    refused(run('cn0', given=text.encode()), 1, 'no `count` lines')


def test_hostile_lines(run: Command) -> None:
    text = '1 5 count 0 1 2 3 4 5 ' + '9' * 5000 + '\n'
    refused(run('cn0', given=text.encode()), 1, 'line 1 ')
    refused(run('cn0', '--rate', '²'), 2, 'is no number')
