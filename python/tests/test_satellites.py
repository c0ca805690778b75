"""The satellite of a slot, by the lines before."""

from __future__ import annotations

from typing import List, Optional

from seldomplough.lines import Satellites, parse


def satellites_of(text: str) -> List[Optional[int]]:
    known = Satellites()
    return [known.feed(parse(it)) for it in text.strip().split('\n')]


def test_an_acquisition_names_it_until_it_is_lost() -> None:
    text = '1 0 ok\n1 1 lock 0\n1 2 acq 0 7 found 0 0 9\n1 3 lock 0\n1 3 lock 1\n2 3 lock 0\n'
    assert satellites_of(text) == [None, None, 7, 7, None, None]
    assert satellites_of('1 2 acq 0 7 found 0 0 9\n1 3 lost 0\n1 4 lost 0') == [7, 7, None]


def test_an_acquisition_that_finds_none_ends_it() -> None:
    text = '1 2 acq 0 7 found 0 0 9\n1 3 acq 0 8 none 0 0 9\n1 4 state 0 idle\n1 4 bits 0\n'
    assert satellites_of(text) == [7, 8, None, None]


def test_states_name_it() -> None:
    text = '1 1 state 0 hold 3 5\n1 2 count 0 1 2 3 4 5 6\n1 3 state 0 acquire 4 1 2\n1 4 gap 0 1'
    assert satellites_of(text) == [3, 3, 4, None]
    assert satellites_of('1 1 state 0 track 9 5 0 0 open\n1 2 lock 0') == [9, 9]


def test_a_stop_is_followed_by_no_line() -> None:
    """A slot that tracks 7, is stopped and tracks 9: the state alone says so."""
    asked = '5 stop 0', '6 track 0 9 0 0', '8 state 0'
    lines = ['1 2 acq 0 7 found 0 0 9', *(f'1 {it.split()[0]} ok' for it in asked[:2])]
    lines += ['1 7 lock 0', '1 8 state 0 track 9 5 0 0 lock', '1 9 bits 0']
    assert satellites_of('\n'.join(lines)) == [7, None, None, 7, 9, 9]
