"""Numbers of the command line."""

from __future__ import annotations

import argparse
from typing import Callable

import pytest

from seldomplough import numbers


@pytest.mark.parametrize(
    'take, word, value',
    [
        (numbers.rate, '2046000', 2046000),
        (numbers.rate, '0020000000', 20000000),
        (numbers.client, '8', 8),
        (numbers.shift, '-16000', -16000),
        (numbers.offset, '-10000000', -10000000),
    ],
)
def test_numbers_that_are_taken(take: Callable[[str], int], word: str, value: int) -> None:
    assert take(word) == value


@pytest.mark.parametrize('take', [numbers.rate, numbers.client, numbers.shift, numbers.offset])
@pytest.mark.parametrize(
    'word', ['', ' 1', '1 ', '+1', '1.0', '1e3', '0x1', '1_0', '²', '٣', '--1', '9' * 13, '9' * 14]
)
def test_words_that_are_no_numbers(take: Callable[[str], int], word: str) -> None:
    with pytest.raises(argparse.ArgumentTypeError) as caught:
        take(word)
    assert str(caught.value).isascii() and str(caught.value).isprintable()
