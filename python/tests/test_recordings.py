"""Recordings, and the words that say them."""

from __future__ import annotations

import argparse
from pathlib import Path

import pytest

from seldomplough.commands import recorded
from seldomplough.recordings import Recording, Tuning


def said(*words: str) -> Recording:
    parser = argparse.ArgumentParser()
    recorded.add(parser)
    return recorded.recording(parser.parse_args([*words, 'x'], argparse.Namespace(command='sky')))


def test_words() -> None:
    assert said() == Recording('x', None, 'real1', Tuning(2046000, 0))
    assert said('--kind', 'iq-u8').format == 'iq1'
    assert said('--kind', 'i16').format == 'real1'
    assert said('--offset', '5', '--minus') == said('--offset', '-5')
    it = said('--kind', 'iq-i8', '--format', 'iq2', '--threshold', '20', '--swap', '--centre', '-3')
    assert it.pack_words() == [
        '--from', 'iq-i8', '--to', 'iq2', '--threshold', '20', '--centre', '-3', '--swap',
    ]  # fmt: skip
    assert said('--offset', '-5').receiver_words() == [
        '--rate', '2046000', '--offset', '5', '--minus', '--format', 'real1',
    ]  # fmt: skip


@pytest.mark.parametrize(
    'kind, form, size, samples',
    [
        ('iq-i8', 'iq1', 2 * 1001, 1000),
        ('i16', 'real1', 2 * 1001, 1000),
        ('f32', 'real2', 4 * 1001, 1000),
        (None, 'iq2', 500, 1000),
        ('bits2-low', 'real1', 501, 2000),
    ],
)
def test_samples_of_a_file(tmp_path: Path, kind: str, form: str, size: int, samples: int) -> None:
    path = tmp_path / 'x'
    path.write_bytes(bytes(size))
    assert Recording(str(path), kind, form, Tuning(2046000, 0)).samples() == samples


def test_samples_that_are_not_known(tmp_path: Path) -> None:
    for name in ('-', 'gone', 'a\0b', str(tmp_path), '/dev/null'):
        assert Recording(name, 'i8', 'real1', Tuning(2046000, 0)).samples() is None
