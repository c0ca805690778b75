"""The command `search`, against the script that had its place and by the rule of the guide."""

from __future__ import annotations

import os
from pathlib import Path

import pytest
from conftest import EXAMPLES, Command, refused


def test_scripts_of_the_guide(run: Command, tmp_path: Path) -> None:
    words = ['--bins', '12', '--ms', '4', '--threshold', '75']
    outcome = run('search', *words, str(tmp_path))
    # 4 ms of 2046 samples, and 4 samples for each of 2046 * 25 cells, eight times.
    assert outcome.said == 'due by sample 1702272, 0.832 s\n'
    for at in range(1, 9):
        name = f'search_{at}.script'
        with open(os.path.join(EXAMPLES, 'all32', name), encoding='ascii') as file:
            assert (tmp_path / name).read_text() == file.read()


def test_at_once_and_from(run: Command, tmp_path: Path) -> None:
    folder = tmp_path / '-a=b c'
    outcome = run('search', '--at-once', '--from', '7', '--rate', '4000999', '--', str(folder))
    due = 7 + 10 * 4000 + 4 * 2046 * 41
    assert outcome.said == f'due by sample {due}, 0.{due * 1000 // 4000999:03} s\n'
    assert (folder / 'search_8.script').read_text().splitlines()[3] == '7 acquire 3 32 0 20 10 45'


@pytest.mark.parametrize(
    'words, text',
    [
        (['--bins', '41'], 'outside 0 to 40'),
        (['--ms', '\u00b2'], 'is no number'),
        (['--rate', '5'], 'outside'),
        (['--every', '1', '--at-once'], 'not allowed'),
        ([], 'FOLDER'),
    ],
)
def test_refusals(run: Command, words: list[str], text: str) -> None:
    refused(run('search', *words, *(['x'] if words else [])), 2, text)


def test_folder_that_is_a_file(run: Command, tmp_path: Path) -> None:
    (tmp_path / 'x').write_text('')
    refused(run('search', str(tmp_path / 'x')), 1, 'exists')
