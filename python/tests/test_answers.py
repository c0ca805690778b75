"""Answers beside the lines of a script."""

from __future__ import annotations

import os
from typing import Any

import pytest
from conftest import EXAMPLES, NAMES, Command, refused

SCRIPT = '0 state 0\n\n   \n5 state 1\n7 stop 0\n'
RUN = '1 0 state 0 idle\n2 3 ok\n1 5 state 1 idle\n1 8 lost 1\n'
BESIDE = '1: 0 state 0 -> state 0 idle\n4: 5 state 1 -> state 1 idle\n'


def write(folder: os.PathLike[str], name: str, text: str) -> str:
    path = os.path.join(folder, name)
    with open(path, 'w', encoding='utf-8') as file:
        file.write(text)
    return path


@pytest.fixture
def script(tmp_path: os.PathLike[str]) -> str:
    return write(tmp_path, 'script', SCRIPT)


def test_each_line_has_its_answer(run: Command, script: str) -> None:
    given = RUN + '1 7 err 10\n1 9 end\n'
    last = '5: 7 stop 0 -> err 10: the slot is idle\n'
    assert run('answers', script, given=given.encode()) == (0, BESIDE + last, '')


def test_lines_without_an_answer(run: Command, script: str) -> None:
    missing = '5: 7 stop 0 -> no answer, and the lines have no `end`\n'
    assert run('answers', script, given=RUN.encode()) == (0, BESIDE + missing, '')
    outcome = run('answers', script, given=(RUN + '1 9 end\n').encode())
    assert outcome == (0, BESIDE + '5: 7 stop 0 -> not reached\n', '')
    for cut in ('1 7 err 1', '1 7 state 1 track 3', '1 7 o', '1'):
        outcome = run('answers', script, given=(RUN + cut).encode())
        assert (outcome.status, outcome.said) == (0, BESIDE + missing)
        assert 'is cut and was left out' in outcome.errors


def test_pipes_are_read_once(launch: Any, tmp_path: os.PathLike[str], script: str) -> None:
    lines = write(tmp_path, 'lines', RUN)
    for words, given in (
        ((script, '/dev/stdin'), RUN),
        ((script, '-'), RUN),
        (('/dev/stdin', lines), SCRIPT),
    ):
        outcome = launch('answers', *words, input=given.encode())
        assert outcome.stdout.decode().startswith(BESIDE) and outcome.stderr == b''


def test_another_client(run: Command, script: str) -> None:
    given = RUN.replace('1 ', '8 ', 1).replace('\n1 ', '\n8 ')
    assert run('answers', '--client', '8', script, given=given.encode()).said.startswith(BESIDE)
    for client in ('0', '9', '-1', '٣'):
        refused(run('answers', '--client', client, script), 2, '--client')


def test_lines_that_the_receiver_does_not_look_at(run: Command, tmp_path: os.PathLike[str]) -> None:
    script = write(tmp_path, 's', '9 state 0\n' + ' ' * 81 + '\nx\n\t\u00e4\n8 stop 0\n')
    given = '1 9 state 0 idle\n1 9 err 1\n1 9 err 3\n1 9 err 2\n1 9 err 4\n'
    said = run('answers', script, given=given.encode()).said.splitlines()
    assert said[1].endswith('-> err 1: the line is longer than 80 bytes')
    assert said[2] == "3: x -> err 3: the first word isn't a time, 1 to 13 digits, at most 2^40"
    assert said[3].startswith('4: \\t\\xc3\\xa4 -> err 2')


def test_another_script_is_refused(run: Command, tmp_path: os.PathLike[str]) -> None:
    for text in ('1 state 0\n', 'x\n', '٣\n', '9' * 5000 + '\n'):
        script = write(tmp_path, 's', text)
        outcome = run('answers', script, given=b'1 0 ok\n')
        refused(outcome, 1, 'line 1 has another time than its answer: is it this script?')
    script = write(tmp_path, 's', '')
    refused(run('answers', script, given=b'1 0 ok\n'), 1, 'more answers than the script')


def test_any_name_of_a_file(run: Command, tmp_path: os.PathLike[str]) -> None:
    for name in NAMES:
        lines = write(tmp_path, name, RUN)
        script = write(tmp_path, f'{name}.script', SCRIPT)
        assert run('answers', script, lines).said.startswith(BESIDE)
    refused(run('answers', os.path.join(tmp_path, 'a\nc')), 1, 'a\\nc: No such file')


@pytest.mark.parametrize('name', ['track_message', 'real_message', 'three_satellites', 'zero_if'])
def test_scripts_of_the_examples(run: Command, name: str) -> None:
    path = os.path.join(EXAMPLES, name)
    outcome = run('answers', f'{path}.script', f'{path}.expected')
    assert (outcome.status, outcome.errors) == (0, '')
    with open(f'{path}.script', encoding='ascii') as file:
        asked = [it for it in file.read().split('\n') if it.strip()]
    assert [it.split(': ', 1)[1].split(' -> ')[0] for it in outcome.said.splitlines()] == asked
    assert ' -> no answer' not in outcome.said
