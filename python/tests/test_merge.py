"""The lines of several runs as those of one."""

from __future__ import annotations

import os
import subprocess
from typing import Any, Callable, Dict, List

import pytest
from conftest import EXAMPLES, NAMES, Command, refused

from seldomplough import files, merging
from seldomplough.failures import Failure

RUN = '1 0 state 0 idle\n1 5 state 1 idle\n1 8 lost 1\n1 10 end\n'
OTHER = '2 5 bits 1\n1 5 ok\n1 10 end\n2 10 end\n'
MERGED = (
    '1 0 state 0 idle\n3 5 bits 1\n1 5 state 1 idle\n2 5 ok\n1 8 lost 1\n'
    '1 10 end\n2 10 end\n3 10 end\n'
)

# What isn't the whole of a run, and what is said of it.
NO_RUNS = (
    ('', 'it has no lines'),
    ('\n', "line 1 isn't one that the receiver prints"),
    (RUN[:-1], 'its last line is cut'),
    (RUN[:-4], 'its last line is cut'),
    (RUN[:-9], 'it has no `end` line'),
    (RUN.replace('\n', '\r\n'), "line 1 isn't one"),
    (OTHER[:-9], 'not one `end` line for each client'),
    (OTHER.replace('1 10 end\n', ''), 'not one `end` line for each client'),
    (RUN.replace('lost 1', 'lost'), "line 3 isn't one"),
    (RUN + RUN, 'line 5 comes too late: are these several runs?'),
    (RUN.replace('1 8 ', '1 4 '), 'line 3 comes too late'),
    (RUN.replace('10 end', '18 end'), 'it ends at 18, the others at 10'),
    (RUN + '2 12 end\n', 'its `end` lines have two times'),
    (RUN.replace('idle', 'idle 1'), "line 1 isn't one"),
    (RUN.replace('1 8', '1  8'), "line 3 isn't one"),
)


@pytest.fixture
def here(tmp_path: os.PathLike[str], monkeypatch: pytest.MonkeyPatch) -> Callable[..., None]:
    """Works in a folder of the test's own, and writes files there."""
    monkeypatch.chdir(tmp_path)

    def write(**texts: str) -> None:
        for name, text in texts.items():
            with open(name, 'w', encoding='utf-8', newline='') as file:
                file.write(text)

    return write


def test_clients_are_numbered_on(run: Command, here: Callable[..., None]) -> None:
    here(run=RUN, other=OTHER)
    assert run('merge', 'run', 'other') == (0, MERGED, '')


def test_any_name_of_a_file(run: Command, here: Callable[..., None]) -> None:
    here(other=OTHER)
    for name in (*NAMES, '-v', '-f', '--', './-'):
        here(**{name: RUN})
        assert run('merge', '--', name, 'other') == (0, MERGED, '')
        os.remove(name)
    assert not os.path.exists('made')


def test_a_pipe_is_a_run_like_any_other(
    run: Command, launch: Any, here: Callable[..., None]
) -> None:
    here(run=RUN, other=OTHER)
    for name in ('-', '/dev/stdin'):
        outcome = launch('merge', name, 'other', input=RUN.encode())
        assert (outcome.stdout, outcome.stderr) == (MERGED.encode(), b'')
    with open('run', 'rb') as file:
        assert launch('merge', '-', 'other', stdin=file).stdout == MERGED.encode()
    assert run('merge', '-', 'other', given=RUN.encode()) == (0, MERGED, '')


def test_a_relative_temporary_folder_is_left_empty(launch: Any, here: Callable[..., None]) -> None:
    os.mkdir('sub')
    here(other=OTHER)
    for name in ('.', 'sub'):
        environment = {**os.environ, 'TMPDIR': name}
        outcome = launch('merge', '-', 'other', input=RUN.encode(), env=environment)
        assert (outcome.stdout, outcome.stderr) == (MERGED.encode(), b'')
        assert sorted(os.listdir('.')) == ['other', 'sub'] and os.listdir('sub') == []


def test_a_pipe_is_stored_while_it_is_read(run: Command, here: Callable[..., None]) -> None:
    here(other=OTHER)
    reader, writer = os.pipe()
    with os.fdopen(writer, 'wb') as sent:
        sent.write(RUN.encode())
    with os.fdopen(reader, 'rb'):
        assert run('merge', f'/dev/fd/{reader}', 'other') == (0, MERGED, '')


def test_a_system_that_allows_no_more_files(
    run: Command, here: Callable[..., None], monkeypatch: pytest.MonkeyPatch
) -> None:
    def refuse(*_: Any) -> None:
        raise ValueError

    here(run=RUN, other=OTHER)
    monkeypatch.setattr('resource.setrlimit', refuse)
    assert run('merge', 'run', 'other') == (0, MERGED, '')


def test_as_many_files_as_one_likes(run: Command, here: Callable[..., None]) -> None:
    names = [f'f{it}' for it in range(1, 101)]
    here(**{name: '1 5 end\n' for name in names})
    said = ''.join(f'{it} 5 end\n' for it in range(1, 101))
    assert run('merge', *names) == (0, said, '')


@pytest.mark.parametrize('text, why', NO_RUNS)
def test_what_is_not_the_whole_of_a_run(
    run: Command, here: Callable[..., None], text: str, why: str
) -> None:
    here(other=OTHER, run=text)
    refused(run('merge', 'other', 'run'), 1, f'seldomplough: run: {why}')


def test_each_cut_of_a_run_is_refused(run: Command, here: Callable[..., None]) -> None:
    with open(os.path.join(EXAMPLES, 'real_message.expected'), encoding='ascii') as file:
        whole = file.read()
    for at in [*range(0, len(whole), 41), *range(len(whole) - 9, len(whole))]:
        here(run=whole[:at])
        refused(run('merge', 'run'), 1, 'run: ')


def test_what_is_given_twice(run: Command, here: Callable[..., None]) -> None:
    here(other=OTHER)
    os.symlink('other', 'link')
    for name in ('other', './other', 'link'):
        refused(run('merge', 'other', name), 1, f'{name}: given twice')


def test_what_cannot_be_read(run: Command, here: Callable[..., None]) -> None:
    here(other=OTHER)
    refused(run('merge', 'other', 'none'), 1, 'none: No such file')
    refused(run('merge', 'other', 'no\nne'), 1, 'no\\nne: No such file')
    refused(run('merge', 'other', '.'), 1, '.: Is a directory')
    refused(run('merge'), 2, 'LINES')
    refused(run('merge', '--'), 2, 'LINES')
    refused(run('merge', 'other', '-x'), 2, '-x')


def test_no_room_for_what_a_pipe_has(run: Command, monkeypatch: pytest.MonkeyPatch) -> None:
    def full(*_: Any) -> None:
        raise OSError(28, 'No space left on device')

    monkeypatch.setattr(merging.shutil, 'copyfileobj', full)
    monkeypatch.setattr(files.Source, 'read', lambda *_: b'')
    reader, writer = os.pipe()
    with os.fdopen(writer, 'wb'), os.fdopen(reader, 'rb'):
        refused(run('merge', f'/dev/fd/{reader}'), 1, 'a temporary file: No space left')


def test_a_file_that_changes_is_said(here: Callable[..., None]) -> None:
    here(run=RUN)
    with files.read('run') as source:
        looked_at = merging.Run(source, 0, 1, 10)
        here(run='nothing\n')
        with pytest.raises(Failure, match='it changed while it was read'):
            list(merging._renumbered(looked_at, 0))


def test_a_full_disk_is_said(launch: Any, here: Callable[..., None]) -> None:
    here(other=OTHER)
    with open('/dev/full', 'wb') as full:
        outcome = launch(
            'merge', 'other', stdout=full, stderr=subprocess.PIPE, capture_output=False
        )
    assert outcome.stderr == b'seldomplough: standard output: No space left on device\n'
    assert outcome.returncode == 1


def test_stored_lines_are_taken_as_they_are(run: Command) -> None:
    names: List[str] = [it for it in sorted(os.listdir(EXAMPLES)) if it.endswith('.expected')]
    assert len(names) == 8
    for name in names:
        path = os.path.join(EXAMPLES, name)
        with open(path, encoding='ascii') as file:
            assert run('merge', path) == (0, file.read(), '')


def test_clients_of_two_processes_print_the_lines_of_one(
    run: Command, here: Callable[..., None], plain: Dict[str, str]
) -> None:
    # The second answer of the first client comes at the time of the third client's first count.
    here(others='0 hold 3 3 -1750 826\n1222 state 3\n1222 counts 3 4\n5000 wait\n')
    scripts = [os.path.join(EXAMPLES, f'{it}.script') for it in ('real_message', 'track_message')]
    with open(os.path.join(EXAMPLES, 'real_message.real1'), 'rb') as file:
        samples = file.read()
    texts = []
    for chosen in (['others', *scripts], ['others'], scripts):
        words = [plain['--receiver'], '--offset', '511500', *chosen]
        outcome = subprocess.run(words, input=samples, capture_output=True, check=True)
        texts.append(outcome.stdout.decode())
    one, first, second = texts
    here(first=first, second=second)
    assert one.count('\n') == 36 and ' count 3 ' in one and ' err 5\n' in one
    assert run('merge', 'first', 'second') == (0, one, '')
