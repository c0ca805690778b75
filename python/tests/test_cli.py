"""The command line as a whole: help, failures, signals and streams."""

from __future__ import annotations

import os
import re
import signal
import subprocess
import sys
from typing import Any, Callable

import pytest
from conftest import NAMES, TOP, Command, refused

import seldomplough
from seldomplough import cli, commands, files
from seldomplough.failures import ClosedPipe, Failure

Launch = Callable[..., 'subprocess.CompletedProcess[bytes]']
MANY = b'1 5 ok\n' * 100000


def test_the_version_is_that_of_the_programs(run: Command) -> None:
    with open(os.path.join(TOP, 'crates/version/src/lib.rt'), encoding='utf-8') as file:
        found = re.search('VERSION: &str = "(.*)"', file.read())
    assert found and seldomplough.__version__ == found[1]
    assert run('--version') == (0, f'seldomplough {found[1]}\n', '')


def test_help_of_each_command_has_an_example(run: Command) -> None:
    whole = run('--help')
    assert whole.status == 0 and whole.errors == ''
    for name in commands.NAMES:
        assert f'    {name} ' in whole.said
        outcome = run(name, '--help')
        assert outcome.status == 0 and outcome.errors == ''
        assert (
            f'    seldomplough {name}' in outcome.said or f'| seldomplough {name}' in outcome.said
        )
        assert max(map(len, outcome.said.splitlines())) <= 100


def test_words_that_are_refused(run: Command) -> None:
    refused(run(), 2, 'COMMAND')
    refused(run('nope\n\x1b[31m'), 2, 'nope')
    refused(run('--bad', 'json'), 2, '--bad')
    refused(run('json', 'a', 'b'), 2, 'b')


def test_options_may_stand_anywhere(run: Command, tmp_path: os.PathLike[str]) -> None:
    script, lines = (os.path.join(tmp_path, it) for it in ('script', 'lines'))
    for path, text in ((script, '5 state 1\n'), (lines, '2 5 state 1 idle\n')):
        with open(path, 'w', encoding='ascii') as file:
            file.write(text)
    words, client = [script, lines], ['--client', '2']
    for at in range(3):
        outcome = run('answers', *words[:at], *client, *words[at:])
        assert outcome == (0, '1: 5 state 1 -> state 1 idle\n', '')
    for at in range(2):
        outcome = run('answers', *words[:at], *client, *words[at:1], given=b'2 5 state 1 idle\n')
        assert outcome == (0, '1: 5 state 1 -> state 1 idle\n', '')
    assert run('answers', script, *client, '--', lines).status == 0
    refused(run('answers', script, *client, lines, 'x'), 2, 'x')


def test_a_failure_is_one_line(run: Command, monkeypatch: pytest.MonkeyPatch) -> None:
    def fail(arguments: Any) -> int:
        raise Failure('a\nb\x1b\udcff\u20ac', 7)

    monkeypatch.setattr(cli, 'run', fail)
    assert run('json') == (7, '', 'seldomplough: a\\nb\\x1b\\udcff\u20ac\n')


@pytest.mark.parametrize(
    'what, number',
    [
        (ClosedPipe, signal.SIGPIPE),
        (BrokenPipeError, signal.SIGPIPE),
        (KeyboardInterrupt, signal.SIGINT),
        (cli.Terminated, signal.SIGTERM),
    ],
)
def test_ends_by_a_signal(
    run: Command, monkeypatch: pytest.MonkeyPatch, what: type, number: int
) -> None:
    sent = []

    def end(arguments: Any) -> int:
        raise what

    monkeypatch.setattr(cli, 'run', end)
    monkeypatch.setattr(signal, 'signal', lambda *it: sent.append(it))
    monkeypatch.setattr(os, 'kill', lambda *it: sent.append(it))
    assert run('json').status == 128 + number
    assert sent == [(number, signal.SIG_DFL), (os.getpid(), number)]


def test_streams_that_are_closed(run: Command, monkeypatch: pytest.MonkeyPatch) -> None:
    for name in ('stdin', 'stdout'):
        with monkeypatch.context() as closed:
            closed.setattr(sys, name, None)
            with pytest.raises(Failure, match='is closed'):
                with files.read() if name == 'stdin' else files.write():
                    pass
    with monkeypatch.context() as closed:
        closed.setattr(sys, 'stderr', None)
        files.say('nobody hears it')


def test_no_output_is_needed_where_none_is_written(
    run: Command, monkeypatch: pytest.MonkeyPatch, tmp_path: os.PathLike[str]
) -> None:
    monkeypatch.setattr(sys, 'stdout', None)
    folder = os.path.join(tmp_path, 'tables')
    assert run('csv', '--folder', folder, given=b'1 5 ok\n').status == 0
    assert os.listdir(folder) == ['ok.csv']
    outcome = run('json', given=b'1 5 ok\n')
    assert (outcome.status, outcome.errors) == (
        1,
        'seldomplough: standard output is closed\n',
    )


def test_the_module_runs(tmp_path: os.PathLike[str]) -> None:
    command = [sys.executable, '-m', 'seldomplough', '--version']
    environment = {**os.environ, 'PYTHONPATH': os.path.join(TOP, 'python')}
    outcome = subprocess.run(command, cwd=tmp_path, env=environment, capture_output=True)
    assert outcome.stdout == f'seldomplough {seldomplough.__version__}\n'.encode()


def test_text_is_utf_8_in_each_locale(launch: Launch) -> None:
    text = bytes([0o370]) * 22
    for encoding in ('ascii', 'latin-1'):
        environment = {**os.environ, 'PYTHONIOENCODING': encoding}
        outcome = launch(
            'csv', '--kind', 'msg', input=f'1 5 msg 0 {text.hex()}\n'.encode(), env=environment
        )
        row = f"1,5,0,,{text.hex()}," + "\u00b0" * 22
        assert outcome.stdout.decode().splitlines()[1] == row


def test_the_launcher_takes_no_module_of_the_folder_or_the_environment(
    launch: Launch, tmp_path: os.PathLike[str]
) -> None:
    for name in ('argparse', 'json', 'seldomplough', 'numbers'):
        with open(os.path.join(tmp_path, f'{name}.py'), 'w', encoding='ascii') as file:
            file.write('raise SystemExit(9)')
    for path in (None, str(tmp_path)):
        environment = {**os.environ, **({'PYTHONPATH': path} if path else {})}
        outcome = launch('json', input=b'1 5 ok\n', env=environment)
        assert outcome.stdout == b'{"kind": "ok", "client": 1, "time": 5}\n'
        assert (outcome.returncode, outcome.stderr) == (0, b'')


def test_help_needs_no_text_that_python_keeps(launch: Launch) -> None:
    stripped = {**os.environ, 'PYTHONOPTIMIZE': '2'}
    for words in ([], ['json'], ['rinex-check']):
        usual, outcome = launch(*words, '--help'), launch(*words, '--help', env=stripped)
        assert (outcome.returncode, outcome.stderr) == (0, b'')
        assert outcome.stdout == usual.stdout
    outcome = launch('json', input=b'1 5 ok\n', env=stripped)
    assert outcome.stdout == b'{"kind": "ok", "client": 1, "time": 5}\n'


def test_a_closed_pipe_ends_by_its_signal(launch: Launch, tmp_path: os.PathLike[str]) -> None:
    for words in (('json',), ('--help',), ('csv', '--kind', 'ok')):
        reader, writer = os.pipe()
        os.close(reader)
        outcome = launch(
            *words, input=MANY, stdout=writer, stderr=subprocess.PIPE, capture_output=False
        )
        os.close(writer)
        assert (outcome.returncode, outcome.stderr) == (-signal.SIGPIPE, b'')


@pytest.mark.skipif(not os.path.exists('/dev/full'), reason='no /dev/full')
def test_a_full_disk_is_said(launch: Launch) -> None:
    for words in (('json',), ('--help',), ('--version',), ('csv', '--kind', 'ok')):
        for given in (MANY, b'1 5 ok\n'):
            with open('/dev/full', 'wb') as full:
                outcome = launch(
                    *words, input=given, stdout=full, stderr=subprocess.PIPE, capture_output=False
                )
            assert outcome.stderr == b'seldomplough: standard output: No space left on device\n'
            assert outcome.returncode == 1


def test_a_stream_that_does_not_block_is_refused(launch: Launch) -> None:
    reader, writer = os.pipe()
    os.set_blocking(reader, False)
    outcome = launch('json', stdin=reader)
    os.close(reader)
    os.close(writer)
    assert outcome.returncode == 1 and b"standard input doesn't block" in outcome.stderr


def test_control_c_leaves_whole_lines(tmp_path: os.PathLike[str]) -> None:
    launcher = os.path.join(TOP, 'seldomplough')
    with subprocess.Popen(
        [launcher, 'json'], stdin=subprocess.PIPE, stdout=subprocess.PIPE, stderr=subprocess.PIPE
    ) as process:
        assert process.stdin and process.stdout and process.stderr
        process.stdin.write(b'1 5 ok\n')
        process.stdin.flush()
        assert process.stdout.readline().endswith(b'}\n')
        process.send_signal(signal.SIGINT)
        assert process.wait() == -signal.SIGINT
        assert process.stdout.read() == process.stderr.read() == b''


def test_any_name_of_a_file(launch: Launch, tmp_path: os.PathLike[str]) -> None:
    for name in (*NAMES, '-lines', '--back'):
        with open(os.path.join(tmp_path, name), 'wb') as file:
            file.write(b'1 5 ok\n')
        words = ('--', name) if name.startswith('-') else (name,)
        outcome = launch('json', *words)
        assert outcome.stdout == b'{"kind": "ok", "client": 1, "time": 5}\n'
        assert (outcome.returncode, outcome.stderr) == (0, b'')
    assert not os.path.exists(os.path.join(tmp_path, 'made'))
    outcome = launch('json', b'\xff\xfe'.decode('utf-8', 'surrogateescape'))
    assert outcome.stderr == b'seldomplough: \\udcff\\udcfe: No such file or directory\n'


def test_lines_of_a_pipe_come_out_at_once(tmp_path: os.PathLike[str]) -> None:
    launcher = os.path.join(TOP, 'seldomplough')
    environment = {it: os.environ[it] for it in os.environ if it != 'PYTHONUNBUFFERED'}
    with subprocess.Popen(
        [launcher, 'json'], stdin=subprocess.PIPE, stdout=subprocess.PIPE, env=environment
    ) as process:
        assert process.stdin and process.stdout
        for time in range(3):
            process.stdin.write(f'1 {time} ok\n'.encode())
            process.stdin.flush()
            assert b'"time": %d}' % time in process.stdout.readline()
        process.stdin.close()
        assert process.stdout.read() == b'' and process.wait() == 0
