"""Finding and running the programs, by small stand-ins and by the real ones."""

from __future__ import annotations

import os
import signal
import subprocess
from pathlib import Path
from typing import Callable, Dict, List, cast

import pytest
from conftest import EXAMPLES, program

from seldomplough import feeds, programs
from seldomplough.failures import Failure
from seldomplough.programs import Program, Stage, output, running


@pytest.fixture(autouse=True)
def no_checkout(monkeypatch: pytest.MonkeyPatch, tmp_path: Path) -> None:
    """No program is built: the package lies in no checkout."""
    monkeypatch.setattr(programs, 'TOP', str(tmp_path / 'nowhere'))


def stage(path: str, *words: str, name: str = 'receiver') -> Stage:
    return Stage(Program(name, path), words, words)


def test_signal_ends_what_was_just_begun(tmp_path: Path, monkeypatch: pytest.MonkeyPatch) -> None:
    """A signal that comes before the program is known ends it too."""
    begun: List[int] = []
    popen = subprocess.Popen

    def late(*words: object, **more: object) -> subprocess.Popen[bytes]:
        process = cast(Callable[..., 'subprocess.Popen[bytes]'], popen)(*words, **more)
        begun.append(process.pid)
        os.kill(os.getpid(), signal.SIGINT)
        return process

    monkeypatch.setattr(subprocess, 'Popen', late)
    path = program(tmp_path, 'receiver', 'exec sleep 300')
    with pytest.raises(KeyboardInterrupt):
        with running([stage(path)], feeds.of_bytes(b'')):
            pass
    assert not os.path.exists(f'/proc/{begun[0]}')


def test_given_file_is_taken(tmp_path: Path) -> None:
    path = program(tmp_path, 'a b=c', 'cat')
    assert programs.find('receiver', path) == Program('receiver', path)


@pytest.mark.parametrize('given', ['', 'receiver', '.', 'a\0b', 'not there', 'plain'])
def test_given_file_has_to_be_a_program(
    given: str, tmp_path: Path, monkeypatch: pytest.MonkeyPatch
) -> None:
    monkeypatch.chdir(tmp_path)
    (tmp_path / 'plain').write_text('')
    with pytest.raises(Failure, match='--receiver: .* is no program') as caught:
        programs.find('receiver', given)
    assert caught.value.status == 2


def test_path_has_both_names(tmp_path: Path, monkeypatch: pytest.MonkeyPatch) -> None:
    monkeypatch.setenv('PATH', str(tmp_path))
    with pytest.raises(Failure, match='pack is neither beside this package nor in the PATH'):
        programs.find('pack')
    short = program(tmp_path, 'pack', 'cat')
    assert programs.find('pack').path == short
    long = program(tmp_path, 'seldomplough-pack', 'cat')
    assert programs.find('pack').path == long


def checkout(folder: Path, text: str) -> str:
    (folder / 'tools').mkdir(parents=True)
    (folder / 'tools' / 'build').write_text(text)
    (folder / 'receiver').write_text('')
    return str(folder)


def test_checkout_comes_before_the_path(tmp_path: Path, monkeypatch: pytest.MonkeyPatch) -> None:
    top = checkout(tmp_path / 'top', 'import sys\nprint("/built/" + sys.argv[1] + sys.argv[2])')
    monkeypatch.setattr(programs, 'TOP', top)
    assert programs.find('receiver').path == '/built/receiver_clireceiver'


def test_checkout_that_cannot_be_built(tmp_path: Path, monkeypatch: pytest.MonkeyPatch) -> None:
    monkeypatch.setattr(programs, 'TOP', checkout(tmp_path / 'top', 'raise SystemExit(1)'))
    with pytest.raises(Failure, match='could not be built'):
        programs.find('receiver')


def test_words_go_to_the_program_as_they_are(tmp_path: Path) -> None:
    path = program(tmp_path, 'words', 'cat > /dev/null; printf "%s|" "$@"')
    words = ['a b', '$(x)', '-x', 'k=v', 'a\nb', '*']
    assert output([stage(path, *words)], feeds.of_bytes(b'')) == b''.join(
        it.encode() + b'|' for it in words
    )


def test_pipe_of_two(tmp_path: Path) -> None:
    first = program(tmp_path, 'first', 'tr a b')
    second = program(tmp_path, 'second', 'tr b c')
    data = b'a' * 300000
    assert output([stage(first), stage(second)], feeds.of_bytes(data)) == b'c' * 300000


def test_last_failure_of_a_pipe_is_said(tmp_path: Path) -> None:
    first = program(tmp_path, 'first', 'cat || { echo "pack: write" >&2; exit 1; }')
    second = program(tmp_path, 'second', 'echo "receiver: rate" >&2; exit 2')
    with pytest.raises(Failure, match='2046000 to 20000000'):
        output([stage(first, name='pack'), stage(second)], feeds.of_bytes(b'a' * 300000))


def test_first_failure_is_said_where_the_last_ends_well(tmp_path: Path) -> None:
    first = program(tmp_path, 'first', 'cat; echo "pack: a float is no number" >&2; exit 1')
    second = program(tmp_path, 'second', 'cat')
    with pytest.raises(Failure) as caught:
        output([stage(first, name='pack'), stage(second)], feeds.of_bytes(b'a'))
    assert caught.value.text == 'pack: a float is no number'


def test_who_leaves_ends_the_programs(tmp_path: Path) -> None:
    path = program(tmp_path, 'endless', 'echo $$; exec sleep 300')
    with pytest.raises(KeyError):
        with running([stage(path)], feeds.of_bytes(b'')) as stream:
            number = int(stream.readline())
            raise KeyError
    with pytest.raises(ProcessLookupError):
        os.kill(number, 0)


def test_feed_that_fails_is_said(tmp_path: Path) -> None:
    path = program(tmp_path, 'cat', 'cat')

    def feed(sink: object) -> None:
        raise Failure('the device is gone')

    with pytest.raises(Failure, match='the device is gone'):
        output([stage(path)], feed)


def test_what_programs_say_is_noted(tmp_path: Path) -> None:
    path = program(tmp_path, 'pack', 'cat; echo "pack: left out: 3" >&2')
    noted: List[str] = []
    with running([stage(path, name='pack')], feeds.of_bytes(b'a'), noted.append) as stream:
        assert stream.read() == b'a'
    assert noted == ['pack: left out: 3']


def test_program_that_cannot_start(tmp_path: Path) -> None:
    with pytest.raises(Failure, match='No such file'):
        output([stage(str(tmp_path / 'gone'))], feeds.of_bytes(b''))
    path = program(tmp_path, 'cat', 'cat')
    with pytest.raises(Failure, match='null byte'):
        output([stage(path, 'a\0b')], feeds.of_bytes(b''))


def test_real_refusals(plain: Dict[str, str], tmp_path: Path) -> None:
    receiver, pack = plain['--receiver'], plain['--pack']
    gone = str(tmp_path / 'gone.script')
    for words, text in (
        (['--rate', '5'], '2046000 to 20000000'),
        (['--offset', '2000000'], 'half the rate'),
        (['--offset', '-5000'], '`--offset 5000 --minus`'),
        (['--shares', '9'], 'digit'),
        ([gone], 'No such file'),
        ([str(tmp_path)], 'Is a directory'),
        (['--nonsense'], 'nonsense'),
    ):
        with pytest.raises(Failure, match=text):
            output([stage(receiver, *words)], feeds.of_bytes(b''))
    with pytest.raises(Failure, match='pack: .*threshold'):
        words = ['--from', 'i8', '--to', 'real2']
        output([stage(pack, *words, name='pack')], feeds.of_bytes(b''))


def test_real_lines(plain: Dict[str, str]) -> None:
    with open(os.path.join(EXAMPLES, 'three_satellites.real1'), 'rb') as file:
        data = file.read()
    with open(os.path.join(EXAMPLES, 'three_satellites.expected'), 'rb') as file:
        expected = file.read()
    words = ['--offset', '511500', os.path.join(EXAMPLES, 'three_satellites.script')]
    assert output([stage(plain['--receiver'], *words)], feeds.of_bytes(data)) == expected
