"""What the tests share: a command of the companion, run in this process or by its launcher."""

from __future__ import annotations

import io
import os
import shutil
import signal
import subprocess
import sys
from functools import lru_cache
from pathlib import Path
from typing import Any, Callable, Dict, NamedTuple

import pytest

from seldomplough.cli import main

TOP = os.path.realpath(os.path.join(os.path.dirname(__file__), '..', '..'))
LAUNCHER = os.path.join(TOP, 'seldomplough')
EXAMPLES = os.path.join(TOP, 'examples')

# The seconds of the clock after which a command counts as hanging, however slow the machine.
HANGS = 3600

# Names that a shell, an awk or a parser of words takes for something else than a file's.
NAMES = ('run=1.lines', 'a b', "x';y", '$(touch made)', 'a\nb', '<x', '|x', '*', '\u00e4\u20ac')


class Outcome(NamedTuple):
    """How a command ended."""

    status: int
    said: str
    errors: str


Command = Callable[..., Outcome]


@pytest.fixture(scope='session', autouse=True)
def uncounted() -> None:
    """Which lines are run counts in this process alone, though pytest-cov would have each Python
    that a test starts count too. Such a start took 1.7 times the seconds."""
    for name in [it for it in os.environ if it.startswith('COV_CORE_')]:
        del os.environ[name]


@pytest.fixture(scope='session', autouse=True)
def interruptible() -> None:
    """Has Ctrl-C end what tests start also where it is ignored here, as it is in what a shell's
    script runs in the background."""
    signal.signal(signal.SIGINT, signal.default_int_handler)


@pytest.fixture
def run(capsys: pytest.CaptureFixture[str], monkeypatch: pytest.MonkeyPatch) -> Command:
    """Runs a command in this process."""

    def command(*words: str, given: bytes = b'') -> Outcome:
        monkeypatch.setattr(sys, 'stdin', io.TextIOWrapper(io.BytesIO(given)))
        status = main(words)
        return Outcome(status, *capsys.readouterr())

    return command


@pytest.fixture
def launch(tmp_path: os.PathLike[str]) -> Callable[..., subprocess.CompletedProcess[bytes]]:
    """Runs the launcher in a folder of the test's own."""

    def command(*words: str, **options: Any) -> subprocess.CompletedProcess[bytes]:
        options.setdefault('capture_output', True)
        options.setdefault('cwd', tmp_path)
        if 'input' not in options:
            options.setdefault('stdin', subprocess.DEVNULL)
        outcome: subprocess.CompletedProcess[bytes]
        outcome = subprocess.run([LAUNCHER, *words], check=False, timeout=HANGS, **options)
        return outcome

    return command


def refused(outcome: Outcome, status: int, text: str) -> None:
    """Sees that a command failed by one line that says this."""
    assert outcome.status == status
    assert outcome.errors.startswith('seldomplough: ') and outcome.errors.count('\n') == 1
    assert text in outcome.errors
    assert outcome.said == ''


def expected_lines() -> str:
    """The lines of all examples that come out whole."""
    texts = []
    for name in sorted(os.listdir(EXAMPLES)):
        if name.endswith('.expected'):
            with open(os.path.join(EXAMPLES, name), encoding='ascii') as file:
                texts.append(file.read())
    assert len(texts) == 8
    return ''.join(texts)


@lru_cache(maxsize=None)
def built(crate: str, name: str) -> str:
    """The path of a program of the checkout, built by cargo."""
    if shutil.which('cargo') is None:
        pytest.skip('cargo is not in the PATH, so that the programs cannot be built')
    ran = subprocess.run(
        [os.path.join(TOP, 'tools', 'build'), crate, name],
        env={**os.environ, 'RECEIVER_PLAIN': 'here'},
        stdin=subprocess.DEVNULL,
        stdout=subprocess.PIPE,
        check=True,
    )
    return os.fsdecode(ran.stdout).rstrip('\n')


@pytest.fixture(scope='session')
def plain() -> Dict[str, str]:
    """The words that name the programs of the checkout, built as plain Rust."""
    names = (('receiver', 'receiver_cli'), ('pack', 'packer_cli'))
    return {f'--{name}': built(crate, name) for name, crate in names}


def program(folder: Path, name: str, text: str) -> str:
    """The path of a stand-in for a program: a script of the shell."""
    path = folder / name
    path.write_text(f'#!/bin/sh\n{text}\n')
    path.chmod(0o755)
    return str(path)
