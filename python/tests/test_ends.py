"""How a signal ends a command: nothing is left of what it began."""

from __future__ import annotations

import os
import signal
import subprocess
import time
from pathlib import Path

from conftest import HANGS, LAUNCHER, program


def waited(path: Path) -> str:
    """The text of a file, as soon as there is one."""
    end = time.monotonic() + HANGS
    while not (path.exists() and path.read_text()):
        assert time.monotonic() < end
        time.sleep(0.02)
    return path.read_text()


def test_sigterm_leaves_nothing(tmp_path: Path) -> None:
    """By the signal the command ends, its program too, and its temporary folder is removed."""
    private, pid = tmp_path / 'private', tmp_path / 'pid'
    private.mkdir()
    receiver = program(tmp_path, 'receiver', f'echo $$ > "{pid}"; exec sleep {2 * HANGS}')
    words = ['sky', '--offset', '511500', '--receiver', receiver, '--pack', receiver, '/dev/zero']
    with subprocess.Popen(
        [LAUNCHER, *words],
        env={**os.environ, 'TMPDIR': str(private)},
        stdout=subprocess.PIPE,
        stderr=subprocess.PIPE,
    ) as process:
        started = int(waited(pid))
        assert os.listdir(private)
        process.send_signal(signal.SIGTERM)
        said = process.communicate(timeout=HANGS)
    assert (process.returncode, *said) == (-signal.SIGTERM, b'', b'')
    assert os.listdir(private) == []
    assert not os.path.exists(f'/proc/{started}')


def test_sigterm_that_is_ignored_stays_so(tmp_path: Path) -> None:
    """Whoever starts a command may have it ignore the signal."""
    with subprocess.Popen(
        ['sh', '-c', 'trap "" TERM; exec "$0" json', LAUNCHER],
        stdin=subprocess.PIPE,
        stdout=subprocess.PIPE,
    ) as process:
        assert process.stdin and process.stdout
        process.stdin.write(b'1 5 ok\n')
        process.stdin.flush()
        assert process.stdout.readline()
        process.send_signal(signal.SIGTERM)
        process.stdin.write(b'1 6 ok\n')
        rest, _ = process.communicate(timeout=HANGS)
    assert (process.returncode, rest) == (0, b'{"kind": "ok", "client": 1, "time": 6}\n')
