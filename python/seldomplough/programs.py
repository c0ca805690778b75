"""Finds the programs `receiver` and `pack`, and runs them over samples, without a shell.

A program is the one that is named; else that of the checkout that this package lies in; else the
one in the PATH. What a program refuses becomes a failure that says the way out."""

from __future__ import annotations

import os
import shutil
import subprocess
import sys
import tempfile
from contextlib import ExitStack, contextmanager
from functools import lru_cache
from io import BufferedReader
from typing import IO, Callable, Iterator, List, NamedTuple, Optional, Sequence, cast

from seldomplough.endings import held
from seldomplough.failures import WORDS, Failure, of_system, one_line
from seldomplough.feeds import Feed, Feeder, close
from seldomplough.refusals import in_words

RECEIVER, PACK = 'receiver', 'pack'
# The crate of each program, by which a checkout builds it.
CRATES = {RECEIVER: 'receiver_cli', PACK: 'packer_cli'}
TOP = os.path.dirname(os.path.dirname(os.path.dirname(os.path.realpath(__file__))))
# The most of what a program says on standard error that is taken, in bytes.
LONGEST_SAID = 1 << 16
# How many seconds a program has to end when it is asked to.
PATIENCE = 5


class Program(NamedTuple):
    """A program by its name, `receiver` or `pack`, and the path of its file."""

    name: str
    path: str


class Stage(NamedTuple):
    """A program with its words, and the scripts among them in their order."""

    program: Program
    words: Sequence[str]
    scripts: Sequence[str] = ()


def find(name: str, given: Optional[str] = None) -> Program:
    """The program of a name: the file that is given, the checkout's, or that in the PATH."""
    if given is not None:
        return Program(name, _file(name, given))
    built = _of_checkout(name, TOP)
    path = built or shutil.which(f'seldomplough-{name}') or shutil.which(name)
    if path is None:
        raise Failure(f'{name} is neither beside this package nor in the PATH: give --{name} FILE')
    return Program(name, path)


def _file(name: str, given: str) -> str:
    """The path of a program's file that is given. It is never looked up in the PATH."""
    path = os.path.abspath(given)
    if not given or '\0' in given or not os.path.isfile(path) or not os.access(path, os.X_OK):
        raise Failure(f'--{name}: {one_line(given)!r} is no program that can be run', WORDS)
    return path


@lru_cache(maxsize=None)
def _of_checkout(name: str, top: str) -> Optional[str]:
    """The path of the program that a checkout builds, None where `top` is no checkout.

    What the wrapper at its top does at each start is done once here."""
    script = os.path.join(top, 'tools', 'build')
    if not (os.path.isfile(script) and os.path.isfile(os.path.join(top, name))):
        return None
    command = [sys.executable, '-E', '-s', '-S', script, CRATES[name]]
    try:
        ran = subprocess.run([*command, name], stdin=subprocess.DEVNULL, stdout=subprocess.PIPE)
    except OSError as why:
        raise of_system(script, why) from why
    if ran.returncode:
        raise Failure(f'{name} of the checkout {one_line(top)} could not be built')
    return os.fsdecode(ran.stdout).rstrip('\n')


@contextmanager
def running(
    stages: Sequence[Stage], feed: Feed, note: Optional[Callable[[str], None]] = None
) -> Iterator[BufferedReader]:
    """Runs programs in a pipe over what `feed` writes, and gives what the last one writes.

    Whoever leaves before its end ends the programs. At its end a program that failed is a failure
    in words: that of the last one that failed, since the earlier ones fail by the closed pipe.
    `note` gets each line of standard error of those that ended well, as of what was left out."""
    with ExitStack() as stack:
        started: List[subprocess.Popen[bytes]] = []
        said = [stack.enter_context(tempfile.TemporaryFile()) for _ in stages]
        # These are undone in the opposite order: the programs end first.
        feeder = Feeder(feed)
        stack.callback(feeder.end)
        stack.callback(_end, started)
        for stage, errors in zip(stages, said):
            source = started[-1].stdout if started else subprocess.PIPE
            # One that is begun is known before a signal ends what is done.
            with held():
                started.append(_start(stage, source, errors))
            if len(started) > 1:
                close(started[-2].stdout)
        feeder.begin(cast(IO[bytes], started[0].stdin))
        output = cast(BufferedReader, started[-1].stdout)
        yield output
        # It may have more to write than was read.
        while output.read(1 << 16):
            pass
        for process in started:
            process.wait()
        feeder.end()
        for stage, process, errors in reversed(list(zip(stages, started, said))):
            if process.returncode:
                raise _failure(stage, process.returncode, errors)
        feeder.check()
        for line in (it for errors in said for it in _said(errors).splitlines()):
            if note is not None:
                note(one_line(line))


def _start(stage: Stage, source: object, errors: IO[bytes]) -> subprocess.Popen[bytes]:
    command = [stage.program.path, *stage.words]
    try:
        return subprocess.Popen(
            command,
            stdin=cast(int, source),
            stdout=subprocess.PIPE,
            stderr=errors,
        )
    except OSError as why:
        raise of_system(stage.program.path, why) from why
    except ValueError as why:
        raise Failure(f'{stage.program.name}: a word has a null byte', WORDS) from why


def _end(started: Sequence[subprocess.Popen[bytes]]) -> None:
    """Ends programs that still run, and closes what leads to and from them."""
    for process in started:
        if process.poll() is None:
            process.terminate()
    for process in started:
        try:
            process.wait(PATIENCE)
        except subprocess.TimeoutExpired:
            process.kill()
            process.wait()
        close(process.stdout)


def _failure(stage: Stage, status: int, errors: IO[bytes]) -> Failure:
    return Failure(in_words(stage.program.name, status, _said(errors), stage.scripts))


def _said(errors: IO[bytes]) -> str:
    """What a program said on standard error."""
    errors.seek(0)
    return errors.read(LONGEST_SAID).decode('utf-8', 'replace')


def output(stages: Sequence[Stage], feed: Feed) -> bytes:
    """All that the last of these programs writes, over what `feed` writes."""
    with running(stages, feed) as stream:
        return stream.read()
