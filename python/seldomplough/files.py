"""The one way to open inputs and outputs. What the system refuses is a failure of one line.

A name is that of a file, whatever it looks like. `-` alone, or no name, is a standard stream."""

from __future__ import annotations

import os
import sys
from contextlib import contextmanager
from io import BufferedReader
from typing import Callable, Iterator, Optional, TextIO, cast

from seldomplough.failures import ClosedPipe, Failure, of_system

STANDARD_INPUT = 'standard input'
STANDARD_OUTPUT = 'standard output'


def _nothing() -> None:
    """Does nothing."""


class Source:
    """An input of bytes with its name. A read that fails is a failure with that name."""

    def __init__(self, stream: BufferedReader, name: str) -> None:
        self.stream = stream
        self.name = name
        self.before_wait: Callable[[], None] = _nothing
        """What is done before it may wait for more, such as the flush of an output."""

    def read(self, size: int = -1) -> bytes:
        """At most `size` bytes, all where it is below zero, none at the end."""
        try:
            return self.stream.read(size)
        except OSError as why:
            raise of_system(self.name, why) from why

    def read1(self, size: int = -1) -> bytes:
        """What has come so far, at most `size` bytes; it waits where nothing has come yet."""
        self.before_wait()
        try:
            return self.stream.read1(size)
        except OSError as why:
            raise of_system(self.name, why) from why


class Sink:
    """An output of text with its name. A write that fails is a failure with that name."""

    def __init__(self, stream: TextIO, name: str, is_standard: bool = False) -> None:
        self.stream = stream
        self.name = name
        self.is_standard = is_standard

    def write(self, text: str) -> int:
        """Writes a text, and says how many characters it has."""
        try:
            return self.stream.write(text)
        except OSError as why:
            raise self._failure(why) from why

    def flush(self) -> None:
        """Gives the system what was written so far."""
        try:
            self.stream.flush()
        except OSError as why:
            raise self._failure(why) from why

    def close(self) -> None:
        """Flushes, and closes a stream that isn't a standard one."""
        try:
            self.flush()
        finally:
            if not self.is_standard:
                _close_silently(self.stream)

    def _failure(self, why: OSError) -> Exception:
        if isinstance(why, BrokenPipeError):
            return ClosedPipe()
        return of_system(self.name, why)


def _close_silently(stream: TextIO) -> None:
    """Closes a stream whose flush has succeeded, or has failed and was said."""
    try:
        stream.close()
    except OSError:
        pass


@contextmanager
def read(name: Optional[str] = None) -> Iterator[Source]:
    """A file's bytes, or those of standard input."""
    if name is None or name == '-':
        if sys.stdin is None:
            raise Failure(f'{STANDARD_INPUT} is closed')
        if not _blocks(sys.stdin):
            raise Failure(f"{STANDARD_INPUT} doesn't block (O_NONBLOCK), so its end can't be seen")
        yield Source(cast(BufferedReader, sys.stdin.buffer), STANDARD_INPUT)
        return
    try:
        stream = open(path(name), 'rb')
    except OSError as why:
        raise of_system(name, why) from why
    with stream:
        yield Source(stream, name)


def _blocks(stream: TextIO) -> bool:
    """Whether a read waits for what comes. A stream that isn't the system's does."""
    try:
        return os.get_blocking(stream.fileno())
    except (OSError, ValueError):
        return True


@contextmanager
def write(name: Optional[str] = None, new: bool = False) -> Iterator[Sink]:
    """Text of UTF-8 to a file, or to standard output. A `new` file is never one that is there."""
    sink = _sink(name, 'x' if new else 'w')
    try:
        yield sink
    except BaseException:
        if not sink.is_standard:
            _close_silently(sink.stream)
        raise
    sink.close()


def _sink(name: Optional[str], mode: str) -> Sink:
    if name is None or name == '-':
        if sys.stdout is None:
            raise Failure(f'{STANDARD_OUTPUT} is closed')
        return Sink(sys.stdout, STANDARD_OUTPUT, is_standard=True)
    try:
        stream = cast(TextIO, open(path(name), mode, encoding='utf-8', newline=''))
    except OSError as why:
        raise of_system(name, why) from why
    return Sink(stream, name)


def path(name: str) -> str:
    """A name as the system takes it: it can't be empty or have a null byte."""
    if not name or '\0' in name:
        raise Failure(f'{name!r} is no name of a file')
    return name


def folder(name: str) -> str:
    """A folder of a name, made with those above it where they aren't there."""
    try:
        os.makedirs(path(name), exist_ok=True)
    except OSError as why:
        raise of_system(name, why) from why
    return name


def say(text: str) -> None:
    """A line to standard error. Where that is closed or full, nothing is said."""
    if sys.stderr is not None:
        try:
            print(f'seldomplough: {text}', file=sys.stderr, flush=True)
        except OSError:
            pass
