"""Writes samples to a program in a thread, so that its lines can be read meanwhile."""

from __future__ import annotations

import os
from threading import Thread
from typing import IO, Callable, Optional

from seldomplough import files
from seldomplough.endings import held
from seldomplough.failures import of_system

Feed = Callable[[IO[bytes]], None]
"""Writes the samples that a program reads."""

# How many bytes are read at once.
PIECE = 1 << 16


def close(stream: Optional[IO[bytes]]) -> None:
    """Closes a stream. What can't be written any more is left out."""
    try:
        if stream is not None:
            stream.close()
    except OSError:
        pass


def of_bytes(data: bytes) -> Feed:
    """Writes these bytes."""

    def feed(sink: IO[bytes]) -> None:
        sink.write(data)

    return feed


def of_source(source: files.Source, size: int) -> Feed:
    """Writes at most so many bytes of a source that nothing was read of yet."""

    def feed(sink: IO[bytes]) -> None:
        left = size
        while left > 0:
            piece = _read(source, min(left, PIECE))
            if not piece:
                return
            sink.write(piece)
            sink.flush()
            left -= len(piece)

    return feed


def _read(source: files.Source, size: int) -> bytes:
    """What has come so far. It goes by the descriptor: a stream that a thread waits in can't be
    closed by another."""
    try:
        return os.read(source.stream.fileno(), size)
    except OSError as why:
        raise of_system(source.name, why) from why


class Feeder:
    """A thread that writes to a program."""

    def __init__(self, feed: Feed) -> None:
        self.feed = feed
        self.thread: Optional[Thread] = None
        self.failure: Optional[BaseException] = None

    def begin(self, sink: IO[bytes]) -> None:
        """Begins to write."""
        thread = Thread(target=self._write, args=(sink,), daemon=True)
        # One that a signal leaves half begun can't be waited for.
        with held():
            thread.start()
            self.thread = thread

    def _write(self, sink: IO[bytes]) -> None:
        try:
            self.feed(sink)
        except BrokenPipeError:
            # The program ended; its status says why.
            pass
        except BaseException as why:  # noqa: B902: it is raised again by `check`
            self.failure = why
        finally:
            close(sink)

    def end(self) -> None:
        """Waits until all is written. A source that still waits for its own input is left."""
        if self.thread is not None:
            self.thread.join(1)

    def check(self) -> None:
        """Raises what the writing failed with."""
        if self.failure is not None:
            raise self.failure
