"""Inputs and outputs, and what the system refuses of them."""

from __future__ import annotations

import io
import os
from typing import cast

import pytest

from seldomplough import files
from seldomplough.failures import ClosedPipe, Failure


class Broken(io.RawIOBase):
    """A stream that fails."""

    def __init__(self, why: OSError) -> None:
        super().__init__()
        self.why = why

    def readable(self) -> bool:
        return True

    def writable(self) -> bool:
        return True

    def readinto(self, buffer: object) -> int:
        raise self.why

    def write(self, data: object) -> int:
        raise self.why


def test_a_read_that_fails_has_the_name() -> None:
    source = files.Source(io.BufferedReader(Broken(OSError(5, 'Input/output error'))), 'tape')
    for read in (source.read, source.read1):
        with pytest.raises(Failure) as caught:
            read(5)
        assert caught.value.text == 'tape: Input/output error'


def test_a_write_that_fails_has_the_name() -> None:
    for size in (1, 100000):
        stream = io.TextIOWrapper(io.BufferedWriter(Broken(OSError(28, 'No space left'))))
        sink = files.Sink(stream, 'disk')
        with pytest.raises(Failure, match='disk: No space left'):
            sink.write('x' * size)
            sink.close()
    sink = files.Sink(cast(io.TextIOWrapper, Broken(BrokenPipeError(32, 'Broken pipe'))), 'pipe')
    with pytest.raises(ClosedPipe):
        sink.write('x')


def test_files_are_written_whole_and_read(tmp_path: os.PathLike[str]) -> None:
    path = os.path.join(tmp_path, 'x')
    for text in ('a long one\n', '\u00e4\r\n'):
        with files.write(path) as sink:
            assert sink.write(text) == len(text)
        with files.read(path) as source:
            assert source.read() == text.encode()
    with pytest.raises(Failure, match='File exists'):
        with files.write(path, new=True):
            pass
    with pytest.raises(RuntimeError):
        with files.write(path) as sink:
            raise RuntimeError


def test_what_cannot_be_opened(tmp_path: os.PathLike[str]) -> None:
    for name in ('', 'a\0b', os.path.join(tmp_path, 'none', 'x'), os.fspath(tmp_path)):
        for opened in (files.read(name), files.write(name)):
            with pytest.raises(Failure):
                with opened:
                    pass


def test_folders_are_made(tmp_path: os.PathLike[str]) -> None:
    path = os.path.join(tmp_path, 'a', 'b')
    assert files.folder(path) == files.folder(path) == path
    assert os.path.isdir(path)
    with pytest.raises(Failure):
        files.folder('/dev/null/x')
