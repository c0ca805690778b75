"""Outputs of bytes that are made whole before any of it is written."""

from __future__ import annotations

import os
import shutil
import stat
import tempfile
from contextlib import contextmanager
from typing import IO, Iterator, Optional, Tuple

from seldomplough import files
from seldomplough.failures import ClosedPipe, of_system


def to_standard_output(data: bytes) -> None:
    """Writes bytes to standard output, after the text that was written before."""
    with files.write() as sink:
        sink.flush()
        try:
            sink.stream.buffer.write(data)
            sink.stream.buffer.flush()
        except BrokenPipeError as why:
            raise ClosedPipe() from why
        except OSError as why:
            raise of_system(sink.name, why) from why


def to_file(name: str, data: bytes) -> None:
    """Writes bytes to a file of a name. A file that is there stays as it was until all is written.

    What a link leads to is left alone: the file takes the link's place. Where the name is that of a
    device or a pipe, the bytes go into it."""
    try:
        if _is_special(name):
            with open(name, 'wb') as stream:
                stream.write(data)
        else:
            _put_in_place(name, data)
    except OSError as why:
        raise of_system(name, why) from why


def _is_special(name: str) -> bool:
    """Whether a name is that of something that is neither a file, nor a link, nor a folder."""
    try:
        mode = os.lstat(files.path(name)).st_mode
    except FileNotFoundError:
        return False
    return not (stat.S_ISREG(mode) or stat.S_ISLNK(mode) or stat.S_ISDIR(mode))


def _put_in_place(name: str, data: bytes) -> None:
    """Writes a file beside the one of a name, and gives it that name."""
    with placed(name) as stream:
        stream.write(data)


@contextmanager
def placed(name: str, scratch: Optional[str] = None) -> Iterator[IO[bytes]]:
    """A stream whose file gets a name when it is whole and on the disk. Else it is removed.

    With a scratch folder it is written there first, and copied beside the name at the end."""
    with _temporary(scratch or _folder_of(name)) as (stream, path):
        yield stream
        stream.flush()
        if scratch is None:
            _name(stream, path, name)
            return
        with _temporary(_folder_of(name)) as (copy, beside), open(path, 'rb') as source:
            shutil.copyfileobj(source, copy)
            _name(copy, beside, name)


def _folder_of(name: str) -> str:
    return os.path.dirname(name) or os.curdir


@contextmanager
def _temporary(folder: str) -> Iterator[Tuple[IO[bytes], str]]:
    """A new file in a folder, and its path. It is removed unless it got another name."""
    number, path = tempfile.mkstemp(dir=folder, prefix='.seldomplough-')
    try:
        with os.fdopen(number, 'wb') as stream:
            yield stream, path
    finally:
        if os.path.exists(path):
            os.unlink(path)


def _name(stream: IO[bytes], path: str, name: str) -> None:
    """Gives a file that is whole its name."""
    stream.flush()
    os.fsync(stream.fileno())
    os.chmod(path, 0o666 & ~_mask())
    os.replace(path, name)


def _mask() -> int:
    """The bits that this process takes from the mode of new files."""
    mask = os.umask(0)
    os.umask(mask)
    return mask
