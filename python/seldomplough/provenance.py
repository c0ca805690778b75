"""Where a file came from: a record of JSON beside it, whose name is the file's with `.json`.

A record is written after its file. So a file with its record is whole."""

from __future__ import annotations

import hashlib
import json
import os
import subprocess
from functools import lru_cache
from typing import IO, Any, Dict, Optional, cast

from seldomplough import outputs
from seldomplough.failures import Failure, of_system, one_line
from seldomplough.feeds import Feed
from seldomplough.programs import TOP, Program

Record = Dict[str, Any]
PIECE = 1 << 20


class Digest:
    """The bytes that are written to a stream through this: their number and their SHA-256."""

    def __init__(self) -> None:
        self.sha256 = hashlib.sha256()
        self.bytes = 0
        self.sink: Optional[IO[bytes]] = None

    def feed(self, feed: Feed) -> Feed:
        """The same feed, whose bytes are taken as they go by."""

        def through(sink: IO[bytes]) -> None:
            self.sink = sink
            feed(cast(IO[bytes], self))

        return through

    def write(self, piece: bytes) -> int:
        """Takes bytes, and writes them."""
        self.sha256.update(piece)
        self.bytes += len(piece)
        return len(piece) if self.sink is None else self.sink.write(piece)

    def flush(self) -> None:
        """Gives the system what was written so far."""
        if self.sink is not None:
            self.sink.flush()

    def record(self) -> Record:
        """The number of bytes and their SHA-256."""
        return {'bytes': self.bytes, 'sha256': self.sha256.hexdigest()}


def of_file(name: str) -> Record:
    """The number of a file's bytes and their SHA-256."""
    digest = Digest()
    try:
        with open(name, 'rb') as stream:
            while True:
                piece = stream.read(PIECE)
                if not piece:
                    return digest.record()
                digest.write(piece)
    except OSError as why:
        raise of_system(name, why) from why


def of_input(name: str) -> Record:
    """A file by its path, its bytes and its time, which say cheaply that it is still the same."""
    try:
        about = os.stat(name)
    except OSError as why:
        raise of_system(name, why) from why
    return {'path': os.path.abspath(name), 'bytes': about.st_size, 'mtime_ns': about.st_mtime_ns}


@lru_cache(maxsize=None)
def of_program(program: Program) -> Record:
    """A program by what it says of its version, and by its file's SHA-256."""
    try:
        said = subprocess.run(
            [program.path, '--version'], stdin=subprocess.DEVNULL, stdout=subprocess.PIPE
        )
    except OSError as why:
        raise of_system(program.path, why) from why
    version = said.stdout.decode('utf-8', 'replace').strip()
    return {'version': version, 'sha256': of_file(program.path)['sha256']}


@lru_cache(maxsize=None)
def revision(program: Program) -> Optional[str]:
    """What `git describe` says of the checkout that this package and a program lie in.

    It ends with `-dirty` where files of the checkout were changed. None where the program is
    another, or there is no checkout or no git."""
    command = ['git', '--no-optional-locks', '-C', TOP, 'describe', '--always', '--dirty']
    is_inside = os.path.realpath(program.path).startswith(os.path.join(TOP, ''))
    if not is_inside or not os.path.exists(os.path.join(TOP, '.git')):
        return None
    try:
        said = subprocess.run(
            command, stdin=subprocess.DEVNULL, stdout=subprocess.PIPE, stderr=subprocess.DEVNULL
        )
    except OSError:
        return None
    return said.stdout.decode('utf-8', 'replace').strip() or None


def maker(record: Record, key: str) -> Optional[Record]:
    """What a record says of a program, where it says so: `receiver` or `pack`.

    Builds of one revision for unlike processors aren't the same bytes. So the SHA-256 is left out
    where there is a revision, and no file of it was changed."""
    program: Optional[Record] = record.get(key)
    known = record.get('revision')
    if program is None or known is None or known.endswith('-dirty'):
        return program
    return {'version': program['version'], 'revision': known}


def path_of(name: str) -> str:
    """Where the record of a file is."""
    return f'{name}.json'


def write(name: str, record: Record) -> None:
    """Writes a record."""
    outputs.to_file(name, (json.dumps(record, indent=1) + '\n').encode())


def read(name: str, *keys: str) -> Record:
    """Reads a record, which has these keys."""
    try:
        with open(name, 'rb') as stream:
            record = json.load(stream)
    except OSError as why:
        raise of_system(name, why) from why
    except ValueError as why:
        raise Failure(f'{one_line(name)}: it is no record') from why
    if not isinstance(record, dict) or not record.keys() >= set(keys):
        raise Failure(f'{one_line(name)}: it is no record')
    return record


def is_made_of(name: str, wanted: Record) -> bool:
    """Whether a file and its record are there, whole, and made of what is wanted."""
    try:
        record = read(path_of(name))
        return all(record.get(it) == wanted[it] for it in wanted) and is_whole(name, record)
    except Failure:
        return False


def is_whole(name: str, record: Record) -> bool:
    """Whether a file has the bytes that its record says."""
    return of_file(name) == record.get('output')
