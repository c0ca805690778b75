"""Merges the lines of several runs over one recording into those of one run with all their clients.

Each source is read twice: once to see that it is the whole of a run, and once for its lines. What
can't be read twice, such as a pipe, is first stored in a temporary file."""

from __future__ import annotations

import heapq
import os
import shutil
import tempfile
from contextlib import ExitStack, contextmanager
from io import BufferedReader
from typing import Iterator, List, NamedTuple, NoReturn, Sequence, Set, Tuple, cast

from seldomplough import files
from seldomplough.failures import Failure, of_system, one_line
from seldomplough.lines import Line, numbered, read

# Where lines of one time stand: events before answers, and these before ends.
EVENT, ANSWER, END = range(3)
RANKS = {'ok': ANSWER, 'err': ANSWER, 'state': ANSWER, 'end': END}


class Place(NamedTuple):
    """Where a line stands in a run: by time; then events, answers and ends; then by client."""

    time: int
    rank: int
    client: int


class Run(NamedTuple):
    """A whole run: where its lines begin in its source, its clients, and the time of its end."""

    source: files.Source
    start: int
    clients: int
    end: int


def merged(names: Sequence[str]) -> Iterator[str]:
    """The lines of the runs in files of these names, in their order and without line feeds.

    All files are looked over before the first line comes."""
    with ExitStack() as stack:
        sources = [stack.enter_context(_readable_twice(name)) for name in names]
        _check_each_once(sources)
        runs = [_run(it) for it in sources]
        _check_one_recording(runs)
        before, parts = 0, []
        for run in runs:
            parts.append(_renumbered(run, before))
            before += run.clients
        for _, text in heapq.merge(*parts, key=lambda it: it[0]):
            yield text


@contextmanager
def _readable_twice(name: str) -> Iterator[files.Source]:
    """An input that can be read twice."""
    with files.read(name) as source:
        if source.stream.seekable():
            yield source
            return
        with tempfile.TemporaryFile() as stored:
            try:
                shutil.copyfileobj(source, stored)
                stored.seek(0)
            except OSError as why:
                raise of_system('a temporary file', why) from why
            yield files.Source(cast(BufferedReader, stored), source.name)


def _check_each_once(sources: Sequence[files.Source]) -> None:
    """Sees that no file is given twice, whatever its names."""
    known: Set[Tuple[int, int]] = set()
    for source in sources:
        try:
            about = os.fstat(source.stream.fileno())
        except OSError:
            continue
        if (about.st_dev, about.st_ino) in known:
            raise Failure(f'{one_line(source.name)}: given twice')
        known.add((about.st_dev, about.st_ino))


def _run(source: files.Source) -> Run:
    """The run of a source, or a failure with the source's name."""
    start = source.stream.tell()
    try:
        clients, end = _look_over(read(source, _refuse_cut))
    except Failure as why:
        raise Failure(f'{one_line(source.name)}: {why.text}') from why
    return Run(source, start, clients, end)


def _refuse_cut(text: str) -> NoReturn:
    """Refuses a last line that was cut. `text` would say that it was left out."""
    raise Failure('its last line is cut')


def _look_over(lines: Iterator[Line]) -> Tuple[int, int]:
    """How many clients a run has, and the time of its end. It has to be whole."""
    last, clients = Place(0, 0, 0), set()
    ends: List[Place] = []
    for number, line in enumerate(lines, 1):
        place = Place(line.time, RANKS.get(line.kind, EVENT), line.client)
        if place < last:
            raise Failure(f'line {number} comes too late: are these several runs?')
        last = place
        clients.add(place.client)
        if place.rank == END:
            ends.append(place)
    if not clients:
        raise Failure('it has no lines')
    if not ends:
        raise Failure('it has no `end` line: was the run cut?')
    if [it.client for it in ends] != list(range(1, len(clients) + 1)):
        raise Failure('not one `end` line for each client: was the run cut?')
    if len({it.time for it in ends}) != 1:
        raise Failure('its `end` lines have two times: are these several runs?')
    return len(ends), last.time


def _check_one_recording(runs: Sequence[Run]) -> None:
    """Sees that all runs end at one sample."""
    for run in runs:
        if run.end != runs[0].end:
            name = one_line(run.source.name)
            raise Failure(f'{name}: it ends at {run.end}, the others at {runs[0].end}')


def _renumbered(run: Run, before: int) -> Iterator[Tuple[Place, str]]:
    """The lines of a run with their places, where so many clients come before its own."""
    run.source.stream.seek(run.start)
    for _, text in numbered(run.source):
        try:
            client, time, rest = text.split(' ', 2)
            place = Place(int(time), RANKS.get(rest.split(' ', 1)[0], EVENT), int(client) + before)
        except ValueError as why:
            raise Failure(f'{one_line(run.source.name)}: it changed while it was read') from why
        yield place, f'{place.client} {time} {rest}'
