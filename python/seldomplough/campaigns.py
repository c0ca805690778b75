"""The table of a campaign: a row of CSV for each recording, below a header.

A row that can't be used is a failure with its number. The header is row 1, as in spreadsheets."""

from __future__ import annotations

import argparse
import csv
import hashlib
import io
import os
import re
from dataclasses import dataclass
from typing import Callable, Dict, Iterator, List, Mapping, Optional, Sequence, Tuple

from seldomplough import files, numbers
from seldomplough.failures import Failure, one_line, shown
from seldomplough.recordings import FORMATS, KINDS, PAIRS, Recording, Tuning, usual_format
from seldomplough.trials import mirrored

# The columns that a table has to have, and those that it may have.
NEEDED = ('path', 'kind', 'rate', 'offset', 'mirrored')
MORE = ('name', 'threshold', 'samples')
# A name is that of files and folders too.
NAME = re.compile(r'[A-Za-z0-9_][A-Za-z0-9_.-]{0,99}')
# The longest table, in bytes.
LONGEST = 1 << 26
WORDS = {'yes': True, 'no': False}
# The packings of two bits a part, by those of one.
TWO_BITS = {'real1': 'real2', 'iq1': 'iq2'}


@dataclass(frozen=True)
class Entry:
    """A row of the table: its number, the name of the recording, the recording itself, and how many
    samples it ought to have, None where the table doesn't say."""

    row: int
    name: str
    recording: Recording
    samples: Optional[int]


def read(name: str) -> List[Entry]:
    """The recordings of a table. Their paths begin at the folder of the table."""
    with files.read(name) as source:
        data = source.read(LONGEST + 1)
    try:
        return list(_entries(data, os.path.dirname(name)))
    except Failure as why:
        raise Failure(f'{one_line(name)}: {why.text}') from why


def _entries(data: bytes, folder: str) -> Iterator[Entry]:
    """The entries of a table. No two have one name."""
    known: Dict[str, int] = {}
    for row, cells in _rows(data):
        try:
            entry = _entry(row, cells, folder)
            if entry.name in known:
                where = f'row {known[entry.name]}'
                raise Failure(f'the name {entry.name} is that of {where} too: give a column name')
        except Failure as why:
            raise Failure(f'row {row}: {why.text}') from why
        known[entry.name] = row
        yield entry
    if not known:
        raise Failure('it has no recording')


def _rows(data: bytes) -> Iterator[Tuple[int, Mapping[str, str]]]:
    """The rows below the header with their numbers, as cells by the names of their columns."""
    if len(data) > LONGEST:
        raise Failure(f'it has more than {LONGEST >> 20} MiB')
    try:
        text = data.decode('utf-8-sig')
    except UnicodeDecodeError as why:
        raise Failure(f'row {data.count(10, 0, why.start) + 1}: it is not UTF-8') from why
    rows = csv.reader(io.StringIO(text, newline=''), strict=True)
    number, columns = 0, None
    try:
        for number, cells in enumerate(rows, 1):
            cells = [it.strip() for it in cells]
            if columns is None:
                columns = _columns(cells)
            elif any(cells):
                if len(cells) != len(columns):
                    raise Failure(f'row {number}: {len(cells)} cells, the header {len(columns)}')
                yield number, dict(zip(columns, cells))
    except csv.Error as why:
        raise Failure(f'row {number + 1}: {why}') from why
    if columns is None:
        raise Failure('it is empty')


def _columns(cells: Sequence[str]) -> Sequence[str]:
    """The header, seen to have the columns of a table."""
    for name in cells:
        if name not in (*NEEDED, *MORE):
            raise Failure(f"row 1: '{shown(name)}' is no column: {', '.join((*NEEDED, *MORE))}")
        if cells.count(name) > 1:
            raise Failure(f'row 1: {name} is there twice')
    for name in NEEDED:
        if name not in cells:
            raise Failure(f'row 1: the column {name} is missing')
    return cells


def _entry(row: int, cells: Mapping[str, str], folder: str) -> Entry:
    """The entry of a row."""
    path = cells['path']
    if not path or '\0' in path:
        raise Failure('path: it is no name of a file')
    name = cells.get('name') or os.path.basename(path).split('.')[0]
    if not NAME.fullmatch(name):
        raise Failure(f"name: '{shown(name)}' is not letters, digits, _, - and . alone")
    samples = None
    if cells.get('samples'):
        samples = _value(cells, 'samples', numbers.integer(1, numbers.LAST_TIME))
    return Entry(row, name, _recording(os.path.join(folder, path), cells), samples)


def _recording(path: str, cells: Mapping[str, str]) -> Recording:
    """The recording of a row, with its spectrum inverted where the row says `mirrored`."""
    kind: Optional[str] = cells['kind']
    rate = _value(cells, 'rate', numbers.rate)
    offset = _value(cells, 'offset', numbers.offset)
    if 2 * abs(offset) > rate:
        raise Failure('offset: it is at most half the rate')
    if kind in FORMATS:
        kind, form = None, cells['kind']
    elif kind in KINDS:
        form = usual_format(cells['kind'])
    else:
        raise Failure(f"kind: '{shown(cells['kind'])}' is none of {', '.join((*KINDS, *FORMATS))}")
    packing: Tuple[str, ...] = ()
    if cells.get('threshold'):
        if kind is None:
            raise Failure(f'threshold: {form} is packed already')
        _value(cells, 'threshold', numbers.decimal(0, 999999))
        form, packing = TWO_BITS[form], ('--threshold', cells['threshold'])
    recording = Recording(path, kind, form, Tuning(rate, offset), packing)
    if cells['mirrored'] not in WORDS:
        raise Failure(f"mirrored: '{shown(cells['mirrored'])}' is neither yes nor no")
    return _mirrored(recording) if WORDS[cells['mirrored']] else recording


def _mirrored(recording: Recording) -> Recording:
    """A recording with its spectrum inverted, where `pack` can do that."""
    turned = mirrored(recording)
    if turned.kind is None and recording.format.startswith(PAIRS):
        raise Failure(f'mirrored: {recording.format} is packed already and can not be turned round')
    return turned


def _value(cells: Mapping[str, str], name: str, take: Callable[[str], float]) -> int:
    """The number in a cell."""
    try:
        return int(take(cells[name]))
    except argparse.ArgumentTypeError as why:
        raise Failure(f'{name}: {why}') from why


def drawn(names: Sequence[str]) -> List[str]:
    """A tenth of these names, at least one: the same at all times, whatever their order is."""
    by_chance = sorted(names, key=lambda it: hashlib.sha256(it.encode()).digest())
    return sorted(by_chance[: -(-len(names) // 10)])
