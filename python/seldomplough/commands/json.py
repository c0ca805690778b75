"""Turns printed lines into JSON Lines, or back.

Each line becomes an object on a line of its own. It has the kind, the client, the time in samples
and the raw integers by the names of docs/FORMATS.md. Values in SI units follow from them, under
names with their units. With --rate there is the time in seconds too.

A line of a slot has the satellite where the lines before say it. No line says that a slot was
stopped: a script that then gives it another satellite should ask for its state.

With --back it takes such objects and prints the lines again. Only the raw values count then.

    receiver --format iq2 my.script < my.iq2 | seldomplough json --rate 4092000 > my.jsonl
    seldomplough json --back my.jsonl
"""

from __future__ import annotations

import argparse
import json
from typing import Dict, Iterator, Optional, Sequence, Tuple

from seldomplough import files
from seldomplough.commands import options
from seldomplough.failures import Failure, shown
from seldomplough.lines import Count, numbered, parse_record, read
from seldomplough.records import Records

# Longer than a line of JSON may be, in bytes.
LONGEST = 1 << 16

ENCODE = json.JSONEncoder().encode


def add(subparsers: options.Subparsers) -> None:
    """Adds the command's words."""
    parser = options.command(subparsers, 'json')
    options.add_rate(parser)
    parser.add_argument('--back', action='store_true', help='from JSON Lines to printed lines')
    options.add_lines(parser)
    parser.set_defaults(run=run)


def run(arguments: argparse.Namespace) -> int:
    """Turns lines into JSON, or back."""
    if arguments.back and arguments.rate is not None:
        raise Failure('json: --rate has no use with --back', 2)
    with files.read(arguments.lines) as source, files.write() as sink:
        source.before_wait = sink.flush
        texts = lines_of(source) if arguments.back else objects_of(source, arguments.rate)
        for text in texts:
            sink.write(text + '\n')
    return 0


def objects_of(source: files.Source, rate: Optional[int]) -> Iterator[str]:
    """The objects of printed lines."""
    maker = Records(rate)
    templates: Dict[Tuple[str, ...], str] = {}
    for line in read(source):
        names, values = maker.row(line)
        if isinstance(line, Count):
            # Most lines are these, and have numbers alone.
            if names not in templates:
                templates[names] = template_of(line.kind, names)
            yield templates[names] % values
        else:
            yield ENCODE({'kind': line.kind, **dict(zip(names, values))})


def template_of(kind: str, names: Sequence[str]) -> str:
    """The object of a kind of line that has numbers by these names."""
    members = ''.join(f', "{name}": %r' for name in names)
    return f'{{"kind": "{kind}"{members}}}'


def lines_of(source: files.Source) -> Iterator[str]:
    """The printed lines of objects."""
    for number, text in numbered(source, longest=LONGEST):
        try:
            record = json.loads(text)
            if not isinstance(record, dict):
                raise Failure("isn't an object")
            line = parse_record(record)
        except (ValueError, RecursionError) as why:
            raise Failure(f"line {number} isn't JSON: {shown(text)}") from why
        except Failure as why:
            raise Failure(f'line {number} {why.text}: {shown(text)}') from why
        yield line.text()
