"""Prints each line of a script with its number and the answer that it got.

LINES is what the receiver printed for the script, and standard input if not given. Lines of the
script without words get no answer and are left out. What comes after the end of the samples wasn't
reached. Bytes that aren't printable ASCII are shown as escapes.

    receiver my.script < my.real1 | seldomplough answers my.script
"""

from __future__ import annotations

import argparse
from typing import Iterable, Iterator, List, NamedTuple

from seldomplough import files, numbers
from seldomplough.commands import options
from seldomplough.failures import Failure, escaped
from seldomplough.lines import End, Err, Line, Ok, State, read

# What a refusal of a line has to do with its time: these may have another than the line's.
REFUSED_UNREAD = range(1, 5)
# A line of a script that is longer isn't looked at, in bytes.
LONGEST_LINE = 80


class Asked(NamedTuple):
    """A line of a script that gets an answer, and its number."""

    number: int
    text: str


def add(subparsers: options.Subparsers) -> None:
    """Adds the command's words."""
    parser = options.command(subparsers, 'answers')
    parser.add_argument(
        '--client', type=numbers.client, default=1, metavar='K', help='1 if not given'
    )
    parser.add_argument('script', metavar='SCRIPT', help='the script of that client')
    options.add_lines(parser)
    parser.set_defaults(run=run)


def run(arguments: argparse.Namespace) -> int:
    """Prints the lines with their answers."""
    with files.read(arguments.script) as script:
        asked = read_script(script.read())
    with files.read(arguments.lines) as source, files.write() as sink:
        source.before_wait = sink.flush
        for text in answered(asked, read(source), arguments.client):
            sink.write(text + '\n')
    return 0


def read_script(script: bytes) -> List[Asked]:
    """The lines of a script that have words, or that are too long to be looked at."""
    lines = enumerate(script.decode('latin-1').split('\n'), 1)
    return [Asked(*it) for it in lines if it[1].strip(' ') or len(it[1]) > LONGEST_LINE]


def answered(asked: List[Asked], lines: Iterable[Line], client: int) -> Iterator[str]:
    """Each line of a script beside its answer."""
    rest = iter(asked)
    unreached = 'no answer, and the lines have no `end`'
    for line in lines:
        if line.client != client:
            continue
        if isinstance(line, End):
            unreached = 'not reached'
        if isinstance(line, (Ok, Err, State)):
            it = next(rest, None)
            if it is None:
                raise Failure(f'client {client} has more answers than the script has lines')
            check_time(it, line)
            yield beside(it, answer(line))
    for it in rest:
        yield beside(it, unreached)


def check_time(asked: Asked, line: Line) -> None:
    """Sees that an answer is that of the script's line, by its time."""
    if isinstance(line, Err) and line.refusal in REFUSED_UNREAD:
        return
    word = asked.text.split()[0]
    if not (word.isascii() and word.isdigit() and len(word) <= 13 and int(word) == line.time):
        number = asked.number
        raise Failure(f'line {number} has another time than its answer: is it this script?')


def answer(line: Line) -> str:
    """The text of an answer after its time, a refusal's with its reason."""
    text = line.text().split(' ', 2)[2]
    return f'{text}: {line.reason}' if isinstance(line, Err) else text


def beside(asked: Asked, text: str) -> str:
    """A line of a script with its number and an answer."""
    return f'{asked.number}: {escaped(asked.text)} -> {text}'
