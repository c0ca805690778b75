"""Writes the ephemerides of printed lines as a RINEX navigation file.

Each `eph` line becomes a record, of version 3.04 or 2.11, on standard output. The header has the
ionosphere, UTC and leap seconds of the last `utc` line, where there is one. What one satellite sent
twice is written once.

The message has the week modulo 1024. The whole week is the one nearest to the date of --week-near,
or where that isn't given the last one up to today. A record has the week of its time `toe`. The
time of transmission is that of the handover word of the line's subframe 1, in that week's seconds;
so it can be below zero or above 604800.

The satellite of a line is found as `ubx` does it. A line of an unknown satellite is left out, and
so is one before which no whole subframe 1 of its slot came. Standard error says how many were
written and left out. Where none would be written the status is 1.

    seldomplough rinex my.lines > my.nav
    seldomplough rinex --version 2.11 --week-near 2020-08-07 my.lines > my.20n
"""

from __future__ import annotations

import argparse

from seldomplough import files
from seldomplough.commands import options
from seldomplough.failures import Failure
from seldomplough.lines import read
from seldomplough.navigation import Message
from seldomplough.rinex_text import VERSIONS, text_of


def add(subparsers: options.Subparsers) -> None:
    """Adds the command's words."""
    parser = options.command(subparsers, 'rinex')
    parser.add_argument(
        '--version',
        choices=VERSIONS,
        default=VERSIONS[0],
        help=f'the version of RINEX; {VERSIONS[0]} if not given',
    )
    options.add_week(parser)
    options.add_lines(parser)
    parser.set_defaults(run=run)


def run(arguments: argparse.Namespace) -> int:
    """Writes the file, and says how many records it has."""
    message = Message(arguments.week_near)
    with files.read(arguments.lines) as source:
        message.take(read(source))
    said = (
        f'{len(message.broadcasts)} written, {message.unknown} of an unknown satellite,'
        f' {message.timeless} without a subframe 1'
    )
    if not message.broadcasts:
        raise Failure(said)
    with files.write() as sink:
        for text in text_of(message, arguments.version):
            sink.write(text)
    files.say(said)
    return 0
