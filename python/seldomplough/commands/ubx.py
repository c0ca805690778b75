"""Writes the subframes of printed lines as u-blox messages.

A `sub` line becomes a message UBX-RXM-SFRBX, as u-blox receivers send it. The six parity bits of
each word are computed, since the lines don't have them. gpsd's gpsdecode and RTKLIB's convbin read
such messages.

The satellite of a subframe is the one that the last `acq .. found` or `state` line of its slot
before it names, or else the first `state` line after it. What came before an `acq`, `lost` or
`state .. idle` line doesn't count after it. A subframe with a damaged word is left out, and so is
one whose satellite isn't known. Standard error says how many were written and left out. Nothing is
written where a line isn't one that the receiver prints.

    seldomplough ubx my.lines > my.ubx
"""

from __future__ import annotations

import argparse
from typing import List

from seldomplough import files
from seldomplough.commands import options
from seldomplough.lines import Sub, read
from seldomplough.outputs import to_standard_output
from seldomplough.satellites import with_satellites
from seldomplough.ubx import message


def add(subparsers: options.Subparsers) -> None:
    """Adds the command's words."""
    parser = options.command(subparsers, 'ubx')
    options.add_lines(parser)
    parser.set_defaults(run=run)


def run(arguments: argparse.Namespace) -> int:
    """Writes the messages, and says how many there are."""
    messages: List[bytes] = []
    damaged = nameless = 0
    with files.read(arguments.lines) as source:
        for line, satellite in with_satellites(read(source), Sub):
            data = [it for it in line.words if it is not None]
            if len(data) < len(line.words):
                damaged += 1
            elif satellite is None:
                nameless += 1
            else:
                messages.append(message(satellite, data))
    to_standard_output(b''.join(messages))
    files.say(
        f'{len(messages)} written, {damaged} with damaged words, {nameless} of an unknown satellite'
    )
    return 0
