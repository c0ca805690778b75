"""Draws a picture of the lines of a run, by matplotlib.

prompt       the prompt sums of a slot over time
scatter      the same against each other: in the first 0.2 s, and from 1.0 s to 1.3 s
correlators  the sizes of the early, prompt and late sums of a slot over time
doppler      the Doppler shifts of tracked satellites over time, from `state` lines
bins         the powers of acquisitions over the Doppler shifts of their bins
triangle     the mean sizes of the sums of slots that hold a satellite at several half chips

`prompt`, `scatter` and `correlators` are of one slot, the first one that has `count` lines if none
is named. `bins` and `triangle` need the scripts of the run, since lines don't have what they asked
for. Only lines from --since to --until are drawn. A picture that is there already is replaced once
the new one is whole.

    seldomplough plots prompt --rate 4092000 --to prompt.svg my.lines
    seldomplough plots bins --script my.script --to bins.png my.lines
"""

from __future__ import annotations

import argparse
import math
import os
from typing import List, Sequence

from seldomplough import files, numbers
from seldomplough.commands import options
from seldomplough.curves import Wanted
from seldomplough.drawing import drawn, matplotlib
from seldomplough.failures import WORDS, Failure, shown
from seldomplough.lines import read
from seldomplough.outputs import to_file
from seldomplough.pictures import NEED_SCRIPTS, PICTURES

FORMS = ('png', 'svg')
# As many seconds as the times of lines have at the least rate.
MOST_SECONDS = numbers.LAST_TIME // numbers.LEAST_RATE


def add(subparsers: options.Subparsers) -> None:
    """Adds the command's words."""
    parser = options.command(subparsers, 'plots')
    parser.add_argument('picture', choices=list(PICTURES), metavar='PICTURE', help='one of these')
    parser.add_argument(
        '--to', required=True, type=picture_file, metavar='FILE', help='FILE.png or FILE.svg'
    )
    options.add_rate(parser, f'{numbers.USUAL_RATE} if not given')
    parser.add_argument('--client', type=numbers.integer(1, 999999999), metavar='K')
    parser.add_argument('--slot', type=numbers.integer(0, 7), metavar='S')
    seconds = numbers.decimal(0, MOST_SECONDS)
    parser.add_argument('--since', type=seconds, default=0.0, metavar='SECONDS')
    parser.add_argument('--until', type=seconds, default=math.inf, metavar='SECONDS')
    parser.add_argument('--title', metavar='TEXT', help='another title')
    parser.add_argument(
        '--script', action='append', metavar='SCRIPT', help='once for each client, in their order'
    )
    options.add_lines(parser)
    parser.set_defaults(run=run)


def picture_file(word: str) -> str:
    """A type of argparse: the name of a file whose end says what it is."""
    if not word.endswith(tuple(f'.{it}' for it in FORMS)):
        raise argparse.ArgumentTypeError(f"'{shown(word)}' ends neither with .png nor with .svg")
    return word


def run(arguments: argparse.Namespace) -> int:
    """Draws the picture."""
    name: str = arguments.picture
    if (name in NEED_SCRIPTS) != bool(arguments.script):
        said = 'needs' if name in NEED_SCRIPTS else 'has no use for'
        raise Failure(f'plots: {name} {said} --script', WORDS)
    matplotlib()
    wanted = Wanted(
        numbers.USUAL_RATE if arguments.rate is None else arguments.rate,
        arguments.client,
        arguments.slot,
        arguments.since,
        arguments.until,
        scripts_of(arguments.script or ()),
    )
    with files.read(arguments.lines) as source:
        picture = PICTURES[name](read(source), wanted)
    if arguments.title is not None:
        picture.title = arguments.title
    to_file(arguments.to, drawn(picture, os.path.splitext(arguments.to)[1][1:]))
    return 0


def scripts_of(names: Sequence[str]) -> List[bytes]:
    """The scripts in files of these names."""
    result = []
    for name in names:
        with files.read(name) as source:
            result.append(source.read())
    return result
