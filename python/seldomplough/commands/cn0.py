"""Prints the C/N0 of each slot and second in dB-Hz, from `count` lines.

A script asks for these lines by `T counts S N`. `-` stands where the signal isn't above 0. A second
with fewer than 100 whole dumps is left out. The rate is 2046000 samples a second if not given.

    seldomplough cn0 --rate 4092000 my.lines
"""

from __future__ import annotations

import argparse

from seldomplough import files, numbers
from seldomplough.cn0 import estimate
from seldomplough.commands import options
from seldomplough.failures import Failure
from seldomplough.lines import read


def add(subparsers: options.Subparsers) -> None:
    """Adds the command's words."""
    parser = options.command(subparsers, 'cn0')
    options.add_rate(parser, f'{numbers.USUAL_RATE} if not given')
    options.add_lines(parser)
    parser.set_defaults(run=run)


def run(arguments: argparse.Namespace) -> int:
    """Prints the table."""
    rate = numbers.USUAL_RATE if arguments.rate is None else arguments.rate
    with files.read(arguments.lines) as source:
        estimator = estimate(read(source), rate)
    if not estimator.moments:
        raise Failure('no `count` lines: a script asks for them by `T counts S N`')
    with files.write() as sink:
        sink.write('# second client slot dumps C/N0\n')
        for it in estimator.seconds():
            density = '-' if it.density is None else f'{it.density:.1f}'
            sink.write(f'{it.second} {it.client} {it.slot} {it.dumps} {density}\n')
    return 0
