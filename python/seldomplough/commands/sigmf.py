"""Prints the options of pack and receiver for a SigMF recording.

The first line is for pack, the second one for receiver. They follow from the recording's metadata.
Each part of a sample becomes one bit. The receiver's offset is 1575.42 MHz less the core:frequency
of the first capture. Of real samples too, core:frequency is taken as what lies at 0 Hz in them.
Further captures are ignored.

    seldomplough sigmf my.sigmf-meta
"""

from __future__ import annotations

import argparse

from seldomplough import files, sigmf
from seldomplough.commands import options
from seldomplough.failures import Failure, one_line


def add(subparsers: options.Subparsers) -> None:
    """Adds the command's words."""
    parser = options.command(subparsers, 'sigmf')
    parser.add_argument('metadata', metavar='METADATA', help='a file RECORDING.sigmf-meta')
    parser.set_defaults(run=run)


def run(arguments: argparse.Namespace) -> int:
    """Prints both lines."""
    with files.read(arguments.metadata) as source:
        metadata = source.read(sigmf.LONGEST + 1)
        name = source.name
    try:
        both = sigmf.options(metadata)
    except Failure as why:
        raise Failure(f'{one_line(name)}: {why.text}') from why
    with files.write() as sink:
        for words in both:
            sink.write(' '.join(words) + '\n')
    return 0
