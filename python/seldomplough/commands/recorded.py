"""The words of commands that read a recording."""

from __future__ import annotations

import argparse
from typing import List

from seldomplough import numbers
from seldomplough.failures import WORDS, Failure
from seldomplough.recordings import FORMATS, KINDS, PAIRS, Recording, Tuning, usual_format


def add(parser: argparse.ArgumentParser) -> None:
    """Adds the words: what the recording is, how it was made and how it is packed."""
    parser.add_argument('recording', metavar='RECORDING', help='its file; - for standard input')
    parser.add_argument(
        '--kind',
        choices=list(KINDS),
        metavar='KIND',
        help='as `pack --from`; it is packed if not given',
    )
    parser.add_argument(
        '--format',
        choices=list(FORMATS),
        help='the packing: real1 if not given, or for pairs to be packed iq1',
    )
    parser.add_argument(
        '--rate',
        type=numbers.rate,
        default=numbers.USUAL_RATE,
        metavar='HZ',
        help=f'samples a second; {numbers.USUAL_RATE} if not given',
    )
    add_offset(parser)
    packing = parser.add_argument_group('as for `pack`, where a kind is given')
    for name, what in (
        ('threshold', 'size 3 begins farther than this from the centre'),
        ('centre', 'the centre of the values'),
        ('centre-q', 'that of the part in quadrature'),
    ):
        packing.add_argument(f'--{name}', metavar='N', help=what)
    packing.add_argument(
        '--part', choices=['i', 'q'], help='the part that real samples are made of'
    )
    for name, what in (
        ('swap', 'the part in quadrature stands first'),
        ('conjugate', 'inverts the sign of the part in quadrature: an inverted spectrum'),
    ):
        packing.add_argument(f'--{name}', action='store_true', help=what)


def add_offset(parser: argparse.ArgumentParser) -> None:
    """Adds where the carrier lies."""
    parser.add_argument(
        '--offset',
        type=numbers.offset,
        default=0,
        metavar='HZ',
        help='where 1575.42 MHz lies in it; 0 if not given',
    )
    parser.add_argument('--minus', action='store_true', help='the offset is below zero')


def signed_offset(arguments: argparse.Namespace) -> int:
    """The offset in Hz with its sign, which is given once."""
    offset: int = arguments.offset
    if arguments.minus and offset < 0:
        raise Failure(f'{arguments.command}: --offset has a sign already: leave out --minus', WORDS)
    if 2 * abs(offset) > arguments.rate:
        raise Failure(f'{arguments.command}: --offset is at most half the rate', WORDS)
    return -offset if arguments.minus else offset


def recording(arguments: argparse.Namespace) -> Recording:
    """The recording that the words say."""
    words = packing(arguments)
    if arguments.kind is None and words:
        raise Failure(f'{arguments.command}: {words[0]} needs --kind', WORDS)
    form = arguments.format or usual_format(arguments.kind or '')
    if arguments.kind and form.startswith(PAIRS) and not arguments.kind.startswith(PAIRS):
        raise Failure(f'{arguments.command}: {arguments.kind} is no kind of pairs', WORDS)
    tuning = Tuning(arguments.rate, signed_offset(arguments))
    return Recording(arguments.recording, arguments.kind, form, tuning, tuple(words))


def packing(arguments: argparse.Namespace) -> List[str]:
    """The words for `pack` but for the kind and the packing."""
    words = []
    for name in ('threshold', 'centre', 'centre_q', 'part'):
        value = getattr(arguments, name)
        if value is not None:
            words += [f'--{name.replace("_", "-")}', value]
    return words + [f'--{name}' for name in ('swap', 'conjugate') if getattr(arguments, name)]
