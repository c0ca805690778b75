"""Makes a recording: white noise, and satellites in it where they are named.

The same words always make the same bytes, on standard output. A satellite (1 to 32) is named by its
Doppler shift in Hz, the half chip of its code at sample 0, and its C/N0 in dB-Hz. Its data bits are
drawn by chance, and are no message. The noise has a standard deviation of 20 in each part.

With --crystal the radio's crystal is so much too fast: the rate and the tuner's frequency, 1575.42
MHz less the offset, are both so much greater than the radio says. numpy is used where it is
installed, which is ten times faster.

    seldomplough made --seconds 3 6:2100:67:47 | pack --from iq-i8 --to iq1 > my.iq1
"""

from __future__ import annotations

import argparse

from seldomplough import numbers
from seldomplough.commands import options
from seldomplough.outputs import to_standard_output
from seldomplough.samples import numpy, recording
from seldomplough.signals import PAIRS, REAL, Settings, satellite, signal

# Where an option isn't given.
USUAL = Settings()
LONGEST = 3600
LEAST_RATE = 1000
GREATEST_SEED = 10**13 - 1


def add(subparsers: options.Subparsers) -> None:
    """Adds the command's words."""
    parser = options.command(subparsers, 'made')
    rate = numbers.integer(LEAST_RATE, numbers.GREATEST_RATE)
    for name, kind, value, metavar, what in (
        ('seconds', numbers.integer(1, LONGEST), USUAL.seconds, 'S', 'whole seconds'),
        ('rate', rate, USUAL.rate, 'HZ', 'samples a second'),
        ('offset', numbers.offset, USUAL.offset, 'HZ', 'the intermediate frequency'),
        ('crystal', numbers.decimal(-1000, 1000), USUAL.crystal, 'PPM', 'parts in a million'),
        ('seed', numbers.integer(-GREATEST_SEED, GREATEST_SEED), USUAL.seed, 'N', 'of all chance'),
    ):
        said = f'{what}; {value} if not given'
        parser.add_argument(f'--{name}', type=kind, default=value, metavar=metavar, help=said)
    parser.add_argument(
        '--kind',
        choices=(PAIRS, REAL),
        default=PAIRS,
        help=f'pairs of bytes, or bytes of the part in phase; {PAIRS} if not given',
    )
    parser.add_argument(
        'satellites', nargs='*', type=satellite, metavar='SATELLITE:DOPPLER:HALF:CN0'
    )
    parser.set_defaults(run=run)


def run(arguments: argparse.Namespace) -> int:
    """Writes the recording."""
    settings = Settings(**{name: getattr(arguments, name) for name in Settings._fields})
    signals = [signal(it, settings) for it in arguments.satellites]
    for block in recording(settings, signals, numpy()):
        to_standard_output(block)
    return 0
