"""Writes the scripts of eight clients that search for all 32 satellites, four slots each.

The files are search_1.script to search_8.script in a folder, which is made where it isn't there.
Files of these names there are written over. It says on standard output by which sample the last
search is due. Unless --every or --at-once say otherwise, each four searches begin when the four
before are due.

    seldomplough search --bins 12 --ms 4 --threshold 75 all32
    receiver all32/search_[1-8].script < my.real1
"""

from __future__ import annotations

import argparse
import os

from seldomplough import files, numbers
from seldomplough.commands import options
from seldomplough.scripts import CLIENTS, Search, searches, text_of

# The latest beginning of a search, and the longest wait between two, in samples.
LATEST = 100000000000
USUAL = Search()


def add(subparsers: options.Subparsers) -> None:
    """Adds the command's words."""
    parser = options.command(subparsers, 'search')
    options.add_rate(parser, f'{numbers.USUAL_RATE} if not given')
    options.add_search(parser, USUAL)
    parser.add_argument(
        '--centre',
        type=numbers.integer(-6000, 6000),
        default=USUAL.centre,
        metavar='HZ',
        help='the Doppler shift in the middle of the search, -6000 to 6000; 0 if not given',
    )
    parser.add_argument(
        '--from',
        type=numbers.integer(0, LATEST),
        default=0,
        dest='first',
        metavar='T',
        help='the sample at which the first search begins; 0 if not given',
    )
    pace = parser.add_mutually_exclusive_group()
    pace.add_argument(
        '--every',
        type=numbers.integer(0, LATEST),
        metavar='T',
        help='samples from four searches to the next four; until the four are due if not given',
    )
    pace.add_argument(
        '--at-once', action='store_const', const=0, dest='every', help='all begin together'
    )
    parser.add_argument('folder', metavar='FOLDER', help='where the scripts are written')
    parser.set_defaults(run=run)


def run(arguments: argparse.Namespace) -> int:
    """Writes the scripts, and says when they are due."""
    rate = numbers.USUAL_RATE if arguments.rate is None else arguments.rate
    search = Search(arguments.bins, arguments.ms, arguments.threshold, arguments.centre)
    length = search.length(rate)
    every = length if arguments.every is None else arguments.every
    folder = files.folder(arguments.folder)
    for at, script in enumerate(searches(search, arguments.first, every), 1):
        with files.write(os.path.join(folder, f'search_{at}.script')) as sink:
            sink.write(text_of(script))
    due = arguments.first + (CLIENTS - 1) * every + length
    with files.write() as sink:
        sink.write(f'due by sample {due}, {due // rate}.{due % rate * 1000 // rate:03} s\n')
    return 0
