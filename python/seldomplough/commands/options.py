"""The words that several commands have in common."""

from __future__ import annotations

import argparse
import os
from typing import TYPE_CHECKING

from seldomplough import commands, numbers
from seldomplough.scripts import Search

if TYPE_CHECKING:
    Subparsers = argparse._SubParsersAction[argparse.ArgumentParser]


def command(subparsers: Subparsers, name: str) -> argparse.ArgumentParser:
    """The parser of a command. The first line of its text is its line in the list of commands."""
    text = commands.text(name)
    return subparsers.add_parser(name, help=text.splitlines()[0].rstrip('.'), description=text)


def add_lines(parser: argparse.ArgumentParser) -> None:
    """The name of what lines are read from."""
    parser.add_argument(
        'lines', nargs='?', metavar='LINES', help='printed lines; standard input if not given'
    )


def add_rate(parser: argparse.ArgumentParser, what: str = 'adds the time in seconds') -> None:
    """The samples a second, without which there are no seconds."""
    parser.add_argument('--rate', type=numbers.rate, metavar='HZ', help=f'samples a second; {what}')


def add_search(
    parser: argparse.ArgumentParser, usual: Search, threshold: str = 'threshold'
) -> None:
    """What a search asks for. `threshold` is the name of that word."""
    for name, low, high, value, what in (
        ('bins', 0, 40, usual.bins, 'bins of 250 Hz to each side of the centre'),
        ('ms', 1, 10, usual.periods, 'milliseconds of samples that are added up'),
        (threshold, 1, 1000, usual.threshold, 'tenths of the mean power, from which it is found'),
    ):
        parser.add_argument(
            f'--{name}',
            type=numbers.integer(low, high),
            default=value,
            metavar='N',
            help=f'{what}, {low} to {high}; {value} if not given',
        )


def add_programs(parser: argparse.ArgumentParser, pack: bool = True) -> None:
    """The files of the programs."""
    for name in ('receiver', 'pack') if pack else ('receiver',):
        parser.add_argument(
            f'--{name}', metavar='FILE', help=f'the program {name}, where another is wanted'
        )


def add_jobs(parser: argparse.ArgumentParser) -> None:
    """How many programs run at once."""
    count = len(os.sched_getaffinity(0)) if hasattr(os, 'sched_getaffinity') else os.cpu_count()
    parser.add_argument(
        '--jobs',
        type=numbers.integer(1, 256),
        default=min(count or 1, 256),
        metavar='N',
        help='runs at once; one for each processor if not given',
    )


def add_week(parser: argparse.ArgumentParser) -> None:
    """The date by which weeks are chosen, since the message has their numbers modulo 1024."""
    parser.add_argument(
        '--week-near',
        type=numbers.day,
        metavar='DATE',
        help='the week is the one nearest to this date, as 2020-08-07; the last one up to today if '
        'not given',
    )
