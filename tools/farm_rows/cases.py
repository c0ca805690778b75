"""Runs of the workflow, what they leave, and the rows: how many there were and how many were
wrong."""
from __future__ import annotations

import csv
import os
from typing import NamedTuple, Optional

import children
from crate_order import TOP

from .inputs import RECORDINGS

FARM = os.path.join(TOP, 'examples', 'farm')
# Seconds of a processor for a job: two groups of scripts, and four at the greater rate.
SECONDS = '0.022'
DONE = 'done'


class Rows:
    """How many rows there were, and how many of them were wrong."""

    def __init__(self) -> None:
        self.count = self.wrong = 0

    def see(self, is_right: bool, what: str, found: object = '') -> None:
        """A row, which says what ought to be so."""
        self.count += 1
        if not is_right:
            self.wrong += 1
            print(f'farm: not so: {what} {found}', flush=True)


class Farm(NamedTuple):
    """A folder with recordings, their table and scripts, and the environment of its commands."""
    folder: str
    environment: dict[str, str]

    def ran(self, words: list[str]) -> tuple[bool, str]:
        """Runs a command to its end. Gives whether it ended well, and the last that it says."""
        status, said, errors = children.run(words, self.folder, env=self.environment)
        return status == 0, (said + errors)[-2000:]

    def states(self, to: str) -> dict[str, str]:
        """What the table of a campaign says of each recording."""
        path = os.path.join(self.folder, to, 'campaign.csv')
        with open(path, encoding='utf-8', newline='') as stream:
            return {row['recording']: row['state'] for row in csv.DictReader(stream)}

    def merged(self, to: str, name: str) -> Optional[bytes]:
        """The merged lines of a recording, None where there are none."""
        try:
            with open(os.path.join(self.folder, to, 'merged', f'{name}.lines'), 'rb') as stream:
                return stream.read()
        except FileNotFoundError:
            return None

    def compare(self, rows: Rows, to: str, wanted: dict[str, bytes]) -> None:
        """All recordings are done, and have the lines of one process."""
        found = self.states(to)
        rows.see(found == dict.fromkeys(RECORDINGS, DONE), f'{to}: all recordings are done', found)
        for name, lines in wanted.items():
            is_same = self.merged(to, name) == lines
            rows.see(is_same, f'{to}: {name} has the lines of one process')


def workflow(profile: str, to: str, *more: str, table: str = 'recordings.csv') -> list[str]:
    """The words that run the workflow. `more` is further configuration."""
    return ['snakemake', '-s', os.path.join(FARM, 'Snakefile'), '--profile',
            os.path.join(FARM, 'profiles', profile), '-j', '2', '--latency-wait', '10', '--config',
            f'table={table}', f'to={to}', 'scripts=scripts', f'seconds={SECONDS}', *more]


def on_slurm(farm: Farm, to: str, table: str = 'recordings.csv') -> list[str]:
    """The same on Slurm, where each node has a scratch disk of its own."""
    scratch = os.path.join(farm.folder, 'scratch-$SLURMD_NODENAME')
    return workflow('slurm', to, f'scratch={scratch}', table=table)
