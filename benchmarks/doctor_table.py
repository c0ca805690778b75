#!/usr/bin/env python3
"""Prints what `seldomplough doctor` says of made recordings as a table of Markdown, and whether the
command that it ends with works.

Each recording has two seconds, and three satellites of 45 to 48 dB-Hz which a seed draws, with
their shifts, half chips and noise. A command is right where it has the true kind, `sky` with its
words shows bits of these satellites and no others, and their Doppler shifts are right but for one
error that all share, as of a crystal. Where no satellite is there, it is right to find none."""
from __future__ import annotations

import argparse
import json
import os
import shlex
import subprocess
import sys
import tempfile
from concurrent.futures import ThreadPoolExecutor
from typing import Dict, List, NamedTuple

sys.dont_write_bytecode = True
from doctor_cases import Case, cases
from made_runs import JOBS, TOP, build, program, table

COMPANION = os.path.join(TOP, 'seldomplough')
# How far the errors of the Doppler shifts may lie apart, in Hz.
APART = 30
# Seconds that the doctor may take, on a machine with other work too.
LIMIT = 600
RECORDING = 'my.rec'
# What `pack` calls the packings that are kinds too.
ALIASES = {'real1': 'bits1-high', 'iq1': 'iq-bits1-high'}
CONCLUSIONS = ('the kind is', 'the spectrum is', 'the offset has', 'the crystal is', 'the rate is')
HEADS = ['Recording', 'Words', 'Concluded', 'Right', 'Trials', 'CPU s']


class Ran(NamedTuple):
    """How a command ended: its status, its lines and its processor seconds."""
    status: int
    lines: List[str]
    spent: float


def run(folder: str, command: str, *words: str) -> Ran:
    """Runs a command of the companion in a folder."""
    programs = ['--receiver', program('receiver_cli', 'receiver'),
                '--pack', program('packer_cli', 'pack')]
    with tempfile.TemporaryFile(dir=folder) as said:
        process = subprocess.Popen([COMPANION, command, *programs, *words], cwd=folder, stdout=said,
                                   stdin=subprocess.DEVNULL, stderr=subprocess.DEVNULL)
        _, status, used = os.wait4(process.pid, 0)
        process.returncode = os.waitstatus_to_exitcode(status)
        said.seek(0)
        lines = said.read().decode().splitlines()
    return Ran(process.returncode, lines, used.ru_utime + used.ru_stime)


def works(folder: str, words: List[str], shifts: Dict[int, float]) -> bool:
    """Whether `sky` with these words shows the satellites with bits."""
    rows = map(json.loads, run(folder, 'sky', '--json', *words, RECORDING).lines)
    found = {it['satellite']: it['doppler_hz'] for it in rows if it['bits_s'] is not None}
    if found.keys() != shifts.keys():
        return False
    errors = [found[it] - shifts[it] for it in shifts]
    return bool(max(errors) - min(errors) < APART)


def kind_of(words: List[str]) -> str:
    """The kind that a command names, or what `pack` calls its packing."""
    options = dict(zip(words, words[1:]))
    packing = options['--format']
    return options.get('--kind', ALIASES.get(packing, packing))


def concluded(lines: List[str], words: List[str]) -> str:
    """What the doctor concluded in short, with the words of its command."""
    if not words:
        return 'no satellite' if trials(lines) else lines[-1]
    start = f'as {kind_of(words)}: '
    texts = [it[len(start):] for it in lines if it.startswith(start) and 'is good' not in it]
    texts += [it for it in lines if it.startswith(CONCLUSIONS)]
    return '; '.join([*texts, f"`{' '.join(words)}`"])


def trials(lines: List[str]) -> int:
    """How many trials the doctor made."""
    return sum(', --rate' in it for it in lines)


def row(case: Case, seed: int) -> List[str]:
    """The row of a case."""
    shifts, data = case.drawn(seed)
    with tempfile.TemporaryDirectory(prefix='seldomplough-') as folder:
        with open(os.path.join(folder, RECORDING), 'xb') as file:
            file.write(data)
        given = ['--jobs', '1', '--limit', str(LIMIT), *case.words.split(), RECORDING]
        seen = run(folder, 'doctor', *given)
        # The command is `seldomplough sky .. my.rec`.
        words = [] if seen.status else shlex.split(seen.lines[-1])[2:-1]
        is_right = not shifts
        if words:
            is_right = kind_of(words) == case.kind and works(folder, words, shifts)
    believed = f'`{case.words}`' if case.words else 'none'
    return [case.what, believed, concluded(seen.lines, words), 'yes' if is_right else '**no**',
            str(trials(seen.lines)), f'{seen.spent:.1f}']


def main() -> int:
    """Prints the table."""
    parser = argparse.ArgumentParser(description=__doc__,
                                     formatter_class=argparse.RawDescriptionHelpFormatter)
    parser.add_argument('--seed', type=int, default=1, help='of all that is drawn; 1 if not given')
    parser.add_argument('--only', default='', metavar='TEXT',
                        help='the recordings and words with this text alone')
    arguments = parser.parse_args()
    build()
    every = [it for it in cases() if arguments.only in f'{it.what} {it.words}']
    with ThreadPoolExecutor(JOBS) as pool:
        rows = []
        for found in pool.map(lambda it: row(it, arguments.seed), every):
            rows.append(found)
            print(*found, sep=' | ', file=sys.stderr, flush=True)
    print('\n'.join(table(HEADS, rows)))
    right = sum(it[3] == 'yes' for it in rows)
    print(f'\n{right} of {len(rows)} are right.')
    return 0


if __name__ == '__main__':
    sys.exit(main())
