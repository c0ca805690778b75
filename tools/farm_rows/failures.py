"""What goes wrong on many machines, all in the first run of the workflow."""
from __future__ import annotations

import os
import resource
import shutil
import subprocess
from contextlib import contextmanager
from typing import Iterator, Optional

from hanging import HANGS

from . import inputs
from .cases import DONE, Farm, Rows, on_slurm
from .inputs import CUT, MISSING, RECORDINGS
from .jobs import kill_one

# What the second node's disk holds at first, in bytes: less than any recording that is packed.
SHORT = 200000


@contextmanager
def full_disk(scratch: str, node: int) -> Iterator[str]:
    """The second node's scratch disk holds little. Gives what the system then says to its jobs."""
    mount = ['mount', '-t', 'tmpfs', '-o', f'size={SHORT}', 'farm-check', scratch]
    if not subprocess.run(mount, stderr=subprocess.DEVNULL, check=False).returncode:
        try:
            yield 'No space left on device'
        finally:
            subprocess.run(['umount', '--lazy', scratch], check=True)
        return
    most = resource.prlimit(node, resource.RLIMIT_FSIZE)
    resource.prlimit(node, resource.RLIMIT_FSIZE, (SHORT, most[1]))
    try:
        yield 'File too large'
    finally:
        resource.prlimit(node, resource.RLIMIT_FSIZE, most)


@contextmanager
def missing_and_cut(folder: str) -> Iterator[None]:
    """One recording isn't there, and another isn't whole."""
    away = os.path.join(folder, 'away')
    os.mkdir(away)
    paths = [inputs.path_of(folder, name) for name in (MISSING, CUT)]
    for path in paths:
        shutil.move(path, away)
    with open(os.path.join(away, os.path.basename(paths[1])), 'rb') as whole:
        data = whole.read(1000001)
    with open(paths[1], 'wb') as stream:
        stream.write(data)
    yield
    for path in paths:
        os.replace(os.path.join(away, os.path.basename(path)), path)


def run(rows: Rows, farm: Farm, node: int) -> list[str]:
    """All goes wrong at once. Gives the recordings that are done."""
    log = os.path.join(farm.folder, 'first.log')
    scratch = os.path.join(farm.folder, 'scratch-two')
    with missing_and_cut(farm.folder), full_disk(scratch, node) as full, open(log, 'wb') as said:
        process = subprocess.Popen(on_slurm(farm, 'out'), cwd=farm.folder, env=farm.environment,
                                   stdin=subprocess.DEVNULL, stdout=said, stderr=said)
        try:
            killed = kill_one(farm, process)
            status = process.wait(HANGS)
        finally:
            process.terminate()
            process.wait()
        left = os.listdir(scratch)
    rows.see(status != 0, 'a run with failures has a status that says so')
    rows.see(not left, 'a disk that is full keeps nothing of a job', left)
    rest = see_named(rows, farm, killed, log)
    done = [name for name, state in rest.items() if state == DONE]
    on_full = [name for name, state in rest.items() if full in state]
    rows.see(len(on_full) > 0, f'the node with the full disk is named: {full}', rest)
    rows.see(not any(RECORDINGS[name].is_packed for name in on_full), 'short lines fit', on_full)
    rows.see(len(done) > 0 and len(done) + len(on_full) == len(rest), 'all others are done', rest)
    return done


def see_named(rows: Rows, farm: Farm, killed: Optional[str], log: str) -> dict[str, str]:
    """The recordings that could not be done have their reasons, in the table and in what the
    workflow says. Gives the states of the others."""
    found = farm.states('out')
    reasons = {MISSING: 'No such file', CUT: 'was it cut?'}
    rows.see(killed is not None, 'a job was killed in its middle')
    if killed is not None:
        reasons[killed] = f'not done: there is no merged/{killed}.lines'
    with open(log, encoding='utf-8', errors='replace') as said:
        text = said.read()
    for name, reason in reasons.items():
        rows.see(reason in found.get(name, ''), f'{name} has its reason: {reason}', found)
        rows.see(f'seldomplough: {name}: ' in text, f'the workflow names {name} at its end')
    return {name: state for name, state in found.items() if name not in reasons}
