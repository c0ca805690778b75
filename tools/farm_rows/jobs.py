"""A job of the workflow that is killed in its middle: it has made some of its recording's lines,
and stands still in a run that makes others."""
from __future__ import annotations

import glob
import os
import signal
import subprocess
import time
from typing import NamedTuple, Optional

from .cases import Farm


class Process(NamedTuple):
    """A process: its words, its environment, and the folder that it works in."""
    words: list[str]
    environment: dict[str, str]
    folder: str


def process(number: str) -> Optional[Process]:
    """A process by its number, None where it is gone or another user's."""
    try:
        folder = os.readlink(f'/proc/{number}/cwd')
        with open(f'/proc/{number}/cmdline', 'rb') as stream:
            words = stream.read().decode().split('\0')[:-1]
        with open(f'/proc/{number}/environ', 'rb') as stream:
            pairs = [it.partition('=') for it in stream.read().decode().split('\0')]
    except (OSError, UnicodeDecodeError):
        return None
    return Process(words, {name: value for name, _, value in pairs}, folder)


def recording_of(found: Process) -> Optional[str]:
    """The recording that a process runs scripts over, None where it does something else."""
    steps = zip(found.words, found.words[1:])
    return found.words[-2] if ('campaign', 'run') in steps else None


def is_stopped(number: str) -> bool:
    """Whether a process was still there to be stopped, so that it stays where it is."""
    try:
        os.kill(int(number), signal.SIGSTOP)
    except ProcessLookupError:
        return False
    return True


def in_the_middle(folder: str) -> Optional[tuple[str, str]]:
    """The recording and the job of a run on the first node, where other lines of that recording are
    whole. The run is stopped."""
    for number in filter(str.isdigit, os.listdir('/proc')):
        found = process(number)
        if found is None or found.folder != folder:
            continue
        name, job = recording_of(found), found.environment.get('SLURM_JOB_ID')
        if name is None or job is None or found.environment.get('SLURMD_NODENAME') != 'one':
            continue
        whole = glob.glob(os.path.join(glob.escape(folder), 'out', 'lines', name, '*.lines'))
        if whole and is_stopped(number):
            return name, job
    return None


def kill_one(farm: Farm, workflow: subprocess.Popen[bytes]) -> Optional[str]:
    """Kills a job of the first node in its middle, and gives its recording."""
    while workflow.poll() is None:
        found = in_the_middle(farm.folder)
        if found is not None:
            name, job = found
            subprocess.run(['scancel', '--signal=KILL', '--full', job], env=farm.environment,
                           check=False)
            return name
        time.sleep(0.02)
    return None
