"""What the programs refuse, in words that say the way out."""

from __future__ import annotations

import os
import signal
from typing import Dict, Sequence

from seldomplough.failures import one_line
from seldomplough.numbers import GREATEST_RATE, LEAST_RATE

# The greatest script in bytes.
LONGEST_SCRIPT = 16 << 20

# The words of the receiver's fixed texts.
TEXTS: Dict[str, str] = {
    'rate': f'the rate has to be {LEAST_RATE} to {GREATEST_RATE} samples a second: --rate HZ',
    'offset': 'the offset has to be at most half the rate: --offset HZ, below zero with --minus',
    'shares': '--shares needs one digit from 1 to 8 for each script',
    'clients': 'a run takes eight scripts at most: run it again for the others',
    'read': 'the samples could not be read to their end: see whether the file or device is whole',
    'write': 'the lines could not be written: is the disk full, or the pipe closed?',
    'too long': 'the recording has more than 2^40 samples: split it',
    'no memory': 'there is not enough memory: use fewer or shorter scripts, or a greater limit',
}
SIGN = '--offset takes no sign'


def in_words(name: str, status: int, said: str, scripts: Sequence[str] = ()) -> str:
    """The text of a failure of a program: by its name, status, standard error and scripts."""
    lines = [it for it in said.splitlines() if it.strip()]
    if status < 0:
        return f'{name} was ended by {_signal(-status)}'
    if not lines:
        return f'{name} ended with status {status} and said nothing'
    if name != 'receiver':
        own = [it for it in lines if it.startswith(f'{name}: ')]
        return one_line(own[-1]) if own else f'{name}: {one_line(lines[0])}'
    if any(SIGN in it for it in lines):
        return 'receiver: a negative offset is `--offset 5000 --minus`'
    text = lines[-1].replace('receiver: ', '', 1)
    if text == 'script':
        return f'receiver: {_script(scripts)}'
    return f'receiver: {TEXTS[text]}' if text in TEXTS else f'receiver: {one_line(lines[0])}'


def _signal(number: int) -> str:
    try:
        return signal.Signals(number).name
    except ValueError:
        return f'signal {number}'


def _script(scripts: Sequence[str]) -> str:
    """Which of the scripts can't be read, and why."""
    for path in scripts:
        why = _fault(path)
        if why:
            return f'the script {one_line(path)!r} {why}'
    return f'a script could not be read: {", ".join(repr(one_line(it)) for it in scripts)}'


def _fault(path: str) -> str:
    """Why the receiver can't read a script, or nothing."""
    try:
        path.encode('utf-8')
        with open(path, 'rb') as stream:
            size = os.fstat(stream.fileno()).st_size
    except UnicodeEncodeError:
        return "has a name that isn't UTF-8"
    except (OSError, ValueError) as why:
        return f"can't be read: {getattr(why, 'strerror', None) or why}"
    return 'has more than 16 MiB' if size > LONGEST_SCRIPT else ''
