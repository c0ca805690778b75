"""Commands that rows run, and what has to come of them.

A module of rows has a tuple ROWS of functions that take `rows` and `folder`. A row calls
`rows.say(name, faults)`, where `faults` is a list of texts that is empty where all is right.
`folder` is the path of a fresh folder, which is removed after the row. A row writes nowhere else:
what it needs of the checkout it copies there."""
import os
import re
import shutil
import subprocess
from dataclasses import dataclass

from hanging import HANGS

TOP = os.path.dirname(os.path.dirname(os.path.dirname(os.path.realpath(__file__))))


@dataclass
class Outcome:
    """What a command gave. A signal that ended it is a negative status."""
    status: int
    said: str
    errors: str


def run(command, folder, environment=None, given=''):
    """The outcome of a command in a folder. `environment` has what is set besides the usual; a
    variable that is None there is taken away."""
    merged = {**os.environ, 'PYTHONDONTWRITEBYTECODE': '1', **(environment or {})}
    merged = {name: value for name, value in merged.items() if value is not None}
    try:
        ran = subprocess.run(command, cwd=folder, env=merged, input=given, stdout=subprocess.PIPE,
                             stderr=subprocess.PIPE, encoding='utf-8', errors='replace',
                             timeout=HANGS)
    except subprocess.TimeoutExpired:
        return Outcome(-9, '', f'no end after {HANGS} s\n')
    return Outcome(ran.returncode, ran.stdout, ran.stderr)


def refused(outcome, pattern, status=2):
    """The faults of a command that had to end with a status and one line on standard error, which a
    pattern matches, and to print nothing."""
    faults = []
    if outcome.status != status:
        faults.append(f'status {outcome.status}, not {status}')
    if not re.fullmatch(f'(?:{pattern})\n', outcome.errors):
        faults.append(f'standard error: {outcome.errors[:300]!r}')
    if outcome.said:
        faults.append(f'standard output: {outcome.said[:100]!r}')
    return faults


def copied(folder, *names, name='copy'):
    """A copy of parts of the checkout, by their paths in it, in a folder. Gives its path."""
    top = os.path.join(folder, name)
    os.makedirs(top, exist_ok=True)
    for part in names:
        source, copy = os.path.join(TOP, part), os.path.join(top, part)
        os.makedirs(os.path.dirname(copy), exist_ok=True)
        if os.path.isdir(source):
            shutil.copytree(source, copy, symlinks=True,
                            ignore=shutil.ignore_patterns('out', '__pycache__'))
        else:
            shutil.copy2(source, copy)
    return top


def write(path, text, mode=0o644):
    """Writes a file of a row, with the folders above it, and gives its path."""
    os.makedirs(os.path.dirname(path), exist_ok=True)
    with open(path, 'w', encoding='utf-8') as file:
        file.write(text)
    os.chmod(path, mode)
    return path


def contents(folder):
    """All that lies below a folder, by path: a file's bytes, a link's goal, None for a folder."""
    found = {}
    for at, below, files in os.walk(folder):
        for name in [*below, *files]:
            path = os.path.join(at, name)
            key = os.path.relpath(path, folder)
            if os.path.islink(path):
                found[key] = os.readlink(path)
            elif os.path.isdir(path):
                found[key] = None
            else:
                with open(path, 'rb') as file:
                    found[key] = file.read()
    return found


def changes(before, after):
    """The faults of a folder that had to stay as it was, of two `contents`."""
    names = sorted(name for name in {*before, *after}
                   if before.get(name, '') != after.get(name, ''))
    return [f'{len(names)} paths changed: {" ".join(names[:4])}'] if names else []
