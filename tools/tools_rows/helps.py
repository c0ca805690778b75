"""Rows of the help of each tool: what is printed for `--help` and `-h`, where it can't be, and that
nothing is done."""
from __future__ import annotations

import os
import shutil
from typing import Any

from .commands import TOP, Outcome, changes, contents, copied, refused, run

# What tools import or read beside their own folder before they look at their words.
BESIDE = ('benchmarks', 'crates.txt', 'python/seldomplough')

# Who has help of his own needs cargo to build it: tools/maker is a program.
BUILT = ('maker',)


def tools() -> list[str]:
    """The tools: each file of the folder that can be started."""
    folder = os.path.join(TOP, 'tools')
    return sorted(it for it in os.listdir(folder) if os.path.isfile(os.path.join(folder, it))
                  and os.access(os.path.join(folder, it), os.X_OK))


def ended(top: str, line: str, **more: str) -> Outcome:
    """The outcome of a line of the shell."""
    return run(['bash', '-c', line], top, more)


def faults_of(top: str, tool: str) -> list[str]:
    """What is wrong with the help of a tool."""
    path = f'tools/{tool}'
    first = run([path, '--help'], top)
    is_told = 'usage' in first.said.lower() or path in first.said or tool in BUILT
    faults = [f'--help: {first}'[:300]] * (first.status != 0 or first.errors != '' or not is_told)
    for name, outcome in (('-h', run([path, '-h'], top)),
                          ('PYTHONOPTIMIZE=2', ended(top, f'{path} --help', PYTHONOPTIMIZE='2'))):
        faults += [f'{name}: {outcome}'[:300]] * (outcome != first)
    full = refused(ended(top, f'{path} --help > /dev/full'), '[^\n]+', 1)
    closed = ended(top, f'{{ {path} --help; echo $? >&3; }} 3> status | true')
    return faults + [f'/dev/full: {it}' for it in full] + [
        f'a closed pipe: {closed}'[:300]] * (closed.errors != '')


def helps(rows: Any, folder: str) -> None:
    """Each tool prints its help, also where Python leaves out the heads of its files, and ends with
    0. Where it can't be written a line says so, but where nobody reads; no tool begins anything."""
    top = copied(folder, 'tools', *BESIDE)
    for tool in tools():
        if tool in BUILT:
            if not shutil.which('cargo'):
                continue
            run([f'tools/{tool}', '--help'], top)
        before = contents(top)
        faults = faults_of(top, tool)
        os.remove(os.path.join(top, 'status'))
        rows.say(f'tools/{tool} --help', faults + changes(before, contents(top)))


ROWS = (helps,)
