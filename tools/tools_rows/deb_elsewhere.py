"""Rows of tools/deb for another architecture, which is arm64."""
from __future__ import annotations

import os
import shutil
import sys
from typing import Any, Optional

from .commands import TOP, changes, contents, refused, run
from .deb import NEEDED, deb, lintian_path, refuses, with_commit
from .small_checkout import linked_path

sys.path.insert(0, os.path.join(TOP, 'tools'))
from builders import Failed
from elsewhere_toolchain import Elsewhere, elsewhere, kept_library

# On a machine of 64-bit ARM its packages are made as on any other.
MACHINE = os.uname().machine

# The field of an ELF header that says the processor, and what it is for 64-bit ARM.
PROCESSOR, ARM = slice(18, 20), b'\xb7\x00'


def words(rows: Any, folder: str) -> None:
    """Architectures that are refused, and a system without a cross compiler and qemu."""
    if not all(map(shutil.which, NEEDED)) or MACHINE == 'aarch64':
        return
    checkout = with_commit(folder)
    for given in ['--arch'], ['--arch='], ['--arch', ''], ['--arch', '-x'], ['--arch=s390x', '.']:
        refuses(rows, f'{given}', checkout, given)
    usual = ('grep', 'cut', 'date', 'mktemp', 'rm', 'mkdir')
    path = linked_path(os.path.join(folder, 'few'), *NEEDED, *usual)
    missing = 'deb: something is missing; on Debian 12: apt-get install [a-z0-9 -]+'
    before = contents(folder)
    faults = refused(deb(checkout, '--arch', 'arm64', PATH=path), missing)
    rows.say('tools/deb, no cross compiler', faults + changes(before, contents(folder)))


def ready() -> Optional[Elsewhere]:
    """What builds for 64-bit ARM with no long work before it; else it says what is missing."""
    try:
        it = elsewhere('aarch64')
    except Failed as why:
        print(f'left out, packages of arm64: {why}', flush=True)
        return None
    if it.of.library and not os.path.isdir(kept_library(it)):
        print('left out, packages of arm64: tools/elsewhere makes a library first', flush=True)
        return None
    return it


def arm64(rows: Any, folder: str) -> None:
    """The packages of two checkouts of a commit are the same. Each has programs of 64-bit ARM."""
    it = ready() if all(map(shutil.which, NEEDED)) else None
    if it is None or MACHINE == 'aarch64':
        return
    made = []
    checkout = with_commit(folder)
    shutil.copytree(checkout.top, os.path.join(folder, 'another'))
    for name in 'checkout', 'another':
        if it.of.library:
            link = os.path.join(folder, name, 'out', 'elsewhere')
            os.makedirs(link)
            os.symlink(kept_library(it), os.path.join(link, os.path.basename(kept_library(it))))
        to = os.path.join(folder, f'to {name}')
        os.makedirs(to)
        tool = os.path.join(folder, name, 'tools', 'deb')
        outcome = run(
            [tool, to, '--arch=arm64'], folder, {'PATH': lintian_path(folder, 0)}
        )
        faults = [str(outcome)[-300:]] * (outcome.status != 0)
        rows.say(
            f'tools/deb, arm64 from {name}',
            faults + [f'{os.listdir(to)}'] * (os.listdir(to) != ['seldomplough_1.0.1_arm64.deb']),
        )
        made.append(contents(to))
    rows.say('tools/deb, arm64 from two checkouts', ['two packages'] * (made[0] != made[1]))
    of_arm64(rows, folder, os.path.join(folder, 'to another', 'seldomplough_1.0.1_arm64.deb'))


def of_arm64(rows: Any, folder: str, package: str) -> None:
    """What a package of arm64 has: its fields, its programs with nothing before them, and what
    shells complete."""
    said = run(['dpkg-deb', '-f', package, 'Architecture', 'Depends'], folder).said
    wanted = 'Architecture: arm64\nDepends: python3 (>= 3.9)\n'
    rows.say('tools/deb, fields of arm64', [said] * (said != wanted))
    root = os.path.join(folder, 'root')
    run(['dpkg-deb', '-x', package, root], folder)
    inside = contents(os.path.join(root, 'usr'))
    for name in 'receiver', 'pack':
        head = inside.get(f'bin/seldomplough-{name}') or b''
        rows.say(f'tools/deb, {name} of arm64', ['another'] * (head[PROCESSOR] != ARM))
        completed = inside.get(f'share/bash-completion/completions/seldomplough-{name}') or b''
        rows.say(
            f'tools/deb, completions of {name} of arm64',
            [f'{completed!r}'] * (b"'--rate'" not in completed),
        )
    rows.say('tools/deb, what starts programs of arm64', ['a script'] * ('libexec' in inside))


ROWS = (words, arm64)
