#!/usr/bin/env python3
"""Puts the programs that `rt` of the Rattle kit built of this checkout into a folder, as a package
has them: what `./receiver` and `./pack` start here. `rt` builds those for the other level of
x86-64-v2 and v3 beside them, of what it has proved already; v2 is the level where none is named.
On a processor that hasn't v3 there are those for v2 alone. The file SHA256SUMS has the sum of each,
the revision and the kit.
usage: proved.py FOLDER
Where a program isn't proved and built yet, it starts no proof: it says so in one line, and ends
with status 3."""
from __future__ import annotations

import os
import shutil
import subprocess
import sys

sys.dont_write_bytecode = True
sys.path.insert(0, os.path.dirname(os.path.dirname(os.path.realpath(__file__))))
import children
from built import ANY, THIRD, TOP, Built, Prover, is_plain_wanted, level, read, sum_of
from crate_order import read_crates, with_those_below
from room_folders import new_folder
from rooms import Room, has_kept, is_made, is_summed_up, library

# The crates of the programs, and what these are called.
PROGRAMS = {'receiver_cli': 'receiver', 'packer_cli': 'pack'}
NOT_BUILT = 3


class Refused(Exception):
    """Why there are no programs."""


def is_kept(crate: str) -> bool:
    """Whether the library of a crate is one that a room takes as built."""
    return bool(is_summed_up(os.path.dirname(library(crate))) or is_made(crate))


def built_programs(line: str, crates: dict[str, list[str]]) -> dict[str, dict[str, str]]:
    """The path of each program, by its level. It is as the sources are, and all is kept by which
    `rt` builds it for another level with no proof from nothing."""
    found = {}
    for crate in PROGRAMS:
        built, below = Built(crate, 'proved'), with_those_below([crate], crates)
        path = built.program(line)
        if not path:
            raise Refused(f'`rt` hasn\'t built {crate} of these sources: '
                          '`make proved` does, and says how long it takes')
        if not has_kept(crate) or not all(is_kept(it) for it in below if it != crate):
            raise Refused(f'what `rt` proved for {crate} isn\'t all kept here: '
                          f'`rt run -- --help` in crates/{crate} proves it anew')
        rows = read(built.stamp).decode().split('\n')[2:]
        levels = {os.path.join(TOP, row.split(' ', 2)[2]): row.split(' ', 1)[0] for row in rows}
        found[crate] = {levels[path]: path}
    return found


def put(path: str, folder: str, of_level: str, crate: str) -> None:
    """Copies a program to where the package has it."""
    to = os.path.join(folder, of_level, PROGRAMS[crate])
    os.makedirs(os.path.dirname(to), exist_ok=True)
    shutil.copyfile(path, to)
    os.chmod(to, 0o755)


def build(crate: str, of_level: str, folder: str, crates: dict[str, list[str]]) -> None:
    """Has `rt` build a program for a level, of what it has proved."""
    options, shown = ([], 'x86-64-v2') if of_level == ANY else (['--cpu', of_level], of_level)
    print(f'deb: rt builds {PROGRAMS[crate]} for {shown}, of what is proved', flush=True)
    with new_folder('crate') as at:
        room = Room(crate, crates, at, takes_made=True)
        is_right, said = room.run('run', 2, more=[*options, '--', '--help'])
        if not is_right:
            raise Refused(f'rt could not build {crate} for {shown}: {said.strip()[-200:]!r}')
        put(os.path.join(room.folder, 'out', crate), folder, of_level, crate)


def revision() -> str:
    """The revision of the checkout, and whether something differs from it."""
    words = ['git', 'describe', '--always', '--dirty', '--abbrev=40', '--exclude=*']
    said = subprocess.run(words, cwd=TOP, stdout=subprocess.PIPE, stderr=subprocess.DEVNULL,
                          check=False, encoding='utf-8').stdout.strip()
    return said or 'not known'


def write_sums(folder: str, line: str) -> None:
    """Writes the sums of all programs, as `sha256sum --check` reads them."""
    programs = sorted(os.path.relpath(os.path.join(at, name), folder)
                      for at, _, names in os.walk(folder) for name in names)
    rows = [f'{sum_of(os.path.join(folder, it))}  {it}\n' for it in programs]
    with open(os.path.join(folder, 'SHA256SUMS'), 'w', encoding='utf-8') as file:
        file.write(f'# Built by {line}\n# of the revision {revision()}\n{"".join(rows)}')


def make(folder: str) -> None:
    """Puts the programs into a folder."""
    if is_plain_wanted():
        raise Refused('RECEIVER_PLAIN is set')
    line = Prover().line
    if not line:
        raise Refused('there is no `rt` of the Rattle kit')
    crates = read_crates()
    for crate, paths in built_programs(line, crates).items():
        for of_level in [ANY, THIRD] if level() == THIRD else [ANY]:
            if of_level in paths:
                put(paths[of_level], folder, of_level, crate)
            else:
                build(crate, of_level, folder, crates)
    write_sums(folder, line)


def main() -> int:
    if len(sys.argv) != 2:
        print('deb: one folder takes the proved programs', file=sys.stderr)
        return 2
    try:
        children.end_with_signals()
        make(sys.argv[1])
    except Refused as why:
        print(f'deb: seldomplough-proved isn\'t made: {why}', flush=True)
        return NOT_BUILT
    except children.Ended as ended:
        return 128 + int(ended.args[0])
    return 0


if __name__ == '__main__':
    sys.exit(main())
