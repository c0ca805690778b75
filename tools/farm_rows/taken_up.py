"""The workflow on Slurm: it is taken up again where it failed, with several recordings in a job."""
from __future__ import annotations

import os

from . import failures, inputs
from .cases import DONE, Farm, Rows, on_slurm
from .inputs import MISSING


def made_files(farm: Farm, names: list[str]) -> dict[str, tuple[int, int]]:
    """The files of lines of recordings, by their places in the file system and their times."""
    found = {}
    for name in names:
        for path in os.scandir(os.path.join(farm.folder, 'out', 'lines', name)):
            found[path.path] = path.inode(), path.stat().st_mtime_ns
    return found


def take_up(rows: Rows, farm: Farm, node: int, wanted: dict[str, bytes]) -> None:
    """A workflow that failed is taken up again, two recordings a job, and then is done."""
    done = failures.run(rows, farm, node)
    before = made_files(farm, done)
    words = [*on_slurm(farm, 'out'), '--group-components', 'recording=2']
    is_well, said = farm.ran(words)
    rows.see(is_well, 'the workflow ends when it is taken up again', said)
    farm.compare(rows, 'out', wanted)
    rows.see(made_files(farm, done) == before, 'what was done is not done again', done)
    is_well, said = farm.ran(words)
    rows.see(is_well and 'Nothing to be done' in said, 'then nothing is left to do', said)


def fail_one_of_three(rows: Rows, farm: Farm) -> None:
    """Of three recordings in one job the first is missing."""
    others = ['bits', 'two_bits']
    path = os.path.basename(inputs.path_of(farm.folder, MISSING))
    with open(os.path.join(farm.folder, 'recordings.csv'), encoding='ascii') as stream:
        table = [it for it in stream if it.split(',')[0] in ('name', MISSING, *others)]
    with open(os.path.join(farm.folder, 'three.csv'), 'w', encoding='ascii') as stream:
        stream.write(''.join(table).replace(path, 'nowhere'))
    words = on_slurm(farm, 'three', table='three.csv')
    is_well, _ = farm.ran([*words, '--group-components', 'recording=3'])
    found = farm.states('three')
    rows.see(not is_well and 'No such file' in found[MISSING], 'the missing one is named', found)
    rows.see([found[it] for it in others] == [DONE] * 2, 'others of its job are done', found)
