"""The workflow without Slurm: by Snakemake on cores, and by GNU parallel."""
from __future__ import annotations

import os

from . import inputs
from .cases import FARM, SECONDS, Farm, Rows, workflow
from .inputs import RECORDINGS

WAYS = {'cores': workflow('cores', 'cores'),
        'parallel': [os.path.join(FARM, 'by-parallel'), 'recordings.csv', 'parallel', '2',
                     '--scripts', 'scripts', '--seconds', SECONDS]}


def run(rows: Rows, farm: Farm, wanted: dict[str, bytes]) -> None:
    """From nothing, and again with the last script another."""
    for to, words in WAYS.items():
        is_well, said = farm.ran(words)
        rows.see(is_well, f'{to}: the workflow ends', said)
        farm.compare(rows, to, wanted)
    inputs.write_script(farm.folder, inputs.SCRIPTS, 50)
    other = {name: inputs.one_process(farm.folder, name) for name in RECORDINGS}
    rows.see(all(other[it] != wanted[it] for it in other), 'another script gives other lines')
    for to, words in WAYS.items():
        is_well, said = farm.ran(words)
        rows.see(is_well, f'{to}: a script that is another is run', said)
        farm.compare(rows, to, other)
