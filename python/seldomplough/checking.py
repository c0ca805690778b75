"""Sees that the lines of a campaign's recordings are whole, and those of one process."""

from __future__ import annotations

import filecmp
import os
import tempfile
from dataclasses import replace
from typing import Dict, Optional, Sequence

from seldomplough import files, provenance
from seldomplough.campaigns import Entry
from seldomplough.failures import Failure, of_system, one_line
from seldomplough.groups import Group, eights, scripts_of
from seldomplough.jobs import check_length, run, write_merged
from seldomplough.layouts import Campaign
from seldomplough.provenance import Record

# What all runs of a recording have in common.
MAKERS = ('receiver', 'pack')
COMMON = ('recording', 'options', 'packing', 'read', 'samples')
# What else the record of a run has to have, to be checked.
RUN = ('recording', 'read', 'samples', 'scripts')


def check(campaign: Campaign, entry: Entry, chosen: Sequence[Group]) -> Record:
    """Sees that each run of a recording is whole and read all of it; says what was seen.

    The lines of a run are those that its record has, and all its clients end at the last sample."""
    runs = [_run(campaign, entry, it) for it in chosen]
    common = [_common(it) for it in runs]
    for group, one in zip(chosen, common):
        for key in one:
            if one[key] != common[0][key]:
                raise Failure(f'{entry.name}: {key} of {group} is not that of {chosen[0]}')
    samples = runs[0]['samples']
    packed = _packed(campaign, entry, runs[0])
    check_length(entry, samples)
    scripts: Dict[str, str] = {}
    for one in runs:
        scripts.update(one['scripts'])
    _check_ends(campaign.merged(entry), chosen[-1].last, samples)
    return {
        'name': entry.name,
        'row': entry.row,
        **common[0],
        'packed': packed,
        'scripts': scripts,
        'groups': [str(it) for it in chosen],
        'output': provenance.of_file(campaign.merged(entry)),
    }


def _common(run: Record) -> Record:
    """What all runs of a recording have to have in common, of the record of one."""
    made = {key: provenance.maker(run, key) for key in MAKERS}
    return {**{key: run.get(key) for key in COMMON}, **made}


def _run(campaign: Campaign, entry: Entry, group: Group) -> Record:
    """The record of a run whose lines are whole."""
    name = campaign.lines(entry, group)
    record = provenance.read(provenance.path_of(name), *RUN)
    if not provenance.is_whole(name, record):
        raise Failure(f'{one_line(name)}: it is not what its record says')
    source = campaign.source(entry).name
    if provenance.of_input(source) != record['recording']:
        raise Failure(f'{one_line(source)}: it changed since {group} was run')
    _check_ends(name, group.last - group.first + 1, record['samples'])
    return record


def _packed(campaign: Campaign, entry: Entry, run: Record) -> Optional[Record]:
    """The record of a packed recording that was read, seen to be the one that was packed, whole.

    None where what was read is the recording itself."""
    source = campaign.source(entry)
    if source == entry.recording:
        return None
    packed = provenance.read(provenance.path_of(source.name), 'output', 'samples')
    if packed['output'] != run['read']:
        raise Failure(f'{one_line(source.name)}: what was read of it is not what was packed')
    if packed['samples'] != run['samples']:
        raise Failure(f'{one_line(source.name)}: it has not the samples of the recording')
    return packed


def _check_ends(name: str, clients: int, samples: int) -> None:
    """Sees that a file ends with the `end` lines of all clients, at the last sample."""
    wanted = ''.join(f'{it} {samples} end\n' for it in range(1, clients + 1)).encode('ascii')
    with files.read(name) as source:
        size = source.stream.seek(0, os.SEEK_END)
        source.stream.seek(max(0, size - len(wanted)))
        if source.read() != wanted:
            raise Failure(f'{one_line(name)}: not all {clients} clients end at sample {samples}')


def compare(campaign: Campaign, entry: Entry) -> Record:
    """Sees that the merged lines are those of one process over the recording as it came.

    A process takes eight scripts. Of more than eight, the lines are those of one for each eight."""
    count = len(scripts_of(campaign.scripts))
    wanted = eights(count)
    merged = campaign.merged(entry)
    try:
        with tempfile.TemporaryDirectory(prefix='seldomplough-') as folder:
            alone = replace(campaign, folder=folder, scratch=None, keeps=False)
            for group in wanted:
                run(alone, entry, group)
            one = alone.merged(entry)
            write_merged([alone.lines(entry, it) for it in wanted], one)
            is_same = filecmp.cmp(merged, one, shallow=False)
    except OSError as why:
        raise of_system(merged, why) from why
    if not is_same:
        raise Failure(f'{entry.name}: the merged lines are not those of one process')
    return {'name': entry.name, 'processes': len(wanted), 'output': provenance.of_file(merged)}
