"""The jobs of a campaign. Each writes a file whole, with a record of what it was made of, or fails.

A job whose file is there already, made of the same, does nothing. Files are at fixed places below
one folder, so that any engine can start the jobs: a shell, GNU parallel or Snakemake."""

from __future__ import annotations

import os
import shutil
import socket
import tempfile
import time
from contextlib import contextmanager
from hashlib import sha256
from typing import Iterator, List, Optional, Sequence

from seldomplough import feeds, files, numbers, provenance
from seldomplough.campaigns import Entry
from seldomplough.failures import Failure, of_system, one_line
from seldomplough.groups import ENDING, Group, Script, scripts_of
from seldomplough.layouts import Campaign
from seldomplough.merging import merged
from seldomplough.outputs import placed
from seldomplough.programs import Stage, running
from seldomplough.provenance import Digest, Record
from seldomplough.recordings import Recording


def pack(campaign: Campaign, entry: Entry) -> None:
    """Packs a recording into its place."""
    recording, name = entry.recording, campaign.packed(entry)
    if recording.kind is None:
        raise Failure(f'{entry.name}: it is packed already')
    check_length(entry, recording.samples())
    wanted = {
        'recording': provenance.of_input(recording.name),
        'pack': provenance.of_program(campaign.pack),
        'packing': recording.pack_words(),
    }
    stage = Stage(campaign.pack, recording.pack_words())
    if not provenance.is_made_of(name, wanted):
        _make(name, [stage], recording, wanted, campaign.scratch)


def check_length(entry: Entry, samples: Optional[int]) -> None:
    """Sees that a recording that is there has the samples that the table says."""
    if samples is not None and entry.samples not in (None, samples):
        raise Failure(f'{entry.name}: it has {samples} samples of {entry.samples}: was it cut?')


def run(campaign: Campaign, entry: Entry, group: Group) -> None:
    """Runs a group of scripts over a recording."""
    source, name = campaign.source(entry), campaign.lines(entry, group)
    check_length(entry, source.samples())
    chosen = _chosen(campaign, entry, group)
    wanted = {
        'recording': provenance.of_input(source.name),
        'receiver': provenance.of_program(campaign.receiver),
        'options': source.receiver_words(),
        'pack': provenance.of_program(campaign.pack) if source.kind else None,
        'packing': source.pack_words() if source.kind else None,
        'scripts': {it.name: sha256(it.text).hexdigest() for it in chosen},
    }
    if provenance.is_made_of(name, wanted):
        return
    with _written(chosen) as paths:
        stages = source.stages(campaign.receiver, campaign.pack, paths)
        _make(name, stages, source, wanted, campaign.scratch)


def _chosen(campaign: Campaign, entry: Entry, group: Group) -> List[Script]:
    """The scripts of a group."""
    found = scripts_of(campaign.scripts)
    if not 1 <= group.first <= group.last <= len(found):
        raise Failure(f'{entry.name}: there are {len(found)} scripts, and no {group}')
    return list(group.of(found))


@contextmanager
def _written(chosen: Sequence[Script]) -> Iterator[List[str]]:
    """The paths of these scripts in a temporary folder."""
    try:
        with tempfile.TemporaryDirectory(prefix='seldomplough-') as folder:
            paths = [os.path.join(folder, f'{at}{ENDING}') for at in range(1, len(chosen) + 1)]
            for path, script in zip(paths, chosen):
                with open(path, 'xb') as stream:
                    stream.write(script.text)
            yield paths
    except OSError as why:
        raise of_system('the temporary folder', why) from why


def _make(
    name: str, stages: Sequence[Stage], source: Recording, wanted: Record, scratch: Optional[str]
) -> None:
    """Writes what programs make of a recording, and its record."""
    files.folder(os.path.dirname(name))
    remove(provenance.path_of(name))
    said: List[str] = []
    read, digest, begun = Digest(), Digest(), time.monotonic()
    try:
        with files.read(source.name) as stream, placed(name, scratch) as sink:
            digest.sink = sink
            feed = read.feed(feeds.of_source(stream, source.bytes_of(numbers.LAST_TIME)))
            with running(stages, feed, said.append) as output:
                shutil.copyfileobj(output, digest)
            digest.sink = None
            _check_unchanged(source, wanted, read)
    except OSError as why:
        raise of_system(scratch or name, why) from why
    provenance.write(
        provenance.path_of(name),
        {
            **wanted,
            'read': read.record(),
            'samples': source.samples_of(read.bytes),
            'output': digest.record(),
            'said': said,
            'revision': provenance.revision(stages[-1].program),
            'host': socket.gethostname(),
            'seconds': round(time.monotonic() - begun, 3),
        },
    )


def _check_unchanged(source: Recording, wanted: Record, read: Digest) -> None:
    """Sees that the file was read whole, and that it is what it was before."""
    now = provenance.of_input(source.name)
    if now != wanted['recording'] or read.bytes != now['bytes']:
        raise Failure(f'{one_line(source.name)}: it changed while it was read')


def remove(name: str) -> None:
    """Removes a file, where it is there."""
    try:
        os.unlink(name)
    except FileNotFoundError:
        pass
    except OSError as why:
        raise of_system(name, why) from why


def merge(campaign: Campaign, entry: Entry, chosen: Sequence[Group]) -> None:
    """Merges the lines of all groups of a recording."""
    found = scripts_of(campaign.scripts)
    after = 1
    for group in chosen:
        if group.first != after:
            raise Failure(f'{entry.name}: the groups go from script {after - 1} to {group.first}')
        after = group.last + 1
    if after != len(found) + 1:
        raise Failure(f'{entry.name}: the groups end with script {after - 1} of {len(found)}')
    names = [campaign.lines(entry, it) for it in chosen]
    write_merged(names, campaign.merged(entry))


def write_merged(names: Sequence[str], to: str) -> None:
    """Writes the merged lines of files into one."""
    files.folder(os.path.dirname(to))
    try:
        with placed(to) as sink:
            for text in merged(names):
                sink.write(text.encode('ascii') + b'\n')
    except OSError as why:
        raise of_system(to, why) from why
