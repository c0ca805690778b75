"""A campaign: what all of its jobs have in common, and where their files are."""

from __future__ import annotations

import os
from dataclasses import dataclass, replace
from typing import Optional

from seldomplough import programs
from seldomplough.campaigns import Entry
from seldomplough.groups import Group
from seldomplough.programs import Program
from seldomplough.recordings import Recording


@dataclass(frozen=True)
class Campaign:
    """What all jobs of a campaign have in common: the scripts' folder or `search`, the folder that
    the jobs write into, the files of the programs where they are given, a scratch folder, and
    whether packed recordings are kept."""

    scripts: str
    folder: str
    receiver_file: Optional[str] = None
    pack_file: Optional[str] = None
    scratch: Optional[str] = None
    keeps: bool = True

    @property
    def receiver(self) -> Program:
        """The receiver. A checkout's is built where it isn't."""
        return programs.find(programs.RECEIVER, self.receiver_file)

    @property
    def pack(self) -> Program:
        """The packer. A checkout's is built where it isn't."""
        return programs.find(programs.PACK, self.pack_file)

    def packed(self, entry: Entry) -> str:
        """Where the packed recording is."""
        return os.path.join(self.folder, 'packed', f'{entry.name}.{entry.recording.format}')

    def lines(self, entry: Entry, group: Group) -> str:
        """Where the lines of a group of scripts are."""
        return os.path.join(self.folder, 'lines', entry.name, f'{group}.lines')

    def merged(self, entry: Entry) -> str:
        """Where the lines of all scripts are."""
        return os.path.join(self.folder, 'merged', f'{entry.name}.lines')

    def seen(self, entry: Entry, step: str) -> str:
        """Where the record is of what a step saw: `checked` or `compared`."""
        return os.path.join(self.folder, step, f'{entry.name}.json')

    def source(self, entry: Entry) -> Recording:
        """The recording that is read: the packed one where such are kept."""
        if entry.recording.kind is None or not self.keeps:
            return entry.recording
        return replace(entry.recording, name=self.packed(entry), kind=None, packing=())
