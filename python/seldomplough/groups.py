"""The scripts of a campaign, and their groups: neighbours that one job runs."""

from __future__ import annotations

import glob
import hashlib
import os
from typing import List, NamedTuple, Sequence, Tuple

from seldomplough import costs, files, scripts
from seldomplough.campaigns import Entry
from seldomplough.failures import Failure, one_line
from seldomplough.scripts import CLIENTS, Search

# In place of a folder of scripts: those that search for all satellites.
SEARCH = 'search'
ENDING = '.script'


class Script(NamedTuple):
    """A script by its name and its bytes."""

    name: str
    text: bytes


class Group(NamedTuple):
    """Neighbouring scripts of a job: the numbers of the first and the last of them, from 1 on."""

    first: int
    last: int

    def __str__(self) -> str:
        return f'{self.first}-{self.last}'

    def of(self, found: Sequence[Script]) -> Sequence[Script]:
        """Its scripts, of all."""
        return found[self.first - 1 : self.last]


def sha256_of(chosen: Sequence[Script]) -> str:
    """The SHA-256 of scripts, their names and bytes in their order."""
    digest = hashlib.sha256()
    for it in chosen:
        digest.update(hashlib.sha256(os.fsencode(it.name)).digest())
        digest.update(hashlib.sha256(it.text).digest())
    return digest.hexdigest()


def scripts_of(word: str) -> List[Script]:
    """The scripts of a folder in the order of their names, or those of `search --at-once`.

    All searches begin at the first sample, so a recording of a second is long enough for them."""
    if word == SEARCH:
        found = scripts.searches(Search(), 0, 0)
        texts = [scripts.text_of(it).encode() for it in found]
        return [Script(f'search_{at}{ENDING}', it) for at, it in enumerate(texts, 1)]
    result = []
    for path in sorted(glob.glob(os.path.join(glob.escape(files.path(word)), f'*{ENDING}'))):
        with files.read(path) as source:
            result.append(Script(os.path.basename(path), source.read()))
    if not result:
        raise Failure(f'{one_line(word)}: no file there has a name that ends with {ENDING}')
    return result


def groups(entry: Entry, found: Sequence[Script], seconds: float) -> List[Tuple[Group, float]]:
    """The groups of a recording's scripts, and what each costs in seconds of a processor.

    Of a recording that isn't there, eight scripts are a group, and cost nothing."""
    rate = entry.recording.tuning.rate
    samples = entry.recording.samples() or 0
    each = [costs.of_script(it.text, rate, samples) for it in found]
    read = costs.READ * samples
    made = [Group(*it) for it in costs.groups(each, read, seconds)]
    return [(it, read + sum(each[it.first - 1 : it.last])) for it in made]


def eights(count: int) -> List[Group]:
    """So many scripts as one process each takes them: eight at a time."""
    return [Group(at, min(at + CLIENTS - 1, count)) for at in range(1, count + 1, CLIENTS)]
