"""Rooms in which rows are tried over the definitions, or over copies of them that are changed: the
texts of both, what stands on what, and what the prover refused."""
from __future__ import annotations

import collections
import os
import re
import shutil

import children
from built import clean_environment
from crate_order import TOP, read_crates
from rooms import RT, Room

SPECS = os.path.join(TOP, 'crates', 'definitions', 'specs')
ROWS = os.path.join(TOP, 'crates', 'definition_rows', 'proofs')

# Statements of laws, which define nothing.
LAWS = {'TextLaws', 'Laws', 'SlotLaws', 'EventLaws', 'PrintedLaws', 'DistinctLaws', 'LoopLaws',
        'ReportLaws', 'SizeLaws', 'Lib'}


def read_texts(folder: str) -> dict[str, str]:
    """The texts of a folder of modules."""
    texts = {}
    for file in sorted(os.listdir(folder)):
        if file.endswith('.antt'):
            with open(os.path.join(folder, file), encoding='utf-8') as source:
                texts[file[:-5]] = source.read()
    return texts


def imports(text: str) -> set[str]:
    """The definitions' modules that a text names."""
    return set(re.findall(r'^use Rattle\.definitions\.specs\.(\w+)\.', text, re.M))


def modules_above(module: str, texts: dict[str, str]) -> set[str]:
    """A module and all that stand on it."""
    found = {module}
    while True:
        more = {it for it, text in texts.items() if it not in LAWS and imports(text) & found}
        if more <= found:
            return found
        found |= more


def modules_below(named: set[str], texts: dict[str, str]) -> set[str]:
    """Modules and all that they stand on."""
    found = set(named)
    for name in named:
        found |= modules_below(imports(texts[name]), texts)
    return found


def statements(text: str) -> list[str]:
    """The statements of a text, each with the lines that belong to it, blank ones among them."""
    return re.findall(r'^[^\s-].*\n(?:\n*[ \]})].*\n)*', text, re.M)


def numbered(texts: dict[str, str], copied: set[str], number: int) -> dict[str, str]:
    """Copies of modules under names of a number. What they import of those that are copied becomes
    the copy of that number."""
    if not copied:
        return {f'{name}_t{number}': text for name, text in texts.items()}
    names = rf'Rattle\.definitions\.specs\.({"|".join(sorted(copied))})\.'
    return {f'{name}_t{number}': re.sub(
        names, rf'Rattle.definition_rows.proofs.\1_t{number}.', text)
        for name, text in texts.items()}


class Trial(Room):
    """A room of `definition_rows` for rows, and for copies of the definitions. It takes the library
    of the definitions where that is built, also as `rt ci` left it."""

    def __init__(self, folder: str) -> None:
        super().__init__('definition_rows', read_crates(), folder, takes_made=True)
        self.proofs = os.path.join(self.folder, 'proofs')
        shutil.rmtree(os.path.join(self.folder, 'out'), ignore_errors=True)

    def write(self, modules: dict[str, str]) -> None:
        """Has the crate have these modules, and no others."""
        shutil.rmtree(self.proofs)
        os.mkdir(self.proofs)
        for name, text in [*modules.items(), ('Lib', ''.join(f'pub mod {it}\n' for it in modules))]:
            with open(os.path.join(self.proofs, f'{name}.antt'), 'w', encoding='utf-8') as source:
                source.write(text)

    def check(self, seconds: int) -> str | None:
        """What the prover says of them; nothing where it takes longer."""
        words = ['timeout', '-s', 'KILL', str(seconds), 'nice', *RT, 'check', '--jobs', '1']
        environment = {**clean_environment(), 'RT_TRIAL': '1',
                       'RT_ROOM': 'made' if self.takes_made else 'own'}
        status, said, errors = children.run(words, self.folder, env=environment)
        return None if status in (-9, 137) else said + errors


def refusals(said: str) -> dict[int, list[str]]:
    """The modules and lines at which the prover refused each copy."""
    found = collections.defaultdict(list)
    for module, number, line in re.findall(
            r'^(?:\./)?proofs/(\w+)_t(\d+)\.antt:(\d+):\d+: (?:internal )?error', said, re.M):
        found[int(number)].append(f'{module}:{line}')
    return found
