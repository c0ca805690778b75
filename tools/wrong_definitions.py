"""Wrong definitions that stand beside the right ones. An edit of a crate's specs breaks a lemma
that it names. Of the files that lead from the lemma's to the changed one each edit has copies under
names of their own, which name each other. So many are tried in one check, and each by itself: no
file but its own copies names what it changes."""
from __future__ import annotations

import os
import re
from typing import Mapping, Optional, Sequence

from bare_bodies import REFUSED
from lone_goals import ERROR
from second_bodies import files_with
from wrong_bodies import DEPENDS, Edit, path_of, refusals

# A module that a file names, outside of all functions where it is one of code, and the line of one
# in the list of those of a folder.
USE = re.compile(r'^(?:ghost )?use (\w+(?:\.[\w-]+)*)', re.M)
LISTED = re.compile(r'^((?:pub )?mod )(\w+)$', re.M)

# The folders of what is defined and of what is proved of it, each with its list.
FOLDERS = ('specs', 'proofs')


def declared_in(module: str, sources: Mapping[str, str]) -> Optional[str]:
    """The source that declares the types or constants of a module of the prover's; nothing where it
    is of something else."""
    names = module.split('.')[2:]
    if names[:2] != ['specs', 'declared']:
        return None
    paths = (f"src/{'/'.join(names[2:end])}.rt" for end in range(len(names), 2, -1))
    return next((it for it in paths if it in sources), None)


class Modules:
    """The files of a crate that its folders list, and those that each leads to. The types that its
    code declares lead to what their sources name."""

    def __init__(self, crate: str, folder: str) -> None:
        self.crate = crate
        self.texts: dict[str, str] = {}
        for part in FOLDERS:
            home = os.path.join(folder, part)
            for file in sorted(os.listdir(home)) if os.path.isdir(home) else ():
                if file.endswith('.antt'):
                    with open(os.path.join(home, file), encoding='utf-8', newline='') as source:
                        self.texts[f'{part}/{file}'] = source.read()
        sources = {file: text for file, text in files_with(folder, '.rt').items()
                   if file.startswith('src/')}
        files = {self.module(file): file for file in self.texts}
        self.named = {file: {files.get(it) or declared_in(it, sources)
                             for it in USE.findall(text) if it.startswith(f'Rattle.{crate}.')}
                      for file, text in {**self.texts, **sources}.items()}

    def module(self, file: str) -> str:
        """How files name one of them."""
        return f"Rattle.{self.crate}.{file[:-len('.antt')].replace('/', '.')}"

    def below(self, file: str) -> set[Optional[str]]:
        """A file and all that it leads to: nothing among them where that is one that the prover
        makes of code, which no copy has."""
        found: set[Optional[str]] = {file}
        left: list[Optional[str]] = [file]
        while left:
            more = self.named.get(left.pop() or '', set()) - found
            found |= more
            left += more
        return found

    def above_changed(self, edit: Edit, lemmas: str) -> list[str]:
        """Of the files to which one with lemmas leads those that lead to what an edit changes."""
        changed = {file for file, *_ in edit.pairs}
        return [it for it in self.below(lemmas) if it and changed & self.below(it)]

    def with_lemma(self, edit: Edit) -> Optional[str]:
        """The file with the lemma that an edit breaks, by the words of its goal. Nothing where no
        single one has it."""
        head = re.compile(rf'^ *(?:pub )?{re.escape(edit.goal[-1])} :', re.M)
        found = [file for file, text in self.texts.items()
                 if file.startswith('proofs/') and head.search(text)
                 and all(word in file for word in edit.goal[:-1])]
        return found[0] if len(found) == 1 else None


class Copies:
    """The copies of an edit, or those with nothing changed where `is_right`."""

    def __init__(self, edit: Edit, number: int, modules: Modules, is_right: bool = False) -> None:
        self.edit, self.modules, self.is_right = edit, modules, is_right
        self.end = f"{'Right' if is_right else 'Wrong'}{number}"
        self.lemmas = modules.with_lemma(edit) or ''
        self.files = modules.above_changed(edit, self.lemmas)

    def name(self, file: str) -> str:
        """The name of the copy of a file."""
        return f"{file[:-len('.antt')]}{self.end}.antt"

    def made(self) -> dict[str, str]:
        """The texts of the copies, by their names."""
        given = self.modules.texts
        changed = {} if self.is_right else self.edit.texts(given.get)
        names = {self.modules.module(it): self.modules.module(self.name(it)) for it in self.files}
        return {self.name(file): USE.sub(lambda it: f'use {names.get(it[1], it[1])}',
                                         changed.get(file, given[file])) for file in self.files}

    def faults(self, said: str) -> list[str]:
        """The lines by which the prover refused anything in the copies."""
        own = re.compile(rf'(?:\./)?(?:specs|proofs)/\w+{self.end}\.antt:\d+:\d+: error: ')
        return [line for line in said.split('\n') if own.match(line)]

    def is_refused(self, said: str) -> bool:
        """Whether its lemma is refused itself, and not for what it cites."""
        found = (ERROR.search(line) for line in refusals('\n'.join(self.faults(said)))
                 if not DEPENDS.search(line))
        return any(it and it[1] == self.edit.goal[-1] for it in found)


def can_copy(edit: Edit, modules: Modules) -> bool:
    """Whether an edit changes definitions alone, and breaks a lemma that leads to them, and not by
    way of code, which has no copies."""
    lemma = modules.with_lemma(edit)
    below: set[Optional[str]] = modules.below(lemma) if lemma else {None}
    return (None not in below and all(file in below and file.startswith('specs/')
                                      for file, *_ in edit.pairs)
            and all(it in modules.texts for it in modules.above_changed(edit, lemma or '')))


def home_of_law(law: str, sources: Mapping[str, str]) -> str:
    """The folder of the proof of a law in a crate, by its sources."""
    file = next(it for it in sorted(sources) if re.search(rf'\bfn {law}\b', sources[it]))
    return os.path.join('proofs', *path_of(file), law)


def answers_of(copies: Sequence[Copies], modules: Modules) -> str:
    """Answers that lead to the lemmas of all copies, and prove nothing."""
    lemmas = (f'use {modules.module(it.name(it.lemmas))} as {it.end}\n' for it in copies)
    return ''.join([*lemmas, REFUSED])


def listed(part: str, copies: Sequence[Copies], modules: Modules) -> str:
    """The list of the files of a folder, each with its copies after it."""
    def with_its_copies(line: re.Match[str]) -> str:
        file = f'{part}/{line[2]}.antt'
        return '\n'.join([line[0], *(f'{line[1]}{line[2]}{it.end}' for it in copies
                                     if file in it.files)])

    return LISTED.sub(with_its_copies, modules.texts[f'{part}/Lib.antt'])


def with_copies(copies: Sequence[Copies], modules: Modules) -> dict[str, str]:
    """The texts of all copies, and the lists of files with them."""
    made = {name: text for it in copies for name, text in it.made().items()}
    return {**made, **{f'{part}/Lib.antt': listed(part, copies, modules) for part in FOLDERS}}
