"""Rooms: a crate in a repository of its own, over the libraries below it that are built. In one
repository `rt` works in one crate at a time, since it keeps others out of all crates below the one
that it works in. In rooms it works side by side."""
import fcntl
import functools
import os
import shutil
import subprocess
import sys

import children
from built import OF_CI, clean_environment, read, sum_of_sources
from crate_order import TOP, with_those_below
from room_folders import new_folder

# The kit's `rt`, quicker where many libraries lie below a crate.
RT = (sys.executable, os.path.join(TOP, 'tools', 'rt_once'))

# What is kept of a library: the library, and what its check proved.
KEPT = ('rlib', 'incremental')

# The crate without code in whose check others are read.
CHECKED = 'checked_at_once'

# The file beside a library that has the sum of its sources: that of `rt`, or where the library is
# one of statements, that of tools/rt_once.
SUMS = ('stamp', 'stated')


def link(source, copy):
    """Links a file that is only read or replaced, or copies it where it lies on another disk."""
    try:
        os.link(source, copy)
    except OSError:
        shutil.copy2(source, copy)


@functools.lru_cache(maxsize=None)
def are_libraries_of_ci():
    """Whether the last `rt ci` that was kept had the sources as they are."""
    try:
        return read(OF_CI).decode() == sum_of_sources('proved')
    except (OSError, UnicodeDecodeError):
        return False


def is_program(crate):
    """Whether a crate is a program, of which there is no library."""
    return os.path.exists(os.path.join(TOP, 'crates', crate, 'src', 'main.rt'))


def is_made(crate):
    """Whether `rt ci` proved a crate, of the sources as they are, and made its library, if it is
    one: it leaves no sum beside that by which `rt` would know."""
    return are_libraries_of_ci() and (is_program(crate) or os.path.isdir(library(crate)))


def library(crate):
    """Where the library of a crate is built."""
    return os.path.join(TOP, 'crates', crate, 'out', 'rlib', f'{crate}.rlib')


def is_summed_up(folder):
    """Whether a folder has a library of which a sum tells whether it is of the sources."""
    return any(os.path.exists(os.path.join(folder, it)) for it in SUMS)


def has_kept(crate):
    """Whether a check of a crate has kept what it proved."""
    return os.path.isdir(os.path.join(TOP, 'crates', crate, 'out', 'incremental'))


class Room:
    """A copy of a crate in a repository of its own, with what was kept of it. It may take the
    libraries that `rt ci` made; else these are left out, and made anew."""

    # What tells tools/rt_once of it, beside whether it takes those libraries.
    environment = {}

    def __init__(self, crate, crates, folder, takes_made=False):
        self.crate, self.folder = crate, os.path.join(folder, 'crates', crate)
        self.takes_made = takes_made and are_libraries_of_ci()
        self.lay_out([crate], crates, folder)

    def lay_out(self, own, crates, folder):
        """Copies crates into a folder as a repository, and all below them. Gives the words of
        crates.txt for each of its own."""
        below = with_those_below(own, crates)
        with open(os.path.join(TOP, 'crates.txt'), encoding='utf-8') as lines:
            named = [it for it in lines if it.split('#')[0].partition(':')[0].strip() in below]
        with open(os.path.join(folder, 'crates.txt'), 'w', encoding='utf-8') as file:
            file.writelines(named)
        shutil.copy(os.path.join(TOP, 'HANDLES'), folder)
        for name in below:
            # The libraries below are only read.
            shutil.copytree(os.path.join(TOP, 'crates', name), os.path.join(folder, 'crates', name),
                            copy_function=shutil.copy2 if name in own else link,
                            ignore=shutil.ignore_patterns('must-fail', 'out'))
            for part in self.parts_of(name):
                kept = os.path.join(TOP, 'crates', name, 'out', part)
                is_whole = part != 'rlib' or is_summed_up(kept) or self.takes_made
                if os.path.isdir(kept) and is_whole:
                    shutil.copytree(kept, os.path.join(folder, 'crates', name, 'out', part),
                                    copy_function=link)
        return [it for it in named if it.partition(':')[0] in own]

    def parts_of(self, name):
        """What it takes of what is kept of a crate."""
        return KEPT if name == self.crate else KEPT[:1]

    def run(self, command, jobs, nice=0, more=()):
        """Runs a command of `rt`. Gives whether the crate is proved, and what the prover said."""
        words = ['nice', '-n', str(nice), *RT, command, '--jobs', str(jobs), *more]
        environment = {**clean_environment(), **self.environment,
                       'RT_ROOM': 'made' if self.takes_made else 'own'}
        status, said, _ = children.run(words, self.folder, stderr=subprocess.STDOUT,
                                       env=environment)
        return status == 0, said

    def bring_out(self, parts=KEPT):
        """Moves what `rt` keeps of the crate to the repository."""
        home = os.path.join(TOP, 'crates', self.crate)
        lock = os.open(home, os.O_RDONLY)
        try:
            # As `rt` does where it works in the crate.
            fcntl.flock(lock, fcntl.LOCK_EX)
            for part in parts:
                made, kept = os.path.join(self.folder, 'out', part), os.path.join(home, 'out', part)
                if os.path.isdir(made):
                    shutil.rmtree(kept, ignore_errors=True)
                    os.makedirs(os.path.dirname(kept), exist_ok=True)
                    shutil.move(made, kept)
        finally:
            os.close(lock)


class SharedRoom(Room):
    """Libraries in a repository of their own that are checked at once: the check is of a crate
    without code that stands on them, and reads their sources. So what each check loads before its
    first proof is loaded once for all of them."""

    def __init__(self, names, crates, folder, takes_made=False):
        self.crate, self.folder = CHECKED, os.path.join(folder, 'crates', CHECKED)
        self.takes_made, self.names = takes_made and are_libraries_of_ci(), names
        self.environment = {**self.environment, 'RT_SOURCES': ' '.join(names)}
        lines = self.lay_out(names, crates, folder)
        below = {it for line in lines for it in line.partition(':')[2].split()}
        with open(os.path.join(folder, 'crates.txt'), 'a', encoding='utf-8') as file:
            file.write(f'{CHECKED}: {" ".join(sorted(below.union(names)))}\n')
        os.makedirs(os.path.join(self.folder, 'src'))
        with open(os.path.join(self.folder, 'src', 'lib.rt'), 'w', encoding='utf-8') as source:
            source.write('#![tactic(auto)]\n')

    def parts_of(self, name):
        """What it takes of what is kept of a crate: no library of those that it reads."""
        return () if name in self.names else KEPT[:1]


def prove(crate, crates, jobs, nice=0):
    """Proves a crate over the libraries below it that are built, and builds it where it is a
    library. Gives whether it is proved, and what the prover said."""
    with new_folder('crate') as folder:
        room = Room(crate, crates, folder)
        try:
            return room.run('check' if is_program(crate) else 'lib', jobs, nice)
        finally:
            room.bring_out()
