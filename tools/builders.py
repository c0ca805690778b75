"""Builds of a program: by `rt`, which proves it, crates that don't stand on each other side by
side; and by cargo, from the same sources as plain Rust."""
import json
import os
import subprocess
import sys
import time

import children
import room_folders
from built import (ANY, APART, NAMES, OUT, THIRD, TOP, Built, clean_environment, find,
                   is_plain_wanted, level, read, replace, sum_of_sources)
from crate_order import job_count, read_crates, side_by_side, with_those_below
from crate_shares import Shares
from rooms import RT, prove as prove_in_room

# Has LLVM keep each jump within 32 bytes of code: on Intel's processors of Skylake's kind a loop
# whose jump lies across them takes up to twice as long, and any change of code moves it.
WITHIN_32_BYTES = '-C llvm-args=-x86-branches-within-32B-boundaries'

# What RECEIVER_PLAIN says where no other processor starts what is built.
HERE = 'here'

# The minutes that a proof from nothing takes, on a quick day and on a slow one: those that no
# further processor saves, and those that the processors share.
MINUTES = {'receiver_cli': ((1, 21), (3, 35.4)), 'packer_cli': ((2.5, 3), (4, 4.5))}


class Failed(Exception):
    """A build that failed, with what it said."""


def is_too_old(line):
    """Whether a rustc that says this line of itself is older than 1.85."""
    version = line.split()[1].split('.') if line.startswith('rustc ') else []
    return version[:1] == ['1'] and version[1].isdigit() and int(version[1]) < 85


def hint(kind):
    """What follows where cargo builds a program, or can't, that could be proved here."""
    could_prove = kind == 'plain' and not is_plain_wanted() and find('rt')
    return '; `make proved` builds the proved one' if could_prove else ''


def run(command, folder, **more):
    """Runs a command of a build, and gives what it printed."""
    status, said, errors = children.run(command, folder,
                                        **{'env': clean_environment(), **more})
    if status:
        raise Failed(errors if errors is not None else said)
    return said


def say_how_long(crate, count, say):
    """Says about how long a proof takes."""
    cores = job_count()
    quick, slow = (fixed + shared / cores for fixed, shared in MINUTES[crate])
    say(f'{count} crates are proved first, from nothing in about {quick:.0f} to {slow:.0f} minutes'
        f' on {cores} processor{"s" * (cores > 1)}')


def prove(crate, say):
    """Proves and builds a program, and first the libraries that it stands on, for the level of the
    processor at hand. Gives its path by this level."""
    crates = read_crates()
    names = with_those_below([crate], crates)
    home = os.path.join(TOP, 'crates', crate)
    began, of_level = time.monotonic(), level()
    shares = Shares(names, crates)
    # The kit's compiler takes no higher level, and none by the name of `any`.
    options = [] if of_level == ANY else ['--cpu', of_level]

    def build(name):
        jobs, nice = shares.begin(name)
        if name == crate:
            # The program says nothing to speak of where it is asked for its help.
            run([*RT, 'run', '--jobs', str(jobs), *options, '--', '--help'], home,
                stderr=subprocess.STDOUT)
        else:
            is_proved, said = prove_in_room(name, crates, jobs, nice)
            if not is_proved:
                raise Failed(said)
        shares.end(name)

    say_how_long(crate, len(names), say)
    room_folders.clear()
    # Those on which most others stand go first.
    names.sort(key=lambda name: -sum(name in with_those_below([it], crates) for it in names))
    waits = {name: crates[name] for name in names}
    for done, (name, _) in enumerate(side_by_side(waits, build, job_count()), 1):
        say(f'{name} is proved, {done} of {len(names)}, {(time.monotonic() - began) / 60:.1f} min')
    return {of_level: os.path.join(home, 'out', crate)}


def executable(messages, crate):
    """The path of a program, by what cargo said of all that it made."""
    for line in messages.split('\n'):
        made = json.loads(line) if line.startswith('{') else {}
        if made.get('executable') and made['target']['name'] == crate:
            return made['executable']
    raise Failed(f'cargo has made no program {crate}')


class Target:
    """The folder of what cargo makes, with a mark of the sources and the cargo that it is of. Cargo
    goes by the times of files, which can mislead it, so nothing is left of other sources."""

    def __init__(self, folder, sources, line):
        self.folder, self.text = folder, f'{sources}\n{line}'
        self.mark = os.path.join(folder, 'sources')

    def clear(self, package, is_harmed=False):
        """Removes what cargo made of other sources of a package, which a folder has; or all of it
        where it isn't what cargo made any more."""
        try:
            is_of_these = read(self.mark).decode() == self.text
        except (OSError, UnicodeDecodeError):
            is_of_these = False
        if is_harmed or not is_of_these:
            run(['cargo', 'clean', '--offline', '--quiet', '--target-dir', self.folder], package)

    def keep(self):
        """Keeps that all in it is of these sources."""
        replace(self.mark, self.text)


def cargo_build(name, folder, target, environment):
    """Builds a program of the package in a folder, and gives its path."""
    command = ['cargo', 'build', '--offline', '--locked', '--quiet', '--release', '--target-dir',
               target, '--message-format', 'json-render-diagnostics', '--bin', name]
    return executable(run(command, folder, env=environment), name)


def build_apart(name, sources, line, say):
    """Builds a program that stands apart, by cargo, for any processor. Gives its path by that
    level."""
    folder = os.path.join(TOP, APART[name])
    say('this build is by cargo, and takes some seconds')
    target = Target(os.path.join(folder, 'target'), sources, line)
    target.clear(folder)
    paths = {ANY: cargo_build(name, folder, target.folder, clean_environment())}
    if sum_of_sources('apart') == sources:
        target.keep()
    return paths


def build_plain(crate, _, line, say):
    """Builds a program of plain Rust by cargo: for any processor, and on x86-64 for the third level
    too, side by side; or for the processor at hand alone, where that is asked for. Gives its paths
    by the levels."""
    say('cargo builds it in about half a minute, as plain Rust, which isn\'t proved'
        f'{hint("plain")}')
    run([sys.executable, '-E', '-s', '-S', os.path.join(TOP, 'tools', 'rust'), '--check'], TOP)
    of_cargo = sum_of_sources('cargo')
    target = Target(os.path.join(OUT, 'plain'), of_cargo, line)
    target.clear(TOP, Built(crate, 'plain').is_harmed())

    def build(of_level):
        flags = clean_environment()
        if of_level != ANY:
            flags['RUSTFLAGS'] = f'-C target-cpu={of_level} {WITHIN_32_BYTES}'
        return cargo_build(NAMES[crate], TOP, os.path.join(target.folder, of_level), flags)

    levels = [ANY, THIRD] if 'host: x86_64-' in line else [ANY]
    if os.environ.get('RECEIVER_PLAIN') == HERE and level() in levels:
        levels = [level()]
    paths = dict(side_by_side({it: [] for it in levels}, build, job_count()))
    if sum_of_sources('cargo') == of_cargo:
        target.keep()
    return paths
