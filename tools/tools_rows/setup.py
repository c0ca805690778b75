"""Rows of tools/setup, of .ci/run and of what names them. All that they ask or install by are
stand-ins."""
from __future__ import annotations

import os
import re
from typing import Any

from .commands import Outcome, refused, run, write
from .small_checkout import Checkout
from .stand_ins import INSTALL, Machine

DEBIAN_12 = 'rustc 1.63.0+dfsg1-2\nrustc-web 1.96.0+dfsg1-1~deb12u2\n'
DEBIAN_13 = 'rustc 1.85.0+dfsg3-1\n'
RUSTUP = r'curl [^\n]* https://sh\.rustup\.rs \| sh'


def to_build(rows: Any, folder: str) -> None:
    """What building needs is installed where it is missing, by what this system calls it."""
    rows.say('tools/setup, a new Rust', Machine(folder, rust='1.85.1').does_nothing())
    for name, known, packages in (('Debian 12', DEBIAN_12, 'rustc-web cargo-web'),
                                  ('Debian 13', DEBIAN_13, 'rustc cargo')):
        rows.say(f'tools/setup, {name}', Machine(folder, known=known).installs(packages))
        rows.say(f'tools/setup, {name} without lists',
                 Machine(folder, later=known).installs(packages, lines=3))
    old = Machine(folder, rust='1.84.1', known=DEBIAN_12)
    rows.say('tools/setup, an old Rust', old.installs('rustc-web cargo-web'))
    stale = Machine(folder, rust='1.84.1', known=DEBIAN_13)
    stale.write(states='rustc installed\ncargo installed\n')
    rows.say('tools/setup, packages of an old Rust', stale.installs('rustc cargo'))
    machine = Machine(folder, rust='1.95.0')
    machine.lacks('cc')
    rows.say('tools/setup, no C compiler', machine.installs('gcc libc6-dev'))
    machine = Machine(folder, rust='1.95.0')
    machine.lacks('python3')
    rows.say('tools/setup, no Python', machine.installs('python3'))
    machine = Machine(folder, known=DEBIAN_12)
    machine.lacks('cc', 'python3')
    rows.say('tools/setup, nothing', machine.installs('rustc-web cargo-web python3'))


def refusals(rows: Any, folder: str) -> None:
    """Where nothing can be installed one line says what to type."""
    rows.say('tools/setup, no root', Machine(folder, user=1000, known=DEBIAN_12).refuses(
        'this needs root: sudo apt-get install --no-install-recommends rustc-web cargo-web'))
    rows.say('tools/setup, no root and no lists',
             Machine(folder, user=1000).refuses('this needs root: sudo [^\n]*/tools/setup'))
    machine = Machine(folder, known=DEBIAN_12)
    machine.lacks('apt-get')
    rows.say('tools/setup, no apt-get', machine.refuses(f'[^\n]*no apt-get[^\n]* {RUSTUP}'))
    machine = Machine(folder, rust='1.85.0')
    machine.lacks('dpkg-query')
    rows.say('tools/setup --tests, no dpkg-query',
             machine.refuses('[^\n]*no dpkg-query[^\n]*CONTRIBUTING.md[^\n]*', '--tests'))
    for name, known in ('no Rust', ''), ('an old Rust', 'rustc 1.63.0+dfsg1-2\n'):
        outcome = Machine(folder, known=known).run('tools/setup')
        outcome.said = outcome.said.replace('setup: apt-get asks which packages there are\n', '')
        rows.say(f'tools/setup, apt knows of {name}',
                 refused(outcome, f'setup: no package [^\n]*{RUSTUP}', 1))
    for call in 'update', 'install':
        machine = Machine(folder, known=DEBIAN_12)
        machine.write(fails=call)
        outcome = machine.run('tools/setup')
        is_right = (outcome.status, outcome.errors) == (1, f'setup: apt-get {call} failed\n')
        rows.say(f'tools/setup, apt-get {call} fails', [] if is_right else [str(outcome)[-300:]])
    for words in ['x'], ['--test'], ['']:
        rows.say(f'tools/setup {words}',
                 Machine(folder).refuses('there is no option .*', *words, status=2))
    rows.say('tools/setup, two words',
             Machine(folder).refuses('[^\n]* 2 words [^\n]*', '--tests', 'x', status=2))


def names_of_tests(folder: str) -> list[str]:
    """The packages that `tools/setup --tests` has installed where there are none."""
    machine = Machine(folder, rust='1.95.0', known=DEBIAN_12)
    machine.run('tools/setup', '--tests')
    return machine.calls()[-1][len(INSTALL):].split()


def to_test(rows: Any, folder: str) -> None:
    """What the tests use is of packages alone, and the gate begins with it."""
    names = names_of_tests(folder)
    faults = [f'{it} is missing' for it in ('mandoc', 'munge', 'cargo-web', 'rust-web-src')
              if it not in names]
    rows.say('tools/setup --tests, the names', faults)
    machine = Machine(folder, rust='1.95.0', known=DEBIAN_12)
    machine.write(states=''.join(f'{it} installed\n' for it in names))
    rows.say('tools/setup --tests, all is installed', machine.does_nothing('--tests'))
    machine.write(states=''.join(f'{it} installed\n' for it in names[1:]))
    rows.say('tools/setup --tests, one is unknown', machine.installs(' '.join(names), '--tests'))
    machine.write(states=''.join(f'{it} installed\n' for it in names[1:])
                  + f'{names[0]} config-files\n', calls='')
    rows.say('tools/setup --tests, one was removed', machine.installs(' '.join(names), '--tests'))
    outcome = machine.run('.ci/run')
    rows.say('.ci/run', [] if outcome.said == 'gate --setup\n' else [str(outcome)[-300:]])


def not_compiled(rows: Any, folder: str) -> None:
    """While dpkg installs, a file has Python's packages compile no modules that nothing here uses,
    by lines as py3compile reads them. It doesn't stay."""
    machine = Machine(folder, known=DEBIAN_12)
    machine.run('tools/setup')
    with open(machine.at('hooks'), encoding='utf-8') as file:
        text = file.read().replace('/usr/share/python3', folder)
    hooks = dict(re.findall(r'DPkg::(\w+)-Invoke::=((?:.|\n)*?)\n(?=DPkg|\Z)', text))
    said = run(['sh', '-ec', f'{hooks["Pre"]}\ncat bcep/*\n{hooks["Post"]}\nls bcep'], folder)
    lines = (f'dir|-|/usr/lib/python3/dist-packages/{it}\n' for it in ('azure', 'sympy'))
    is_right = said == Outcome(0, ''.join(lines), '')
    rows.say('tools/setup, modules that are not compiled', [] if is_right else [str(said)])


def named(rows: Any, folder: str) -> None:
    """Where there is nothing to build with, ./receiver and ./pack name tools/setup."""
    checkout = Checkout(folder)
    for program in 'receiver', 'pack':
        outcome = checkout.run(program, PATH=checkout.bare)
        rows.say(f'./{program} without cargo',
                 refused(outcome, f'{program}: [^\n]*`cargo`[^\n]*: tools/setup [^\n]*', 1))
        write(os.path.join(folder, 'old', 'rustc'), '#!/bin/sh\necho rustc 1.84.1 x\n', 0o755)
        write(os.path.join(folder, 'old', 'cargo'), '#!/bin/sh\nexit 9\n', 0o755)
        outcome = checkout.run(program, PATH=f'{os.path.join(folder, "old")}:{checkout.bare}')
        wanted = f'{program}: [^\n]*1.85[^\n]* rustc 1.84.1: tools/setup [^\n]*'
        rows.say(f'./{program}, an old Rust', refused(outcome, wanted, 1))
    os.remove(os.path.join(checkout.bare, 'python3'))
    for program in 'receiver', 'pack':
        outcome = checkout.run(program, PATH=checkout.bare)
        rows.say(f'./{program} without Python',
                 refused(outcome, f'{program}: [^\n]*`python3`[^\n]*: tools/setup [^\n]*', 1))


ROWS = (to_build, refusals, to_test, not_compiled, named)
