"""Rows of seldomplough-proved, the package of the programs that `rt` has built."""
import os
import re
import shutil
import sys

from .commands import TOP, run, write
from .deb import MISSING, NEEDED, deb, line_of, lintian_path, with_commit

sys.path.insert(0, os.path.join(TOP, 'tools'))
from built import THIRD, level

PROGRAMS = {'receiver_cli': 'receiver', 'packer_cli': 'pack'}


def with_stand_in(folder):
    """A small checkout whose `rt` makes programs that can be in a package, and the PATH for it."""
    checkout = with_commit(folder)
    kit = checkout.add_rt('rattle-kit-1 for rows')
    for crate, called in PROGRAMS.items():
        plain = checkout.run('tools/build', crate, called, RECEIVER_PLAIN='1').said.rstrip('\n')
        shutil.copy(plain, os.path.join(kit, crate))
    return checkout, f'{kit}:{lintian_path(folder, 0)}'


def proved_py(checkout, path, to, **more):
    """The outcome of what puts the proved programs into a folder, which is new."""
    os.makedirs(to)
    return run([sys.executable, checkout.at('tools/package/proved.py'), to], checkout.folder,
               {'PATH': path, 'RECEIVER_PLAIN': None, **more})


def refusal(rows, name, checkout, path, why, **more):
    """A row in which there are no proved programs for a package: one line says why, no proof is
    started, and nothing is made."""
    to = os.path.join(checkout.folder, name)
    before = checkout.calls()
    outcome = proved_py(checkout, path, to, **more)
    faults = [str(outcome)[-300:]] * (outcome.status != 3 or outcome.errors != ''
                                      or not re.fullmatch(line_of(why) + '\n', outcome.said, re.M))
    faults += [f'{it} was made' for it in os.listdir(to)]
    rows.say(f'proved.py, {name}', faults + ['rt was called'] * (checkout.calls() != before))


def proved(rows, folder):
    """Where `rt` has built the programs of the sources as they are, a second package has these."""
    if not all(map(shutil.which, NEEDED)) or os.uname().machine != 'x86_64':
        return
    checkout, path = with_stand_in(folder)
    lost = 'what `rt` proved for receiver_cli isn\'t all kept here: `rt run .*'
    refusal(rows, 'nothing is proved', checkout, path, MISSING)
    for crate, called in PROGRAMS.items():
        checkout.prove(crate, called)
    refusal(rows, 'no proof is kept', checkout, path, lost)
    for crate in PROGRAMS:
        os.makedirs(checkout.at(f'crates/{crate}/out/incremental'))
    refusal(rows, 'a library is not kept', checkout, path, lost)
    write(checkout.at('crates/version/out/rlib/stamp'), '')
    refusal(rows, 'the plain build is chosen', checkout, path, 'RECEIVER_PLAIN is set',
            RECEIVER_PLAIN='1')
    write(os.path.join(folder, 'other', 'rt'), '#!/bin/sh\necho other\n', 0o755)
    refusal(rows, 'another rt', checkout, f'{folder}/other:{path}',
            'there is no `rt` of the Rattle kit')
    to = os.path.join(folder, 'built')
    outcome = proved_py(checkout, path, to)
    rows.say('proved.py, what ./receiver has built', [str(outcome)] * (outcome.status != 0))
    sums(rows, 'of ./receiver', checkout, to)
    of_ci(rows, checkout, path)
    with open(checkout.at('crates/packer_cli/src/main.rt'), 'a', encoding='utf-8') as file:
        file.write('\n// More.\n')
    refusal(rows, 'a source has changed', checkout, path, MISSING)


def of_ci(rows, checkout, path):
    """Both packages. The programs that `rt ci` left are for x86-64-v2. Those for the other level
    are built."""
    checkout.run('tools/build', '--keep')
    to, before = os.path.join(checkout.folder, 'both'), len(checkout.calls())
    os.makedirs(to)
    outcome = deb(checkout, to, PATH=path, RECEIVER_PLAIN=None)
    is_right = level() != THIRD or 'rt builds receiver for x86-64-v3' in outcome.said
    faults = [str(outcome)[-300:]] * (outcome.status != 0 or not is_right)
    faults += [f'{it}' for it in checkout.calls()[before:] if it[1] != 'run']
    made = sorted(os.listdir(to))
    wanted = ['seldomplough-proved_1.0.1_amd64.deb', 'seldomplough_1.0.1_amd64.deb']
    rows.say('tools/deb, both packages', faults + [f'{made}'] * (made != wanted))
    if made == wanted:
        of_proved(rows, checkout, os.path.join(to, made[0]))


def sums(rows, name, checkout, folder):
    """The sums of proved programs in a folder, with what they are of."""
    with open(os.path.join(folder, 'SHA256SUMS'), encoding='utf-8') as file:
        kit, of, *lines = file.read().splitlines()
    head = run(['git', 'rev-parse', 'HEAD'], checkout.top).said.strip()
    is_right = kit.endswith(' rattle-kit-1 for rows') and of.startswith(f'# of the revision {head}')
    rows.say(f'what the sums are of, {name}', [f'{kit} {of}'] * (not is_right))
    levels = [it for it in ('any', 'x86-64-v3') if os.path.isdir(os.path.join(folder, it))]
    names = sorted(f'{it}/{name}' for it in levels for name in ('pack', 'receiver'))
    checked = run(['sha256sum', '--check', '--strict', 'SHA256SUMS'], folder)
    rows.say(f'sums of proved programs, {name}', [str(checked)] * (checked.status != 0)
             + [f'{lines}'] * ([it.split()[1] for it in lines] != names or 'any' not in levels))


def of_proved(rows, checkout, package):
    """What the package of proved programs has: its names, sums with what they are of, and what it
    has compiled."""
    folder = checkout.folder
    said = run(['dpkg-deb', '-f', package, 'Package', 'Provides', 'Conflicts', 'Replaces'], folder)
    wanted = ('Package: seldomplough-proved\nProvides: seldomplough\nConflicts: seldomplough\n'
              'Replaces: seldomplough\n')
    rows.say('tools/deb, fields of the proved package', [said.said] * (said.said != wanted))
    root = os.path.join(folder, 'proved root')
    run(['dpkg-deb', '-x', package, root], folder)
    run(['dpkg-deb', '-e', package, os.path.join(root, 'control')], folder)
    sums(rows, 'of the package', checkout, os.path.join(root, 'usr/libexec/seldomplough'))
    with open(os.path.join(root, 'control', 'postinst'), encoding='utf-8') as file:
        text = file.read()
    rows.say('tools/deb, the proved package compiles its modules',
             [text] * ('py3compile -p seldomplough-proved\n' not in text))


ROWS = (proved,)
