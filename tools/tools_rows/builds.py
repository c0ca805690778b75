"""Rows of ./receiver, ./pack and tools/build: what makes a build new, and what may turn one."""
import os
import re
import shutil

import built

from .commands import changes, contents, refused, run, write
from .small_checkout import LIBRARY, Checkout

PROGRAM = 'out/plain/%s/release/seldomplough-receiver'

# What is said where the sources as Rust are those of other sources.
STALE = "rust: rust/version/mod.rs isn't what tools/rust writes\n"

# What a processor needs for the higher of two levels.
FLAGS = 'tools/package/x86-64-v3.flags'

# What would have cargo build elsewhere, for another processor, in another way, or not at all.
TURNED = {
    'CARGO_BUILD_TARGET': 'no-such-target', 'CARGO_ENCODED_RUSTFLAGS': '--no-such-flag',
    'CARGO_BUILD_RUSTFLAGS': '--no-such-flag', 'RUSTFLAGS': '--no-such-flag',
    'CARGO_PROFILE_RELEASE_LTO': 'no-such-lto', 'CARGO_BUILD_RUSTC': '/nowhere',
    'RUSTC': '/nowhere', 'RUSTC_WRAPPER': '/nowhere', 'RUSTC_WORKSPACE_WRAPPER': '/nowhere',
    'CARGO_BUILD_RUSTC_WRAPPER': '/nowhere',
}


def date_all(top, seconds):
    """Gives all files of a folder the same time."""
    for at, _, files in os.walk(top):
        for name in files:
            os.utime(os.path.join(at, name), (seconds, seconds))


def variables(rows, folder):
    """Variables that turn cargo's builds turn none here."""
    if not shutil.which('cargo'):
        return
    checkout = Checkout(folder)
    other = {name: os.path.join(folder, name)
             for name in ('CARGO_TARGET_DIR', 'CARGO_BUILD_TARGET_DIR', 'CARGO_BUILD_BUILD_DIR')}
    rows.say('./receiver with variables of cargo', checkout.prints('1.0.1', **TURNED, **other)
             + [f'{name} was taken' for name, path in other.items() if os.path.exists(path)])
    checkout.set_version('1.0.2')
    rows.say('./receiver with CARGO_TARGET_DIR, later',
             checkout.prints('1.0.2', CARGO_TARGET_DIR=other['CARGO_TARGET_DIR']))
    rows.say('./receiver without it, later', checkout.prints('1.0.2'))


def by_content(rows, folder):
    """A program is what its sources make, whatever the times of files are."""
    if not shutil.which('cargo'):
        return
    checkout = Checkout(folder)
    rows.say('./receiver, the first build', checkout.prints('1.0.1'))
    checkout.set_version('1.0.2')
    os.utime(checkout.at(LIBRARY), (1e9, 1e9))
    rows.say('./receiver, a source with an older time', checkout.prints('1.0.2'))
    # What is newer by its time alone needs no cargo.
    date_all(checkout.at('crates'), 4e9)
    rows.say('./receiver, sources of a future time',
             checkout.prints('1.0.2', PATH=checkout.bare))
    # As where the clock was put back after the build.
    date_all(checkout.at('out/plain'), 4e9)
    checkout.set_version('1.0.3')
    rows.say('./receiver, after a build of a future time', checkout.prints('1.0.3'))
    with open(checkout.at('tools/rust_text.py'), 'a', encoding='utf-8') as file:
        file.write("\n\nREWRITTEN.append((re.compile('1[.]0[.]3'), '7.0.0'))\n")
    outcome = checkout.run('receiver')
    is_told = outcome.status == 1 and not outcome.said and STALE in outcome.errors
    rows.say('./receiver, another tools/rust_text.py', [str(outcome)[-300:]] * (not is_told))
    checkout.write_rust()
    rows.say('./receiver, written by another tools/rust_text.py', checkout.prints('7.0.0'))
    moved = os.path.join(folder, 'moved here')
    os.rename(checkout.top, moved)
    checkout.top = moved
    rows.say('./receiver of a checkout that was moved',
             checkout.prints('7.0.0', PATH=checkout.bare))
    shutil.copy('/bin/true', path_of(checkout))
    rows.say('./receiver, another program in its place', checkout.prints('7.0.0'))


def path_of(checkout, **more):
    """The path of the program for the processor at hand, as tools/build prints it."""
    return checkout.run('tools/build', 'receiver_cli', 'receiver', **more).said.rstrip('\n')


def levels(rows, folder):
    """On x86-64 one build makes two programs, and a start chooses by what the processor has."""
    if not shutil.which('cargo') or os.uname().machine != 'x86_64':
        return
    checkout = Checkout(folder)
    rows.say('./receiver, the first build of two', checkout.prints('1.0.1'))
    least, third = (checkout.at(PROGRAM % it) for it in ('any', 'x86-64-v3'))
    rows.say('./receiver, its programs',
             [f'{path} is missing' for path in (least, third) if not os.access(path, os.X_OK)])
    with open(checkout.at(FLAGS), encoding='utf-8') as file:
        needed = file.read()
    # A processor has what nothing needs, none has the second, and the third is part of one.
    for name, text, wanted in (('all', '', third), ('none', f'{needed} no_such_flag', least),
                               ('part of one', f'{needed} vx2', least)):
        write(checkout.at(FLAGS), text)
        path = path_of(checkout, PATH=checkout.bare)
        rows.say(f'tools/build, a processor that has {name}',
                 [f'it gives {path!r}, not {wanted}'] * (path != wanted))
        rows.say(f'./receiver, a processor that has {name}',
                 checkout.prints('1.0.1', PATH=checkout.bare))
    os.remove(least)
    rows.say('./receiver, one of two programs is gone, without cargo',
             refused(checkout.run('receiver', PATH=checkout.bare), 'receiver: .*`cargo`.*', 1))
    rows.say('./receiver, one of two programs is gone', checkout.prints('1.0.1'))
    rows.say('./receiver, it has come again', checkout.prints('1.0.1', PATH=checkout.bare))


def at_hand(rows, folder):
    """A build for the processor at hand alone makes one program, which any start there takes."""
    if not shutil.which('cargo') or os.uname().machine != 'x86_64':
        return
    checkout = Checkout(folder)
    path = path_of(checkout, RECEIVER_PLAIN='here')
    wanted = PROGRAM % built.level()
    made = [it for it in (PROGRAM % built.ANY, PROGRAM % built.THIRD)
            if os.path.exists(checkout.at(it))]
    rows.say('tools/build, for the processor at hand alone',
             [f'it made {made}, not {wanted}'] * (made != [wanted])
             + [f'it gives {path!r}'] * (path != checkout.at(wanted)))
    for more in ({}, {'RECEIVER_PLAIN': '1'}, {'RECEIVER_PLAIN': 'here'}):
        rows.say(f'./receiver, built for the processor at hand alone, with {more}',
                 checkout.prints('1.0.1', PATH=checkout.bare, **more))
    checkout.set_version('1.0.2')
    rows.say('./receiver, built for more again', checkout.prints('1.0.2'))
    made = {PROGRAM % it for it in (built.ANY, built.THIRD)}
    rows.say('./receiver, its programs again',
             [f'{it} is missing' for it in made if not os.path.exists(checkout.at(it))])


def proved_for_more(rows, folder):
    """A proved program for a higher level than the processor at hand has is never started."""
    checkout = Checkout(folder)
    checkout.add_rt('rattle-kit-1')
    with open(checkout.at(FLAGS), encoding='utf-8') as file:
        needed = file.read()
    write(checkout.at(FLAGS), '')
    checkout.prove()
    rows.say('./receiver, proved, the processor has all',
             [] if checkout.run('receiver', PATH=checkout.bare).said == 'proved\n' else ['not run'])
    write(checkout.at(FLAGS), f'{needed} no_such_flag')
    rows.say('./receiver, proved for a higher level, without rt and cargo',
             refused(checkout.run('receiver', PATH=checkout.bare), 'receiver: .*`cargo`.*', 1))
    checkout.prove()
    outcome = checkout.run('receiver')
    rows.say('./receiver, proved for a higher level', [] if outcome.said == 'proved\n'
             else [str(outcome)[-300:]])
    write(checkout.at(FLAGS), '')
    rows.say('./receiver, proved for a lower level',
             [] if checkout.run('receiver', PATH=checkout.bare).said == 'proved\n' else ['not run'])


def failures(rows, folder):
    """A build that fails says why, in the compiler's words, and that it failed."""
    if not shutil.which('cargo'):
        return
    checkout = Checkout(folder)
    write(checkout.at('crates/receiver_cli/src/main.rt'), 'fn main() {\n    nothing();\n}\n')
    checkout.write_rust()
    outcome = checkout.run('receiver')
    faults = [] if outcome.status == 1 and not outcome.said else [f'status {outcome.status}']
    for text in 'cannot find function `nothing`', 'receiver: it could not be built':
        faults += [f'{text} is missing in {outcome.errors[-200:]!r}'] * (text not in outcome.errors)
    faults += ['a traceback'] * ('Traceback' in outcome.errors)
    rows.say('./receiver, a source that does not compile', faults)
    colon = Checkout(folder, 'a:b')
    outcome = colon.run('receiver')
    lines = [it for it in outcome.errors.split('\n') if it.startswith('receiver: ')]
    rows.say('./receiver in a folder with a colon',
             ([] if outcome.status == 1 else [f'status {outcome.status}'])
             + [f'{lines}'] * (not any('colon' in it for it in lines)))


def nothing_to_build_with(rows, folder):
    """Without rt and cargo one line says what is needed; nor can a folder be built in that can't be
    written."""
    checkout = Checkout(folder)
    rows.say('./receiver without rt and cargo',
             refused(checkout.run('receiver', PATH=checkout.bare), 'receiver: .*`cargo`.*', 1))
    shutil.rmtree(checkout.at('out'), ignore_errors=True)
    write(checkout.at('out'), '')
    rows.say('./receiver with a file in the place of out',
             refused(checkout.run('receiver'), 'receiver: .*/out: .*', 1))
    os.remove(checkout.at('out'))
    if os.geteuid() == 0 and shutil.which('setpriv'):
        os.chmod(folder, 0o755)
        nobody = ['setpriv', '--reuid', '65534', '--regid', '65534', '--clear-groups']
        command = [*nobody, checkout.at('receiver')]
        outcome = run(command, folder, checkout.environment(PATH=os.defpath, HOME='/'))
    else:
        os.chmod(checkout.top, 0o555)
        outcome = checkout.run('receiver')
        os.chmod(checkout.top, 0o755)
    rows.say('./receiver that nobody built, where nothing can be written',
             refused(outcome, "receiver: it isn't built yet, .*Permission denied", 1))
    limited = ['bash', '-c', 'ulimit -f 0; exec ./receiver']
    rows.say('./receiver, no room on the disk',
             refused(run(limited, checkout.top, checkout.environment()), 'receiver: .*', 1))


def words(rows, folder):
    """Words of tools/build."""
    checkout = Checkout(folder)
    for given in ([], ['receiver_cli'], ['nothing', 'receiver'], ['../x', 'x'], ['a', 'b', 'c'],
                  ['--proved'], ['--proved', 'maker', 'maker'], ['--answer', 'receiver_cli', 'x'],
                  ['--proved', '--answer', 'receiver_cli', 'receiver', '-h']):
        before = contents(folder)
        faults = refused(checkout.run('tools/build', *given), 'build: .*')
        rows.say(f'tools/build {given}', faults + changes(before, contents(folder)))
    for given in '-h', '--help':
        outcome = checkout.run('tools/build', given)
        is_told = outcome.status == 0 and 'usage: build' in outcome.said and not outcome.errors
        rows.say(f'tools/build {given}', [] if is_told else [str(outcome)[:200]])


def other_rt(rows, folder):
    """Another `rt` in the PATH is never asked for a start, and proves nothing."""
    if not shutil.which('cargo'):
        return
    checkout = Checkout(folder)
    rt = os.path.join(folder, 'other', 'rt')
    path = f'{os.path.dirname(rt)}:{checkout.path}'
    for version, status in enumerate((0, 1), 2):
        write(rt, f'#!/bin/sh\necho "$@" >> "$0.calls"\necho rt 4.{status}\nexit {status}\n',
              0o755)
        checkout.set_version(f'{version}.0.0')
        rows.say(f'./receiver with another rt of status {status}',
                 checkout.prints(f'{version}.0.0', PATH=path)
                 + ['it was asked'] * os.path.exists(f'{rt}.calls'))
        rows.say(f'tools/build --proved with another rt of status {status}',
                 refused(checkout.prove(PATH=path), f'receiver: .*{rt}, isn\'t the Rattle kit\'s',
                         1))
        os.remove(f'{rt}.calls')
    rows.say('tools/build --proved with no rt',
             refused(checkout.prove(), 'receiver: `rt` of the Rattle kit .*not in the PATH', 1))


def unasked(rows, folder):
    """A start proves nothing that wasn't asked for: cargo builds, and one line names `make proved`,
    once. Without cargo this line alone comes."""
    checkout = Checkout(folder)
    checkout.add_rt('rattle-kit-1')
    kit = os.path.join(folder, 'kit', 'bin')
    wanted = 'receiver: .*`cargo` .*`make proved` builds the proved one'
    rows.say('./receiver with the kit and no cargo',
             refused(checkout.run('receiver', PATH=f'{kit}:{checkout.bare}'), wanted, 1))
    if shutil.which('cargo'):
        for when, line in (('first', "receiver: .*isn't proved; `make proved` .*\n"),
                           ('later', '')):
            outcome = checkout.run('receiver')
            is_right = (outcome.said == 'receiver 1.0.1\n'
                        and re.fullmatch(line, outcome.errors) is not None)
            rows.say(f'./receiver with the kit and cargo, {when}',
                     [] if is_right else [str(outcome)[-300:]])
    rows.say('./receiver with the kit, what was proved', [str(it) for it in checkout.calls()])


def made_proved(rows, folder):
    """`make proved` has both programs proved, and then these start. `make` alone says so."""
    checkout = Checkout(folder)
    checkout.add_rt('rattle-kit-1')
    if not shutil.which('make'):
        return
    path = f'{checkout.path}:{os.path.dirname(shutil.which("make"))}'
    outcome = run(['make'], checkout.top, checkout.environment(PATH=path))
    rows.say('make', [] if outcome.said.startswith('make proved ') and not checkout.calls()
             else [str(outcome)])
    outcome = run(['make', 'proved'], checkout.top, checkout.environment(PATH=path))
    rows.say('make proved', [str(outcome)[-300:]] * (outcome.status != 0))
    for program in 'receiver', 'pack':
        outcome = checkout.run(program)
        is_silent = (outcome.said, outcome.errors) == ('proved\n', '')
        rows.say(f'./{program} after make proved', [] if is_silent else [str(outcome)[-300:]])


def the_kit(rows, folder):
    """A kit's `rt` proves where that is asked for, and says how long it takes. Its program starts
    before that of cargo, also where there is no kit, or another."""
    checkout = Checkout(folder)
    home = checkout.add_rt('rattle-kit-1')
    outcome = checkout.prove()
    wanted = r'receiver: .* about \d+ to \d+ minutes on \d+ processors?'
    is_told = re.fullmatch(wanted, outcome.errors.split('\n')[0]) is not None
    rows.say('tools/build --proved', [] if outcome.status == 0 and is_told else [str(outcome)])
    count = len(checkout.calls())
    other = write(os.path.join(folder, 'other', 'rt'), '#!/bin/sh\necho other\n', 0o755)
    for name, path in (('the kit', checkout.path), ('no rt', checkout.bare),
                       ('another rt', f'{os.path.dirname(other)}:{checkout.path}')):
        outcome = checkout.run('receiver', PATH=path)
        is_silent = (outcome.said, outcome.errors) == ('proved\n', '')
        rows.say(f'./receiver with {name}, proved', [] if is_silent else [str(outcome)[-300:]])
    if shutil.which('cargo'):
        rows.say('./receiver, proved, with RECEIVER_PLAIN=1',
                 checkout.prints('1.0.1', RECEIVER_PLAIN='1'))
    write(os.path.join(home, 'line'), 'rattle-kit-2')
    outcome = checkout.run('receiver')
    faults = [str(outcome)[-300:]] * ((outcome.said, outcome.errors) != ('proved\n', ''))
    faults += ['it was built again'] * (len(checkout.calls()) != count)
    rows.say('./receiver with another version of the kit', faults)
    checkout.prove()
    rows.say('tools/build --proved with another version of the kit',
             ['it was not built by it'] * (len(checkout.calls()) == count))
    of_ci(rows, checkout)


def of_ci(rows, checkout):
    """What `rt ci` has made is taken as built."""
    checkout.set_version('1.0.2')
    count = len(checkout.calls())
    kept = checkout.run('tools/build', '--keep')
    faults = [str(kept)[-300:]] * bool(kept.status or kept.said or kept.errors)
    outcome = checkout.run('receiver')
    faults += [str(outcome)[-300:]] * (outcome.said != 'proved\n')
    faults += ['it was built again'] * (len(checkout.calls()) != count)
    rows.say('tools/build --keep', faults)
    rows.say('tools/build --keep without the kit',
             refused(checkout.run('tools/build', '--keep', PATH=checkout.bare), 'build: .*', 1))


def answers(rows, folder):
    """Help and version need no build, and are those of the program where it is built."""
    checkout = Checkout(folder)
    checkout.add_rt('rattle-kit-1')
    stored = {'receiver': 'The stored\nhelp.\n', 'pack': 'Another.\n'}
    for program, text in stored.items():
        write(checkout.at(f'docs/{program}-help.txt'), text)
    before = contents(folder)
    for program, text in stored.items():
        for option in '--help', '-h', '--version', '-V':
            wanted = f'{program} 1.0.1\n' if option.lower() in ('--version', '-v') else text
            outcome = checkout.run(program, option)
            rows.say(f'./{program} {option}, not built',
                     [str(outcome)] * ((outcome.status, outcome.said, outcome.errors)
                                       != (0, wanted, '')))
    outcome = run(['bash', '-c', './receiver --help > /dev/full'], checkout.top,
                  checkout.environment())
    rows.say('./receiver --help > /dev/full, not built',
             refused(outcome, 'receiver: standard output: No space left on device', 1))
    rows.say('help and version, what they leave', changes(before, contents(folder)))
    checkout.prove()
    outcome = checkout.run('receiver', '--help')
    rows.say('./receiver --help, built', [str(outcome)] * (outcome.said != 'proved\n'))


def other_users(rows, folder):
    """What one user has built starts for another, who has another rustc, or one that fails, and can
    write nothing. What isn't of the sources as they are he can't build."""
    if not shutil.which('cargo') or os.geteuid() != 0 or not shutil.which('setpriv'):
        return
    checkout = Checkout(folder)
    checkout.run('receiver')
    os.chmod(folder, 0o755)
    other, fails = os.path.join(folder, 'other'), os.path.join(folder, 'fails')
    for name in 'rustc', 'cargo':
        write(os.path.join(other, name), '#!/bin/sh\necho rustc 1.99.0\n', 0o755)
        write(os.path.join(fails, name), '#!/bin/sh\nexit 9\n', 0o755)
    nobody = [shutil.which('setpriv'), '--reuid', '65534', '--regid', '65534', '--clear-groups']

    def started(fake):
        return run([*nobody, checkout.at('receiver')], folder,
                   checkout.environment(PATH=f'{fake}:{os.defpath}', HOME='/'))

    for fake in other, fails:
        outcome = started(fake)
        is_right = (outcome.status, outcome.said, outcome.errors) == (0, 'receiver 1.0.1\n', '')
        rows.say(f'./receiver that another user built, his rustc {os.path.basename(fake)}',
                 [] if is_right else [str(outcome)[-300:]])
    checkout.set_version('1.0.2')
    rows.say('./receiver that another user built of other sources',
             refused(started(other), "receiver: it isn't built yet, .*Permission denied", 1))


def odd_places(rows, folder):
    """Standard error that is closed or full stops no build. Nor does a path of odd letters, or what
    an editor leaves beside a source."""
    for number, stream in enumerate(('2>&-', '2>/dev/full', '<&-')):
        checkout = Checkout(folder, f'kit{number}')
        checkout.add_rt('rattle-kit-1')
        for command in 'tools/build --proved receiver_cli receiver', './receiver':
            outcome = run(['bash', '-c', f'exec {command} {stream}'], checkout.top,
                          checkout.environment())
            is_right = outcome.status == 0 and outcome.said.endswith(
                'proved\n' if command == './receiver' else '/receiver_cli\n')
            rows.say(f'{command} {stream}', [] if is_right else [str(outcome)[-300:]])
    for name in 'a b', "it's $(x) `y` \\", os.fsdecode(b'a\xffb'), '-x', 'a\nb', '\u00fc':
        checkout = Checkout(folder, name)
        checkout.add_rt('rattle-kit-1')
        checkout.prove()
        outcome = checkout.run('receiver')
        rows.say(f'./receiver in {name!r}',
                 [] if outcome.said == 'proved\n' else [str(outcome)[-300:]])
    checkout = Checkout(folder, 'edited')
    os.symlink('someone@there.1', checkout.at('crates/version/src/.#lib.rt'))
    shutil.copy(checkout.at(LIBRARY), checkout.at(f'{LIBRARY}~'))
    if shutil.which('cargo'):
        rows.say("./receiver beside an editor's files", checkout.prints('1.0.1'))


def environments(rows, folder):
    """A program that is built starts in any environment, and soon."""
    checkout = Checkout(folder)
    checkout.add_rt('rattle-kit-1')
    checkout.prove()
    evil = os.path.dirname(write(os.path.join(folder, 'evil', 'hashlib.py'), 'raise SystemExit(9)'))
    for more in ({'PYTHONSAFEPATH': '1'}, {'PYTHONPATH': evil}, {'PYTHONHOME': '/nowhere'},
                 {'PYTHONSTARTUP': '/nowhere'}, {'HOME': None}, {'TMPDIR': '/nowhere'},
                 {'TMPDIR': os.path.join(folder, 'a b')}, {'CDPATH': folder},
                 {'LC_ALL': 'C', 'PYTHONUTF8': '0'}, {'PYTHONWARNINGS': 'error'}):
        outcome = checkout.run('receiver', **more)
        is_silent = (outcome.status, outcome.said, outcome.errors) == (0, 'proved\n', '')
        rows.say(f'./receiver with {more}', [] if is_silent else [str(outcome)[-300:]])
    os.symlink(checkout.at('receiver'), os.path.join(folder, 'linked'))
    outcome = run([os.path.join(folder, 'linked')], '/', checkout.environment())
    rows.say('./receiver by a link', [] if outcome.said == 'proved\n' else [str(outcome)[-300:]])


ROWS = (variables, by_content, levels, at_hand, proved_for_more, failures, nothing_to_build_with,
        words, other_rt, unasked, made_proved, the_kit, answers, other_users, odd_places,
        environments)
