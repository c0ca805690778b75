"""Rows of locks and signals: builds at once, builds that are killed, and what they leave."""
import fcntl
import os
import shutil
import signal
import subprocess
import sys
import time

from hanging import HANGS

from .commands import TOP, run, write
from .small_checkout import Checkout

# What has the kit prove and build a program.
PROVE = ('tools/build', '--proved', 'receiver_cli', 'receiver')

# A program to which a signal comes while one of its threads starts a command: it has begun, and is
# not noted yet. It prints the command's number, and ends by the signal.
STARTS = f"""
import os, signal, subprocess, sys, threading, time
sys.path.insert(0, {os.path.join(TOP, 'tools')!r})
import children

class Slow(subprocess.Popen):
    def __init__(self, *words, **more):
        super().__init__(*words, **more)
        print(self.pid, flush=True)
        os.kill(os.getpid(), signal.SIGTERM)
        time.sleep(1)

subprocess.Popen = Slow
children.end_with_signals()
command = ['sleep', '{2 * HANGS}'], '/'
threading.Thread(target=children.run, args=command, daemon=True).start()
try:
    time.sleep({HANGS})
except children.Ended as ended:
    signal.signal(ended.args[0], signal.SIG_DFL)
    os.kill(os.getpid(), ended.args[0])
"""


def until(holds):
    """Waits until a condition holds. Gives whether it does."""
    last = time.monotonic() + HANGS
    while not holds() and time.monotonic() < last:
        time.sleep(0.05)
    return holds()


def is_alive(process):
    """Whether a process runs, by its number."""
    try:
        with open(f'/proc/{process}/stat', encoding='utf-8') as file:
            return file.read().rsplit(')', 1)[1].split()[0] != 'Z'
    except OSError:
        return False


def rooms(checkout):
    """The rooms of builds and of edits in a checkout."""
    return sorted(it for it in os.listdir(checkout.at('.git'))
                  if it.startswith(('crate-', 'edits-')))


def with_kit(folder, waits):
    """A small checkout with a kit, whose proofs wait where they should."""
    checkout = Checkout(folder)
    home = checkout.add_rt('rattle-kit-1')
    if waits:
        write(os.path.join(home, 'waits'), '')
    return checkout, os.path.join(home, 'waits')


def no_lock(rows, folder):
    """A program that is built needs no lock, and who can only read the sources can hold none that a
    build waits for."""
    checkout, _ = with_kit(folder, False)
    checkout.prove()
    held = [open(checkout.at(name), encoding='utf-8')
            for name in ('tools/build', 'out/lock.proved')]
    for file in held:
        fcntl.flock(file, fcntl.LOCK_EX)
    outcome = checkout.run('receiver')
    rows.say('./receiver, built, where others hold locks',
             [] if outcome.said == 'proved\n' else [str(outcome)])
    mode = os.stat(checkout.at('out/lock.proved')).st_mode & 0o777
    rows.say('the lock of a build', [f'its mode is {mode:o}'] * (mode != 0o600))
    held.pop().close()
    folders = [os.open(checkout.at(name), os.O_RDONLY) for name in ('.', 'out', 'tools', 'crates')]
    for it in folders:
        fcntl.flock(it, fcntl.LOCK_EX)
    outcome = checkout.prove('packer_cli', 'pack')
    rows.say('tools/build, not built, where a reader holds locks of sources',
             [str(outcome)] * (outcome.status != 0))
    for it in folders:
        os.close(it)
    held.pop().close()


def waiting(rows, folder):
    """A build that waits for another says so at once, and goes on where that ends. One by cargo
    waits for no proof."""
    checkout, waits = with_kit(folder, True)
    first = checkout.start(*PROVE)
    until(checkout.calls)
    if shutil.which('cargo'):
        rows.say('./receiver while it is proved', checkout.prints('1.0.1'))
    second = checkout.start(*PROVE)
    said = second.stderr.readline()
    faults = [f'it said {said!r}'] * ('waits' not in said or 'receiver' not in said)
    os.remove(waits)
    os.kill(int(checkout.calls()[0][0]), signal.SIGTERM)
    first.communicate(timeout=HANGS)
    lines, _ = second.communicate(timeout=HANGS)
    faults += [f'it printed {lines!r}'] * (not lines.endswith('/out/receiver_cli\n'))
    rows.say('tools/build twice at once', faults)


def end_of(rows, name, checkout, started, stop, is_room_gone):
    """A row in which a build that has begun is ended, and its prover has to end too."""
    until(lambda: len(checkout.calls()) > 0)
    prover = int(checkout.calls()[-1][0])
    stop()
    faults = ['its prover goes on'] * (not until(lambda: not is_alive(prover)))
    if is_alive(prover):
        os.kill(prover, signal.SIGKILL)
    try:
        started.communicate(timeout=HANGS)
    except subprocess.TimeoutExpired:
        started.kill()
        faults.append('it goes on itself')
    if is_room_gone:
        faults += [f'{rooms(checkout)} stay'] * (not until(lambda: not rooms(checkout)))
    rows.say(name, faults)


def signals(rows, folder):
    """A signal to a build ends all that it has started, and its rooms."""
    for number in signal.SIGTERM, signal.SIGINT, signal.SIGHUP:
        home = os.path.join(folder, str(int(number)))
        checkout, _ = with_kit(home, True)
        started = checkout.start(*PROVE)
        end_of(rows, f'tools/build, {number.name}', checkout, started,
               lambda: started.send_signal(number), True)
        wrong = started.returncode != -number
        rows.say(f'tools/build, {number.name}, its status',
                 [f'it is {started.returncode}'] * wrong)
    checkout, _ = with_kit(os.path.join(folder, 'waiting'), True)
    write(checkout.at('waits'), f'#!/bin/bash\npath="$(exec {" ".join(PROVE)})"\necho "$path"\n',
          0o755)
    started = checkout.start('waits')
    end_of(rows, 'tools/build, SIGTERM to who waits for it', checkout, started, started.terminate,
           True)


def signals_again(rows, folder):
    """Signals that come while a build clears up after the first one change nothing: as where a
    whole process group gets one, and who waits for the build ends by it."""
    checkout, _ = with_kit(folder, True)
    # It takes some time to clear them.
    for number in range(3000):
        write(checkout.at(f'crates/version/data/{number}'), '')
    started = checkout.start(*PROVE)

    def stop():
        while started.poll() is None:
            started.send_signal(signal.SIGTERM)
            time.sleep(0.001)

    end_of(rows, 'tools/build, SIGTERM again and again', checkout, started, stop, True)


def signal_to_cargo(rows, folder):
    """A signal to a build by cargo ends what cargo has started. So does one to ./receiver alone."""
    for words in ('tools/build', 'receiver_cli', 'receiver'), ('receiver',):
        of_cargo(rows, os.path.join(folder, words[0]), words)


def of_cargo(rows, folder, words):
    """The row of what is started by these words."""
    checkout = Checkout(folder)
    fake, note = os.path.join(folder, 'fake'), os.path.join(folder, 'number')
    write(os.path.join(fake, 'rustc'), '#!/bin/sh\necho rustc 1.85.0\n', 0o755)
    write(os.path.join(fake, 'cargo'), '#!/bin/sh\n[ "$1" = build ] || exit 0\n'
          f'sleep {2 * HANGS} & echo $! > {note}.new; mv {note}.new {note}; wait\n', 0o755)
    started = checkout.start(*words, PATH=f'{fake}:{checkout.bare}:{os.defpath}')
    faults = ['it has not begun'] * (not until(lambda: os.path.exists(note)))
    started.terminate()
    started.communicate(timeout=HANGS)
    with open(note, encoding='utf-8') as file:
        child = int(file.read())
    faults += ['it goes on'] * (not until(lambda: not is_alive(child)))
    rows.say(f'{words[0]} by cargo, SIGTERM', faults)


def signal_at_start(rows, folder):
    """A signal that comes while a thread starts a command ends this too."""
    outcome = run([sys.executable, '-B', '-c', STARTS], folder)
    faults = [str(outcome)] * (outcome.status != -signal.SIGTERM)
    command = int(outcome.said)
    if not until(lambda: not is_alive(command)):
        os.kill(command, signal.SIGKILL)
        faults.append('the command goes on')
    rows.say('a signal while a command starts', faults)


def killed(rows, folder):
    """What a build leaves that is killed is cleared by the next one, and nothing else."""
    checkout, waits = with_kit(folder, True)
    started = checkout.start(*PROVE)
    end_of(rows, 'tools/build, SIGKILL', checkout, started, started.kill, False)
    os.makedirs(checkout.at('.git/edits-left/crates'))
    for name in 'crate-locked', 'crate-used', 'objects':
        os.makedirs(checkout.at(f'.git/{name}'))
    os.makedirs(os.path.join(folder, 'outside', 'kept'))
    os.symlink(os.path.join(folder, 'outside'), checkout.at('.git/crate-link'))
    locked = os.open(checkout.at('.git/crate-locked'), os.O_RDONLY)
    fcntl.flock(locked, fcntl.LOCK_EX)
    os.makedirs(checkout.at('.git/crate-used/crates'))
    using = subprocess.Popen(['sleep', str(2 * HANGS)], cwd=checkout.at('.git/crate-used/crates'))
    os.remove(waits)
    outcome = checkout.prove()
    using.kill()
    using.wait()
    os.close(locked)
    faults = [str(outcome)] * (outcome.status != 0)
    wanted = ['crate-link', 'crate-locked', 'crate-used']
    faults += [f'{rooms(checkout)} stay, not {wanted}'] * (rooms(checkout) != wanted)
    faults += ['more is gone'] * (not os.path.isdir(checkout.at('.git/objects'))
                                  or not os.path.isdir(os.path.join(folder, 'outside', 'kept')))
    rows.say('tools/build after a build that was killed', faults)


def without_git(rows, folder):
    """A checkout that isn't git's is built too."""
    checkout, _ = with_kit(folder, False)
    os.rmdir(checkout.at('.git'))
    outcome = checkout.prove()
    rows.say('tools/build of a tar file', [str(outcome)] * (outcome.status != 0))


ROWS = (no_lock, waiting, signals, signals_again, signal_to_cargo, signal_at_start, killed,
        without_git)
