"""Rows of standard streams that are closed, full, limited, or no stream at all."""
import os
import signal

from .cases import example, packed, states
from .runs import PACKER, Wanted, finished, run, started

READ = b'receiver: read\n'
WRITE = b'receiver: write\n'


def closed(programs, rows):
    """Standard streams that are closed from the start, or are open for the other direction."""
    case = example(programs)
    # Without samples the script's lines for time 0 are answered.
    answered = b''.join(line for line in case.lines.splitlines(True) if line == b'1 0 ok\n')
    empty = Wanted(0, b'', answered + b'1 0 end\n')
    for name, how in ('is closed', '<&-'), ('can only be written', '0> /dev/null'):
        rows.see(f'standard input {name}', run(f'exec "$@" {how}', case.command),
                 programs.either(Wanted(1, READ, case.lines, False), empty))
    for name, how in ('is closed', '>&-'), ('can only be read', '1< /dev/null'):
        rows.see(f'standard output {name}', run(f'exec "$@" {how}', case.command, case.given),
                 programs.either(Wanted(1, WRITE), Wanted(0)))
    rows.see('standard error is closed', run('exec "$@" 2>&-', case.command, case.given),
             Wanted(0, b'', case.lines))
    refused = [*case.command, '--rate', '1']
    for name, how in ('closed', '2>&-'), ('full', '2> /dev/full'):
        rows.see(f'standard error is {name} at a refusal', run(f'exec "$@" {how}', refused),
                 Wanted(2))


def no_streams(programs, rows):
    """A full device, and a folder in the place of samples."""
    long = states(programs, 30000)
    rows.see('standard output is full', run('exec "$@" > /dev/full', long.command, long.given),
             Wanted(1, WRITE))
    rows.see('standard input is a folder', run('exec "$@" < /', long.command),
             Wanted(1, READ, long.lines, False))


def help_on_full(programs, rows):
    """The help and the version on a full device: a write that fails, as any other."""
    unwritten = b"pack: standard output couldn't be written\n"
    for program, said in (programs.receiver, WRITE), (programs.pack, unwritten):
        for word in '--help', '--version':
            rows.see(f'{os.path.basename(program)} {word} on a full device',
                     run('exec "$@" > /dev/full', [program, word]), Wanted(1, said))


def fifo_input(programs, rows):
    """Samples from a named pipe."""
    long = states(programs, 30000)
    path = os.path.join(programs.folder, 'samples')
    os.mkfifo(path)
    samples = programs.file('zeros', long.given)
    line = f'cat {samples} > {path} & exec "$@" < {path}'
    rows.see('standard input is a FIFO', run(line, long.command), Wanted(0, b'', long.lines))


def closed_pipe(programs, rows):
    """A reader that leaves."""
    long = states(programs, 30000)
    samples = programs.file('leaves', long.given)
    for name, line in ('', 'exec "$@"'), (', SIGPIPE ignored', 'trap "" PIPE; exec "$@"'):
        reading, writing = os.pipe()
        process = started(f'{line} < {samples}', long.command, stdout=writing)
        os.close(writing)
        # The pipe doesn't hold all lines, so that the program still writes.
        first = os.read(reading, 100)
        os.close(reading)
        outcome = finished(process)
        outcome.lines = first
        rows.see(f'the reader leaves{name}', outcome, Wanted(1, WRITE, long.lines, False))


def file_size(programs, rows):
    """A limit on the size of files, of 8 KiB."""
    long = states(programs, 30000)
    path = os.path.join(programs.folder, 'limited')
    limited = f'ulimit -f 8; exec "$@" > {path}'
    for name, line, wanted in (
            ('a file reaches its limit', limited,
             Wanted(-signal.SIGXFSZ, b'', long.lines, False)),
            ('a file reaches its limit, SIGXFSZ ignored', f'trap "" XFSZ; {limited}',
             Wanted(1, WRITE, long.lines, False))):
        outcome = run(line, long.command, long.given)
        with open(path, 'rb') as written:
            outcome.lines = written.read()
        rows.see(name, outcome, wanted)
        rows.say(f'{name}: bytes written',
                 [] if len(outcome.lines) == 8192 else [f'{len(outcome.lines)}'])


def nonblocking(programs, rows):
    """Standard streams that don't wait."""
    long = states(programs, 30000)
    reading, writing = os.pipe()
    os.set_blocking(reading, False)
    os.write(writing, long.given[:1000])
    rows.see('an input that would have to wait', run('exec "$@"', long.command, stdin=reading),
             Wanted(1, READ, long.lines, False))
    os.write(writing, long.given[:1000])
    os.close(writing)
    short = states(programs, 100)
    rows.see('an input that has no need to wait', run('exec "$@"', short.command, stdin=reading),
             Wanted(0, b'', short.lines))
    os.close(reading)
    reading, writing = os.pipe()
    os.set_blocking(writing, False)
    outcome = run('exec "$@"', long.command, long.given, stdout=writing)
    os.close(writing)
    with os.fdopen(reading, 'rb') as lines:
        outcome.lines = lines.read()
    rows.see('an output that would have to wait', outcome, Wanted(1, WRITE, long.lines, False))


def packers(programs, rows):
    """The same streams of the packer."""
    case = packed(programs)
    fails = Wanted(1, PACKER)
    rows.see('pack: standard input is closed', run('exec "$@" <&-', case.command),
             programs.either(fails, Wanted(0)))
    rows.see('pack: standard output is closed', run('exec "$@" >&-', case.command, case.given),
             programs.either(fails, Wanted(0)))
    rows.see('pack: standard input is a folder', run('exec "$@" < /', case.command), fails)
    rows.see('pack: standard output is full',
             run('exec "$@" > /dev/full', case.command, case.given), fails)
    rows.see('pack: all as it should be', run('exec "$@"', case.command, case.given),
             Wanted(0, b'', case.lines))


ROWS = closed, no_streams, help_on_full, fifo_input, closed_pipe, file_size, nonblocking, packers
