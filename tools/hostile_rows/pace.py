"""Rows of streams that are slow, of stops, and of a terminal that hung up."""
import fcntl
import os
import pty
import signal
import time

from .cases import example, states
from .runs import Wanted, finished, run, started

# What the system calls the setting of a pipe's size; the fcntl of Python 3.8 has no name for it.
SET_PIPE_SIZE = 1031


def slow_reader(programs, rows):
    """A reader of 4 KiB every millisecond, from a pipe of 4 KiB."""
    long = states(programs, 30000)
    samples = programs.file('slow', long.given)
    reading, writing = os.pipe()
    fcntl.fcntl(writing, SET_PIPE_SIZE, 4096)
    process = started(f'exec "$@" < {samples}', long.command, stdout=writing)
    os.close(writing)
    lines = []
    while lines[-1:] != [b'']:
        time.sleep(0.001)
        lines.append(os.read(reading, 4096))
    os.close(reading)
    outcome = finished(process)
    outcome.lines = b''.join(lines)
    rows.see('a slow reader', outcome, Wanted(0, b'', long.lines))


def one_byte_at_a_time(programs, rows):
    """Samples that come in single bytes."""
    case = states(programs, 3000, 8)
    process = started('exec "$@"', case.command, bufsize=0)
    for at in range(len(case.given)):
        process.stdin.write(case.given[at:at + 1])
    rows.see('one byte at a time', finished(process), Wanted(0, b'', case.lines))


def stopped(programs, rows):
    """A program that is stopped three times while samples come."""
    long = states(programs, 3000)
    process = started('exec "$@"', long.command, bufsize=0)
    third = len(long.given) // 3
    for at in range(0, 3 * third, third):
        process.send_signal(signal.SIGSTOP)
        process.stdin.write(long.given[at:at + third])
        time.sleep(0.05)
        process.send_signal(signal.SIGCONT)
        time.sleep(0.05)
    rows.see('SIGSTOP and SIGCONT', finished(process, long.given[3 * third:]),
             Wanted(0, b'', long.lines))


def hung_up():
    """A terminal whose other end is gone."""
    other, terminal = pty.openpty()
    os.close(other)
    return terminal


def hang_up(programs, rows):
    """A terminal that hung up in the place of a stream."""
    case = example(programs)
    terminal = hung_up()
    rows.see('standard output is a terminal that hung up',
             run('exec "$@"', case.command, case.given, stdout=terminal),
             Wanted(1, b'receiver: write\n'))
    # The system ends the stream, or fails the read.
    try:
        ends = os.read(terminal, 1) == b''
    except OSError:
        ends = False
    answered = b''.join(line for line in case.lines.splitlines(True) if line == b'1 0 ok\n')
    wanted = Wanted(1, b'receiver: read\n', case.lines, False)
    if ends:
        wanted = Wanted(0, b'', answered + b'1 0 end\n')
    rows.see('standard input is a terminal that hung up',
             run('exec "$@"', case.command, stdin=terminal), wanted)
    refused = [*case.command, '--rate', '1']
    rows.see('standard error is a terminal that hung up',
             run('exec "$@"', refused, stderr=terminal), Wanted(2))
    os.close(terminal)


ROWS = slow_reader, one_byte_at_a_time, stopped, hang_up
