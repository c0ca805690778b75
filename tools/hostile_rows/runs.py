"""Runs of a program by a line of a shell, with limits and redirections, and what must come of
them."""
import os
import re
import subprocess
from dataclasses import dataclass

from hanging import HANGS

# What the option parser says of a refusal, and the line of the packer.
PARSER = re.compile(rb'error: (?:(?!receiver: )[^\0])+')
PACKER = re.compile(rb'pack: [^\0\n]+\n')

# Rust's own std says no more than it has to.
ENVIRONMENT = {**os.environ, 'RUST_BACKTRACE': '0'}


@dataclass
class Outcome:
    """What a run gave. A signal that ended it is a negative status."""
    status: int
    lines: bytes
    errors: bytes


@dataclass
class Wanted:
    """What must come of a run: the status, standard error as bytes or as a pattern, and the lines.
    Where the run isn't whole, only some of the lines come, from the first on."""
    status: int
    errors: object = b''
    lines: bytes = b''
    is_whole: bool = True

    def faults(self, outcome):
        """How an outcome differs."""
        if outcome.status != self.status:
            yield f'status {outcome.status}, not {self.status}'
        if isinstance(self.errors, re.Pattern):
            if not self.errors.fullmatch(outcome.errors):
                yield f'standard error: {outcome.errors[:100]!r}'
        elif outcome.errors != self.errors:
            yield f'standard error: {outcome.errors[:100]!r}, not {self.errors[:100]!r}'
        if self.is_whole and outcome.lines != self.lines:
            yield f'{len(outcome.lines)} bytes came that aren\'t the {len(self.lines)} right ones'
        elif not self.is_whole:
            yield from self.faults_of_part(outcome.lines)

    def faults_of_part(self, lines):
        """How lines differ from the beginning of the right ones."""
        if not self.lines.startswith(lines):
            yield f'{len(lines)} bytes came that aren\'t the beginning of the right ones'
        elif len(lines) == len(self.lines):
            yield 'all lines came'


def started(line, command, shell='bash', **streams):
    """Starts a line of a shell, in which "$@" is a command. Streams that aren't named are pipes."""
    pipes = dict.fromkeys(('stdin', 'stdout', 'stderr'), subprocess.PIPE)
    return subprocess.Popen([shell, '-c', line, shell, *command], env=ENVIRONMENT,
                            **{**pipes, **streams})


def finished(process, given=None):
    """The outcome of a process that was started, with what is left to give it."""
    try:
        lines, errors = process.communicate(given, timeout=HANGS)
    except subprocess.TimeoutExpired:
        process.kill()
        process.communicate()
        return Outcome(-9, b'', f'no end after {HANGS} s'.encode())
    return Outcome(process.returncode, lines or b'', errors or b'')


def run(line, command, given=b'', **streams):
    """The outcome of a line of a shell, which is given bytes on standard input."""
    return finished(started(line, command, **streams), None if 'stdin' in streams else given)


class Rows:
    """Counts rows, and prints each that is wrong."""

    def __init__(self):
        self.count = 0
        self.wrong = 0

    def say(self, name, faults):
        """Counts a row with its faults."""
        self.count += 1
        if faults:
            self.wrong += 1
            print(f'{name}: {"; ".join(faults)}', flush=True)

    def see(self, name, outcome, *wanted):
        """Counts a row whose outcome has to be one of those that are wanted."""
        faults = [list(one.faults(outcome)) for one in wanted]
        self.say(name, min(faults, key=len))
