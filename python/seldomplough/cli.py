"""The command line: one parser, a subcommand for each command, and one way to fail.

A failure is one line `seldomplough: ..` on standard error. The status is 2 for words of the command
line and 1 for all else. A closed pipe, Ctrl-C and SIGTERM end the program by their signals, after
what it started has ended and its temporary files are removed."""

from __future__ import annotations

import argparse
import io
import os
import signal
import sys
from typing import List, NoReturn, Optional, Sequence

from seldomplough import __version__, commands, files
from seldomplough.failures import WORDS, ClosedPipe, Failure, one_line

NAME = 'seldomplough'


class Formatter(argparse.RawDescriptionHelpFormatter):
    """Shows descriptions as they are, and the help of a command beside its name."""

    def add_argument(self, action: argparse.Action) -> None:
        """Adds a word. argparse forgets that the names of commands are indented further."""
        super().add_argument(action)
        if isinstance(action, argparse._SubParsersAction):
            longest = max(map(len, action.choices))
            self._action_max_length = max(self._action_max_length, longest + 4)


class Parser(argparse.ArgumentParser):
    """A parser that fails as all else does, and takes no option by a part of its name."""

    def __init__(self, **options: object) -> None:
        options.setdefault('allow_abbrev', False)
        options.setdefault('formatter_class', Formatter)
        super().__init__(**options)  # type: ignore[arg-type]

    def error(self, message: str) -> NoReturn:
        """Raises a failure instead of printing the usage."""
        command = self.prog[len(NAME) + 1 :]
        raise Failure(f'{command}: {message}' if command else message, WORDS)

    def _match_arguments_partial(
        self, actions: Sequence[argparse.Action], arg_strings_pattern: str
    ) -> List[int]:
        """How many words each positional takes. Options may stand between these.

        argparse itself gives the optional last one no word as soon as an option (O) follows."""
        counts: List[int] = super()._match_arguments_partial(actions, arg_strings_pattern)
        while counts and counts[-1] == 0 and 'O' in arg_strings_pattern:
            counts.pop()
        return counts

    def _print_message(self, message: str, file: object = None) -> None:
        """Prints help and the version as all else is written."""
        with files.write() as sink:
            sink.write(message)


def parser(words: Sequence[str] = ()) -> Parser:
    """The parser of a command line. Where the first of these words names a command, it knows that
    one alone: to load the modules of all takes most of the time of a start."""
    result = Parser(prog=NAME, description=__doc__)
    result.description = 'From recordings to answers, and from printed lines to numbers.'
    result.add_argument('--version', action='version', version=f'{NAME} {__version__}')
    subparsers = result.add_subparsers(dest='command', metavar='COMMAND', required=True)
    for name in [it for it in commands.NAMES if it in words[:1]] or commands.NAMES:
        commands.module(name).add(subparsers)
    return result


class Terminated(BaseException):
    """The program got SIGTERM."""


def raise_terminated(number: int, frame: object) -> NoReturn:
    """Ends what is done by SIGTERM, as Ctrl-C does. A second one doesn't stop what is undone."""
    signal.signal(signal.SIGTERM, signal.SIG_IGN)
    raise Terminated


def end_by(number: signal.Signals) -> int:
    """Ends the program by a signal, so that a shell sees its status."""
    drop_output()
    signal.signal(number, signal.SIG_DFL)
    os.kill(os.getpid(), number)
    return 128 + number


def drop_output() -> None:
    """Leaves out what wasn't written yet, so that Python doesn't try it again at its end."""
    if sys.stdout is None:
        return
    with open(os.devnull, 'wb') as empty:
        try:
            os.dup2(empty.fileno(), sys.stdout.fileno())
        except (OSError, ValueError):
            pass


def flush_output() -> None:
    """Writes what wasn't written yet."""
    if sys.stdout is not None:
        with files.write():
            pass


def settle_output() -> None:
    """Writes what wasn't written yet, and leaves it out where that fails."""
    try:
        flush_output()
    except (ClosedPipe, Failure):
        drop_output()


def run(words: Sequence[str]) -> int:
    """Runs the command that these words name, and says its status."""
    try:
        arguments = parser(words).parse_args(words)
        status: int = arguments.run(arguments)
    except SystemExit as ended:
        # Help and the version were printed.
        status = int(ended.code or 0)
    flush_output()
    return status


def main(words: Optional[Sequence[str]] = None) -> int:
    """Runs the program by these words, or those of the command line; says its status."""
    if isinstance(sys.stdout, io.TextIOWrapper):
        # The same bytes in each locale.
        sys.stdout.reconfigure(encoding='utf-8', errors='backslashreplace', newline='\n')
    try:
        if words is None and signal.getsignal(signal.SIGTERM) is signal.SIG_DFL:
            signal.signal(signal.SIGTERM, raise_terminated)
        return run(sys.argv[1:] if words is None else words)
    except Failure as failure:
        settle_output()
        files.say(one_line(failure.text))
        return failure.status
    except (ClosedPipe, BrokenPipeError):
        return end_by(signal.SIGPIPE)
    except KeyboardInterrupt:
        settle_output()
        return end_by(signal.SIGINT)
    except Terminated:
        settle_output()
        return end_by(signal.SIGTERM)
