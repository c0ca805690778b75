"""Shows what each slot does, in a table that changes as lines come.

The table has the satellite of each slot, its state, whether its loops are open, locked or have the
edge of the bits, the Doppler shift, its dumps, its last subframe and the time of week at which the
next one begins, and the C/N0 of the last second of dumps where `count` lines come. A value that no
line said is `-`. No line says that a slot was stopped: where a script then gives it another
satellite, the table has that one from its next `state` line on.

On a terminal the table is drawn at most four times a second, by rich where it is installed. What is
no terminal gets the last table alone. With --tee the lines go to standard output, and the table to
standard error.

    receiver --format iq2 my.script < my.iq2 | seldomplough watch --rate 4092000
    receiver my.script < my.real1 | seldomplough watch --tee > my.lines
"""

from __future__ import annotations

import argparse
import select
import sys
import time
from contextlib import contextmanager
from typing import Iterator, Optional

from seldomplough import files, numbers
from seldomplough.commands import options
from seldomplough.lines import Line, read
from seldomplough.screens import Screen, screen_of
from seldomplough.slots import COLUMNS, Slots

# The least time from one drawing to the next one, in seconds.
PAUSE = 0.25


def add(subparsers: options.Subparsers) -> None:
    """Adds the command's words."""
    parser = options.command(subparsers, 'watch')
    options.add_rate(parser, f'{numbers.USUAL_RATE} if not given')
    parser.add_argument(
        '--tee', action='store_true', help='lines to standard output, the table to standard error'
    )
    options.add_lines(parser)
    parser.set_defaults(run=run)


class Watch:
    """Shows the slots of lines on a screen, when it is time to."""

    def __init__(self, screen: Optional[Screen], rate: int) -> None:
        self.screen = screen
        self.slots = Slots(rate)
        self.shown = self.lines_shown = 0.0

    def feed(self, line: Line) -> None:
        """Takes the next line, and draws where the last drawing is long ago."""
        self.slots.feed(line)
        if self._is_live() and time.monotonic() - self.shown >= PAUSE:
            self.draw()

    def before_wait(self, source: files.Source) -> None:
        """Draws what is new, unless more comes before it is time to."""
        if self._is_live() and self.slots.lines > self.lines_shown:
            rest = PAUSE - (time.monotonic() - self.shown)
            if not has_more(source, max(rest, 0)):
                self.draw()

    def draw(self) -> None:
        """Draws the table as it is now."""
        if self.screen is not None:
            self.screen.show(self.slots.head(), COLUMNS, self.slots.rows())
        self.shown, self.lines_shown = time.monotonic(), self.slots.lines

    def _is_live(self) -> bool:
        return self.screen is not None and self.screen.is_live


def has_more(source: files.Source, seconds: float) -> bool:
    """Whether more comes from a source within so many seconds. What can't be asked has more."""
    try:
        return bool(select.select([source.stream], [], [], seconds)[0])
    except (OSError, ValueError):
        return True


def run(arguments: argparse.Namespace) -> int:
    """Shows the table until the lines end."""
    rate = numbers.USUAL_RATE if arguments.rate is None else arguments.rate
    with files.read(arguments.lines) as source, files.write() as sink:
        with watching(error_output() if arguments.tee else sink, rate) as watch:

            def before_wait() -> None:
                sink.flush()
                watch.before_wait(source)

            source.before_wait = before_wait
            for line in read(source):
                watch.feed(line)
                if arguments.tee:
                    sink.write(line.text() + '\n')
    return 0


def error_output() -> Optional[files.Sink]:
    """Standard error, None where it is closed."""
    return None if sys.stderr is None else files.Sink(sys.stderr, 'standard error', True)


@contextmanager
def watching(sink: Optional[files.Sink], rate: int) -> Iterator[Watch]:
    """What shows tables on an output. The last one is shown however it ends."""
    watch = Watch(None if sink is None else screen_of(sink), rate)
    try:
        yield watch
    finally:
        watch.draw()
        if watch.screen is not None:
            watch.screen.close()
