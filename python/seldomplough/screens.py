"""Tables on a terminal that are drawn again and again, and tables at the end elsewhere."""

from __future__ import annotations

import os
import shutil
from typing import Any, List, Protocol, Sequence, Tuple

from seldomplough.failures import of_system
from seldomplough.files import Sink

# What a terminal does: goes up so many lines, clears the rest of a line, and all below it.
UP, CLEAR_LINE, CLEAR_BELOW = '\x1b[{}A', '\x1b[K', '\x1b[J'


class Screen(Protocol):
    """What shows a table."""

    is_live: bool
    """Whether it is worth showing a table before the last one."""

    def show(self, head: str, columns: Sequence[str], rows: Sequence[Sequence[str]]) -> None:
        """Shows a table in the place of the one before. `head` is the line above it."""

    def close(self) -> None:
        """Leaves the last table where it is."""


def screen_of(sink: Sink) -> Screen:
    """What shows tables on an output: on a terminal rich where it is installed, else plain text."""
    if not _is_terminal(sink):
        return Page(sink)
    try:
        return Rich(sink)
    except ImportError:
        return Terminal(sink)


def _is_terminal(sink: Sink) -> bool:
    """Whether an output is a terminal that moves its cursor."""
    return sink.stream.isatty() and os.environ.get('TERM', 'dumb') != 'dumb'


def text_lines(columns: Sequence[str], rows: Sequence[Sequence[str]]) -> List[str]:
    """The lines of a table: columns side by side, their values on the right.

    A name of a column may have two lines, which are then two lines of the table."""
    names = [it.partition('\n') for it in columns]
    heads = [[it[at] for it in names] for at in (0, 2)]
    whole = [*(it for it in heads if any(it)), *rows]
    widths = [max(map(len, column)) for column in zip(*whole)]
    return ['  '.join(it.rjust(width) for it, width in zip(row, widths)) for row in whole]


class Page:
    """Plain text for what is no terminal."""

    is_live = False

    def __init__(self, sink: Sink) -> None:
        self.sink = sink

    def show(self, head: str, columns: Sequence[str], rows: Sequence[Sequence[str]]) -> None:
        """Writes a table."""
        self.sink.write('\n'.join((head, *text_lines(columns, rows))) + '\n')

    def close(self) -> None:
        """Writes what wasn't written yet."""
        self.sink.flush()


class Terminal(Page):
    """Plain text on a terminal. What has no room there is left out."""

    is_live = True

    def __init__(self, sink: Sink) -> None:
        super().__init__(sink)
        self.height = 0

    def show(self, head: str, columns: Sequence[str], rows: Sequence[Sequence[str]]) -> None:
        """Writes a table over the one before."""
        width, height = _size(self.sink)
        lines = [head, *text_lines(columns, rows)]
        if len(lines) >= height:
            rest = len(lines) - height + 2
            lines = [*lines[: height - 2], f'.. and {rest} more']
        up = UP.format(self.height) if self.height else ''
        self.sink.write(up + ''.join(f'{it[:width - 1]}{CLEAR_LINE}\n' for it in lines))
        self.sink.write(CLEAR_BELOW)
        self.sink.flush()
        self.height = len(lines)


def _size(sink: Sink) -> Tuple[int, int]:
    """The columns and lines of a terminal. They are at least so many that a table has a place."""
    try:
        width, height = os.get_terminal_size(sink.stream.fileno())
    except (OSError, ValueError):
        width, height = shutil.get_terminal_size()
    return max(width, 20), max(height, 5)


class Rich:
    """A table drawn by rich."""

    is_live = True

    def __init__(self, sink: Sink) -> None:
        import rich.console
        import rich.live
        import rich.table

        self.sink = sink
        self.module = rich
        console = rich.console.Console(file=sink.stream)
        self.live: Any = rich.live.Live(console=console, auto_refresh=False)
        self.is_started = False

    def show(self, head: str, columns: Sequence[str], rows: Sequence[Sequence[str]]) -> None:
        """Draws a table in the place of the one before."""
        table = self.module.table.Table(title=head, title_justify='left', box=None, pad_edge=False)
        for name in columns:
            # Names have brackets, which rich would take for a style.
            table.add_column(name.replace('[', r'\['), justify='right', no_wrap=True)
        for row in rows:
            table.add_row(*row)
        try:
            if not self.is_started:
                self.is_started = True
                self.live.start()
            self.live.update(table, refresh=True)
        except OSError as why:
            raise of_system(self.sink.name, why) from why

    def close(self) -> None:
        """Leaves the last table, and gives the cursor back."""
        if self.is_started:
            try:
                self.live.stop()
            except OSError as why:
                raise of_system(self.sink.name, why) from why
