"""The one way to fail: a text of one line and the status that the program ends with."""

from __future__ import annotations

# The status for words of the command line that aren't understood, and the one for all else.
WORDS = 2
OTHER = 1

# How much of somebody's text is shown.
LONGEST_SHOWN = 60


class Failure(Exception):
    """What can't be done: a text of one line, and the status that the program ends with."""

    def __init__(self, text: str, status: int = OTHER) -> None:
        super().__init__(text)
        self.text = text
        self.status = status


def one_line(text: str) -> str:
    """A text with escapes in the place of line ends and all else that a terminal acts on."""
    return ''.join(it if it.isprintable() else ascii(it)[1:-1] for it in text)


def escaped(text: str) -> str:
    """Somebody's text on one line, with escapes for what isn't printable ASCII."""
    return one_line(text.encode('ascii', 'backslashreplace').decode('ascii'))


def shown(text: str, longest: int = LONGEST_SHOWN) -> str:
    """The same, cut where it is longer than `longest`."""
    return escaped(text if len(text) <= longest else text[: longest - 3] + '...')


def of_system(name: str, why: OSError) -> Failure:
    """The failure of a file or stream of a name, in the system's words."""
    return Failure(f'{one_line(name)}: {why.strerror or why}')


class ClosedPipe(Exception):
    """Nobody reads standard output any more. The program ends by the signal SIGPIPE."""
