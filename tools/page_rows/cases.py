"""Rows over the page: how many there were, and how many were wrong."""
from __future__ import annotations

import os
from collections.abc import Callable

import built

from .page import Page

# The examples that the page brings with it, the quickest first.
EXAMPLES = ('three_satellites', 'all32', 'zero_if', 'real_message', 'crystal')


def expected(name: str) -> str:
    """The lines of an example."""
    data: bytes = built.read(os.path.join(built.TOP, 'examples', f'{name}.expected'))
    return data.decode('ascii')


def difference(came: str, text: str) -> str:
    """How lines differ from the right ones."""
    pairs = zip(came.split('\n'), text.split('\n'))
    at = next((k for k, pair in enumerate(pairs) if pair[0] != pair[1]), -1)
    return f'{len(came)} bytes, not {len(text)}; the lines differ from line {at + 1} on'


class Rows:
    """The page that rows are tried with, and a folder for their files."""

    def __init__(self, page: Page, folder: str) -> None:
        self.page, self.folder = page, folder
        self.count = self.wrong = 0

    def tell(self, name: str, is_right: bool, came: object) -> None:
        """Counts what is asked of the page, and prints what came where that isn't right."""
        self.count += 1
        if not is_right:
            self.wrong += 1
            print(f'page: {name}: {came}', flush=True)

    def note(self, text: str) -> None:
        """Prints what was measured."""
        print(f'page: {text}', flush=True)

    def says(self, name: str, came: str, wanted: str) -> None:
        """Sees that the page says a sentence, and no more."""
        self.tell(name, came == wanted, f'it says "{came}", and not "{wanted}"')

    def file(self, name: str, data: bytes) -> str:
        """The path of a new file."""
        path = os.path.join(self.folder, name)
        with open(path, 'wb') as file:
            file.write(data)
        return path

    def runs_example(self, name: str, after: str = '') -> None:
        """Sees that an example is run by a click, and its lines are those of the checkout."""
        self.page.forget()
        self.page.click(f'example-{name}')
        said, came, text = self.page.done(), self.page.saved(), expected(name)
        called = f'{name} after {after}' if after else name
        self.tell(called, came == text, difference(came, text))
        self.tell(f'{called}, its sentence', said == '', said)

    def is_silent(self, name: str) -> None:
        """Sees that nothing is on the console."""
        self.page.value('0')
        console = self.page.browser.console
        self.tell(f'{name}: the console', not console, console)
        console.clear()


Row = Callable[[Rows], None]
