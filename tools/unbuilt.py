"""What is answered for a program that isn't built: its help, which is stored as it prints it, and
its version. tools/manual-check compares the stored help with that of the built program."""
from __future__ import annotations

import os

from built import TOP, version
from helping import show


def path_of_help(called: str) -> str:
    """The file that has the help of a program."""
    return os.path.join(TOP, 'docs', f'{called}-help.txt')


def answer(called: str, option: str) -> int:
    """Prints what a program answers to an option, and gives the status."""
    if option in ('--version', '-V'):
        return show(called, f'{called} {version()}')
    with open(path_of_help(called), encoding='utf-8') as file:
        return show(called, file.read().rstrip('\n'))
