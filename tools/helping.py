"""The help of a tool is its head: the text with which its file begins. It is printed where `--help`
or `-h` is the only word."""
from __future__ import annotations

import ast
import os
import sys


def head(path: str = '') -> str:
    """The head of a file; of the tool that runs where none is named. With PYTHONOPTIMIZE=2 Python
    itself leaves it out."""
    with open(path or str(sys.modules['__main__'].__file__), encoding='utf-8') as file:
        return ast.get_docstring(ast.parse(file.read()), clean=False) or ''


def show(name: str, text: str) -> int:
    """Prints a text, and gives the status: 1 where it can't be written. A line says so, but where
    nobody reads any more."""
    left = f'{text}\n'.encode('utf-8', 'replace')
    try:
        while left:
            left = left[os.write(1, left):]
    except BrokenPipeError:
        return 1
    except OSError as why:
        if sys.stderr:
            print(f'{name}: standard output: {why.strerror}', file=sys.stderr)
        return 1
    return 0


def help_where_asked(text: str = '') -> None:
    """Ends the tool with its help where that is asked for: its head, or another text."""
    if sys.argv[1:] in (['--help'], ['-h']):
        sys.exit(show(os.path.basename(sys.argv[0]), text or head()))
