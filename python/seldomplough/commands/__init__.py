"""The commands: a module for each, with `add(subparsers)` and `run(arguments) -> int`."""

from __future__ import annotations

from importlib import import_module
from types import ModuleType

NAMES = (
    'json',
    'csv',
    'frames',
    'answers',
    'cn0',
    'search',
    'sky',
    'doctor',
    'crystal',
    'merge',
    'campaign',
    'almanac',
    'ubx',
    'sigmf',
    'rinex',
    'rinex-check',
    'plots',
    'watch',
    'made',
)
"""All commands, in the order of the help. A new one is one name here."""


def module(name: str) -> ModuleType:
    """The module of a command. It is loaded where it is asked for, since a start needs few."""
    return import_module(f'{__name__}.{name.replace("-", "_")}')


def text(name: str) -> str:
    """The text with which the module of a command begins: its help. With PYTHONOPTIMIZE=2 Python
    leaves it out, and it is read from the source."""
    known = module(name)
    if known.__doc__:
        return known.__doc__
    import ast
    import inspect

    return ast.get_docstring(ast.parse(inspect.getsource(known)), clean=False) or name
