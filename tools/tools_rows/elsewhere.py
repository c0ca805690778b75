"""Rows of tools/elsewhere: its words, and where what it needs is missing. Nothing is built."""
from __future__ import annotations

from typing import Any

from .commands import changes, contents, refused
from .small_checkout import Checkout


def words(rows: Any, folder: str) -> None:
    """Words, and a system that has neither the compiler nor qemu, change nothing."""
    checkout = Checkout(folder)
    missing = 'elsewhere: something is missing; on Debian 12: apt-get install [a-z0-9 -]+'
    for given, pattern, status in (
        (['x'], 'elsewhere: the processors are [^\n]+', 2),
        (['aarch64', '--no'], 'elsewhere: the processors are [^\n]+', 2),
        ([], missing, 1),
        (['aarch64'], missing, 1),
        (['s390x', 'aarch64'], missing, 1),
    ):
        before = contents(folder)
        outcome = checkout.run('tools/elsewhere', *given, PATH=checkout.bare)
        rows.say(f'tools/elsewhere {given}',
                 refused(outcome, pattern, status) + changes(before, contents(folder)))
    outcome = checkout.run('tools/elsewhere', '--help', PATH=checkout.bare)
    is_told = outcome.status == 0 and 'usage: elsewhere' in outcome.said and not outcome.errors
    rows.say('tools/elsewhere --help', [] if is_told else [str(outcome)[:200]])


ROWS = (words,)
