"""What pages of docs quote of the crates: each quote has to stand so in the file that is named
beside it, white space apart. A link to a file names it: `[slot.rt](../crates/..)`. Its quotes are
the code in the same cell of a table, or the indented blocks that follow its paragraph."""
from __future__ import annotations

import os
import re
from typing import Iterator, NamedTuple

PAGES = ('docs/CONTRACTS.md', 'docs/PROVING.md', 'docs/PROOF-IN-ONE-PAGE.md')
LINK = re.compile(r'\]\(\.\./(crates/[^)#]+)\)')
# How a clause, a ghost field or a definition begins, which are quoted from somewhere.
QUOTED = re.compile(r'(requires|ensures)\b.*\{|ghost \w+:|(abbrev |unfoldable )?pub ')


class Quote(NamedTuple):
    """Code of a page, and the file that is named beside it; empty where none is."""

    code: str
    path: str


def plain(text: str) -> str:
    """A text with one space for each stretch of white space."""
    return ' '.join(text.split())


def named_in(text: str) -> str:
    """The last file that a text links to."""
    return LINK.findall(text)[-1] if LINK.search(text) else ''


def codes_of_table(table: str) -> Iterator[Quote]:
    """The code in the cells of a table."""
    for cell in re.split(r'(?<!\\)\||\n', table):
        for code in re.findall(r'`([^`]+)`', cell):
            yield Quote(plain(code.replace(r'\|', '|')), named_in(cell))


def codes(text: str) -> Iterator[Quote]:
    """The code of a page's tables and indented blocks."""
    path = ''
    for part in re.split(r'\n(?:[ \t]*\n)+', text):
        if part.startswith('    '):
            yield Quote(plain(part), path)
        elif part.startswith('|'):
            yield from codes_of_table(part)
            path = ''
        else:
            path = named_in(part)


def quotes(text: str) -> list[Quote]:
    """The quotes of a page, and the code that looks like one and has no file beside it."""
    return [it for it in codes(text) if it.path or QUOTED.match(it.code)]


def stale_quotes(top: str, page: str) -> Iterator[str]:
    """The quotes of a page that don't stand so in the checkout."""
    with open(os.path.join(top, page), encoding='utf-8') as file:
        found = quotes(file.read())
    if not found:
        yield f'{page} quotes nothing'
    for code, path in found:
        short = code if len(code) <= 60 else f'{code[:60]} ..'
        if not path:
            yield f'{page} names no file for `{short}`'
        elif not os.path.isfile(os.path.join(top, path)):
            yield f'{page} quotes {path}, which is no file'
        else:
            with open(os.path.join(top, path), encoding='utf-8') as file:
                if code not in plain(file.read()):
                    yield f'{page} quotes `{short}`, which {path} has not so'
