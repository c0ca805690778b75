"""Figures of the pages that a program can compare without a build: revisions with those that git
has, and numbers of edits, rows, tests, packages and the like with a count of them in the sources.
Those that only a long run gives, as times and most numbers of lines, aren't looked at."""
from __future__ import annotations

import glob
import os
import re
import subprocess
import sys
from typing import Callable, Iterator, NamedTuple, Optional

sys.path.insert(0, os.path.dirname(os.path.realpath(__file__)))
from drawn_rows import coverage, wrong
from drawn_rows.checks import texts_of_definitions
from drawn_rows.definitions import Definitions
from drawn_rows.kinds import KINDS
from pack_pieces import choices
from pack_reference import kind_of
from pack_rows import by_hand
from page_text import CHOSEN

# The pages that may name revisions.
PAGES = ('*.md', 'docs/*.md', 'docs/*.1', 'python/README.md', 'examples/*/README.md')
REVISION = re.compile(r'\brevisions?\s+`?([0-9a-f]{7,40})\b')
NUMBERS = 'no one two three four five six seven eight nine ten eleven twelve'.split()


class Figure(NamedTuple):
    """A figure: its page, a pattern with the number as a group, and what counts it below a path."""

    page: str
    pattern: str
    counted: Callable[[str], int]


def text_of(*parts: str) -> str:
    """The text of a file."""
    with open(os.path.join(*parts), encoding='utf-8') as file:
        return file.read()


def files(*patterns: str) -> Callable[[str], int]:
    """What counts files."""
    return lambda top: sum(len(glob.glob(os.path.join(top, it))) for it in patterns)


def lines(pattern: str, paths: str) -> Callable[[str], int]:
    """What counts the lines of files that begin with a pattern."""
    return lambda top: sum(len(re.findall(f'^{pattern}', text_of(it), re.M))
                           for it in glob.glob(os.path.join(top, paths)))


def runs_of_examples(top: str) -> int:
    """The runs of `tools/examples-check`: one for each script, and those that it names."""
    named = lines('(?:judge|refused) ', 'tools/examples-check')(top)
    return named + files('examples/*.script')(top)


def recordings_in_pieces(_: str) -> int:
    """Those of `tools/pack-check`: a long one of each kind, pairs as `iq1` by five sizes, two."""
    asked = list(choices())
    paired = [it for it in asked if kind_of(it)[1] and it['to'] == 'iq1']
    return len(asked) + 5 * len(paired) + 2


def compared(top: str, place: int) -> int:
    """A word of `runs N lines N ..`, which is stored of the two receivers that are compared."""
    return int(text_of(top, 'tools/second_receiver/stdout').split()[place])


def turned(top: str, column: int) -> int:
    """The sum of a column of the table of `tools/turned` in docs/PROOFS.md."""
    table = text_of(top, 'docs/PROOFS.md').partition('| Module | Turned |')[2]
    rows = table.partition('\n\n')[0].split('\n')[2:]
    return sum(int(row.split('|')[column]) for row in rows)


def told_definitions() -> list[coverage.Told]:
    """All definitions, each with the kinds that draw it."""
    return coverage.told_of(Definitions(texts_of_definitions()))


def all_definitions(_: str) -> int:
    """How many definitions there are, types among them."""
    return len(told_definitions())


def drawn_definitions(_: str) -> int:
    """How many of them are drawn themselves."""
    return sum(bool(it.kinds) for it in told_definitions())


def types_of_definitions(_: str) -> int:
    """How many of them are types."""
    return len(Definitions(texts_of_definitions()).types)


EDITS = files('edits/*/*.edit', 'crates/*/must-fail/*.edit')
MUST_FAIL = files('crates/*/must-fail/*.edit')

FIGURES = (
    Figure('docs/PROOFS.md', r'There are (\S+) edits\.', EDITS),
    Figure('docs/PROOFS.md', r'tries the (\S+) in `must-fail`', MUST_FAIL),
    Figure('CONTRIBUTING.md', r'Of the (\S+) edits', EDITS),
    Figure('docs/DECISIONS.md', r'the (\S+) edits of `definitions`',
           files('edits/definitions/*.edit')),
    Figure('CONTRIBUTING.md', r'the (\S+) in `must-fail` are', MUST_FAIL),
    Figure('docs/PLAIN.md', r'loop by (\S+) tests',
           lines(r' *#\[test\]', 'rust/kit/lanes/*.rs')),
    Figure('docs/PROOFS.md', r'\): (\S+) refused lines',
           lines(r"    \('.*', \d+\),$", 'tools/runs_rows/scripts.py')),
    Figure('docs/PROOFS.md', r'over `examples` in (\S+) runs', runs_of_examples),
    Figure('docs/PROOFS.md', r'built `pack` over (\S+) recordings',
           lambda top: int(re.findall(r'in range\((\d+)', text_of(top, 'tools/pack-check'))[0])),
    Figure('docs/PROOFS.md', r'It has (\S+) rows by hand', lambda _: len(list(by_hand()))),
    Figure('docs/PROOFS.md', r'and (\S+) recordings in pieces', recordings_in_pieces),
    Figure('docs/PROOFS.md', r'both receivers over (\S+) cases', lambda it: compared(it, 1)),
    Figure('docs/PROOFS.md', r'cases with (\S+) lines, and fails', lambda it: compared(it, 3)),
    Figure('docs/PROOF-IN-ONE-PAGE.md', r'definitions at (\S+) places', lambda it: turned(it, 2)),
    Figure('docs/PROOF-IN-ONE-PAGE.md', r'examples refused (\S+)\.', lambda it: turned(it, 3)),
    Figure('docs/PROOFS.md', r'drawn\*\*: (\S+) kinds of inputs', lambda _: len(KINDS)),
    Figure('docs/PROOFS.md', r'inputs for (\S+) of the \S+ definitions', drawn_definitions),
    Figure('docs/PROOFS.md', r'inputs for \S+ of the (\S+) definitions', all_definitions),
    Figure('docs/PROOFS.md', r'refuses\*\*: (\S+) wrong definitions', lambda _: len(wrong.read())),
    Figure('docs/PROOFS.md', r'why there are none\. (\S+) are types', types_of_definitions),
    Figure('docs/PROOFS.md', r'are types\. (\S+) others', lambda _: len(coverage.TABLE)),
    Figure('docs/PAGE.md', r'runs all (\S+) examples', files('examples/*.expected')),
    Figure('docs/PAGE.md', r'the (\S+) bundled examples', lambda _: len(CHOSEN)),
)


def number_of(word: str) -> Optional[int]:
    """The number of a word, as `1,500` or `eight`."""
    digits = word.replace(',', '')
    return int(digits) if digits.isdigit() else NUMBERS.index(word) if word in NUMBERS else None


def differences_in(figure: Figure, text: str, top: str) -> Iterator[str]:
    """How the text of a page differs from what is counted below a path."""
    found, said = figure.counted(top), 0
    for said, it in enumerate(re.finditer(figure.pattern.replace(' ', r'\s+'), text), 1):
        if number_of(it[1]) != found:
            yield f"{figure.page} says '{' '.join(it[0].split())}', and there are {found}"
    if not said:
        yield f'{figure.page} has nothing like {figure.pattern}'


def revisions(top: str) -> Optional[list[str]]:
    """The revisions up to this one; None where git doesn't have all of them."""
    def said(*words: str) -> str:
        return subprocess.run(['git', '-C', top, *words], stdout=subprocess.PIPE, text=True,
                              stderr=subprocess.DEVNULL, check=True).stdout
    try:
        asked = said('rev-parse', '--is-shallow-repository', '--show-toplevel').splitlines()
        is_whole = asked[0] == 'false' and os.path.samefile(asked[1], top)
        return said('rev-list', 'HEAD').split() if is_whole else None
    except (OSError, subprocess.CalledProcessError):
        return None


def unknown_revisions(top: str, known: list[str]) -> Iterator[str]:
    """The revisions that pages name and git doesn't have."""
    for path in sorted(path for it in PAGES for path in glob.glob(os.path.join(top, it))):
        for name in REVISION.findall(text_of(path)):
            if not any(it.startswith(name) for it in known):
                yield f'{os.path.relpath(path, top)} names revision {name}, which git has not'
