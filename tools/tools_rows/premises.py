"""Rows of the premises of public functions: what the library for Rust programs exports checks in
each build what its contract requires of numbers and lengths, by a `prove!` with a text, which is an
`assert!` in plain Rust. What it doesn't check so has its reason here."""
from __future__ import annotations

import os
import re
from typing import Any, Iterator, NamedTuple

from .commands import TOP

CRATES = os.path.join(TOP, 'crates')

# Types that the library gives to users beside those that it names.
GIVEN = ('Planes', 'PartRecipe')

# What isn't checked so: a function, what its premise names, and why.
EXCUSED = {
    ('Counts::add', ''): 'Rust checks the sums where overflow checks are on',
    ('Format::put', 'in_bytes'): 'the byte is read by its index, which Rust checks',
    ('Planes::fill', 'within'): 'the bytes are sliced, which Rust checks',
    ('Planes::fill', 'short'): 'the functions that fill it check it',
    ('ValueKind::reading', ''): 'the bytes are read by their index, which Rust checks',
    ('Recipe::measure', 'place'): 'a recipe gives its own parts alone',
}

# A public function with its clauses and its body, and a function that has a name of a type.
FUNCTION = re.compile(r'^( *)pub (?:const )?fn (\w+)((?:[^{;/\[]|\[[^\]]*\])*?)\n'
                      r'((?: +(?:requires|ensures)\b.*\n(?:(?! *\{\n) +.*\n)*)+)\1\{\n'
                      r'((?:.*\n)*?)\1\}', re.M)
OWNER = re.compile(r'^impl(?:<[^{]*?>)? (?:\w+(?:<[^{]*?>)? for )?(\w+)', re.M)
REQUIRED = re.compile(r'^ +requires ?(\w*) \{((?:.|\n)*?)\}$', re.M)
PROVED = re.compile(r'\bprove!\(\s*((?:[^"]|\n)*?),\s*"')


class Premise(NamedTuple):
    """A premise: its function with its type, its name, and whether a check in the function's body
    names a parameter that it names, or `self`."""
    function: str
    name: str
    is_checked: bool


def exported() -> set[str]:
    """The names that the library exports, and those that it gives."""
    with open(os.path.join(CRATES, 'seldomplough/src/lib.rt'), encoding='utf-8') as file:
        uses = re.findall(r'^pub use [\w:]+::(?:\{([^}]*)\}|(\w+));', file.read(), re.M)
    return {*GIVEN, *(it for several, one in uses for it in re.findall(r'\w+', several or one))}


def premises_in(text: str) -> Iterator[Premise]:
    """The premises of the public functions of a source."""
    for found in FUNCTION.finditer(text):
        indent, name, head, clauses, body = found.groups()
        owners = OWNER.findall(text[:found.start()]) if indent else []
        function = f'{owners[-1]}::{name}' if owners else name
        parameters = set(re.findall(r'(\w+):', head))
        checked = ' '.join(PROVED.findall(body))
        for of_clause, said in REQUIRED.findall(clauses):
            named = parameters.intersection(re.findall(r'\w+', said)) or {'self'}
            yield Premise(function, of_clause,
                          any(re.search(rf'\b{it}\b', checked) for it in named))


def premises() -> list[Premise]:
    """The premises of all public functions that users of the library can call."""
    names, made = exported(), []
    for crate in sorted(os.listdir(CRATES)):
        folder = os.path.join(CRATES, crate, 'src')
        for file in sorted(os.listdir(folder)) if not crate.endswith('_tests') else ():
            with open(os.path.join(folder, file), encoding='utf-8') as source:
                made += [it for it in premises_in(source.read())
                         if it.function.partition('::')[0] in names]
    return made


def checks(rows: Any, _: str) -> None:
    """Each premise is checked or has its reason, and each reason a premise."""
    found = premises()
    left = {(it.function, it.name) for it in found if not it.is_checked}
    rows.say('premises of public functions', [
        *(f'{function} requires {name} and does not check it'
          for function, name in sorted(left - set(EXCUSED))),
        *(f'{function} has no such premise: {name}'
          for function, name in sorted(set(EXCUSED) - left)),
        *['no premise was found'] * (len(found) < 20)])


ROWS = (checks,)
