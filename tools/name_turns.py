"""Turns of names: in the place of a name another one in scope of the same type, and two places of a
clause turned at once. `turns` has those of single words."""
from __future__ import annotations

import itertools
from typing import Callable, Iterator, Mapping, NamedTuple, Sequence

from read_types import Scope, Type, Types
from scopes import Place, places_of
from turns import (Change, Span, Turn, Word, closing, exchanged, level, parts,
                   right_sides, runs, turns_by, turns_of)


class Clause(NamedTuple):
    """A clause: what stands after its `=`, and the names there with their places."""
    text: str
    words: list[Word]
    places: list[Place]
    types: Types

    def name(self, place: Place) -> str:
        """The name at a place."""
        return self.words[place.at].text

    def others(self, place: Place) -> list[str]:
        """The other names in scope of the type of the one at a place."""
        kind = self.types.of_path(self.name(place), place.scope)
        return [it for it, its in names_in(place.scope, self.types)
                if its == kind and it != self.name(place)] if kind else []

    def put(self, places: Sequence[Place], name: str) -> Change:
        """A name put into places."""
        return tuple(((self.words[it.at].start, self.words[it.at].end), name) for it in places)

    def by_name(self) -> dict[str, list[Place]]:
        """The places of each name."""
        found: dict[str, list[Place]] = {}
        for place in self.places:
            found.setdefault(self.name(place), []).append(place)
        return found

    def span(self, part: Span) -> Span:
        """Where words stand in the text."""
        return self.words[part[0]].start, self.words[part[1]].end

    def kind(self, part: Span) -> Type:
        """The type of words that have a name among them."""
        first, last = part
        scope = next((it.scope for it in self.places if first <= it.at <= last), None)
        return self.types.of(self.words[first:last + 1], scope) if scope else None


def names_in(scope: Scope, types: Types) -> Iterator[tuple[str, Type]]:
    """The names in a scope and the fields of each, with their types."""
    for name, kind in scope.items():
        yield name, kind
        for field, its in types.fields.get(kind or '', {}).items():
            yield f'{name}.{field}', its


def single_names(clause: Clause) -> Iterator[Change]:
    """At each place each other name of the type."""
    for place in clause.places:
        for name in clause.others(place):
            yield clause.put([place], name)


def repeated_names(clause: Clause) -> Iterator[Change]:
    """A name that stands at several places, and another of its type at all of them."""
    for places in clause.by_name().values():
        for name in clause.others(places[0]) if len(places) > 1 else []:
            if all(name in clause.others(it) for it in places):
                yield clause.put(places, name)


def exchanged_names(clause: Clause) -> Iterator[Change]:
    """Two names of one type, each in the place of the other wherever they stand."""
    for (a, at_a), (b, at_b) in itertools.combinations(clause.by_name().items(), 2):
        if (all(b in clause.others(it) for it in at_a)
                and all(a in clause.others(it) for it in at_b)):
            yield tuple(sorted(clause.put(at_a, b) + clause.put(at_b, a)))


def far_arguments(clause: Clause) -> Iterator[Change]:
    """Two arguments of one call, or two values of one record, that are of one type and have others
    between them: neighbours are exchanged as words are."""
    words = clause.words
    rows = [run[1:] for run in runs(words)]
    rows += [right_sides(words, parts(words, i + 1, closing(words, i), ';'), '=')
             for i, it in enumerate(words) if it.text == '{']
    for row in rows:
        for (i, a), (k, b) in itertools.combinations(enumerate(row), 2):
            if k - i > 1 and clause.kind(a) and clause.kind(a) == clause.kind(b):
                yield exchanged(clause.text, clause.span(a), clause.span(b))


def branches(words: list[Word], first: int) -> list[tuple[Span, Span]]:
    """The conditions of an `if .. else if ..` from one `if` on, each with what it gives."""
    found = []
    while words[first].text == 'if':
        places = level(words, first + 1, len(words))
        then = next(i for i in places if words[i].text == 'then')
        other = next(i for i in places if words[i].text == 'else')
        found.append(((first + 1, then - 1), (then + 1, other - 1)))
        first = other + 1
    return found


def exchanged_branches(clause: Clause) -> Iterator[Change]:
    """Of two branches that follow each other what they give exchanged, and which comes first."""
    words = clause.words
    for i, word in enumerate(words):
        if word.text == 'if' and (not i or words[i - 1].text != 'else'):
            its = branches(words, i)
            for (asked, given), (asked_next, given_next) in zip(its, its[1:]):
                yield exchanged(clause.text, clause.span(given), clause.span(given_next))
                yield exchanged(clause.text, clause.span((asked[0], given[1])),
                                clause.span((asked_next[0], given_next[1])))


# What the kinds of turns change in a clause; that of words is in `turns`.
KINDS: Mapping[str, Sequence[Callable[[Clause], Iterator[Change]]]] = {
    'words': (),
    'names': (single_names,),
    'pairs': (repeated_names, exchanged_names, far_arguments, exchanged_branches),
}


def changes(text: str, types: Types, kind: str) -> Iterator[tuple[str, Change]]:
    """All changes of a kind, with the definition's name."""
    for name, words, places in places_of(text, types):
        clause = Clause(text, words, places, types)
        for change in itertools.chain.from_iterable(it(clause) for it in KINDS[kind]):
            yield name, change


def turns_of_kinds(module: str, texts: dict[str, str], kinds: Sequence[str]) -> list[Turn]:
    """All turns of a module of these kinds. One that two kinds have is of the first."""
    types, found, seen = Types(texts), [], set()
    for kind in KINDS:
        made = (turns_by(module, texts[module], changes(texts[module], types, kind)) if KINDS[kind]
                else turns_of(module, texts))
        new = [it for it in made if it.text not in seen]
        seen |= {it.text for it in new}
        found += new if kind in kinds else []
    return found


def unread_places(module: str, texts: dict[str, str]) -> int:
    """How many places of names are left out, since their type isn't told by reading."""
    types = Types(texts)
    return sum(types.of_path(words[it.at].text, it.scope) is None
               for _, words, places in places_of(texts[module], types) for it in places)
