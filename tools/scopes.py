"""The names in scope at each place of a text of definitions, with their types as they are read."""
from __future__ import annotations

from typing import Iterator, NamedTuple

from read_types import Scope, Type, Types, arrows, whole_atoms
from turns import CLOSING, KEYWORDS, Span, Word, clauses, closing, level, parts, runs


class Place(NamedTuple):
    """A word that is a name in scope or a field of one, and what is in scope there."""
    at: int
    scope: Scope


class Reading:
    """The places of names in one clause."""

    def __init__(self, words: list[Word], types: Types) -> None:
        self.words, self.types = words, types
        # The function, and the number among its arguments, of each that begins at a word.
        self.calls = {a: (run, number) for run in runs(words)
                      for number, (a, _) in enumerate(run) if number}
        # What each function takes that is the value of a record's field, by its first word.
        self.values: dict[int, list[str]] = {}

    def places(self, first: int, end: int, scope: Scope) -> Iterator[Place]:
        """The places from a word to before another, which are one expression."""
        words = self.words
        while first < end:
            text = words[first].text
            if text == 'let':
                inside = self.end_of_let(first, end)
                yield from self.places(first + 3, inside, scope)
                kind = self.types.of(words[first + 3:inside], scope)
                scope, first = {**scope, words[first + 1].text: kind}, inside + 1
            elif text == 'λ':
                scope, first = self.after_binder(first, scope)
            elif text in CLOSING:
                last = closing(words, first)
                yield from self.in_brackets(first, last, scope)
                first = last + 1
            else:
                if text.split('.')[0] in scope and text not in KEYWORDS:
                    yield Place(first, scope)
                first += 1

    def end_of_let(self, first: int, end: int) -> int:
        """The `in` of a `let`."""
        depth = 0
        for i in level(self.words, first, end):
            depth += (self.words[i].text == 'let') - (self.words[i].text == 'in')
            if not depth:
                return i
        raise ValueError(self.words[first])

    def after_binder(self, first: int, scope: Scope) -> tuple[Scope, int]:
        """What is in scope after a `λ`, and where that begins."""
        words = self.words
        if words[first + 1].text == '(':
            last = closing(words, first + 1)
            names = [it.text for it in words[first + 2:last]]
            kind = None
            if ':' in names:
                kind = ' '.join(names[names.index(':') + 1:]).replace('( ', '(').replace(' )', ')')
                names = names[:names.index(':')]
            return {**scope, **{it: kind for it in names if it != ','}}, last + 2
        run, number = self.calls.get(first - 1, ([], 0))
        takes = (self.types.expected(words, run, number, scope) if run
                 else self.values.get(first, []))
        name = words[first + 1].text.rstrip('.')
        return {**scope, name: takes[0] if takes else None}, first + 2

    def in_brackets(self, first: int, last: int, scope: Scope) -> Iterator[Place]:
        """The places in brackets: an expression, the values of a record, or arms."""
        if self.words[first].text == '(':
            yield from self.places(first + 1, last, scope)
        elif self.words[first].text == '{':
            yield from self.in_record(first, last, scope)
        else:
            yield from self.in_arms(first, last, scope)

    def in_record(self, first: int, last: int, scope: Scope) -> Iterator[Place]:
        """The places in the values of a record."""
        words = self.words
        record = self.types.of_record(words[first - 1:last + 1])
        for a, b in parts(words, first + 1, last, ';'):
            kind = self.types.fields.get(record or '', {}).get(words[a].text, '')
            self.values[a + 2] = arrows(kind)[:-1]
            yield from self.places(a + 2, b + 1, scope)

    def in_arms(self, first: int, last: int, scope: Scope) -> Iterator[Place]:
        """The places in arms, each after its pattern."""
        words = self.words
        for a, b in parts(words, first + 1, last, '|'):
            asked = next(i for i in range(first, -1, -1) if words[i].text == 'elim')
            arrow = next(i for i in level(words, a, b + 1) if words[i].text == '↦')
            kind = self.types.of(words[asked + 1:first], scope)
            bound = self.types.bound(words[a:arrow], kind)
            yield from self.places(arrow + 1, b + 1, {**scope, **bound})


def places_of(text: str, types: Types) -> Iterator[tuple[str, list[Word], list[Place]]]:
    """Each clause of a text: the definition's name, what stands after its `=`, and the places of
    names there."""
    for name, words, equals in clauses(text):
        scope: dict[str, Type] = {}
        takes = types.functions.get(name, [])
        for number, (a, b) in enumerate(whole_atoms(words[:equals])[1:]):
            kind = takes[number] if number < len(takes) else None
            scope.update(types.bound(words[a:b + 1], kind))
        body = words[equals + 1:]
        yield name, body, list(Reading(body, types).places(0, len(body), scope))
