"""Types in texts of definitions as they are read: from signatures, data and records, and from how
an expression is written. No type checker: what isn't told by reading has no type here."""
from __future__ import annotations

import re
from typing import Mapping, Optional, Sequence

from turns import Span, Word, atom_end, closing, level, parts, words_of

# What some of the kit's functions give.
OF_KIT = {'length': 'ℕ', 'unsigned_abs': 'ℕ', 'sum': 'ℕ', 'sum_by': 'ℕ', 'digits_value': 'ℕ',
          'min': 'ℕ', 'max': 'ℕ', 'suc': 'ℕ', 'pos': 'ℤ', 'negsuc': 'ℤ', 'neg_ℤ': 'ℤ',
          'int_min': 'ℤ', 'int_max': 'ℤ', 'int_eq': 'Bool', 'int_le': 'Bool', 'nat_le': 'Bool',
          'nat_lt': 'Bool', 'not': 'Bool', 'list_all': 'Bool', 'list_any': 'Bool',
          'range_with_len': 'List ℕ', 'codes': 'List ℕ'}

# Those that give a list as long as their list, or shorter; and those that ask each of its elements.
OF_LIST = {'take': 1, 'drop': 1, 'filter': 1, 'slice_range': 0}
EACH = {'map', 'flat_map', 'filter_map', 'filter', 'find', 'list_all', 'list_any', 'sum_by',
        'count_by', 'option_map'}

# What operators give, those that bind least first. A list is of the type of its tail.
OPERATORS = (({'&&', '||', '=='}, 'Bool'), ({'++', '∷'}, ''), ({'+ℤ', '-ℤ', '*ℤ'}, 'ℤ'),
             ({'+', '-', '*', '/', '%', '^'}, 'ℕ'))

Type = Optional[str]
Scope = Mapping[str, Type]


def bare(kind: str) -> str:
    """A type without the brackets around all of it, or the name before it."""
    words = words_of(kind, 0, len(kind))
    while words and words[0].text == '(' and closing(words, 0) == len(words) - 1:
        words = words[3:-1] if words[2].text == ':' else words[1:-1]
    return ' '.join(kind[words[0].start:words[-1].end].split()) if words else ''


def arrows(kind: str) -> list[str]:
    """What a type of a function takes, and at last what it gives."""
    words = words_of(kind, 0, len(kind))
    pieces = [kind[words[a].start:words[b].end] for a, b in parts(words, 0, len(words), '→')]
    return [bare(it) for it in pieces if not it.startswith('{')]


def inner(kind: Type, head: str) -> list[Type]:
    """The arguments of a type that begins with this word; nothing of another."""
    kind = kind or ''
    words = words_of(kind, 0, len(kind))
    if not words or words[0].text != head:
        return []
    return [bare(kind[words[a].start:words[b].end]) for a, b in whole_atoms(words)[1:]]


class Types:
    """What texts of definitions declare: functions and constructors with their types, and the
    fields of records."""

    def __init__(self, texts: Mapping[str, str]) -> None:
        self.functions: dict[str, list[str]] = {}
        self.fields: dict[str, dict[str, str]] = {}
        self.generic: set[str] = set()
        self.constructors = {'Some', 'None', 'Ok', 'Err', 'suc', 'zero', 'pos', 'negsuc', 'true',
                             'false'}
        for text in texts.values():
            self.read(re.sub(r'--.*', '', text))

    def read(self, text: str) -> None:
        """Reads one text."""
        for name, kind in re.findall(
                r'^(?:abbrev |unfoldable )?pub (\w+) : ((?:.*\n)(?: .*\n)*)', text, re.M):
            self.functions[name] = arrows(kind)
            # What these give is of what their arguments are, which isn't read here.
            self.generic |= {name} if kind.startswith('{') else set()
        for what, name, body in re.findall(
                r'^pub (data|record) (\w+) : .*\n((?:  .*\n)+)', text, re.M):
            declared = re.findall(r'^  (?:pub )?(\w+) : (.*)', body, re.M)
            if what == 'record':
                self.fields[name] = {it: bare(kind) for it, kind in declared}
            else:
                self.constructors |= {it for it, _ in declared}
                self.functions.update({it: arrows(kind) for it, kind in declared})

    def of_path(self, path: str, scope: Scope) -> Type:
        """The type of a name in scope, or of a field of it."""
        name, *fields = path.split('.')
        kind = scope.get(name)
        for it in fields:
            kind = self.fields.get(kind or '', {}).get(it)
        return kind

    def bound(self, words: list[Word], kind: Type) -> dict[str, Type]:
        """What a pattern of a type binds."""
        while words and words[0].text == '(' and closing(words, 0) == len(words) - 1:
            words = words[1:-1]
        if len(words) == 1:
            word = words[0].text
            is_name = re.fullmatch(r'[^\W\d]\w*', word) and word != '_'
            return {word: kind} if is_name and word not in self.constructors else {}
        joined = parts(words, 0, len(words), '∷')
        if len(joined) > 1:
            tail = words[joined[1][0]:]
            return {**self.bound(words[:joined[0][1] + 1], next(iter(inner(kind, 'List')), None)),
                    **self.bound(tail, kind)}
        found: dict[str, Type] = {}
        spans = [(a, b) for a, b in whole_atoms(words) if a] if words else []
        for number, (a, b) in enumerate(spans):
            found.update(self.bound(words[a:b + 1], self.taken(words[0].text, number, kind)))
        return found

    def taken(self, constructor: str, number: int, kind: Type) -> Type:
        """The type of an argument of a constructor of a value of this type."""
        of_kit: dict[str, list[Type]] = {
            'Some': inner(kind, 'Option'), 'Ok': inner(kind, 'Result')[:1],
            'Err': inner(kind, 'Result')[1:], 'suc': ['ℕ'], 'pos': ['ℕ'], 'negsuc': ['ℕ']}
        its = of_kit.get(constructor, self.functions.get(constructor, [])[:-1])
        return its[number] if number < len(its) else None

    def of(self, words: Sequence[Word], scope: Scope) -> Type:
        """The type of an expression."""
        words = list(words)
        while words and words[0].text == '(' and closing(words, 0) == len(words) - 1:
            words = words[1:-1]
        places = list(level(words, 0, len(words)))
        if not words or words[0].text in ('λ', 'elim', 'let', '['):
            return None
        if words[0].text == 'if':
            then, other = (next(i for i in places if words[i].text == it) for it in
                           ('then', 'else'))
            return self.of(words[then + 1:other], scope)
        for signs, kind in OPERATORS:
            at = next((i for i in places if words[i].text in signs), None)
            if at is not None:
                return kind or self.of(words[at + 1:], scope)
        return self.of_call(words, scope)

    def of_call(self, words: list[Word], scope: Scope) -> Type:
        """The type of a word, or of a function with arguments."""
        atoms = whole_atoms(words)
        head, count = words[0].text, len(atoms) - 1
        if re.fullmatch(r'0x[0-9a-f]+|\d+', head):
            return 'ℕ'
        if head == '(' and not count and words[-1].text.startswith('.'):
            kind = self.of(words[:-1], scope)
            return self.of_path('it' + words[-1].text, {'it': kind})
        if head == 'record':
            return self.of_record(words)
        if head == 'unwrap_or' and count == 2:
            a, b = atoms[1]
            return next(iter(inner(self.of(words[a:b + 1], scope), 'Option')), None)
        if head.split('.')[0] in scope:
            takes = arrows(self.of_path(head, scope) or '')
        elif head in OF_LIST and count > OF_LIST[head]:
            a, b = atoms[1 + OF_LIST[head]]
            return self.of(words[a:b + 1], scope)
        else:
            takes = [] if head in self.generic else self.functions.get(head, [])
            if not takes:
                return OF_KIT.get(head) if count else None
        return ' → '.join(takes[count:]) or None

    def of_record(self, words: list[Word]) -> Type:
        """The record that has just the fields of a value that is written out."""
        names = {words[a].text for a, _ in parts(words, 2, len(words) - 1, ';')}
        kinds = [it for it, its in self.fields.items() if its.keys() == names]
        return kinds[0] if len(kinds) == 1 else None

    def expected(self, words: list[Word], run: list[Span], number: int, scope: Scope) -> list[str]:
        """The types that a function takes which is an argument of another."""
        head = words[run[0][0]].text
        if head in EACH and len(run) == 3 and number == 1:
            a, b = run[2]
            kind = self.of(words[a:b + 1], scope)
            return [it for it in [*inner(kind, 'List'), *inner(kind, 'Option')] if it]
        takes = self.functions.get(head, [])
        return arrows(takes[number - 1])[:-1] if number < len(takes) else []


def whole_atoms(words: list[Word]) -> list[Span]:
    """The arguments that stand beside each other from the first word on, brackets whole."""
    found, first = [], 0
    while first < len(words):
        end = closing(words, first) if words[first].text == '[' else atom_end(words, first)
        found.append((first, first if end is None else end))
        first = found[-1][1] + 1
    return found
