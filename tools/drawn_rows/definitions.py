"""Where each definition stands, and what it rests on: a row unfolds the definitions that it rests
on, and imports what it names."""
from __future__ import annotations

import re
from typing import Optional

from definition_trials import statements

# A definition: its module and its name.
Key = tuple[str, str]

# What the prover's own library has unfolded for these words.
UNFOLDED = {'decimal': 'digits', 'signed_decimal': 'digits', 'xor': 'xor'}
LIBRARY = ''


def words_in(text: str) -> set[str]:
    """The words of a term that may name something: no text in quotes, and no field."""
    bare = re.sub(r'"[^"]*"|\b\w+ =(?!=)|\.\w+', ' ', text)
    return set(re.findall(r'[A-Za-z_]\w*', bare))


class Definitions:
    """The names of each module, the types among them, the type of each other, and what each rests
    on, by the modules' texts."""

    def __init__(self, texts: dict[str, str]) -> None:
        self.names: dict[str, list[str]] = {}
        self.homes: dict[str, str] = {}
        self.imports: dict[str, dict[str, str]] = {}
        self.bodies: dict[Key, str] = {}
        self.types: list[Key] = []
        self.heads: dict[Key, str] = {}
        self.unfoldable: set[Key] = {(LIBRARY, it) for it in UNFOLDED.values()}
        self.found: dict[Key, frozenset[Key]] = {}
        for module, text in texts.items():
            self.read(module, text)

    def read(self, module: str, text: str) -> None:
        """Reads a module."""
        self.names[module] = []
        self.imports[module] = {
            name.strip(): home for home, names in re.findall(
                r'^use Rattle\.definitions\.specs\.(\w+)\.\{([^}]*)\}', text, re.M)
            for name in names.split(',')}
        for it in statements(text):
            made = re.match(r'pub (data|record) (\w+)', it)
            if made:
                self.types.append((module, made[2]))
                variants = re.findall(r'^  (\w+) :', it, re.M) if made[1] == 'data' else []
                for name in (made[2], *variants):
                    self.put(module, name)
            elif not it.startswith('use '):
                self.read_definition(module, it)

    def read_definition(self, module: str, text: str) -> None:
        """Reads a head of a definition, or a clause of it."""
        head = re.match(r'(abbrev |unfoldable )?(?:pub )?(\w+)', text)
        if not head:
            return
        key = (module, head[2])
        if key not in self.bodies:
            self.put(module, head[2])
            self.heads[key] = ' '.join(text[head.end():].split()).removeprefix(': ')
        if head[1] == 'unfoldable ':
            self.unfoldable.add(key)
        self.bodies[key] = self.bodies.get(key, '') + text[head.end():]

    def put(self, module: str, name: str) -> None:
        """Puts a name into its module."""
        self.names[module].append(name)
        self.homes.setdefault(name, module)

    def key(self, name: str, module: str = '') -> Optional[Key]:
        """What a name means in a module; anywhere, where none is named."""
        if module:
            if name in self.names[module]:
                return module, name
            home = self.imports[module].get(name)
        else:
            home = self.homes.get(name)
        return (home, name) if home else None

    def below(self, key: Key) -> frozenset[Key]:
        """A definition, and all that it rests on."""
        if key not in self.found:
            made, left = set(), [key]
            while left:
                it = left.pop()
                if it in made:
                    continue
                made.add(it)
                for word in set(re.findall(r'\w+', self.bodies.get(it, ''))):
                    named = self.key(word, it[0])
                    left += [named] if named else []
                    made.update({(LIBRARY, UNFOLDED[word])} if word in UNFOLDED else set())
            self.found[key] = frozenset(made)
        return self.found[key]

    def below_term(self, term: str) -> set[Key]:
        """All that a term rests on."""
        keys = filter(None, map(self.key, words_in(term)))
        return set().union(*map(self.below, keys))
