"""Wrong bodies that the prover must refuse, and where it refused them."""
import os
import re


class BadEdit(Exception):
    """An edit that says nothing, or that can't be applied."""


class Function:
    """A function of a source: its name, and the lines of its attributes, clauses and body."""

    def __init__(self, name, first, body, last):
        self.name, self.first, self.body, self.last = name, first, body, last


HEAD = re.compile(r'( *)(?:pub(?:\([a-z]+\))? )?(?:const )?fn (\w+)')


def functions(text):
    """The functions of a source in rt fmt's layout that have a body of several lines."""
    lines = text.split('\n')
    for at, line in enumerate(lines):
        head = HEAD.match(line)
        if not head:
            continue
        indent = head[1]
        first = at
        while first and lines[first - 1].startswith((indent + '#[', indent + '//')):
            first -= 1
        ours = re.compile(rf'{indent}\S')
        opens = (it for it in range(at, len(lines))
                 if (it == at or ours.match(lines[it])) and lines[it].endswith('{'))
        body = next(opens, len(lines))
        last = next((it for it in range(body, len(lines)) if lines[it] == indent + '}'), None)
        if last is not None:
            # Lines are counted from 1.
            yield Function(head[2], first + 1, body + 2, last)


def parts_inside(text, name):
    """The parts of a source in which an old text stands once: the functions with a name, or the
    whole where none is named."""
    lines = text.split('\n')
    return ['\n'.join(lines[it.first - 1:it.last + 1])
            for it in functions(text) if it.name == name] if name else [text]


class Edit:
    """A wrong body: the texts that it changes, the clause that it turns, and the words of the goal
    that has to fail. A text stands in a file, or there in the function that `inside` names."""

    def __init__(self, path):
        self.path = path
        self.name = os.path.basename(path)[:-len('.edit')]
        self.pairs, self.turns, self.goal = [], '', []
        file = inside = old = ''
        with open(path, encoding='utf-8') as lines:
            for line in lines.read().split('\n'):
                word, _, rest = line.partition(': ')
                if word == '# turns':
                    self.turns = rest
                elif word == '# goal':
                    self.goal = rest.split()
                elif word == 'file':
                    file, inside = rest, ''
                elif word == 'inside':
                    inside = rest
                elif word == 'old':
                    old = rest
                elif word.rstrip(':') == 'new':
                    self.pairs.append((file, inside, old, rest))
        if not (self.turns and self.goal and self.pairs):
            raise BadEdit(f'{path} names no clause, no goal or no text')

    def texts(self, given):
        """The texts that it makes of the given ones, by their files."""
        made = {}
        for file, inside, old, new in self.pairs:
            text = made.get(file, given(file))
            parts = [it for it in parts_inside(text, inside) if old in it]
            count = sum(it.count(old) for it in parts)
            if count != 1:
                raise BadEdit(f"{self.path}: an old text stands {count} times in {file}")
            made[file] = text.replace(parts[0], parts[0].replace(old, new))
        return made

    def functions(self, given):
        """The names of the functions whose lines it changes."""
        names = set()
        for file, text in self.texts(given).items():
            was, now = given(file).split('\n'), text.split('\n')
            changed = [at for at, (a, b) in enumerate(zip(was, now), 1) if a != b]
            names.update(it.name for it in functions(text)
                         if any(it.first <= at <= it.last for at in changed))
        return names

    def place(self, given):
        """The file and the function whose body has all that it changes; else nothing."""
        files = {it[0] for it in self.pairs}
        if len(files) != 1 or not self.pairs[0][0].startswith('src/'):
            return None
        file = files.pop()
        was, now = given(file).split('\n'), self.texts(given)[file].split('\n')
        if len(was) != len(now):
            return None
        changed = [at for at, (a, b) in enumerate(zip(was, now), 1) if a != b]
        around = [it for it in functions('\n'.join(was))
                  if all(it.body <= at <= it.last for at in changed)]
        return (file, around[-1]) if around else None


# A refusal is an error in a proof, or a note of a goal that no proof was found for.
REFUSAL = re.compile(r'(?:note: )?(?:\./)?((?:src|proofs)/\S+?):(\d+):\d+: ')

# A proof that names what an edit took away, and what cites that proof: that shows no clause.
LACKS = re.compile(r'(?:\./)?proofs/.*(has no field|is not in scope|has no `|was not admitted|'
                   r'\(nearest: |projects from a record|: module `\S+`$)')

# What the prover says of declarations that cite one that it rejected.
DEPENDS = re.compile(r' depends? on `([^`]+)`, which was rejected, (?:was|were) not checked: (.*)')


def refusals(said):
    """The lines by which the prover refused a check."""
    return [line for line in said.split('\n') if REFUSAL.match(line) and not LACKS.match(line)
            and (line.startswith('note: ') or ': error: ' in line)]


def without_those(said, places):
    """What the prover said, without the lines by which it refused functions in their own lines."""
    def is_there(line):
        found = REFUSAL.match(line)
        return found and any(found[1] == file and it.first <= int(found[2]) <= it.last + 1
                             for file, it in places)

    return '\n'.join(line for line in said.split('\n') if not is_there(line))


def does_not_compile(said, place):
    """Whether a function is one that the compiler refused, before any goal was tried."""
    file, function = place
    found = re.findall(rf'^(?:\./)?{re.escape(file)}:(\d+):\d+: error\[', said, re.M)
    return any(function.first <= int(number) <= function.last + 1 for number in found)


def path_of(file):
    """The names of the modules of a source."""
    parts = file[len('src/'):-len('.rt')].split('/')
    return [] if parts[-1] in ('lib', 'main') else parts


def is_at(line, place, path):
    """Whether the prover refused a function by this line: in its own lines, or in its proof, where
    a path leads to it."""
    file, function = place
    at, number = REFUSAL.match(line).groups()
    if at.startswith('src/'):
        return at == file and function.first <= int(number) <= function.last + 1
    parts = at.split('/')[1:-1]
    return parts[:len(path)] == path and parts[-1:] == [function.name]


def has_goal(line, edit):
    """Whether a line of the prover names the goal of an edit."""
    return all(word in line[:160] for word in edit.goal)
