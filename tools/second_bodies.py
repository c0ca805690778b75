"""Wrong bodies that stand beside the right ones: each is a copy of its function under a name of its
own, with the same proof, and of the clauses of its contract that which the edit turns and one more.
So many edits of a crate are tried in one check, no caller waits for a function with a wrong body,
and nothing else of the crate is proved again. The copy differs from its function by its name, its
other clauses and the edit alone, and no other proof names what the prover makes of it. A function
that takes no second body has a wrong one in the place of its own."""
import functools
import os
import re

from answers import Answers
from bare_bodies import AUTO, head_of, refuse
from wrong_bodies import Function, has_goal, is_at, path_of

IMPL = re.compile(r'(?:unsafe )?impl\b')

# The `impl` of a trait: the trait, what stands in its angle brackets, and the type.
IMPL_OF = re.compile(r'(?:unsafe )?impl(?:<.*?>)? (\w+)(?:<(.*)>)? for (\w+)')

# Where a clause of a function begins, with its name where it promises something.
CLAUSE = re.compile(r' *(?:requires|ensures(?: (\w+))?) ')

# The name of a clause in that of its goal, and in what an edit says that it turns.
IN_GOAL = re.compile(r'(?:^|returns\S*-)clause-(\w+)')
IN_TURNS = re.compile(r'clause (\w+) of ')


def without_parameters(head):
    """The head of an `impl` without what stands in angle brackets."""
    depth, kept = 0, []
    for at, sign in enumerate(head):
        depth += sign == '<'
        kept.append('' if depth else sign)
        depth -= sign == '>' and head[at - 1] not in '-='
    return ''.join(kept)


def named_at(function, lines):
    """The index of the line that names a function."""
    return next(it for it in range(function.first - 1, function.body)
                if re.search(rf'\bfn {function.name}\b', lines[it]))


def head_around(function, lines):
    """The line that begins the `impl` or the trait of a method; empty where a function is none."""
    at = named_at(function, lines)
    if not lines[at].startswith(' '):
        return ''
    return next(lines[it] for it in range(at, -1, -1) if lines[it] and lines[it][0] not in ' #/})')


def owner_of(function, lines):
    """The type whose method a function is: empty where it is of none, and nothing where it is of a
    trait, which takes no second method."""
    head = head_around(function, lines)
    words = without_parameters(head).split()
    if not head:
        return ''
    return words[1] if IMPL.match(head) and 'for' not in words else None


def implementation_of(function, lines):
    """How the prover calls the `impl` of a trait in which a function stands: by the type, the trait
    and what stands in its angle brackets. Nothing where it stands in none."""
    found = IMPL_OF.match(head_around(function, lines))
    words = [found[3], found[1], *re.findall(r'\w+', found[2] or '')] if found else []
    return ''.join(it[0].upper() + it[1:] for it in words) or None


@functools.lru_cache(maxsize=None)
def files_with(folder, ending):
    """The texts of a crate's files with an ending, by their paths in its folder."""
    texts = {}
    for part in ('src', 'proofs'):
        for at, _, files in os.walk(os.path.join(folder, part)):
            for file in files:
                if file.endswith(ending):
                    path = os.path.join(at, file)
                    with open(path, encoding='utf-8', newline='') as source:
                        texts[os.path.relpath(path, folder)] = source.read()
    return texts


def path_by(file, owner, folder):
    """The modules and the type, by which the prover calls what stands in a file of a crate: those
    of the type, which may be declared in another."""
    declared = re.compile(rf'\b(?:struct|enum|union) {owner}\b')
    texts = files_with(folder, '.rt')
    if owner and not declared.search(texts[file]):
        file = next((it for it in sorted(texts) if declared.search(texts[it])), file)
    return [*path_of(file), *filter(None, [owner])]


def clause_of(edit):
    """The clause at which an edit has to fail, by its goal or else by what it turns, where that has
    a name."""
    found = IN_GOAL.search(edit.goal[0]) or IN_TURNS.search(edit.turns)
    return found and found[1]


def other_clauses(function, lines, name):
    """The lines of the clauses of a function that promise something else than the one with a name,
    by their indexes, each with its clause; none where no clause has the name. The shortest of them
    stays: the prover puts the name of a clause into that of its goals where there are two."""
    texts, clause = {}, None
    for at in range(function.first - 1, function.body - 2):
        begins = CLAUSE.match(lines[at])
        clause = begins[1] if begins else clause
        texts.setdefault(clause, {})[at] = lines[at]
    if name is None or name not in texts:
        return {}
    others = {it: text for it, text in texts.items() if it not in (None, name)}
    shortest = min(others, key=lambda it: sum(map(len, others[it].values())), default=None)
    return {at: it for it, text in others.items() if it != shortest for at in text}


class Second:
    """A second body of a function: as an edit turns it, or the right one where there is none."""

    # Its attribute for the prover's tactics, where the function has none of its own.
    tactic = AUTO

    # Whether it stands in the place of its function.
    is_in_place = False

    def __init__(self, place, path, number, edit, clause=None):
        (self.file, self.function), self.edit = place, edit
        self.path, self.number = path, number
        self.name = f'{self.function.name}_body{number}'
        self.place = place
        self.clause = clause_of(edit) if edit else clause
        self.left_out = {}

    def full_name(self):
        """How the prover calls it."""
        return '::'.join([*self.path, self.name])

    def copied(self, given):
        """Its lines, after one with its attribute."""
        text = self.edit.texts(given)[self.file] if self.edit else given(self.file)
        lines = text.split('\n')
        at = named_at(self.function, lines)
        lines[at] = re.sub(rf'\bfn {self.function.name}\b', f'fn {self.name}', lines[at])
        self.left_out = other_clauses(self.function, lines, self.clause)
        for at in self.left_out:
            lines[at] = ''
        taken = lines[self.function.first - 1:self.function.last + 1]
        return self.with_tactic(taken, '#[tactic(' in head_of(self.function, lines))

    def with_tactic(self, lines, has_own):
        """Its lines after its attribute, or after an empty line where it has one of its own."""
        return ['' if has_own else self.tactic, *lines]

    def stand(self, first):
        """Notes that it begins at a line of the made file."""
        by = first + 1 - self.function.first
        self.place = self.file, Function(self.name, first, self.function.body + by,
                                         self.function.last + by)

    def has_answer(self, goal):
        """Whether the proof has an answer to a goal: to none of a clause that is left out."""
        return not {*IN_GOAL.findall(goal)}.intersection(self.left_out.values())

    def copy_proof(self, folder):
        """Copies the proof of the function, if it has one, and adds an answer that is refused."""
        was = os.path.join('proofs', *self.path, self.function.name)
        now = os.path.join('proofs', *self.path, self.name)
        dotted = re.compile(re.escape(was.replace(os.sep, '.')) + r'(?![\w-])')
        for at, _, files in os.walk(os.path.join(folder, was)):
            to = os.path.join(folder, now, os.path.relpath(at, os.path.join(folder, was)))
            os.makedirs(to, exist_ok=True)
            for file in files:
                with open(os.path.join(at, file), encoding='utf-8', newline='') as source:
                    text = source.read()
                if file == 'Answers.antt':
                    text = Answers(text).of_goals(self.has_answer)
                with open(os.path.join(to, file), 'w', encoding='utf-8', newline='') as made:
                    made.write(dotted.sub(now.replace(os.sep, '.'), text))
        refuse(os.path.join(folder, now))

    def with_right_body(self):
        """The right body, tried as this one is."""
        return type(self)((self.file, self.function), self.path, f'{self.number}_right', None,
                          self.clause)

    def has_refusal(self, refused):
        """Whether it is refused, at whatever goal."""
        return any(is_at(line, self.place, self.path) for line in refused)

    def is_refused(self, refused):
        """Whether it is refused at the goal of its edit."""
        own = (line for line in refused if is_at(line, self.place, self.path))
        return any(has_goal(re.sub(rf'\b{self.name}\b', self.function.name, line), self.edit)
                   for line in own)


class InPlace(Second):
    """A wrong body in the place of the right one. Its callers cite its contract, which stays."""

    is_in_place = True

    def __init__(self, place, path, number, edit, clause=None):
        super().__init__(place, path, number, edit, clause)
        self.name, self.clause = self.function.name, None

    def copy_proof(self, folder):
        """Adds an answer that is refused. Its proof is there."""
        refuse(os.path.join(folder, 'proofs', *self.path, self.name))


def path_of_implementation(place, folder):
    """How the prover calls the `impl` of a trait in which a function of a crate stands; nothing
    where it stands in none."""
    file, function = place
    name = implementation_of(function, files_with(folder, '.rt')[file].split('\n'))
    return name and [*path_of(file), name]


def path_of_place(place, folder):
    """How the prover calls what a function of a crate stands in; nothing where that is a trait's
    `impl`, which takes no second method."""
    file, function = place
    owner = owner_of(function, files_with(folder, '.rt')[file].split('\n'))
    return None if owner is None else path_by(file, owner, folder)


def home_of(place, folder):
    """The folder of the proof of what stands at a place in a crate; nothing where it is of a trait
    itself."""
    path = path_of_place(place, folder) or path_of_implementation(place, folder)
    return path if path is None else os.path.join(folder, 'proofs', *path, place[1].name)


def is_copied(place, folder):
    """Whether a function of a crate can have a second body: a trait's method can't, nor one of
    which another proof names what the prover makes of it, nor one with a closure that has a proof
    of its own, which the copy's closure would lack."""
    path, name = path_of_place(place, folder), place[1].name
    if path is None:
        return False
    home = os.path.join('proofs', *path, name, '')
    closures = re.compile(rf'/fn/(?:.*/)?{name}/')
    return not any(home.replace(os.sep, '.') in text or closures.search(file)
                   for file, text in files_with(folder, '.antt').items()
                   if not file.startswith(home))


def with_seconds(seconds, given):
    """The texts of a crate with second bodies: each stands after the function that it copies."""
    texts = {}
    for file in {it.file for it in seconds}:
        lines, made = given(file).split('\n'), []
        ours = sorted((it for it in seconds if it.file == file), key=lambda it: it.function.last)
        at = 0
        for second in ours:
            made += lines[at:second.function.last + 1]
            at = max(at, second.function.last + 1)
            if second.is_in_place:
                del made[second.function.first - 1 - at:]
            second.stand(len(made) + 2)
            made += ['', *second.copied(given)]
        texts[file] = '\n'.join(made + lines[at:])
    return texts
