"""A crate of which some functions alone have their bodies. A proof of a function cites the
contracts of those that it calls, and nothing of their bodies: so these need none where it alone is
tried, and a check spends nothing on them. That they keep their contracts is proved by the crate's
own check."""
import os
import re

from wrong_bodies import functions

# What a function's attribute has the prover do with a goal that has no answer: it searches for a
# proof, or leaves the goal open.
AUTO, NONE = '#[tactic(auto)]', '#[tactic(none)]'

# An answer that is refused at once. Where a function has one, the prover doesn't load all once more
# to print what else its proof lacks.
REFUSED = 'missing : missing\nmissing = missing\n'

# The files of a function's own proof.
OF_FUNCTION = ('Answers.antt', 'Invariants.antt', 'Proof.antt')


def head_of(function, lines):
    """The head of a function, with its attributes and clauses."""
    return '\n'.join(lines[function.first - 1:function.body - 1])


def needs_body(function, lines):
    """Whether a function can't go without its body: constants are computed by it, or its result's
    type is read in it."""
    return bool(re.search(r'\bconst fn |-> impl\b', head_of(function, lines)))


def without_bodies(text, kept):
    """A source with the bodies of those functions alone that are to be kept. Its lines stay where
    they are. The goals of the others are left open."""
    lines = text.replace('#![tactic(auto)]', '#![tactic(none)]').split('\n')
    for function in functions(text):
        if function.name not in kept and not needs_body(function, lines):
            for at in range(function.first - 1, function.body - 1):
                lines[at] = re.sub(r'#\[tactic\(.*\)\]', '', lines[at])
            first, last = function.body - 1, function.last
            lines[first:last] = ['unreachable!()', *[''] * (last - first)][:last - first]
    return '\n'.join(lines)


def with_tactics(text, kept):
    """A source whose functions that are to be kept have their goals searched for."""
    lines = text.split('\n')
    for function in reversed([it for it in functions(text) if it.name in kept]):
        if '#[tactic(' not in head_of(function, lines):
            lines.insert(function.first - 1, AUTO)
    return '\n'.join(lines)


def remove_proofs(folder, kept):
    """Removes the proofs of a crate's functions but for those with these names, and their
    closures."""
    for at, _, files in os.walk(os.path.join(folder, 'proofs')):
        names = at.split(os.sep)
        if names[-1] not in kept and not ('fn' in names and kept.intersection(names)):
            for file in set(files).intersection(OF_FUNCTION):
                os.remove(os.path.join(at, file))


def refuse(folder):
    """Puts an answer that is refused at once beside those in the folder of a function's proof."""
    os.makedirs(folder, exist_ok=True)
    with open(os.path.join(folder, 'Answers.antt'), 'a', encoding='utf-8') as answers:
        answers.write(f'\n{REFUSED}')
