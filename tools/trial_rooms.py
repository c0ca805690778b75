"""Rooms in which edits are tried: of one crate, or of several in one check."""
import os
import re

from bare_bodies import refuse, remove_proofs, with_tactics, without_bodies
from rooms import Room, SharedRoom
from second_bodies import home_of, with_seconds
from wrong_bodies import functions, without_those
from wrong_definitions import answers_of, home_of_law, with_copies

# What tells tools/rt_once that edits are tried.
TRIAL = {'RT_TRIAL': '1'}


class Texts:
    """The texts of a crate in a room, which its edits change."""

    def __init__(self, folder):
        self.folder = folder

    def text(self, file):
        """A text of the crate."""
        with open(os.path.join(self.folder, file), encoding='utf-8', newline='') as source:
            return source.read()

    def write(self, texts):
        """Puts texts in the place of those of their files."""
        for file, text in texts.items():
            with open(os.path.join(self.folder, file), 'w', encoding='utf-8', newline='') as source:
                source.write(text)

    def sources(self):
        """The sources of the crate."""
        return [os.path.relpath(os.path.join(at, file), self.folder)
                for at, _, files in os.walk(os.path.join(self.folder, 'src')) for file in files]

    def leave_unproved(self, kept):
        """Has nothing proved of functions but for those with these names, and nothing printed."""
        remove_proofs(self.folder, kept)
        others = [(file, it) for file in self.sources() for it in functions(self.text(file))
                  if it.name not in kept]
        for home in filter(None, (home_of(it, self.folder) for it in others)):
            refuse(home)

    def take_bodies(self, bodies):
        """Has second bodies stand in the crate, and nothing else be proved of it. Gives how the
        prover calls them there."""
        made = with_seconds(bodies, self.text)
        for body in bodies:
            body.copy_proof(self.folder)
        kept = {body.name for body in bodies}
        self.leave_unproved(kept)
        self.write({file: without_bodies(made.get(file) or self.text(file), kept)
                    for file in self.sources()})
        return [body.full_name() for body in bodies]


class Trial(Texts, Room):
    """A room in which edits of its crate are tried."""

    environment = TRIAL

    def __init__(self, crate, crates, folder):
        Room.__init__(self, crate, crates, folder, takes_made=True)

    def check_with(self, texts, names=()):
        """Checks the crate with these texts, or functions of it alone. Gives whether it is proved,
        and what the prover said."""
        self.write(texts)
        return self.run('check', 1, more=[it for name in names for it in ('--only', name)])

    def check_bodies(self, bodies):
        """Checks second bodies alone. Gives what the prover said."""
        return self.check_with({}, self.take_bodies(bodies))[1]

    def check_copies(self, copies, modules, law):
        """Checks copies of files of definitions and their lemmas, as if a law stood on them. Gives
        what the prover said."""
        remove_proofs(self.folder, set())
        home = home_of_law(law, {file: self.text(file) for file in self.sources()})
        os.makedirs(os.path.join(self.folder, home), exist_ok=True)
        texts = {file: without_bodies(self.text(file), set()) for file in self.sources()}
        made = {**with_copies(copies, modules),
                os.path.join(home, 'Answers.antt'): answers_of(copies, modules)}
        return self.check_with({**texts, **made}, [law])[1]

    def check_function(self, edit, name):
        """Checks with an edit one function alone. Gives what the prover said, but for the goals of
        those without bodies, which are left open."""
        changed = edit.texts(self.text)
        kept = {name.split('::')[-1], *edit.functions(self.text)}
        self.leave_unproved(kept)
        texts = {file: changed.get(file) or self.text(file) for file in [*self.sources(), *changed]}
        bare = {file: with_tactics(without_bodies(text, kept), kept) if file.startswith('src/')
                else text for file, text in texts.items()}
        others = [(file, it) for file, text in bare.items() if file.startswith('src/')
                  for it in functions(text) if it.name not in kept]
        return without_those(self.check_with(bare, [name])[1], others)


class SharedTrial(SharedRoom):
    """A room in which edits of several libraries are tried."""

    environment = TRIAL

    def check_bodies(self, bodies):
        """Checks second bodies by their crates. Gives what the prover said of each crate."""
        names = [f'{crate}::{name}' for crate, ours in bodies.items()
                 for name in Texts(os.path.join(self.folder, os.pardir, crate)).take_bodies(ours)]
        said = self.run('check', 1, more=[it for name in names for it in ('--only', name)])[1]
        return {it: of_crate(said, it) for it in bodies}


def of_crate(said, crate):
    """What the prover said of a crate whose sources it read, as it says it of the one that it
    checks."""
    own = re.compile(rf'^(note: )?\.\./{crate}/(?=src/|proofs/|specs/)')
    return '\n'.join(own.sub(r'\1', line) for line in said.split('\n') if own.match(line))
