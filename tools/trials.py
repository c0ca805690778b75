"""Which edits the prover refused where they are tried."""
import os
import re

from crate_order import TOP
from lone_goals import bodies_of
from rooms import has_kept, new_folder
from second_bodies import files_with
from trial_rooms import SharedTrial, Trial
from wrong_bodies import DEPENDS, does_not_compile, has_goal, refusals
from wrong_definitions import Copies, Modules, can_copy


def said_of(crates, bodies):
    """What the prover said of second bodies, by their crates, in a room of their own. What this
    proved of a single crate, as its lemmas, is kept where nothing was."""
    if not bodies:
        return {}
    with new_folder('edits') as folder:
        if len(bodies) > 1:
            return SharedTrial([*bodies], crates, folder, takes_made=True).check_bodies(bodies)
        (crate, ours), = bodies.items()
        room = Trial(crate, crates, folder)
        said = room.check_bodies(ours)
        if not has_kept(crate):
            room.bring_out(('incremental',))
        return {crate: said}


def shortest_right(bodies):
    """The right body of the shortest function of which bodies are tried in copies; none where there
    is no copy."""
    copies = [it for it in bodies if not it.is_in_place]
    copies.sort(key=lambda it: it.function.last - it.function.first)
    return [it.with_right_body() for it in copies[:1]]


def bodies_refused(crates, places):
    """Tries edits of bodies by their crates in one check, or in two where some don't compile. Gives
    those that were refused at their goals: none of a crate of which a right body that is tried
    beside them doesn't pass."""
    bodies = {it: bodies_of(ours, os.path.join(TOP, 'crates', it)) for it, ours in places.items()}
    right = {it: shortest_right(ours) for it, ours in bodies.items()}
    said = said_of(crates, {it: [*right[it], *ours] for it, ours in bodies.items()})
    broken = {it for name, text in said.items() for it in [*right[name], *bodies[name]]
              if does_not_compile(text, it.place)}
    if broken:
        bodies = {name: [it for it in ours if it not in broken] for name, ours in bodies.items()
                  if not broken.intersection(right[name])}
        said = said_of(crates, {it: [*right[it], *ours] for it, ours in bodies.items()})
    refused = {name: refusals(text) for name, text in said.items()}
    return {it.edit for name, ours in bodies.items()
            if not any(it.has_refusal(refused[name]) for it in right[name])
            for it in ours if it.is_refused(refused[name])}


def modules_of(crate):
    """The files of a crate's definitions and lemmas."""
    return Modules(crate, os.path.join(TOP, 'crates', crate))


def said_of_copies(crate, crates, copies, modules):
    """What the prover said of copies of definitions, in a room of their own."""
    law = law_of(crate, copies[0].edit)
    with new_folder('edits') as folder:
        return Trial(crate, crates, folder).check_copies(copies, modules, law)


def definitions_refused(crate, crates, edits):
    """Tries edits of definitions of a crate in one check. Gives those that were refused at their
    lemmas: none where copies with nothing changed, which are tried beside them, don't pass."""
    modules = modules_of(crate)
    wrong = [Copies(edit, number, modules) for number, edit in enumerate(edits, 1)]
    most = max(wrong, key=lambda it: len(it.files))
    right = Copies(most.edit, 1, modules, is_right=True)
    said = said_of_copies(crate, crates, [right, *wrong], modules)
    return set() if right.faults(said) else {it.edit for it in wrong if it.is_refused(said)}


def named_function(crate, edit):
    """The function of a crate whose clause an edit turns, or the law, by its head; nothing where
    that names none."""
    sources = '\n'.join(files_with(os.path.join(TOP, 'crates', crate), '.rt').values())
    names = re.findall(r'\b(?:law|of) ([A-Za-z]\w*(?:::\w+)*)', edit.turns)
    return next((it for it in names if re.search(rf"\bfn {it.split('::')[-1]}\b", sources)), None)


def law_of(crate, edit):
    """The law of a crate that an edit turns, or where it turns the definitions alone the first
    function that is no method: the copies of definitions are tried as if it stood on them. Nothing
    where there is none."""
    sources = files_with(os.path.join(TOP, 'crates', crate), '.rt')
    free = re.search(r'^(?:pub )?fn (\w+)', '\n'.join(map(sources.get, sorted(sources))), re.M)
    return named_function(crate, edit) or (free and free[1])


def has_copies(crate, edit):
    """Whether an edit is tried in copies of the definitions of its crate: one that turns a law, or
    the definitions alone."""
    law = law_of(crate, edit)
    return can_copy(edit, modules_of(crate)) and law is not None and '::' not in law


def why_not_refused(edit, said):
    """Why an edit isn't refused at its goal, by what the prover said; nothing where it is. A goal
    that cites what was rejected isn't refused itself."""
    refused = [it for it in refusals(said) if not DEPENDS.search(it)]
    if not refused:
        return '\n'.join([f'{edit.path}: no goal was refused:', *said.split('\n')[-12:]])
    if not any(has_goal(line, edit) for line in refused):
        return f'{edit.path}: no {" ".join(edit.goal)} in: {refused[0][:160]}'
    return None


def try_alone(crate, crates, edit):
    """Why an edit isn't refused at its goal; nothing where it is. It is tried at the function that
    its head names, and where it isn't seen so in the whole crate."""
    name = named_function(crate, edit)
    if name:
        with new_folder('edits') as folder:
            room = Trial(crate, crates, folder)
            if not why_not_refused(edit, room.check_function(edit, name)):
                return None
    with new_folder('edits') as folder:
        room = Trial(crate, crates, folder)
        is_proved, said = room.check_with(edit.texts(room.text))
    if is_proved:
        return f'{edit.path}: NOT REFUSED: the crate is still proved with it'
    return why_not_refused(edit, said)
