"""Second bodies of which the goals alone are tried that an edit names: where the proof of its
function has answers to these, the second body has the same, and all other goals are left open."""
import os
import re

from answers import Answers
from bare_bodies import NONE
from second_bodies import (InPlace, Second, files_with, is_copied, path_of_implementation,
                           path_of_place)
from wrong_bodies import DEPENDS, is_at

# What the prover says of a declaration.
ERROR = re.compile(r': error: `([^`]+)`: ')


def goals_of(edit, place, path, folder):
    """Those goals that an edit names to which the proof of its function has answers."""
    home = os.path.join('proofs', *path, place[1].name)
    text = files_with(folder, '.antt').get(os.path.join(home, 'Answers.antt'), '')
    answers, word = Answers(text).answers, edit.goal[0].strip('()`')
    if word in answers:
        return [word]
    return [it for it in answers if word in it] if edit.goal[-1].startswith('proofs/') else []


class Lone(Second):
    """A second body of which some goals alone are tried."""

    tactic = NONE

    def __init__(self, place, path, number, edit, clause=None, goals=()):
        super().__init__(place, path, number, edit, clause)
        self.goals = goals

    def with_right_body(self):
        right = super().with_right_body()
        right.goals = self.goals
        return right

    def with_tactic(self, lines, has_own):
        return [self.tactic, *(re.sub(r'#\[tactic\(.*\)\]', '', it) for it in lines)]

    def has_answer(self, goal):
        return goal in self.goals

    def has_refusal(self, refused):
        """Whether one of its goals is refused, or is left open as the others are."""
        own = [line for line in refused if is_at(line, self.place, self.path)]
        return any(f'`{it}`' in line for it in self.goals for line in own)

    def is_refused(self, refused):
        """Whether the answer to one of its goals is refused, or what stands beside that and is
        cited there."""
        own = [line for line in refused if '/Answers.antt:' in line
               and is_at(line, self.place, self.path)]
        rejected = {found[1] for found in map(ERROR.search, own) if found}
        for found in filter(None, map(DEPENDS.search, own)):
            if found[1] in rejected:
                rejected.update(found[2].split(', '))
        return not rejected.isdisjoint(self.goals)


def bodies_of(places, folder):
    """The second bodies of edits of a crate by their places, each with its goals alone where the
    proof of its function answers them."""
    bodies = []
    for number, (edit, place) in enumerate(places.items(), 1):
        if not is_copied(place, folder):
            path = path_of_implementation(place, folder) or path_of_place(place, folder)
            bodies.append(InPlace(place, path, number, edit))
            continue
        path = path_of_place(place, folder)
        goals = goals_of(edit, place, path, folder)
        bodies.append(Lone(place, path, number, edit, goals=goals) if goals
                      else Second(place, path, number, edit))
    return bodies
