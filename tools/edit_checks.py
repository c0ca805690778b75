"""Which edits are tried in one check. What a check loads before its first proof takes as long as
some edits, so those of several crates share one."""
from __future__ import annotations

from typing import Dict, List, Mapping, Sequence, Tuple

from crate_order import with_those_below
from rooms import is_program
from wrong_bodies import Edit, Function

# Edits with the file and the function in which each stands.
Places = Dict[Edit, Tuple[str, Function]]

# Of each crate those that it stands on.
Crates = Mapping[str, Sequence[str]]

# So many edits are tried in one check at most, but for more of its last function: with more,
# processors are idle in the end.
MOST_EDITS = 100

# An edit of a crate with none below takes as long as so many crates add to that of one above them.
ALONE = 8


def parts_of(places: Places) -> List[Places]:
    """The edits that are tried in one check each: as many in each, but those of a function stay
    together."""
    parts: List[Places] = []
    count = -(-len(places) // MOST_EDITS)
    for edit, (file, function) in sorted(places.items(), key=lambda it: (it[1][0], it[1][1].first)):
        was = parts and list(parts[-1].values())[-1]
        is_same = was and (was[0], was[1].first) == (file, function.first)
        if not is_same and (not parts or len(parts[-1]) * count >= len(places)):
            parts.append({})
        parts[-1][edit] = file, function
    return parts


def joins(group: Sequence[str], name: str, crates: Crates) -> bool:
    """Whether a crate can be tried in one check with those of a group: the check reads the sources
    of all of these, so none that is built may lie between them."""
    between = {it for it in with_those_below([name], crates)
               if not set(group).isdisjoint(with_those_below([it], crates))}
    return between <= {name, *group}


def groups_of(places: Mapping[str, Places], crates: Crates) -> List[List[str]]:
    """The crates whose edits are tried in one check each. A program's are tried by themselves."""
    groups: List[List[str]] = []
    for name in (it for it in with_those_below(places, crates) if places.get(it)):
        fit = (it for it in groups if not is_program(name) and not is_program(it[0])
               and sum(len(places[other]) for other in [name, *it]) <= MOST_EDITS
               and joins(it, name, crates))
        group = next(fit, None)
        if group:
            group.append(name)
        else:
            groups.append([name])
    return groups


def checks_of(places: Mapping[str, Places], crates: Crates) -> List[Dict[str, Places]]:
    """The edits, by their crates, that are tried in one check each, those that take long first. An
    edit takes the longer the more crates lie below."""
    checks: List[Dict[str, Places]] = []
    for name, *others in groups_of(places, crates):
        checks += ([{it: places[it] for it in (name, *others)}] if others
                   else [{name: it} for it in parts_of(places[name])])

    def weight(check: Dict[str, Places]) -> int:
        return sum(len(ours) * (ALONE + len(with_those_below([it], crates)))
                   for it, ours in check.items())

    return sorted(checks, key=weight, reverse=True)
