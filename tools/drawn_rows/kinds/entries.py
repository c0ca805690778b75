"""Kinds of the entries of a script: times before and after those of the line before, refused lines
between others, commands of other slots, times just before one that is asked for."""
from __future__ import annotations

from random import Random

from .. import antt, values
from ..reference import scripts as reference
from ..reference.scripts import Command, Entry
from .commands import asked_of
from .registry import Row, kind
from .scripts import drawn_line, right_words, spoilt_words

VERBS = list(reference.VERBS)


def words_of_line(r: Random) -> list[str]:
    """The words after a time."""
    verb = r.choice(VERBS)
    return [r.choice([verb] * 6 + ['fly']), *spoilt_words(r, right_words(r, verb))]


@kind('entry_at', group=5, count=30)
def entry_at(r: Random) -> Row:
    slots, before = r.choice([1, 4, 8]), r.randint(0, 9)
    time = r.choice([None, before, before + 1, max(0, before - 1), reference.LATEST])
    words = words_of_line(r)
    if time is None or time < before:
        made = Entry(before, 3 if time is None else 4)
    else:
        made = Entry(time, reference.command([it.encode() for it in words], slots))
    return (f'verbs {slots} {before} {antt.optional(time)} {antt.listed(words, antt.text)}',
            values.entry(made))


@kind('entry_of_words', group=5, count=30)
def entry_of_words(r: Random) -> Row:
    slots, before = r.choice([1, 4, 8]), r.randint(0, 9)
    time = r.choice([str(before + r.randint(-1, 2)), 'x', str(reference.LATEST + 1)])
    words = [time, *words_of_line(r)][:r.choice([0, 1, 9, 9, 9, 9])]
    made = reference.entry(slots, before, ' '.join(words).encode())
    return (f'verbs {slots} {before} {antt.listed(words, antt.text)}',
            antt.listed([made] if made else [], values.entry))


@kind('entries_after', group=2, count=12)
def entries_after(r: Random) -> Row:
    slots, before = r.choice([1, 4, 8]), r.randint(0, 30)
    lines, time, found = [r.choice([drawn_line(r), drawn_line(r), [32] * r.randint(0, 2)])
                          for _ in range(r.randint(0, 5))], before, []
    for line in lines:
        made = reference.entry(slots, time, line)
        if made:
            found.append(made)
            time = made.time
    return (f'verbs {slots} {before} {antt.listed(lines, antt.text)}',
            antt.listed(found, values.entry))


def drawn_entry(r: Random, time: int) -> Entry:
    """An entry of a time: a command to one of a few slots, or a refusal."""
    if r.random() < .3:
        return Entry(time, r.randint(1, 8))
    verb = r.choice(VERBS)
    return Entry(time, Command(verb, r.randint(0, 2),
                               tuple(r.randint(*it) for it in reference.VERBS[verb])))


def drawn_entries(r: Random) -> list[Entry]:
    """Some entries, one time after the other or at one time."""
    time, made = 0, []
    for _ in range(r.randint(0, 6)):
        time += r.choice([0, 0, 1])
        made.append(drawn_entry(r, time))
    return made


@kind('last_time', count=20)
def last_time(r: Random) -> Row:
    """A line has one entry at most."""
    before, entries = r.randint(0, 9), drawn_entries(r)[:1]
    last = entries[-1].time if entries else before
    return f'{before} {antt.listed(entries, values.entry)}', str(last)


def timed(it: Entry) -> str:
    """A command with its time."""
    assert isinstance(it.what, Command)
    return antt.record(time=it.time, request=values.request(it.what.verb, it.what.values))


def is_to(it: Entry, slot: int) -> bool:
    """Whether an entry is a command to a slot."""
    return isinstance(it.what, Command) and it.what.slot == slot


@kind('command_to', count=20)
def command_to(r: Random) -> Row:
    slot, it = r.randint(0, 2), drawn_entry(r, r.randint(0, 99))
    return (f'{slot} {it.time} {asked_of(it.what)}',
            antt.optional(it if is_to(it, slot) else None, timed))


@kind('commands_to', group=10, count=20)
def commands_to(r: Random) -> Row:
    slot, entries = r.randint(0, 2), drawn_entries(r)
    return (f'{slot} {antt.listed(entries, values.entry)}',
            antt.listed([it for it in entries if is_to(it, slot)], timed))


@kind('entries_before', group=10, count=20)
def entries_before(r: Random) -> Row:
    entries, time = drawn_entries(r), r.randint(0, 4)
    return (f'{time} {antt.listed(entries, values.entry)}',
            antt.listed([it for it in entries if it.time < time], values.entry))


@kind('entries_of', group=2, count=8)
def entries_of(r: Random) -> Row:
    slots, text = r.choice([4, 1, 8]), []
    for _ in range(r.randint(0, 3)):
        text += [*drawn_line(r), reference.LINE_FEED]
    client = antt.record(slots=slots, script=antt.text(text))
    return client, antt.listed(reference.script(slots, text), values.entry)
