"""Kinds of what others come upon seldom: slots beyond the fourth, commands of one time to several
slots, an answer of one client beside an event of another, lines without words before one that is
refused, searches of several bins, windows past dump 65,535, a dump with its news, and where a
signal is lost, which stays a word."""
from __future__ import annotations

from random import Random

from .. import antt, values
from ..reference import acquisition
from ..reference import lines as reference
from ..reference import scripts
from ..reference.acquisition import Plan
from ..reference.scripts import Command, Entry
from ..reference.signal import NOTHING, Dump
from . import drawing
from .clients import Alone, client_text, entries_text, texts
from .commands import asked_of
from .loops import BAD, GOOD
from .registry import Row, kind
from .runs import Client, bytes_of, clients_text
from .slots import life


@kind('entries_after_blank', group=5, count=10, of='entries_after')
def entries_after_blank(r: Random) -> Row:
    """A line that is refused has the time of the last line with words."""
    before = r.randint(1, 60)
    lines = [*[b' ' * r.randint(0, 2)] * r.randint(1, 2), r.choice([b'x', b'0 stop 0', b'\t'])]
    made = scripts.entry(4, before, lines[-1])
    assert made
    return (f'verbs 4 {before} {antt.listed(lines, antt.text)}',
            antt.listed([made], values.entry))


def to_slots(r: Random, last: int) -> list[Entry]:
    """Commands to two slots, of which those of the last time are several."""
    slots = r.sample(range(8), 2)
    made = []
    for time in sorted([0, r.randint(0, last), last, last, last]):
        verb = r.choice(['hold', 'hold', 'counts', 'state', 'stop'])
        given = {'hold': (drawing.satellite(r), 0, 0), 'counts': (r.randint(0, 9),)}.get(verb, ())
        made.append(Entry(time, Command(verb, r.choice(slots), given)))
    return made


def answers(it: Alone, entries: list[Entry]) -> list[str]:
    """The answer to each entry."""
    client = reference.Client(it.settings, it.samples, 8, b'')
    client.entries = entries
    told: list[str] = []
    for time in range(len(it.samples) + 1):
        told += client.answers(time)
    return told


def asked_slots(r: Random) -> tuple[Alone, list[Entry]]:
    """A few samples, and commands to two slots."""
    samples = drawing.samples(r, r.randint(0, 1))
    return Alone(drawing.settings(r), samples, (8, [])), to_slots(r, len(samples))


@kind('reply_text_of_slots', group=5, count=20, of='reply_text')
def reply_text_of_slots(r: Random) -> Row:
    """By the commands to that slot alone, those of the same time too."""
    it, entries = asked_slots(r)
    return (f'{it.before()} {values.samples(it.samples)} {entries_text(entries[:-1])}'
            f' {asked_of(entries[-1].what)}', antt.text(answers(it, entries)[-1]))


@kind('entry_answer_texts_of_slots', group=5, count=20, of='entry_answer_texts')
def entry_answer_texts_of_slots(r: Random) -> Row:
    """By the commands before it, of the same time too, and by none after it."""
    it, entries = asked_slots(r)
    number = r.randint(2, 4)
    return (f'{it.before()} {values.samples(it.samples)} {entries_text(entries)}'
            f' ({number}, {values.entry(entries[number])})', texts([answers(it, entries)[number]]))


def held(r: Random, slot: int) -> list[str]:
    """Lines that have a slot tell of a dump with the first sample."""
    return [f'0 hold {slot} {drawing.satellite(r)} 0 2045', f'0 counts {slot} 1']


@kind('event_texts_of_last', group=1, count=1, of='event_texts')
def event_texts_of_last(r: Random) -> Row:
    """A client's last slot tells too."""
    slots = r.randint(5, 8)
    it = Alone(drawing.slow(r), drawing.samples(r, 1), (slots, bytes_of(held(r, slots - 1))))
    return (f'{it.before()} {client_text(it.client)} {values.samples(it.samples)}',
            texts(it.texts('events')))


@kind('lines_at_of_two', group=1, count=1, of='lines_at')
def lines_at_of_two(r: Random) -> Row:
    """An event of the second client comes before an answer of the first."""
    settings, samples = drawing.slow(r), drawing.samples(r, 1)
    clients: list[Client] = [(1, bytes_of(['1 state 0'])), (1, bytes_of(held(r, 0)))]
    told = [it for it in reference.body_lines(settings, samples, clients)
            if it.split()[1] == '1']
    return (f'{values.settings(settings)} {clients_text(clients)} {values.samples(samples)}',
            texts(told))


@kind('named_cell_of_bins', group=1, count=1, of='named_cell')
def named_cell_of_bins(r: Random) -> Row:
    """The mean is that of the cells of all bins."""
    bins, power, at = 1, r.randint(5, 90), r.randrange(40)
    powers = [1] * (acquisition.HALF_CHIPS * (1 + 2 * bins))
    powers[at] = power
    threshold = 10 * power * len(powers) // sum(powers) - r.randint(0, 1)
    plan = Plan(drawing.satellite(r), 0, bins, 1, threshold)
    return (f'{values.plan(plan)} (λ k. if k == {at} then {power} else 1)',
            values.cell(acquisition.named(plan, powers)))


@kind('news_of_many', group=1, count=1, of='news_of')
def news_of_many(r: Random) -> Row:
    """Past dump 65,535 the last of ten bad windows still ends the lock."""
    good = 199 + 20 * r.randint(3267, 3270)
    dumps = antt.listed([GOOD] * good + [BAD] * 200, values.sums)
    return dumps, 'unlock'


@kind('dump_events_tracked', group=5, count=10, of='dump_events',
      unfolded=('front_of', 'unprinted_count'))
def dump_events_tracked(r: Random) -> Row:
    """The sums come before what the loops answer with that dump and what its push makes."""
    dumps = [Dump(it, drawing.sums(r)) for it in range(1, r.randint(2, 4))]
    wanted, text = r.randint(0, 4), antt.listed(dumps, values.dump)
    is_told = wanted >= len(dumps)
    told = f'count {values.sums(dumps[-1].sums)} ∷ ' * is_told
    return (f'{life("(track 1 (pos 0) 0)", wanted)} {text} {values.dump(dumps[-1])}',
            f'{told}steered_events {antt.listed([it.sums for it in dumps], values.sums)}')


@kind('until_lost', group=5, count=10, unfolded=())
def until_lost(r: Random) -> Row:
    """Up to the dump with which the signal is lost, that one too."""
    dumps = [Dump(it, NOTHING) for it in range(1, r.randint(1, 5))]
    text, sums = antt.listed(dumps, values.dump), antt.listed([NOTHING] * len(dumps), values.sums)
    return (text, f'elim (lost_after {sums}) [ Some k ↦ take k {text} | None ↦ {text} ]')
