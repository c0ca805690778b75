"""Kinds of lives and searches: a life after each command, whatever the samples were; of which
samples something is asked, where the answer itself is too large to be computed and stays a word."""
from __future__ import annotations

from random import Random
from typing import Optional

from .. import antt, values
from ..reference.slots import STARTS, View
from . import drawing
from .drawing import size
from .lives import Followed
from .registry import Row, kind
from .searches import Search
from .slots import asked, life


def some(term: Optional[str]) -> str:
    """What may be missing, as a term."""
    return antt.optional(term)


def drawn_life(r: Random) -> tuple[str, int, int]:
    """How a life was started, when, and since when it counts dumps."""
    begun = size(r, 99)
    return values.start(*drawing.start(r)), begun, begun + size(r, 99)


@kind('life_with', count=80)
def life_with(r: Random) -> Row:
    """The latest life, and whether it is on."""
    start, begun, since = drawn_life(r)
    time, (verb, given) = since + size(r, 99), asked(r)
    latest = r.choice([None, life(start, size(r, 9), since, begun)])
    on, now = r.choice([latest, None]), latest
    if on and verb == 'counts':
        now = life(start, given[0], time, begun)
    elif verb in STARTS and not on:
        now = life(values.start(verb, given), 0, time, time)
    elif on and verb == 'stop':
        now = None
    return f'{some(latest)} {some(on)} {time} {values.request(verb, given)}', some(now)


def searched(r: Random) -> tuple[Search, str]:
    """A search, and its life. By the time of its `counts` it would be due where it isn't, and not
    be due where it is."""
    it = Search(r)
    start = values.start('acquire', it.plan)
    return it, life(start, 1, (it.begun + 9) * (it.count >= it.due), it.begun)


@kind('life_after', group=1, count=2, unfolded=())
def life_after(r: Random) -> Row:
    """Whether the latest life is on is asked of the samples up to the command."""
    it, latest = searched(r)
    time = it.count - r.choice([0, 1, 2, 9])
    request = values.request(*asked(r))
    settings = values.settings(it.settings)
    on = f'(still_on {settings} (replicate {time} (real (pos 1))) (Some {latest}))'
    return (f'{settings} {it.samples} (Some {latest})'
            f' {antt.record(time=time, request=request)}',
            f'life_with (Some {latest}) {on} {time} {request}')


@kind('events_at_end_asked', group=1, count=1, of='events_at_end',
      unfolded=('events_at_end', 'front_of'))
def events_at_end_asked(r: Random) -> Row:
    """Which life is on is asked of the samples before the last one."""
    settings, made = values.settings(drawing.settings(r)), drawing.samples(r, r.randint(1, 6))
    commands = antt.listed([antt.record(time=it, request=values.request(*asked(r)))
                            for it in range(r.randint(0, 2))])
    return (f'{settings} {values.samples(made)} {commands}',
            f'life_events {settings} {values.samples(made)}'
            f' (life_now {settings} {values.samples(made[:-1])} {commands})')


@kind('is_over_searched', group=1, count=1, of='is_over', unfolded=('is_over',))
def is_over_searched(r: Random) -> Row:
    """A search is over when it is due, counted from its start, and has found nothing."""
    it, latest = searched(r)
    arguments = f'{values.settings(it.settings)} {it.samples} {latest}'
    nothing = f'not {it.result()}.found || ' * (it.count >= it.due)
    return arguments, f'{nothing}is_lost {arguments}'


@kind('acquired_channel', group=1, count=3, unfolded=())
def acquired_channel(r: Random) -> Row:
    """There is one from the due time on, where the signal is found."""
    it = Search(r)
    plan, settings, found = values.plan(it.plan), values.settings(it.settings), it.result()
    channel = f'(found_channel {settings} {plan} {it.begun} {found})'
    told = f'if {found}.found then Some {channel} else None' if it.count >= it.due else 'None'
    return f'{settings} {it.samples} {plan} {it.begun}', told


@kind('life_view_searched', group=1, count=2, of='life_view', unfolded=())
def life_view_searched(r: Random) -> Row:
    """How far a search has come is counted from its start."""
    it, latest = searched(r)
    told = (f'waiting_view {values.settings(it.settings)} {it.count} {it.begun}'
            f' {values.start("acquire", it.plan)}')
    return f'{values.settings(it.settings)} {it.samples} {latest} None', told


@kind('view_of_searched', group=1, count=1, of='view_of', unfolded=('view_of',))
def view_of_searched(r: Random) -> Row:
    """Its channel is that of a search from its start on."""
    it, latest = searched(r)
    settings = values.settings(it.settings)
    channel = (f'(acquired_channel {settings} {it.samples} {values.plan(it.plan)} {it.begun})')
    return (f'{settings} {it.samples} (Some {latest})',
            f'life_view {settings} {it.samples} {latest} {channel}')


@kind('view_of', group=1, count=4)
def view_of(r: Random) -> Row:
    it = Followed(r)
    while r.random() < .8 and not (it.slot.life and it.slot.life.dumps(len(it.samples))):
        it = Followed(r)
    now = it.slot.on(len(it.samples))
    shown = now.view(len(it.samples)) if now else View('idle')
    return f'{it.samples_text()} {it.now()}', values.view(shown)


@kind('dumps_of_life', group=1, count=5)
def dumps_of_life(r: Random) -> Row:
    """Of a life that began later than the samples did, or counts dumps from later on."""
    it = Followed(r)
    while not it.slot.life or it.slot.life.plan or not it.slot.life.dumps(len(it.samples)):
        it = Followed(r)
    now = it.slot.life
    latest = life(values.start(*it.begun), 1, r.choice([0, now.begun + 1, 99]), now.begun)
    return (f'{it.samples_text()} {latest}',
            antt.listed(now.dumps(len(it.samples)), values.dump))


@kind('lost_after', group=5, count=10, unfolded=())
def lost_after(r: Random) -> Row:
    """It is asked after each dump, the last one too."""
    dumps = antt.listed([drawing.sums(r) for _ in range(r.randint(0, 4))], values.sums)
    count = dumps.count('counts6')
    return dumps, f'least_below (is_lost_with {dumps}) {count + 1}'


@kind('result_of', group=1, count=1, unfolded=('result_of',))
def result_of(r: Random) -> Row:
    """Its cell is that of the powers from the start on."""
    it = Search(r)
    settings, plan = values.settings(it.settings), values.plan(it.plan)
    return (f'{settings} {plan} {it.samples} {it.begun}',
            f'named_cell {plan} (power_of {settings} {plan} {it.samples} {it.begun})')
