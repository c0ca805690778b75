"""Kinds of a slot's events and answers: subframes with and without a page, with a missing word and
after gaps; `counts` at the very time of a dump; dumps by the 255, 65,535 and on; commands of all
verbs over a slot that is idle, holds, tracks or searches."""
from __future__ import annotations

from random import Random

from .. import antt, values
from ..reference import fields, message
from ..reference import slots as reference
from ..reference.message import Found
from ..reference.signal import Dump, NOTHING
from ..reference.slots import Answer, Event, View
from . import drawing
from .drawing import either, size
from .frames import cut, stream, with_words
from .loops import EQUAL, GOOD, lock_dumps
from .pages import page_words
from .registry import Row, kind
from .segments import channel
from .texts import drawn_event

# Numbers of dumps at which a count of 8 or 16 bits would begin anew.
MANY = (255, 256, 65535, 65536, 65537, 99999)


def events(them: list[Event]) -> str:
    """Events as a list."""
    return antt.listed(them, values.event)


def page_bits(r: Random) -> list[int]:
    """The bits of one subframe with a page, which is mostly one that is reported by itself."""
    words = page_words(r)
    while not fields.page(words) or message.ident(words) < 4 and r.random() < .9:
        words = page_words(r)
    return with_words([r.randint(0, 1)] * 2, words)


@kind('bit_events', group=1, count=8)
def bit_events(r: Random) -> Row:
    bits = page_bits(r) if r.random() < .7 else cut(r, stream(r, 1), .9)
    found = message.found(bits)
    return (f'{values.bits(bits)} {values.found(found)}',
            events(reference.bit_events(bits, found)))


@kind('bit_events_of_words', group=4, count=30, of='bit_events')
def bit_events_of_words(r: Random) -> Row:
    """Of a subframe without a page the bits don't matter."""
    words, gap = page_words(r), r.choice([None, 1, 300, 301, size(r, 100000)])
    if fields.page(words):
        words[r.randrange(2, 10)] = None
    found = Found(words, gap)
    return f'[] {values.found(found)}', events(reference.bit_events([], found))


@kind('report_events', group=3)
def report_events(r: Random) -> Row:
    told = reference.sets.Reports(
        drawn_event(r, 'page').value if r.random() < .7 else None,
        drawn_event(r, 'als').value if r.random() < .7 else None)
    return values.reports(told), events(reference.report_events(told))


def life(start: str, wanted: int = 0, since: int = 0, begun: int = 0) -> str:
    """A life as a record."""
    return antt.record(begun=begun, start=start, wanted=wanted, wanted_from=since)


@kind('unprinted_count', group=10)
def unprinted_count(r: Random) -> Row:
    wanted, since = size(r, 1000000), r.randint(0, 30)
    times = sorted(r.randint(0, 40) for _ in range(r.randint(0, 8)))
    dumps = antt.listed([Dump(it, NOTHING) for it in times], values.dump)
    return (f'{life("(hold 1 (pos 0) 0)", wanted, since)} {dumps}',
            str(reference.unprinted(wanted, since, times)))


@kind('tracking_view', group=1, count=5)
def tracking_view(r: Random) -> Row:
    dumps = lock_dumps(r, 4)
    if r.random() < .4:
        # More dumps than 8 bits count, the last 220 of which are bad.
        dumps = [GOOD] * r.choice([35, 36, 37, 280]) + [EQUAL] * 220
    satellite, shift = drawing.satellite(r), drawing.shift(r)
    return (f'{satellite} {values.shift(shift)} {antt.listed(dumps, values.sums)}',
            values.view(reference.tracking_view(satellite, shift, dumps)))


@kind('tracking_view_of_many', group=2, count=8, of='tracking_view', unfolded=())
def tracking_view_of_many(r: Random) -> Row:
    """How many dumps there are, without a look at their windows."""
    count, satellite, shift = r.choice(MANY), drawing.satellite(r), values.shift(drawing.shift(r))
    dumps = f'(replicate {count} {values.sums(drawing.sums(r))})'
    return (f'{satellite} {shift} {dumps}',
            f'(tracking {satellite} {count} {shift} (is_locked {dumps})'
            f' (has_edge (pushes_of {dumps})))')


@kind('channel_view', group=4, count=12)
def channel_view(r: Random) -> Row:
    count, satellite = r.choice([0, 1, *MANY, size(r, 100000)]), drawing.satellite(r)
    dumps = antt.listed([Dump(1, NOTHING)] * count, values.dump)
    return (f'(hold {satellite} (pos 0) 0) {dumps} (held_channel 0 {satellite} (pos 0) 0)',
            values.view(View('hold', (satellite, count))))


@kind('channel_view_tracked', group=2, of='channel_view')
def channel_view_tracked(r: Random) -> Row:
    text, made = channel(r, False, 0)
    sums = [drawing.sums(r) for _ in range(r.randint(0, 4))]
    dumps = antt.listed([Dump(1, it) for it in sums], values.dump)
    view = View('track', (made.satellite, len(sums)), made.steering(sums))
    return f'(track {made.satellite} (pos 0) 0) {dumps} {text}', values.view(view)


@kind('is_steered', group=5)
def is_steered(r: Random) -> Row:
    verb, numbers = drawing.start(r)
    return values.start(verb, numbers), antt.boolean(verb != 'hold')


def asked(r: Random) -> tuple[str, tuple[int, ...]]:
    """A command, which starts nothing large."""
    verb, numbers = drawing.start(r)
    return r.choice([(verb, (1, 0, 0, 1, 10) if verb == 'acquire' else numbers),
                     ('counts', (r.choice([0, size(r, 99)]),)), ('state', ()), ('stop', ())])


@kind('answer_at_end', group=4, count=30)
def answer_at_end(r: Random) -> Row:
    settings, samples = drawing.slow(r), drawing.samples(r, r.randint(0, 12))
    slot, commands, time = reference.Slot(settings, samples), [], 0
    for _ in range(r.randint(0, 5)):
        time = min(len(samples), time + r.choice([0, 0, 1, 3]))
        command = asked(r)
        slot.answer(time, *command)
        commands.append(antt.record(time=time, request=values.request(*command)))
    last = r.choice([('state', ()), ('state', ()), asked(r)])
    answer = slot.answer(len(samples), *last)
    return (f'{values.settings(settings)} {values.samples(samples)} {antt.listed(commands)}'
            f' {values.request(*last)}', values.answer(answer))


@kind('answer_with', group=10)
def answer_with(r: Random) -> Row:
    """Whether a life is on decides; what it is doesn't matter, but for `state`."""
    is_on, command = r.random() < .6, asked(r)
    while is_on and command[0] == 'state':
        command = asked(r)
    is_start = command[0] in reference.STARTS
    answer = Answer('err', 9 if is_on else 10) if is_on == is_start else Answer('ok')
    if command[0] == 'state':
        answer = Answer('state', View('idle'))
    on = f'(Some {life(values.start(*drawing.start(r)))})' if is_on else 'None'
    return (f'{values.settings(drawing.settings(r))} [] {on} {values.request(*command)}',
            values.answer(answer))


def short_life(r: Random) -> tuple[bool, str]:
    """A life over a few samples: whether it tracks, and the arguments of what is asked of it."""
    settings, samples = drawing.slow(r), drawing.samples(r, r.randint(0, 9))
    tracks = r.random() < .5
    verb = 'track' if tracks else 'hold'
    start = values.start(verb, (drawing.satellite(r), either(r, 16000), size(r, 2045)))
    return tracks, (f'{values.settings(settings)} {values.samples(samples)}'
                    f' {life(start, begun=r.randint(0, 9))}')


@kind('is_lost', group=1, count=10, unfolded=())
def is_lost(r: Random) -> Row:
    tracks, arguments = short_life(r)
    lost = f'is_some (lost_after (counts_of (dumps_of_life {arguments})))'
    return arguments, lost if tracks else 'false'


@kind('is_over', group=1, count=10, unfolded=('is_over',))
def is_over(r: Random) -> Row:
    tracks, arguments = short_life(r)
    return arguments, f'is_lost {arguments}' if tracks else 'false'
