"""Kinds of whole texts: one to three clients over a few samples, with dumps of several at one time,
commands at the time of a dump, and slots that commands name in another order; clients and shares as
many as may be, and one more; limits at the number of samples, and one to both sides."""
from __future__ import annotations

from random import Random

from .. import antt, values
from ..reference import lines as reference
from ..reference import signal
from ..reference.signal import Sample, Settings
from . import drawing
from .drawing import size
from .registry import Row, kind
from .texts import drawn_event

Client = tuple[int, list[int]]


def bytes_of(lines: list[str]) -> list[int]:
    """Lines as a script."""
    return list(''.join(f'{it}\n' for it in lines).encode())


def clients_text(them: list[Client]) -> str:
    """Clients as a list."""
    return antt.listed(them, lambda it: antt.record(slots=it[0], script=antt.text(it[1])))


def drawn_script(r: Random, slots: int) -> list[int]:
    """A script over a few samples. In some a dump ends with the first sample or soon after."""
    lines, time = [], 0
    if r.random() < .4:
        verb, half = r.choice(['hold', 'track']), r.randint(2042, 2045)
        lines = [f'0 {verb} 0 {drawing.satellite(r)} 0 {half}', f'0 counts 0 {r.randint(1, 3)}']
        if r.random() < .5:
            # That dump is told all the same.
            time, lines = 1, [*lines, r.choice(['1 stop 0', '1 counts 0 0'])]
    for _ in range(r.randint(0, 3)):
        time += r.choice([0, 0, 1, 2])
        slot, verb = r.randrange(slots), r.choice(['hold', 'track'])
        low = 0 if verb == 'hold' else 2000
        begins = f'{drawing.satellite(r)} {r.randint(-99, 99)} {r.randint(low, 2045)}'
        said = r.choice([f'{verb} {slot} {begins}', f'{verb} {slot} {begins}',
                         f'counts {slot} {r.randint(0, 3)}', f'counts {slot} 2', f'state {slot}',
                         f'stop {slot}', 'x', f'acquire {slot} 1 0 0 1 10'])
        lines.append(f'{time} {said}')
    return bytes_of(lines)


class Drawn:
    """Clients over some samples."""

    def __init__(self, r: Random, most: int = 3) -> None:
        self.settings: Settings = drawing.slow(r, 8000)
        self.samples: list[Sample] = drawing.samples(r, r.randint(2, 5))
        shares = [r.choice([1, 2]) for _ in range(r.randint(1, most))]
        self.clients: list[Client] = [(it, drawn_script(r, it)) for it in shares]

    def arguments(self) -> str:
        """The settings and the samples."""
        return f'{values.settings(self.settings)} {values.samples(self.samples)}'

    def body(self) -> list[str]:
        """The lines without the ends."""
        return reference.body_lines(self.settings, self.samples, self.clients)


@kind('full', group=1, count=5)
def full(r: Random) -> Row:
    it = Drawn(r)
    lines = it.body() + reference.end_lines(it.samples, it.clients)
    return f'{it.arguments()} {clients_text(it.clients)}', antt.text(bytes_of(lines))


def is_mixed(lines: list[str]) -> bool:
    """Whether some time has an event and an answer."""
    times = [{line.split()[1] for line in lines if (line.split()[2] == 'count') == is_event}
             for is_event in (True, False)]
    return bool(times[0] & times[1])


@kind('body', group=1, count=2)
def body(r: Random) -> Row:
    it = Drawn(r, most=2)
    while not is_mixed(it.body()):
        it = Drawn(r, most=2)
    return f'{it.arguments()} {clients_text(it.clients)}', antt.text(bytes_of(it.body()))


@kind('alone_to_end', group=1, count=3)
def alone_to_end(r: Random) -> Row:
    it = Drawn(r, most=1)
    lines: list[str] = []
    while not any(line.startswith(f'{len(it.samples)} ') for line in lines):
        # Something is told at the last time too.
        it = Drawn(r, most=1)
        (slots, script), = it.clients
        lines = reference.alone_lines(it.settings, it.samples, slots, script)
    client = antt.record(slots=slots, script=antt.text(script))
    return (f'{it.arguments()} {client}',
            antt.listed([*lines, f'{len(it.samples)} end'], antt.text))


def first_events(settings: Settings, samples: list[Sample], clients: list[Client]) -> Row:
    """The lines that the one sample brings."""
    lines = reference.body_lines(settings, samples, clients)
    told = [it for it in lines if it.split()[1] == '1' and it.split()[2] == 'count']
    return (f'{values.settings(settings)} {clients_text(clients)} {values.samples(samples)}',
            antt.listed(told, antt.text))


@kind('event_lines', group=1, count=4)
def event_lines(r: Random) -> Row:
    clients = []
    for _ in range(r.randint(2, 3)):
        verb, satellite = r.choice(['hold', 'track']), drawing.satellite(r)
        clients.append((2, bytes_of([f'0 {verb} {r.randint(0, 1)} {satellite} 0 2045',
                                     f'0 counts {r.randint(0, 1)} 1'])))
    return first_events(drawing.slow(r), drawing.samples(r, 1), clients)


@kind('event_lines_of_two_slots', group=1, count=2, of='event_lines')
def event_lines_of_two_slots(r: Random) -> Row:
    lines = [line for slot in r.sample([0, 1], 2)
             for line in (f'0 hold {slot} {drawing.satellite(r)} 0 2045', f'0 counts {slot} 1')]
    return first_events(drawing.slow(r), drawing.samples(r, 1), [(2, bytes_of(lines))])


@kind('lines_of_client', group=5, count=20)
def lines_of_client(r: Random) -> Row:
    """Clients with numbers of one digit and of two, of which one begins with the other."""
    mine = r.choice([1, 2, 8, 11])
    lines = [(r.choice([1, 2, 8, 11, 12]), f'{r.randint(0, 99)} ok')
             for _ in range(r.randint(0, 6))]
    return (f'{mine} {antt.listed([reference.joined(*it) for it in lines], antt.text)}',
            antt.listed([said for client, said in lines if client == mine], antt.text))


@kind('slot_events', group=3, count=15)
def slot_events(r: Random) -> Row:
    client, slot, time = r.randint(1, 8), r.randint(0, 7), size(r, drawing.LAST_TIME)
    events = [values.event(drawn_event(r)) for _ in range(r.randint(0, 3))]
    told = antt.listed(events, lambda it: antt.record(client=client, slot=slot, time=time,
                                                      event=it))
    return f'{client} {slot} {time} {antt.listed(events)}', told


@kind('are_clients', group=5)
def are_clients(r: Random) -> Row:
    count = r.choice([0, 1, 7, 8, 9, 16])
    return antt.listed(['[]'] * count), antt.boolean(1 <= count <= 8)


@kind('are_shares', group=5)
def are_shares(r: Random) -> Row:
    count = r.randint(1, 8)
    scripts = r.choice([count, count, r.randint(1, 8)])
    shares = [r.choice([1, 4, 8, r.randint(1, 8), r.choice([0, 9, 8, 7])]) for _ in range(count)]
    are = count == scripts and all(1 <= it <= 8 for it in shares)
    return f'{antt.listed(shares)} {antt.listed(["[]"] * scripts)}', antt.boolean(are)


@kind('is_too_long', group=5)
def is_too_long(r: Random) -> Row:
    packing, size_of_it = r.choice(list(signal.SAMPLES_PER_BYTE)), r.randint(0, 20)
    count = size_of_it * signal.SAMPLES_PER_BYTE[packing]
    limit = r.choice([drawing.near(r, count), size(r, drawing.LAST_TIME)])
    task = antt.record(settings=values.settings(Settings(2046000, 0), packing), shares='[]',
                       scripts='[]', limit=limit)
    given = antt.record(bytes=antt.listed([0] * size_of_it), end='exhausted')
    return f'{task} {given}', antt.boolean(count > limit)


@kind('layout', group=5)
def layout(r: Random) -> Row:
    shares = [r.randint(1, 8) for _ in range(r.randint(0, 8))]
    slots = [f'({client}, {it})' for client, share in enumerate(shares, 1) for it in range(share)]
    return antt.listed(shares), antt.listed(slots)
