"""The texts of lines, and all lines of a run. (This project's own.)

Numbers are plain decimal, words are parted by one space. Lines come by time. At one time those that
samples cause come first, by client and then by slot; then the answers, by client and then in the
order of its script. After the last time each client has its `end`."""
from __future__ import annotations

from typing import Iterator, Sequence

from .fields import EPHEMERIS, FIELDS
from .message import Words, ident, time_of_week
from .scripts import Command, script
from .sets import Ephemeris, Report
from .signal import Sample, Settings
from .slots import Answer, Event, Slot, View

PAGES = {'almanac': 'alm', 'utc': 'utc', 'health': 'hlt', 'message': 'msg'}


def joined(*words: object) -> str:
    """Words with one space between each two."""
    return ' '.join(map(str, words))


def fields_text(kinds: Sequence[str], values: Sequence[int]) -> str:
    """Each field as `name=integer:exponent`."""
    fields = [it for kind in kinds for it in FIELDS[kind]]
    return joined(*(f'{it.name}={value}:{it.exponent}' for it, value in zip(fields, values)))


def report_text(slot: int, report: Report) -> str:
    """A set, or a page. A message is shown as hexadecimal digits."""
    if isinstance(report, Ephemeris):
        return joined('eph', slot, fields_text(EPHEMERIS, report.values))
    told = (bytes(report.values).hex() if report.kind == 'message'
            else fields_text((report.kind,), report.values))
    return joined(PAGES[report.kind], slot, told)


def subframe_text(slot: int, words: Words) -> str:
    """A subframe: its ID, its time count, and its words, each as six digits or as dashes."""
    return joined('sub', slot, ident(words), time_of_week(words),
                  *('------' if it is None else f'{it:06x}' for it in words))


def event_text(slot: int, event: Event) -> str:
    """What a slot tells."""
    kind, value = event
    if kind == 'acq':
        satellite, cell = value
        return joined('acq', slot, satellite, 'found' if cell.is_found else 'none', cell.bin,
                      cell.half_chip, cell.power)
    if kind == 'count':
        return joined('count', slot, *value)
    if kind == 'gap':
        return joined('gap', slot, value)
    if kind == 'sub':
        return subframe_text(slot, value)
    if kind == 'als':
        return joined('als', slot, f'toa={value.time}:12', *value.health)
    return report_text(slot, value) if kind == 'page' else joined(kind, slot)


def view_text(slot: int, view: View) -> str:
    """A state. Of a tracking slot it is shown last whether there is an edge, or a lock."""
    words = ['state', slot, view.state, *view.numbers]
    if view.shift:
        words += [*view.shift,
                  'bits' if view.has_edge else 'lock' if view.is_locked else 'open']
    return joined(*words)


def answer_text(slot: int, answer: Answer) -> str:
    """What a command is answered."""
    if answer.kind == 'state':
        return view_text(slot, answer.value)
    return 'ok' if answer.kind == 'ok' else joined('err', answer.value)


class Client:
    """A client: its slots, and what its script asks."""

    def __init__(self, settings: Settings, samples: Sequence[Sample], slots: int,
                 text: Sequence[int]) -> None:
        self.entries = script(slots, text)
        self.slots = [Slot(settings, samples) for _ in range(slots)]

    def events(self, time: int) -> Iterator[str]:
        """The texts of what the sample before a time causes, slot by slot."""
        for number, slot in enumerate(self.slots):
            yield from (event_text(number, it) for it in slot.events(time))

    def answers(self, time: int) -> Iterator[str]:
        """The texts of the answers to the commands at a time."""
        for at, what in self.entries:
            if at != time:
                continue
            if isinstance(what, Command):
                answer = self.slots[what.slot].answer(time, what.verb, what.values)
                yield answer_text(what.slot, answer)
            else:
                yield joined('err', what)


def body_lines(settings: Settings, samples: Sequence[Sample],
               clients: Sequence[tuple[int, Sequence[int]]]) -> list[str]:
    """The lines of all clients, which have so many slots and these scripts, without the ends."""
    made = [Client(settings, samples, *it) for it in clients]
    lines = []
    for time in range(len(samples) + 1):
        for tells in ('events', 'answers'):
            for number, client in enumerate(made, 1):
                lines += [joined(number, time, it) for it in getattr(client, tells)(time)]
    return lines


def end_lines(samples: Sequence[Sample], clients: Sequence[object]) -> list[str]:
    """The last line of each client."""
    return [joined(number, len(samples), 'end') for number, _ in enumerate(clients, 1)]


def alone_lines(settings: Settings, samples: Sequence[Sample], slots: int,
                text: Sequence[int]) -> list[str]:
    """The lines of a client alone, without its number and its end."""
    return [it.partition(' ')[2] for it in body_lines(settings, samples, [(slots, text)])]
