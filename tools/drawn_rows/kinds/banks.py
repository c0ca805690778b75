"""Kinds of the lines of several clients: at one time by what comes first, by client, and all."""
from __future__ import annotations

from random import Random
from typing import Callable, Iterator, NamedTuple

from .. import values
from ..reference import lines as reference
from ..reference.signal import Sample, Settings
from . import drawing
from .clients import Alone, texts
from .registry import Row, kind
from .runs import Client, clients_text, drawn_script


class Bank(NamedTuple):
    """One to three clients over a few samples."""
    settings: Settings
    samples: list[Sample]
    clients: list[Client]

    def body(self) -> list[str]:
        """The lines without the ends."""
        return reference.body_lines(self.settings, self.samples, self.clients)

    def ends(self) -> list[str]:
        """The ends."""
        return reference.end_lines(self.samples, self.clients)


def drawn_bank(r: Random, most: int = 2) -> Bank:
    """Some clients, each with a slot or two."""
    shares = [r.choice([1, 2]) for _ in range(r.randint(1, most))]
    return Bank(drawing.slow(r, 8000), drawing.samples(r, r.randint(1, 3)),
                [(it, drawn_script(r, it)) for it in shares])


def at_last(it: Bank, parts: tuple[str, ...]) -> Iterator[str]:
    """What all clients are told at the last time."""
    for part in parts:
        for number, client in enumerate(it.clients, 1):
            for one in Alone(it.settings, it.samples, client).texts(part):
                yield reference.joined(number, len(it.samples), one)


def has_both(it: Bank) -> bool:
    """Whether clients are told of events and of answers at the last time."""
    return all(list(at_last(it, (part,))) for part in ('events', 'answers'))


def bank_kind(name: str, told: Callable[[Bank], list[str]], order: str) -> None:
    """A kind of some lines of several clients; the arguments are in such an order."""
    @kind(name, group=1, count=3)
    def _(r: Random) -> Row:
        it = drawn_bank(r)
        while r.random() < .99 and not has_both(it):
            it = drawn_bank(r)
        said = {'settings': values.settings(it.settings), 'samples': values.samples(it.samples),
                'clients': clients_text(it.clients)}
        return ' '.join(said[one] for one in order.split()), texts(told(it))


bank_kind('answer_lines', lambda it: list(at_last(it, ('answers',))), 'settings clients samples')
bank_kind('lines_at', lambda it: list(at_last(it, ('events', 'answers'))),
          'settings clients samples')
bank_kind('body_lines', lambda it: it.body(), 'settings samples clients')
bank_kind('full_lines', lambda it: it.body() + it.ends(), 'settings samples clients')


@kind('end_lines', group=5, count=10)
def end_lines(r: Random) -> Row:
    """Of up to eight clients."""
    samples = drawing.samples(r, r.randint(0, 12))
    clients: list[Client] = [(1, [])] * r.choice([1, 8, r.randint(1, 8)])
    return (f'{values.samples(samples)} {clients_text(clients)}',
            texts(reference.end_lines(samples, clients)))
