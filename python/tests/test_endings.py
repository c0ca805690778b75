"""Signals wait until what has to end with the companion is begun."""

from __future__ import annotations

import io
import os
import signal
import threading
from types import FrameType
from typing import Iterator, List, Optional

import pytest

from seldomplough.endings import ENDING, held
from seldomplough.feeds import Feeder


class Came(Exception):
    """A signal was taken."""


def take(number: int, frame: Optional[FrameType]) -> None:
    raise Came(number)


@pytest.fixture(autouse=True)
def handlers() -> Iterator[None]:
    """Each signal is taken by an exception, and as before in the end."""
    before = {it: signal.signal(it, take) for it in ENDING}
    yield
    for number, handler in before.items():
        signal.signal(number, handler)


@pytest.mark.parametrize('number', ENDING)
def test_a_signal_waits_until_the_end(number: signal.Signals) -> None:
    """All of the block is done, and then the signal is taken."""
    done: List[str] = []
    with pytest.raises(Came) as came:
        with held():
            os.kill(os.getpid(), number)
            done.append('begun')
    assert done == ['begun']
    assert came.value.args == (number,)
    assert signal.getsignal(number) is take


def test_the_first_of_two_is_taken() -> None:
    """One is enough to end what is done."""
    with pytest.raises(Came) as came:
        with held():
            os.kill(os.getpid(), signal.SIGTERM)
            os.kill(os.getpid(), signal.SIGINT)
    assert came.value.args == (signal.SIGTERM,)


def test_nothing_is_taken_where_none_comes() -> None:
    """A block without a signal leaves all as it was."""
    with held():
        assert signal.getsignal(signal.SIGTERM) is not take
    assert [signal.getsignal(it) for it in ENDING] == [take, take]


@pytest.mark.parametrize('kind', (signal.SIG_IGN, signal.SIG_DFL))
def test_one_without_a_handler_stays_so(kind: signal.Handlers) -> None:
    """A signal that is ignored, or that ends the process, is left alone."""
    signal.signal(signal.SIGTERM, kind)
    with held():
        assert signal.getsignal(signal.SIGTERM) is kind
    assert signal.getsignal(signal.SIGTERM) is kind


def test_in_another_thread_nothing_waits() -> None:
    """Python takes signals in the main thread, which goes on there."""
    found: List[object] = []

    def work() -> None:
        with held():
            found.append(signal.getsignal(signal.SIGTERM))

    thread = threading.Thread(target=work)
    thread.start()
    thread.join()
    assert found == [take]


def test_a_feed_is_begun_before_a_signal_is_taken(monkeypatch: pytest.MonkeyPatch) -> None:
    """One that is half begun has nothing that can be waited for."""
    start = threading.Thread.start

    def interrupted(thread: threading.Thread) -> None:
        os.kill(os.getpid(), signal.SIGTERM)
        start(thread)

    monkeypatch.setattr(threading.Thread, 'start', interrupted)
    feeder, sink = Feeder(lambda sink: None), io.BytesIO()
    with pytest.raises(Came):
        feeder.begin(sink)
    feeder.end()
    assert sink.closed
