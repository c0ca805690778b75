"""The signals that end the companion wait while it begins what has to end with it."""

from __future__ import annotations

import signal
import threading
from contextlib import contextmanager
from typing import Iterator, List

# By these it ends, once it has undone what it began.
ENDING = (signal.SIGINT, signal.SIGTERM)


@contextmanager
def held() -> Iterator[None]:
    """Has these signals wait until the end of a block, where they are taken as before.

    A program that a block begins is so known to whoever ends it. Python takes signals in the main
    thread alone, so in another one nothing waits. One that is ignored, or that ends the process at
    once, stays so."""
    handlers = {it: signal.getsignal(it) for it in ENDING}
    taken = {number: it for number, it in handlers.items() if callable(it)}
    if threading.current_thread() is not threading.main_thread():
        taken = {}
    came: List[int] = []
    for number in taken:
        signal.signal(number, lambda number, _: came.append(number))
    try:
        yield
    finally:
        for number, handler in taken.items():
            signal.signal(number, handler)
        if came:
            taken[signal.Signals(came[0])](came[0], None)
