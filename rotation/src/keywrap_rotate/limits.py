"""A limit of time for what the main process does itself. Other processes are killed when they give no sign of life."""

import contextlib
import signal
import threading
from typing import Any, Iterator

from .found import Interrupted, Unanswered


@contextlib.contextmanager
def limited(seconds: float, what: str) -> Iterator[None]:
    """Ends a wait for a server that is gone: after this time by `Unanswered`, and at the first interrupt. Elsewhere the
    first interrupt lets the units at work be done; here there are none.
    """

    def end(number: int, frame: Any) -> None:
        raise Unanswered(f"{what}: no answer in {seconds:g} seconds")

    def interrupt(number: int, frame: Any) -> None:
        raise Interrupted("interrupted: run it again")

    if threading.current_thread() is not threading.main_thread():
        yield  # Only the main thread gets signals.
        return
    handlers = {
        signal.SIGALRM: end,
        signal.SIGINT: interrupt,
        signal.SIGTERM: interrupt,
    }
    before = {
        number: signal.signal(number, handler) for number, handler in handlers.items()
    }
    signal.setitimer(signal.ITIMER_REAL, seconds)
    try:
        yield
    finally:
        signal.setitimer(signal.ITIMER_REAL, 0)
        for number, handler in before.items():
            signal.signal(number, handler)
