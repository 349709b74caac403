"""The lines of a run on standard error: messages, refused keys, and how far a pass is."""

import importlib
import os
import time
from typing import Any, Set

from . import signs
from .found import Found

#: How many refused or lost keys and units are named here.
SHOWN = 20
#: The seconds between two lines about a pass.
INTERVAL = 60.0


def shown(text: str) -> str:
    """Escapes what a terminal would not print."""
    return "".join(
        c if c.isprintable() else c.encode("unicode_escape").decode("ascii")
        for c in text
    )


class Console:
    """Standard error. A run goes on if nobody reads it."""

    def __init__(self) -> None:
        self._is_terminal = os.isatty(2)
        self._named: Set[int] = set()
        self._pass = self._total = self._at_begin = 0
        self._began = self._last_line = time.monotonic()
        self._percent = 0
        self._bar: Any = None

    def _write(self, text: str) -> None:
        try:
            os.write(2, text.encode("utf-8", "backslashreplace"))
        except OSError:
            pass  # It is full, or its reader has ended.

    def say(self, text: str) -> None:
        if self._bar is not None:
            self._bar.clear()
        self._write(f"keywrap-rotate: {shown(text)}\n")

    def name(self, name: str, found: Found) -> None:
        """Names what was refused or lost in a unit, once in all passes."""
        for place, why in found.named[: SHOWN + 1]:
            self._name_once(": ".join(filter(None, (name, place, why))))
        if found.refused > len(found.named):
            more = found.refused - len(found.named)
            self._name_once(f"{name}: {more} more keys were refused")

    def _name_once(self, text: str) -> None:
        if hash(text) in self._named or len(self._named) > SHOWN:
            return
        is_last = len(self._named) == SHOWN
        self._named.add(hash(text))
        self.say("more is refused: --report names all of it" if is_last else text)

    def begin(self, total: int) -> None:
        """Begins a pass over units of this weight."""
        self.end()
        self._pass += 1
        self._total = total
        self._at_begin = signs.read()
        self._began = time.monotonic()
        self._percent = 0
        if self._is_terminal:
            self._bar = _progress_bar(f"pass {self._pass}", total)

    def end(self) -> None:
        """Ends the pass: its progress bar goes."""
        if self._bar is not None:
            self._bar.close()
            self._bar = None

    def tick(self) -> None:
        """Shows on a terminal how much of the pass is read, and elsewhere says it once a minute."""
        if not self._is_terminal:
            if time.monotonic() >= self._last_line + INTERVAL:
                self.say_progress()
            return
        done = signs.read() - self._at_begin
        if self._bar is not None:
            self._bar.update(min(done, self._total) - self._bar.n)
            return
        percent = self._percent_of(done)
        if percent > self._percent:
            self._percent = percent
            self._write(f"{percent} %\r")

    def say_progress(self) -> None:
        """Says how much of the pass is read. A handler of a signal may call it at any time."""
        self._last_line = time.monotonic()
        percent = self._percent_of(signs.read() - self._at_begin)
        seconds = self._last_line - self._began
        self.say(f"pass {self._pass}: {percent} % read in {seconds:.0f} seconds")

    def _percent_of(self, done: int) -> int:
        return min(100, 100 * done // max(self._total, 1))


def _progress_bar(name: str, total: int) -> Any:
    """Returns a progress bar of tqdm, or `None` if it is not installed."""
    try:
        tqdm: Any = importlib.import_module("tqdm").tqdm
    except ImportError:
        return None
    layout = "{desc}: {percentage:3.0f} % |{bar}| {elapsed}, {remaining} left"
    return tqdm(total=total, desc=name, leave=False, bar_format=layout)
