"""Units go to processes of this machine, or to the workers of Dask. No wait is without an end.

Processes share nothing but signs of life: each has a socket, whose end is its end. An executor of `concurrent.futures`
ends all its processes if one is killed: then it is not known which unit killed it, and all units at work are lost.
"""

import collections
import contextlib
import functools
import importlib
import itertools
import os
import pickle
import signal
import socket
import time
from multiprocessing.connection import wait
from typing import Any, Callable, Counter, Dict, Iterator, List, Optional, Tuple, Union

from . import signs
from .found import Found, Unanswered, WrongKeks
from .linux import PDEATHSIG, set_process
from .listing import Unit

#: How often a unit is tried whose process died.
TRIES = 3
#: How many units a batch has at most.
LARGEST = 16
#: How many batches a thread of Dask has at most.
WINDOW = 3
_SIGNALS = (signal.SIGINT, signal.SIGTERM)

Work = Callable[[List[Unit]], List[Found]]
#: The results of the units of a batch, or the reason why nothing more may be done; `None` if the process died.
Answer = Union[List[Found], WrongKeks, None]


def _answer(work: Work, units: List[Unit]) -> Answer:
    try:
        return work(units)
    except WrongKeks as error:
        return error
    except Exception as error:  # A driver, Dask and a pickle fail in many ways.
        return [Found(f"its process failed: {type(error).__name__}") for _ in units]


def _serve(work: Work, batches: socket.socket, parent: int) -> None:
    """Does batches until its parent ends. It leaves interrupts to the parent: the end of a unit is soon."""
    try:
        set_process(PDEATHSIG, signal.SIGKILL)
        if os.getppid() != parent:
            return  # It ended before this call.
        signal.signal(signal.SIGINT, signal.SIG_IGN)
        signal.signal(signal.SIGTERM, signal.SIG_DFL)
        signal.signal(signal.SIGUSR1, signal.SIG_IGN)
        signal.pthread_sigmask(signal.SIG_UNBLOCK, _SIGNALS)
        signs.start()
        with batches.makefile("rb") as file:
            while True:
                batches.sendall(pickle.dumps(_answer(work, pickle.load(file))))
    finally:
        os._exit(1)


class Process:
    """A process that is forked here, and inherits the work, which may be long. It does one batch at a time: so it reads
    when its parent writes."""

    def __init__(self, work: Work, timeout: float) -> None:
        self.socket, theirs = socket.socketpair()
        self.socket.settimeout(timeout)
        parent = os.getpid()
        # Until it serves, it has the handlers of its parent.
        before = signal.pthread_sigmask(signal.SIG_BLOCK, _SIGNALS)
        try:
            self.pid = os.fork()
            if self.pid == 0:
                _serve(work, theirs, parent)
        finally:
            signal.pthread_sigmask(signal.SIG_SETMASK, before)
            theirs.close()

    def begin(self, units: List[Unit]) -> None:
        with contextlib.suppress(OSError):  # It died, and will not answer.
            self.socket.sendall(pickle.dumps(units))

    def fileno(self) -> int:
        return self.socket.fileno()

    def answer(self) -> Answer:
        try:
            with self.socket.makefile("rb") as answers:
                return pickle.load(answers)  # type: ignore[no-any-return]
        except (EOFError, OSError, pickle.UnpicklingError):
            return None

    def end(self) -> None:
        """Kills it, and waits a second for its end: a disk may hold it for longer."""
        self.socket.close()
        until = time.monotonic() + 1
        with contextlib.suppress(
            OSError
        ):  # If SIGCHLD is ignored, the system waited for it.
            os.kill(self.pid, signal.SIGKILL)
            while not os.waitpid(self.pid, os.WNOHANG)[0] and time.monotonic() < until:
                time.sleep(0.001)


class Task:
    """A batch of the workers of Dask, which try it again if a worker dies. Here we only ask what became of it."""

    def __init__(self, work: Work, client: Any, timeout: float) -> None:
        self.work = work
        self.client = client
        self.timeout = timeout

    def begin(self, units: List[Unit]) -> None:
        # It is not pure, so that Dask does a pass again and takes no result from a cache.
        self.units = units
        self.future = self.client.submit(_answer, self.work, units, pure=False)

    def answer(self) -> Answer:
        return _answer(lambda units: self.future.result(self.timeout), self.units)  # type: ignore[no-any-return]


class Pool:
    def __init__(
        self,
        jobs: int,
        dask: Optional[str],
        timeout: float,
        tick: Callable[[], None],
        rate: Optional[int] = None,
    ) -> None:
        self.jobs = jobs
        self.timeout = timeout
        self.tick = tick
        # The processes of this machine keep the rate by themselves.
        self.rate = rate if dask else None
        self._client: Any = (
            importlib.import_module("distributed").Client(dask, timeout=10)
            if dask
            else None
        )
        #: Whether somebody asked for the end.
        self.stopped = False
        self._may_begin = 0.0
        self._running: Dict[Any, List[Unit]] = {}
        self._idle: List[Process] = []

    def __call__(
        self, work: Work, units: Iterator[Unit], count: int
    ) -> Iterator[Tuple[Unit, Found]]:
        """Yields what was found in each unit, in any order. A unit whose process died is tried again, alone: so it is
        known which unit ends its process."""
        size = min(self.jobs, max(count, 1))
        make: Callable[[], Union[Process, Task]] = functools.partial(
            Process, work, self.timeout
        )
        if self._client is not None:
            threads = self._client.sync(
                self._client.scheduler.ncores, callback_timeout=self.timeout
            )
            size = WINDOW * max(1, sum(threads.values()))
            make = functools.partial(Task, work, self._client, self.timeout)
        largest = 1 if self.rate else max(1, min(LARGEST, count // (8 * size)))
        again: List[Unit] = []
        tries: Counter[str] = collections.Counter()
        try:
            while True:
                while len(self._running) < size and not self.stopped:
                    batch = (
                        [again.pop()]
                        if again
                        else list(itertools.islice(units, largest))
                    )
                    if not batch:
                        break
                    worker = self._idle.pop() if self._idle else make()
                    self._running[worker] = batch
                    worker.begin(batch)
                if not self._running:
                    break
                for batch, answer in self._ended():
                    if isinstance(answer, WrongKeks):
                        raise answer
                    if answer is not None:
                        self._pace(answer)
                        yield from zip(batch, answer)
                        continue
                    tries.update(unit.name for unit in batch)
                    again += [unit for unit in batch if tries[unit.name] < TRIES]
                    yield from (
                        (unit, Found("its process died"))
                        for unit in batch
                        if tries[unit.name] >= TRIES
                    )
        except KeyboardInterrupt:
            self._running = {}  # Nobody waits for them: they end with this process.
            raise
        finally:
            while self._running:
                self._ended()
            while self._idle:
                self._idle.pop().end()

    def _ready(self) -> List[Any]:
        """Waits a moment for workers that are done."""
        if self._client is None:
            return wait(list(self._running), 0.2)
        until = time.monotonic() + 0.2
        while (
            not (done := [task for task in self._running if task.future.done()])
            and time.monotonic() < until
        ):
            time.sleep(0.01)
        return done

    def _ended(self) -> List[Tuple[List[Unit], Answer]]:
        """Waits for some batches. What shows no sign of life is given up."""
        seen = signs.beats()
        until = time.monotonic() + self.timeout
        while not (ready := self._ready()):
            self.tick()
            if signs.beats() != seen:
                seen = signs.beats()
                until = time.monotonic() + self.timeout
            elif time.monotonic() > until:
                given_up = self._running
                self._running = {}
                if self._client is not None:
                    raise Unanswered(
                        f"no worker of Dask answered in {self.timeout:g} seconds"
                    )
                for process in given_up:
                    process.end()
                return [(batch, None) for batch in given_up.values()]
        self.tick()
        ended = [
            (self._running.pop(worker), worker, worker.answer()) for worker in ready
        ]
        for _, worker, answer in ended:
            if answer is None:
                worker.end()
            elif self._client is None:
                self._idle.append(worker)
        return [(batch, answer) for batch, _, answer in ended]

    def _pace(self, found: List[Found]) -> None:
        """Waits as long as the keys of these units may take, so that no unit begins earlier."""
        if self.rate is not None:
            rewrapped = sum(sum(each.old.values()) for each in found)
            self._may_begin = (
                max(self._may_begin, time.monotonic()) + rewrapped / self.rate
            )
            while time.monotonic() < self._may_begin and not self.stopped:
                time.sleep(0.02)
                self.tick()
