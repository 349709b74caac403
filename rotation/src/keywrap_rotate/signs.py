"""Memory that the processes of this machine share: signs of life, by which their parent sees that they go on, and the
clock of --rate."""

import fcntl
import mmap
import os
import threading
import time
from typing import Optional

from .found import Unanswered

# Each place is a number that processes change. They add to the first two without a lock.
_READ, _BEATS, _NEXT, _PER_KEY, _STOPPED = range(5)
_shared = memoryview(mmap.mmap(-1, 64)).cast("Q")
_is_syncing = False
_clock: Optional[int] = None


def beat(weight: int = 0) -> None:
    """Gives a sign of life, and adds to what was read."""
    _shared[_READ] += weight
    _shared[_BEATS] += 1


def read() -> int:
    """Returns how much was read by all processes."""
    return _shared[_READ]


def beats() -> int:
    return _shared[_BEATS]


def stop() -> None:
    """Ends the waits for the rate: somebody asked for the end."""
    _shared[_STOPPED] = 1


def limit(keys_a_second: int) -> None:
    """Limits the rate of all processes together. To be called before they begin."""
    global _clock
    _clock = os.memfd_create("rate")
    _shared[_PER_KEY] = 10**9 // keys_a_second


def batch_size(most: int) -> int:
    """Returns how many keys may be rewrapped at once: with a rate, the keys of one second."""
    return (
        min(most, max(1, 10**9 // _shared[_PER_KEY])) if _shared[_PER_KEY] else most
    )


def pace(keys: int) -> None:
    """Waits until this many keys may be rewrapped. Raises `Unanswered` if somebody asked for the end meanwhile."""
    if _clock is None or not keys:
        return
    # The lock of a process that dies is released. It is no lock between threads.
    fcntl.lockf(_clock, fcntl.LOCK_EX)
    begin = max(time.monotonic_ns(), _shared[_NEXT])
    _shared[_NEXT] = begin + keys * _shared[_PER_KEY]
    fcntl.lockf(_clock, fcntl.LOCK_UN)
    while (left := begin - time.monotonic_ns()) > 0:
        if _shared[_STOPPED]:
            raise Unanswered("interrupted")
        time.sleep(min(left / 1e9, 0.1))
        beat()


def start() -> None:
    """Starts the thread that beats while this process waits for a disk, however slow that is."""

    def work() -> None:
        while True:
            time.sleep(0.2)
            if _is_syncing:
                beat()

    threading.Thread(target=work, daemon=True).start()


def sync(descriptor: int) -> None:
    """Syncs a file, with signs of life until it is synced."""
    global _is_syncing
    _is_syncing = True
    try:
        os.fsync(descriptor)
    finally:
        _is_syncing = False
