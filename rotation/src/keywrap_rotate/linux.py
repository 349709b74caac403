"""Properties that only Linux gives a process."""

import ctypes

PDEATHSIG, DUMPABLE = 1, 4


def set_process(option: int, value: int) -> None:
    """Sets a property of this process by prctl. Other systems have none of them."""
    libc = ctypes.CDLL(None)
    if hasattr(libc, "prctl"):
        libc.prctl(option, value, 0, 0, 0)
