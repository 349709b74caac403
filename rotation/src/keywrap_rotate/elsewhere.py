"""The command keywrap-rotate on a system without POSIX: it refuses."""

import sys
from typing import Optional, Sequence

from .found import ARGUMENTS


def main(words: Optional[Sequence[str]] = None) -> int:
    """Prints why nothing is rotated, and returns the exit status."""
    print(
        "keywrap-rotate: it needs the locks and renames of POSIX: run it on Linux",
        file=sys.stderr,
    )
    return ARGUMENTS
