"""Rotates stores of wrapped keys from one key-encryption key (KEK) to another.

The command `keywrap-rotate` repeats passes over files, tables or objects until one of them has nothing to do. A unit of
a pass may run twice and be killed at any point: a file is replaced by an exchange of names, a row only if nobody
changed it. Each machine reads the KEKs from its own files. No KEK, key or wrapped key of a store is in an argument, a
result, an exception or a report. `rewrap_all` and `replace` are for stores of any other kind.
"""

import os

if os.name == "posix":
    from .api import challenges, rewrap_all
    from .command import main
    from .files import replace
    from .found import EqualKeks, Refused, WrongKeks
    from .keks import Keks
else:
    from .elsewhere import main

__all__ = [
    "EqualKeks",
    "Keks",
    "Refused",
    "WrongKeks",
    "challenges",
    "main",
    "replace",
    "rewrap_all",
]
