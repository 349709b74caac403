"""Forwards to the package keywrap-rotate, which rotates stores of wrapped keys.

`python -m keywrap.rotate` is its command, and this module has its public names.
"""

import importlib
import sys
from typing import Any

_MISSING = "the rotation is in the package keywrap-rotate, which is not installed"

try:
    _package: Any = importlib.import_module("keywrap_rotate")
except ModuleNotFoundError as error:
    if error.name != "keywrap_rotate":
        raise
    if __name__ == "__main__":
        print(f"keywrap.rotate: {_MISSING}", file=sys.stderr)
        sys.exit(2)
    raise ModuleNotFoundError(_MISSING, name="keywrap_rotate") from None

__all__ = list(_package.__all__)


def __getattr__(name: str) -> Any:
    """Returns a public name of keywrap_rotate."""
    if name not in __all__:
        raise AttributeError(f"module {__name__!r} has no attribute {name!r}")
    return getattr(_package, name)


if __name__ == "__main__":
    sys.exit(_package.main())
