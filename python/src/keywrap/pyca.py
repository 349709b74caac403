"""The functions of `cryptography.hazmat.primitives.keywrap`, over the same arguments.

They return the same bytes and raise the same kinds of exception, with messages that contain pyca's words. There
are two differences: keys of 0 bytes (padded) and of more than 1,048,576 bytes are a `ValueError`, and a wrapped
key of more than 1,048,584 bytes, or (padded) not of a multiple of 8, is `InvalidUnwrap`. If `cryptography` is
installed, this is its `InvalidUnwrap`, so a handler of either catches both. `install()` puts them in the place of
pyca's, for libraries that import those.
"""

from __future__ import annotations

import importlib
import sys
import types
from typing import TYPE_CHECKING, Any, Callable

from . import (
    BadKekLength,
    BadLength,
    KeywrapError,
    unwrap,
    unwrap_padded,
    wrap,
    wrap_padded,
)

if TYPE_CHECKING:
    from _typeshed import ReadableBuffer

__all__ = [
    "InvalidUnwrap",
    "aes_key_unwrap",
    "aes_key_unwrap_with_padding",
    "aes_key_wrap",
    "aes_key_wrap_with_padding",
    "install",
    "uninstall",
]


class InvalidUnwrap(Exception):
    """This is no wrapped key under this wrapping key."""


if not TYPE_CHECKING:
    try:
        from cryptography.hazmat.primitives.keywrap import InvalidUnwrap
    except ImportError:
        pass


# pyca's words, which each message contains.
_KEK_WORDS = "The wrapping key must be a valid AES key length"
_MULTIPLE = "must be a multiple of 8 bytes"


def aes_key_wrap(
    wrapping_key: ReadableBuffer, key_to_wrap: ReadableBuffer, backend: Any = None
) -> bytes:
    """Wraps a key (RFC 3394). A length that is not legal is a `ValueError`."""
    try:
        return wrap(wrapping_key, key_to_wrap)
    except BadLength as error:
        length = memoryview(key_to_wrap).nbytes
        if length < 16:
            raise BadLength(
                f"The key to wrap must be at least 16 bytes: {error}"
            ) from None
        if length % 8:
            raise BadLength(f"The key to wrap {_MULTIPLE}: {error}") from None
        raise
    except BadKekLength as error:
        raise BadKekLength(f"{_KEK_WORDS}: {error}") from None


def aes_key_unwrap(
    wrapping_key: ReadableBuffer, wrapped_key: ReadableBuffer, backend: Any = None
) -> bytes:
    """Unwraps a key (RFC 3394). A wrapping key of a wrong length is a `ValueError`, else `InvalidUnwrap`."""
    try:
        return unwrap(wrapping_key, wrapped_key)
    except KeywrapError as error:
        length = memoryview(wrapped_key).nbytes
        if length >= 24 and length % 8:
            raise InvalidUnwrap(
                f"The wrapped key {_MULTIPLE}: it is {length} bytes long"
            ) from None
        raise _unwrap_refused(error, length, 24) from None


def aes_key_wrap_with_padding(
    wrapping_key: ReadableBuffer, key_to_wrap: ReadableBuffer, backend: Any = None
) -> bytes:
    """Wraps a key (RFC 5649). A length that is not legal is a `ValueError`."""
    try:
        return wrap_padded(wrapping_key, key_to_wrap)
    except BadKekLength as error:
        raise BadKekLength(f"{_KEK_WORDS}: {error}") from None


def aes_key_unwrap_with_padding(
    wrapping_key: ReadableBuffer, wrapped_key: ReadableBuffer, backend: Any = None
) -> bytes:
    """Unwraps a key (RFC 5649). A wrapping key of a wrong length is a `ValueError`, else `InvalidUnwrap`."""
    try:
        return unwrap_padded(wrapping_key, wrapped_key)
    except KeywrapError as error:
        raise _unwrap_refused(error, memoryview(wrapped_key).nbytes, 16) from None


def _unwrap_refused(error: KeywrapError, length: int, least: int) -> Exception:
    """Returns the exception for a wrapped key of this length. pyca checks the wrapping key only if this is legal."""
    if length < least:
        return InvalidUnwrap(
            f"Must be at least {least} bytes: it is {length} bytes long"
        )
    if isinstance(error, BadKekLength):
        return BadKekLength(f"{_KEK_WORDS}: {error}")
    return InvalidUnwrap(str(error))


def _copy(function: Callable[..., Any]) -> Callable[..., Any]:
    """Another function, that `uninstall` can tell from the one that a program imported from here."""
    return types.FunctionType(
        function.__code__, globals(), function.__name__, function.__defaults__
    )


_FUNCTIONS = (
    aes_key_wrap,
    aes_key_unwrap,
    aes_key_wrap_with_padding,
    aes_key_unwrap_with_padding,
)
_OURS = {function.__name__: _copy(function) for function in _FUNCTIONS}
_THEIRS: dict[str, Callable[..., Any]] = {}


def _exchange(pairs: list[tuple[Any, Any]]) -> None:
    """Replaces the first of each pair by the second, wherever it is a global name of a loaded module."""
    new = {id(old): (old, replacement) for old, replacement in pairs}
    for module in list(sys.modules.values()):
        # Some objects there only pretend to be modules, and some modules load others if they get such a question.
        is_module = issubclass(type(module), types.ModuleType)
        names = object.__getattribute__(module, "__dict__") if is_module else {}
        for name, value in list(names.items()):
            if id(value) in new:
                names[name] = new[id(value)][1]


def install() -> None:
    """Makes pyca's functions these, also in the modules that have imported them by name. An attribute of an object, a
    default argument or a `functools.partial` keeps pyca's function.

    Raises `ImportError` without `cryptography`. A second call replaces what other code has put there since.
    """
    theirs = vars(importlib.import_module("cryptography.hazmat.primitives.keywrap"))
    for name, function in _OURS.items():
        if theirs[name] is not function:
            _THEIRS[name] = theirs[name]
    _exchange([(_THEIRS[name], function) for name, function in _OURS.items()])


def uninstall() -> None:
    """Undoes `install`: pyca's functions are its own again, also in modules that were imported since."""
    _exchange([(_OURS[name], function) for name, function in _THEIRS.items()])
