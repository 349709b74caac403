"""The refusals: one class each, and their messages."""

from __future__ import annotations

from ._ffi import ffi, lib

_MAX_KEY: int = lib.KEYWRAP_MAX_KEY
_MAX_WRAPPED: int = lib.KEYWRAP_MAX_TEXT

#: The legal lengths, in bytes.
KEKS = "16, 24 or 32"
PLAIN_KEYS = f"a multiple of 8 from 16 to {_MAX_KEY}"
PADDED_KEYS = f"from 1 to {_MAX_KEY}"
WRAPPED_PLAIN = f"a multiple of 8 from 24 to {_MAX_WRAPPED}"
WRAPPED_PADDED = f"a multiple of 8 from 16 to {_MAX_WRAPPED}"


def _text(status: int) -> str:
    """Returns the library's text of a status."""
    text = ffi.new("char[]", 80)
    lib.keywrap_status_text(status, text, len(text))
    words: bytes = ffi.string(text)
    return words.decode("ascii")


_BAD_LENGTH = _text(lib.KEYWRAP_BAD_LENGTH)
_KEY_NOT_PLAIN = _text(lib.KEYWRAP_KEY_NOT_PLAIN)
_INTEGRITY = _text(lib.KEYWRAP_INTEGRITY)


class KeywrapError(Exception):
    """A refusal. Nothing of a key is given out."""


class BadInitialValue(KeywrapError, ValueError):
    """The initial value is not 8 bytes long, or begins with a6 59 59 a6 (reserved for RFC 5649)."""


class BadKekLength(KeywrapError, ValueError):
    """The key-encryption key (KEK) is not 16, 24 or 32 bytes long, or is a `Kek` that is closed."""


class BadLength(KeywrapError, ValueError):
    """The key or the wrapped key has a length that this form does not take."""


class KeyNotPlain(BadLength):
    """The wrapped key is genuine, but no plain key has the length of its key."""


class IntegrityFailed(KeywrapError):
    """The integrity check failed: another KEK, form or initial value, or damage."""


def bad_length(what: str, length: int, legal: str) -> BadLength:
    """Returns the exception for a length that is not legal."""
    return BadLength(
        f"{_BAD_LENGTH}: {what} is {length} bytes long; it must be {legal} bytes"
    )


def refusal(
    status: int, what: str, length: int, legal: str, *keks: bytes
) -> KeywrapError:
    """Returns the exception for the status of a call under these KEKs, whose `what` has this length."""
    if status == lib.KEYWRAP_BAD_KEK:
        # A KEK that is not refused itself refuses no bytes for their integrity.
        length = next(
            len(kek)
            for kek in keks
            if lib.kind(kek, len(kek), b"", 0, b"", 0) == -status
        )
        closed = "closed, or " if length > 100 else ""
        return BadKekLength(
            f"the KEK is {closed}{length} bytes long; it must be {KEKS} bytes"
        )
    if status == lib.KEYWRAP_BAD_LENGTH:
        return bad_length(what, length, legal)
    if status == lib.KEYWRAP_KEY_NOT_PLAIN:
        return KeyNotPlain(
            f"{_BAD_LENGTH}: {_KEY_NOT_PLAIN}; it must be {PLAIN_KEYS} bytes"
        )
    return IntegrityFailed(f"{_INTEGRITY}: no wrapped key under this KEK")


def bad_initial_value(iv: bytes) -> BadInitialValue:
    """Returns the exception for a refused initial value."""
    if len(iv) != 8:
        return BadInitialValue(
            f"the initial value is {len(iv)} bytes long; it must be 8 bytes"
        )
    return BadInitialValue(
        "the initial value is reserved for the padded form: it begins with a6 59 59 a6"
    )
