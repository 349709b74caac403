"""AES Key Wrap (RFC 3394) and AES Key Wrap with Padding (RFC 5649), by a proved library.

A key-encryption key (KEK) of 16, 24 or 32 bytes wraps a key: plain, of a multiple of 8 bytes from 16
on, or padded, of any length from 1 on; both up to 1,048,576 bytes. Arguments are bytes-like objects.
An argument that is not `bytes` is copied first, and the copy is wiped. Other threads run during a
call. Every call also takes a `Kek` in the place of a KEK.

`keywrap.steps` has the calls for a KEK in a token or a KMS, and `keywrap.pyca` the functions of
`cryptography.hazmat.primitives.keywrap`. `python3 -m keywrap.rotate --help` is about the keys of files,
tables and objects under a new KEK, `python3 -m keywrap.vectors --help` about published test vectors.
"""

from __future__ import annotations

import enum
from typing import TYPE_CHECKING, Any, Callable, NoReturn, Optional, Tuple, TypeVar

from . import _ffi

# Before the first call of the library, which would end the process with SIGILL.
if not _ffi.lib.cpu_supported():
    raise ImportError(
        "this processor lacks SSSE3 or SSE4.1, which keywrap needs", name=__name__
    )

from . import _refusals
from ._refusals import (
    BadInitialValue,
    BadKekLength,
    BadLength,
    IntegrityFailed,
    KeyNotPlain,
    KeywrapError,
)

if TYPE_CHECKING:
    from _typeshed import ReadableBuffer

__all__ = [
    "BadInitialValue",
    "BadKekLength",
    "BadLength",
    "IntegrityFailed",
    "Kek",
    "KeyNotPlain",
    "KeywrapError",
    "Kind",
    "check",
    "check_many",
    "check_with_length",
    "rewrap",
    "rewrap_many",
    "self_test",
    "unwrap",
    "unwrap_any",
    "unwrap_many",
    "unwrap_padded",
    "wrap",
    "wrap_many",
    "wrap_padded",
]

for _refusal in (
    KeywrapError,
    BadInitialValue,
    BadKekLength,
    BadLength,
    KeyNotPlain,
    IntegrityFailed,
):
    _refusal.__module__ = __name__

_lib = _ffi.lib
__version__: str = _ffi.ffi.string(_lib.VERSION).decode("ascii")

_wrap = _lib.keywrap_wrap
_unwrap = _lib.keywrap_unwrap
_wrap_with = _lib.keywrap_wrap_with
_unwrap_with = _lib.keywrap_unwrap_with
_wrap_padded = _lib.keywrap_wrap_padded
_unwrap_padded = _lib.unwrap_padded
_unwrap_any = _lib.unwrap_any
_rewrap = _lib.rewrap
_kind = _lib.kind
_wipe = _lib.wipe

_Answer = TypeVar("_Answer")


class Kind(enum.Enum):
    """The form in which a key was wrapped."""

    PLAIN = "plain"
    PADDED = "padded"


_KINDS = (Kind.PLAIN, Kind.PADDED)


# How the calls below use bytes objects. The library writes its result into a new bytes object, which
# nothing else refers to, so there is no second copy of a key. Only an exact `bytes` or `Kek` is read in
# place, since only its `len` is certain to be its size.


def _copied(given: object) -> bytes:
    """Returns a new bytes object with the content of the object's buffer."""
    try:
        return bytes(_ffi.ffi.buffer(_ffi.ffi.from_buffer("uint8_t[]", given)))
    except (TypeError, ValueError, BufferError):
        pass
    raise TypeError(
        f"a contiguous bytes-like object is required, not {type(given).__name__!r}"
    )


def _on_copies(call: Callable[..., _Answer], *given: object, **more: Any) -> _Answer:
    """Makes the call on copies of the arguments. Wipes them, except shared ones of 0 and 1 bytes."""
    copies = []
    try:
        for item in given:
            copies.append(_copied(item))
        return call(*copies, **more)
    finally:
        for copy in copies:
            if len(copy) > 1:
                _wipe(copy, len(copy))


class Kek(bytes):
    """A KEK that is expanded once. Each call takes it in the place of the KEK.

    The KEK has 16, 24 or 32 bytes (else `BadKekLength`). A `Kek` is as secret as its KEK, and is shown
    without its bytes. It is wiped at the end of its `with` block, or by `close`; afterwards a call raises
    `BadKekLength`. Close it when no call uses it. It cannot be pickled.
    """

    __slots__ = ()

    def __new__(cls, kek: ReadableBuffer) -> Kek:
        if type(kek) is not bytes:
            return _on_copies(cls, kek)
        kept = super().__new__(cls, 4 * min(len(kek), 32) + 120)
        status = _lib.keywrap_kek_init(kek, len(kek), kept, len(kept))
        if status:
            raise _refusals.refusal(status, "", 0, "", kek)
        return kept

    def close(self) -> None:
        """Wipes it. A second time this does nothing."""
        _lib.keywrap_kek_clear(self, len(self))

    def __enter__(self) -> Kek:
        return self

    def __exit__(self, *_: object) -> None:
        self.close()

    def __repr__(self) -> str:
        return "<keywrap.Kek>"

    __str__ = __repr__

    def __reduce_ex__(self, _: object) -> NoReturn:
        raise TypeError("a Kek cannot be pickled or copied")


def wrap(
    kek: ReadableBuffer, key: ReadableBuffer, iv: Optional[ReadableBuffer] = None
) -> bytes:
    """Returns the plain wrapping of a key (RFC 3394, 2.2.1), which is 8 bytes longer.

    The key has a multiple of 8 bytes from 16 to 1,048,576 (else `BadLength`), the KEK 16, 24 or 32
    bytes (else `BadKekLength`). `iv` is an initial value of 8 bytes that both ends agreed on instead of
    the default (RFC 3394, 2.2.3.2); a value that is not allowed raises `BadInitialValue`.
    """
    if iv is not None:
        return _wrap_under(kek, iv, key)
    if (type(kek) is not bytes and type(kek) is not Kek) or type(key) is not bytes:
        return _on_copies(wrap, kek, key)
    length = len(key)
    wrapped = bytes(length + 8)
    status = _wrap(kek, len(kek), key, length, wrapped, length + 8)
    if status:
        raise _refusals.refusal(status, "the key", length, _refusals.PLAIN_KEYS, kek)
    return wrapped


def unwrap(
    kek: ReadableBuffer, wrapped: ReadableBuffer, iv: Optional[ReadableBuffer] = None
) -> bytes:
    """Returns the key whose plain wrapping this is (RFC 3394, 2.2.2), or raises `IntegrityFailed`.

    The wrapped key has a multiple of 8 bytes from 24 to 1,048,584. For `kek` and `iv` see `wrap`.
    """
    if iv is not None:
        return _unwrap_under(kek, iv, wrapped)
    if (type(kek) is not bytes and type(kek) is not Kek) or type(wrapped) is not bytes:
        return _on_copies(unwrap, kek, wrapped)
    length = len(wrapped)
    room = length - 8 if length > 8 else 0
    key = bytes(room)
    status = _unwrap(kek, len(kek), wrapped, length, key, room)
    if status:
        raise _refusals.refusal(
            status, "the wrapped key", length, _refusals.WRAPPED_PLAIN, kek
        )
    return key


def _wrap_under(kek: ReadableBuffer, iv: ReadableBuffer, key: ReadableBuffer) -> bytes:
    if (
        (type(kek) is not bytes and type(kek) is not Kek)
        or type(iv) is not bytes
        or type(key) is not bytes
    ):
        return _on_copies(_wrap_under, kek, iv, key)
    length = len(key)
    wrapped = bytes(length + 8)
    status = _wrap_with(kek, len(kek), iv, len(iv), key, length, wrapped, length + 8)
    if status == _lib.KEYWRAP_BAD_IV:
        raise _refusals.bad_initial_value(iv)
    if status:
        raise _refusals.refusal(status, "the key", length, _refusals.PLAIN_KEYS, kek)
    return wrapped


def _unwrap_under(
    kek: ReadableBuffer, iv: ReadableBuffer, wrapped: ReadableBuffer
) -> bytes:
    if (
        (type(kek) is not bytes and type(kek) is not Kek)
        or type(iv) is not bytes
        or type(wrapped) is not bytes
    ):
        return _on_copies(_unwrap_under, kek, iv, wrapped)
    length = len(wrapped)
    room = length - 8 if length > 8 else 0
    key = bytes(room)
    status = _unwrap_with(kek, len(kek), iv, len(iv), wrapped, length, key, room)
    if status == _lib.KEYWRAP_BAD_IV:
        raise _refusals.bad_initial_value(iv)
    if status:
        raise _refusals.refusal(
            status, "the wrapped key", length, _refusals.WRAPPED_PLAIN, kek
        )
    return key


def wrap_padded(kek: ReadableBuffer, key: ReadableBuffer) -> bytes:
    """Returns the padded wrapping of a key (RFC 5649, 4.1), 8 bytes longer than the next multiple of 8.

    The key is 1 to 1,048,576 bytes (`BadLength`), the KEK 16, 24 or 32 bytes (`BadKekLength`).
    """
    if (type(kek) is not bytes and type(kek) is not Kek) or type(key) is not bytes:
        return _on_copies(wrap_padded, kek, key)
    length = len(key)
    room = (length + 15) & ~7
    wrapped = bytes(room)
    status = _wrap_padded(kek, len(kek), key, length, wrapped, room)
    if status:
        raise _refusals.refusal(status, "the key", length, _refusals.PADDED_KEYS, kek)
    return wrapped


def unwrap_padded(kek: ReadableBuffer, wrapped: ReadableBuffer) -> bytes:
    """Returns the key whose padded wrapping this is (RFC 5649, 4.2), or raises `IntegrityFailed`.

    The wrapped key has a multiple of 8 bytes from 16 to 1,048,584. For `kek` see `wrap_padded`.
    """
    if (type(kek) is not bytes and type(kek) is not Kek) or type(wrapped) is not bytes:
        return _on_copies(unwrap_padded, kek, wrapped)
    return _unwrap_by(_unwrap_padded, kek, wrapped)[0]


def unwrap_any(kek: ReadableBuffer, wrapped: ReadableBuffer) -> Tuple[bytes, Kind]:
    """Returns the key whose wrapping this is, plain or padded, and its form, or raises `IntegrityFailed`.

    No wrapped key has both forms. The plain one has the default initial value. For lengths see
    `unwrap_padded`.
    """
    if (type(kek) is not bytes and type(kek) is not Kek) or type(wrapped) is not bytes:
        return _on_copies(unwrap_any, kek, wrapped)
    return _unwrap_by(_unwrap_any, kek, wrapped)


def _unwrap_by(
    call: Callable[..., int], kek: bytes, wrapped: bytes
) -> Tuple[bytes, Kind]:
    """Returns the key that the call finds, and its form. Wipes the buffer of the call if it has padding."""
    length = len(wrapped)
    room = length - 8 if length > 8 else 0
    padded = bytes(room)
    found = call(kek, len(kek), wrapped, length, padded, room)
    if found < 0:
        raise _refusals.refusal(
            -found, "the wrapped key", length, _refusals.WRAPPED_PADDED, kek
        )
    key_len, form = found >> 1, _KINDS[found & 1]
    if key_len == room:
        return padded, form
    key = padded[:key_len]
    _wipe(padded, room)
    return key, form


def _flags(old_padded: bool, new_padded: bool, keep_form: bool, pass_new: bool) -> int:
    if keep_form and (old_padded or new_padded):
        raise ValueError("keep_form goes with neither old_padded nor new_padded")
    flags: int = (
        (_lib.KEYWRAP_OLD_PADDED if old_padded else 0)
        | (_lib.KEYWRAP_NEW_PADDED if new_padded else 0)
        | (_lib.KEYWRAP_KEEP_FORM if keep_form else 0)
        | (_lib.KEYWRAP_PASS_NEW if pass_new else 0)
    )
    return flags


def rewrap(
    old_kek: ReadableBuffer,
    new_kek: ReadableBuffer,
    wrapped: ReadableBuffer,
    old_padded: bool = False,
    new_padded: bool = False,
    *,
    keep_form: bool = False,
    pass_new: bool = False,
) -> bytes:
    """Rewraps a wrapped key from the old KEK to the new one. The result is as long as the wrapped key.

    Both wrapped keys are in the plain form, unless a flag makes one padded. With `keep_form` the old
    form may be either, and is kept; a flag of a form beside it raises `ValueError`. With `pass_new` a
    wrapped key that is already under the new KEK, in the form of a result, is returned unchanged.
    `KeyNotPlain`, a `BadLength`, if the result would be plain and the key has no length of a plain key.
    For other exceptions see `unwrap` and `unwrap_padded`.
    """
    flags = _flags(old_padded, new_padded, keep_form, pass_new)
    if (
        (type(old_kek) is not bytes and type(old_kek) is not Kek)
        or (type(new_kek) is not bytes and type(new_kek) is not Kek)
        or type(wrapped) is not bytes
    ):
        given = {
            "old_padded": old_padded,
            "new_padded": new_padded,
            "keep_form": keep_form,
            "pass_new": pass_new,
        }
        return _on_copies(rewrap, old_kek, new_kek, wrapped, **given)
    length = len(wrapped)
    result = bytes(max(length, 16))
    status = _rewrap(
        old_kek, len(old_kek), new_kek, len(new_kek), wrapped, length, result, flags
    )
    if status:
        legal = (
            _refusals.WRAPPED_PADDED
            if old_padded or keep_form
            else _refusals.WRAPPED_PLAIN
        )
        raise _refusals.refusal(
            status, "the wrapped key", length, legal, old_kek, new_kek
        )
    return result


def check(kek: ReadableBuffer, wrapped: ReadableBuffer) -> Optional[Kind]:
    """Returns the form of the wrapped key, or `None` if it is not valid under the KEK.

    The key is not returned. `BadKekLength` is the only refusal.
    """
    found = check_with_length(kek, wrapped)
    return found[0] if found else None


def check_with_length(
    kek: ReadableBuffer, wrapped: ReadableBuffer
) -> Optional[Tuple[Kind, int]]:
    """Returns the result of `check` and the length of the key in bytes, or `None`."""
    if (type(kek) is not bytes and type(kek) is not Kek) or type(wrapped) is not bytes:
        return _on_copies(check_with_length, kek, wrapped)
    length = len(wrapped)
    room = length - 8 if length > 8 else 0
    scratch = bytes(room)
    found = _kind(kek, len(kek), wrapped, length, scratch, room)
    if found >= 0:
        return _KINDS[found & 1], found >> 1
    if found != -_lib.KEYWRAP_INTEGRITY:
        raise _refusals.refusal(
            -found, "the wrapped key", length, _refusals.WRAPPED_PADDED, kek
        )
    return None


def self_test() -> None:
    """Wraps and unwraps the published vectors of RFC 3394 and RFC 5649, and unwraps a damaged wrapped key.

    Raises `RuntimeError` if a result is wrong.
    """
    if _lib.keywrap_self_test() != _lib.KEYWRAP_OK:
        raise RuntimeError("self test failed: this machine computes wrong results")


# It needs the names above.
from ._many import check_many, rewrap_many, unwrap_many, wrap_many  # noqa: E402

for _call in (check_many, rewrap_many, unwrap_many, wrap_many):
    _call.__module__ = __name__
