"""The calls for many keys of one length. Each key has a slot in one buffer, and each slot a status.

Item i of a result is what the call for one key returns for item i, or the refusal that it raises.
"""

from __future__ import annotations

from typing import TYPE_CHECKING, Iterable, List, NamedTuple, Optional, Tuple, Union

from . import Kek, KeywrapError, Kind, _ffi, _flags, _on_copies, _refusals, check
from ._refusals import BadLength

if TYPE_CHECKING:
    from _typeshed import ReadableBuffer

    Items = Union[ReadableBuffer, Iterable[ReadableBuffer]]

_lib = _ffi.lib
_from = _ffi.ffi.from_buffer
_new = _ffi.ffi.new
_KINDS = (Kind.PLAIN, Kind.PADDED)
#: With one of these flags a wrapped key may have the lengths of the padded form.
_EITHER_LENGTH = _lib.KEYWRAP_OLD_PADDED | _lib.KEYWRAP_KEEP_FORM
#: The status of a slot that a rewrap with `KEYWRAP_PASS_NEW` left as it is.
ALREADY: int = _lib.KEYWRAP_ALREADY_NEW


class _Slots(NamedTuple):
    """A buffer of our own with `number` slots from an offset on, whose items have `length` bytes each."""

    # No view: before 3.12, Python crashes if it collects a view that C uses.
    buffer: bytearray
    offset: int
    number: int
    length: int

    def wipe(self) -> None:
        _lib.wipe(_from(self.buffer), len(self.buffer))

    def each(self, size: int) -> List[bytes]:
        """Returns the content of each slot. A slot has this size."""
        content = bytes(self.buffer)
        begins = (self.offset + size * at for at in range(self.number))
        return [content[begin : begin + size] for begin in begins]


def _listed(items: Items, length: Optional[int]) -> List[ReadableBuffer]:
    if length is None:
        return list(items)  # type: ignore[arg-type]
    view = memoryview(items).cast("B")  # type: ignore[arg-type]
    total = len(view)
    if length < 1 or total % length:
        raise BadLength(f"bad length: {total} bytes are not items of {length} bytes")
    return [view[at : at + length] for at in range(0, total, length)]


def _size(item: ReadableBuffer) -> int:
    if type(item) is bytes:
        return len(item)
    return memoryview(item).nbytes


def _joined(items: List[ReadableBuffer], zeros: int) -> bytearray:
    """Copies the items into one buffer, with zeros before, between and after them. There is no other copy to wipe."""
    if zeros == 0:
        return bytearray().join(items)
    return bytearray(zeros).join([b"", *items, b""])


def _first_refusal(items: Items) -> str:
    """Names the first item that is a refusal of an earlier call, for the end of a message."""
    if isinstance(items, (list, tuple)):
        for index, item in enumerate(items):
            if isinstance(item, KeywrapError):
                return f": item {index} is a refusal, {type(item).__name__}"
    return ""


def _slots(
    items: Items, length: Optional[int], what: str, gap: int = 0, padded: bool = False
) -> _Slots:
    """Copies the items into slots, each after a gap of zeros, and if it is padded before zeros up to 8 bytes."""
    padding = 0
    try:
        parts = _listed(items, length)
        lengths = {_size(part) for part in parts} or {0}
        longest = max(lengths)
        if padded:
            padding = -longest % 8
        buffer = _joined(parts, padding + gap)
    except BadLength:
        raise
    # A view of two dimensions raises NotImplementedError.
    except (TypeError, ValueError, BufferError, NotImplementedError):
        raise TypeError(
            "a list of contiguous bytes-like objects is required, or one and a length"
            f"{_first_refusal(items)}"
        ) from None
    number = len(parts)
    slots = _Slots(buffer, padding, number, longest)
    slot = gap + longest + padding
    if len(buffer) != number * slot + gap + padding:
        slots.wipe()
        shortest = min(lengths)
        raise BadLength(
            f"bad length: {what} is {longest} bytes long, another one {shortest}"
        )
    return slots


def _ended(status: int, what: str, length: int, legal: str, *keks: bytes) -> None:
    """Raises the refusal of a whole call."""
    if status:
        raise _refusals.refusal(status, what, length, legal, *keks)


def _results(
    results: List[bytes], statuses: bytearray, legal: str
) -> List[Union[bytes, KeywrapError]]:
    """Returns the result or the refusal of each slot."""
    answered = statuses.count(0) + statuses.count(ALREADY)
    if answered == len(statuses):
        return list(results)
    return [_result(result, status, legal) for result, status in zip(results, statuses)]


def _result(result: bytes, status: int, legal: str) -> Union[bytes, KeywrapError]:
    if status in (0, ALREADY):
        return result
    return _refusals.refusal(status, "the wrapped key", len(result), legal)


def wrap_many(
    kek: ReadableBuffer,
    keys: Items,
    length: Optional[int] = None,
    *,
    padded: bool = False,
) -> List[bytes]:
    """Wraps keys of one length, each as `wrap` does, or as `wrap_padded` if it is `padded`.

    The keys are in a list, or, with their `length` in bytes, one after the other in a buffer. Lengths that differ raise
    `BadLength`. For the other exceptions see these calls.
    """
    if type(kek) is not bytes and type(kek) is not Kek:
        return _on_copies(wrap_many, kek, keys=keys, length=length, padded=padded)
    slots = _slots(keys, length, "the key", 8, padded)
    size = 8 + slots.length + slots.offset
    try:
        if slots.number:
            _wrap_slots(kek, slots, size, padded)
        return slots.each(size)
    finally:
        slots.wipe()


def _wrap_slots(kek: bytes, slots: _Slots, size: int, padded: bool) -> None:
    """Wraps the keys in the slots, each of `size` bytes."""
    flags = 0
    legal = _refusals.PLAIN_KEYS
    if padded:
        flags = _lib.KEYWRAP_NEW_PADDED
        legal = _refusals.PADDED_KEYS
    first = _from("uint8_t[]", slots.buffer) + slots.offset
    statuses = _new("uint8_t[]", slots.number)
    status = _lib.keywrap_wrap_many(
        kek,
        len(kek),
        first,
        slots.number * size,
        slots.length,
        flags,
        statuses,
        slots.number,
    )
    _ended(status, "the key", slots.length, legal, kek)


def unwrap_many(
    kek: ReadableBuffer,
    wrapped: Items,
    length: Optional[int] = None,
    *,
    padded: bool = False,
) -> List[Union[bytes, KeywrapError]]:
    """Unwraps wrapped keys of one length, each as `unwrap` does, or as `unwrap_padded` if it is `padded`.

    A wrapped key that fails the integrity check has `IntegrityFailed` in the place of the key; it is not raised. For
    everything else see `wrap_many`.
    """
    if type(kek) is not bytes and type(kek) is not Kek:
        return _on_copies(
            unwrap_many, kek, wrapped=wrapped, length=length, padded=padded
        )
    slots = _slots(wrapped, length, "the wrapped key")
    try:
        if not slots.number:
            return []
        return _unwrapped(kek, slots, padded)
    finally:
        slots.wipe()


def _unwrapped(
    kek: bytes, slots: _Slots, padded: bool
) -> List[Union[bytes, KeywrapError]]:
    """Unwraps the wrapped keys in the slots, and returns a copy of each key."""
    flags = 0
    legal = _refusals.WRAPPED_PLAIN
    if padded:
        flags = _lib.KEYWRAP_OLD_PADDED
        legal = _refusals.WRAPPED_PADDED
    statuses = bytearray(slots.number)
    lengths = _new("size_t[]", slots.number)
    total = len(slots.buffer)
    status = _lib.keywrap_unwrap_many(
        kek,
        len(kek),
        _from(slots.buffer),
        total,
        flags,
        lengths,
        slots.number,
        _from(statuses),
        slots.number,
    )
    _ended(status, "the wrapped key", slots.length, legal, kek)
    # A key begins after the first 8 bytes of its slot.
    view = memoryview(slots.buffer)
    begins = range(8, total + 8, slots.length)
    keys = [bytes(view[at : at + size]) for at, size in zip(begins, lengths)]
    return _results(keys, statuses, legal)


def rewrap_many(
    old_kek: ReadableBuffer,
    new_kek: ReadableBuffer,
    wrapped: Items,
    length: Optional[int] = None,
    *,
    old_padded: bool = False,
    new_padded: bool = False,
    keep_form: bool = False,
    pass_new: bool = False,
) -> List[Union[bytes, KeywrapError]]:
    """Rewraps wrapped keys of one length, each as `rewrap` does.

    A wrapped key that is refused has the refusal, `IntegrityFailed` or `KeyNotPlain`, in its place; it is not raised.
    For everything else see `wrap_many` and `rewrap`.
    """
    flags = _flags(old_padded, new_padded, keep_form, pass_new)
    if type(old_kek) is not bytes or type(new_kek) is not bytes:
        given = {
            "old_padded": old_padded,
            "new_padded": new_padded,
            "keep_form": keep_form,
            "pass_new": pass_new,
        }
        return _on_copies(
            rewrap_many, old_kek, new_kek, wrapped=wrapped, length=length, **given
        )
    slots = _slots(wrapped, length, "the wrapped key")
    if not slots.number:
        return []
    statuses = rewrap_slots(old_kek, new_kek, slots.buffer, slots.length, flags)
    return _results(slots.each(slots.length), statuses, "")


def rewrap_slots(
    old_kek: bytes, new_kek: bytes, texts: bytearray, length: int, flags: int
) -> bytearray:
    """Rewraps the wrapped keys in the slots of `texts`, and returns their statuses. A refused one stays as it is."""
    # Keys of no bytes are refused as one is.
    number = 1
    if length:
        number = len(texts) // length
    statuses = bytearray(number)
    if not number:
        return statuses
    status = _lib.keywrap_rewrap_many(
        old_kek,
        len(old_kek),
        new_kek,
        len(new_kek),
        _from(texts),
        len(texts),
        flags,
        _from(statuses),
        number,
    )
    legal = _refusals.WRAPPED_PLAIN
    if flags & _EITHER_LENGTH:
        legal = _refusals.WRAPPED_PADDED
    _ended(status, "the wrapped key", length, legal, old_kek, new_kek)
    return statuses


def check_many(
    kek: ReadableBuffer, wrapped: Items, length: Optional[int] = None
) -> List[Optional[Kind]]:
    """Checks wrapped keys of one length, and returns for each what `check` does. For the arguments see `wrap_many`."""
    if type(kek) is not bytes and type(kek) is not Kek:
        return _on_copies(check_many, kek, wrapped=wrapped, length=length)
    slots = _slots(wrapped, length, "the wrapped key")
    if not slots.length:
        # Keys of no bytes are refused as one is.
        return [check(kek, b"") for _ in range(slots.number)]
    statuses, forms = check_slots(kek, slots.buffer, slots.length)
    kinds: List[Optional[Kind]] = []
    for status, form in zip(statuses, forms):
        if status:
            kinds.append(None)
        else:
            kinds.append(_KINDS[form])
    return kinds


def check_slots(
    kek: bytes, texts: Union[bytes, bytearray], length: int
) -> Tuple[bytearray, bytearray]:
    """Returns for each slot a status, 0 if it is a wrapped key, and 1 if it is a padded one, else 0."""
    number = 0
    if length:
        number = len(texts) // length
    statuses = bytearray(number)
    forms = bytearray(number)
    if not number:
        return statuses, forms
    scratch_size = max(length - 8, 0)
    scratch = _new("uint8_t[]", scratch_size)
    lengths = _new("size_t[]", number)
    status = _lib.keywrap_kind_many(
        kek,
        len(kek),
        _from(texts),
        len(texts),
        scratch,
        scratch_size,
        _from(forms),
        number,
        lengths,
        number,
        _from(statuses),
        number,
    )
    if status == _lib.KEYWRAP_BAD_LENGTH:
        refused = bytearray([_lib.KEYWRAP_INTEGRITY])
        return refused * number, forms
    _ended(status, "the wrapped key", length, _refusals.WRAPPED_PADDED, kek)
    return statuses, forms
