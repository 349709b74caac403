"""AES Key Wrap under a KEK that stays in a token or a key management service (KMS), which does the AES.

The library computes which block comes next. A callable takes one or more blocks of 16 bytes, as `bytes`, and
returns each of them encrypted (to wrap) or decrypted (to unwrap) by itself: AES-ECB without padding. It is called 6
times for each 8 bytes of a key, or once for a padded key of up to 8 bytes. A call for many keys gives it a block of
each key at a time.

If the callable raises an exception, it passes through. Then, and after a refusal, nothing of a key is returned, and
the buffers are wiped. What the callable took and returned stays in memory until Python reuses it: to unwrap, these
blocks are key material.
"""

from __future__ import annotations

import functools
from typing import (
    TYPE_CHECKING,
    Any,
    Callable,
    Dict,
    List,
    NamedTuple,
    Optional,
    Sequence,
    Tuple,
    Union,
)

from . import BadLength, KeywrapError, Kind
from . import _copied, _ffi, _flags, _on_copies, _refusals
from ._many import _EITHER_LENGTH, _KINDS, ALREADY, _results, _Slots, _slots

if TYPE_CHECKING:
    from _typeshed import ReadableBuffer

    from ._many import Items

    Cipher = Callable[[bytes], ReadableBuffer]

__all__ = [
    "rewrap",
    "rewrap_many",
    "unwrap",
    "unwrap_any",
    "unwrap_many",
    "unwrap_padded",
    "wrap",
    "wrap_many",
    "wrap_padded",
]

_lib = _ffi.lib
_from = _ffi.ffi.from_buffer
_new = _ffi.ffi.new
_BLOCK = 16
_DEFAULT_IV = b"\xa6" * 8
#: The bits of a phase that say which cipher works on the blocks of a run.
_OLD_UNWRAP: int = _lib.KEYWRAP_DECRYPT
_NEW_WRAP: int = _lib.KEYWRAP_NEW
_NEW_UNWRAP = _OLD_UNWRAP | _NEW_WRAP


def wrap(
    encrypt: Cipher, key: ReadableBuffer, iv: Optional[ReadableBuffer] = None
) -> bytes:
    """Returns what `keywrap.wrap` returns, with AES by `encrypt`. It has the same exceptions."""
    if type(key) is not bytes:
        return _on_copies(functools.partial(wrap, encrypt), key, iv=iv)
    return _wrap(encrypt, [key], None, _iv_of(iv), False)[0]


def unwrap(
    decrypt: Cipher, wrapped: ReadableBuffer, iv: Optional[ReadableBuffer] = None
) -> bytes:
    """Returns what `keywrap.unwrap` returns, with AES by `decrypt`. `IntegrityFailed` comes after all calls of it."""
    if type(wrapped) is not bytes:
        return _on_copies(functools.partial(unwrap, decrypt), wrapped, iv=iv)
    return _only(_unwrap(decrypt, [wrapped], None, _iv_of(iv), False))


def wrap_padded(encrypt: Cipher, key: ReadableBuffer) -> bytes:
    """Returns what `keywrap.wrap_padded` returns, with AES by `encrypt`."""
    if type(key) is not bytes:
        return _on_copies(functools.partial(wrap_padded, encrypt), key)
    return _wrap(encrypt, [key], None, _DEFAULT_IV, True)[0]


def unwrap_padded(decrypt: Cipher, wrapped: ReadableBuffer) -> bytes:
    """Returns what `keywrap.unwrap_padded` returns, with AES by `decrypt`."""
    if type(wrapped) is not bytes:
        return _on_copies(functools.partial(unwrap_padded, decrypt), wrapped)
    return _only(_unwrap(decrypt, [wrapped], None, _DEFAULT_IV, True))


def unwrap_any(decrypt: Cipher, wrapped: ReadableBuffer) -> Tuple[bytes, Kind]:
    """Returns what `keywrap.unwrap_any` returns, with AES by `decrypt`."""
    if type(wrapped) is not bytes:
        return _on_copies(functools.partial(unwrap_any, decrypt), wrapped)
    padded = _new("uint32_t *")
    key = _only(_unwrap(decrypt, [wrapped], None, _DEFAULT_IV, True, padded))
    return key, _KINDS[padded[0]]


def rewrap(
    decrypt: Cipher,
    encrypt: Cipher,
    wrapped: ReadableBuffer,
    old_padded: bool = False,
    new_padded: bool = False,
    *,
    keep_form: bool = False,
    pass_new: Optional[Cipher] = None,
) -> bytes:
    """Returns what `keywrap.rewrap` returns: `decrypt` has the old KEK, and `encrypt` the new one.

    With `pass_new`, which decrypts under the new KEK, a wrapped key that is already under it, in the form of a
    result, is returned unchanged.
    """
    if type(wrapped) is not bytes:
        given = {
            "old_padded": old_padded,
            "new_padded": new_padded,
            "keep_form": keep_form,
            "pass_new": pass_new,
        }
        return _on_copies(functools.partial(rewrap, decrypt, encrypt), wrapped, **given)
    flags = _flags(old_padded, new_padded, keep_form, pass_new is not None)
    length = len(wrapped)
    text = bytearray(wrapped)
    blocks = bytearray(_BLOCK)
    ours = _from("uint8_t[]", text)
    block = _from("uint8_t[]", blocks)
    steps = _new("uint64_t *")
    phase = _new("uint32_t *")
    ciphers = _ciphers(decrypt, encrypt, pass_new)
    try:
        status = _lib.keywrap_begin_rewrap(flags, ours, length, phase, steps, block)
        while phase[0]:
            kind = phase[0] & _NEW_UNWRAP
            step = _step_of(kind)
            for _ in range(_lib.keywrap_step_count(length - 8)):
                _replace(blocks, ciphers[kind])
                if step(ours, length, 1, steps, block):
                    raise RuntimeError("internal error: a step was refused")
            status = _lib.keywrap_next_rewrap_from(
                flags, wrapped, length, ours, length, phase, steps, block
            )
        if status not in (_lib.KEYWRAP_OK, ALREADY):
            raise _rewrap_refusal(status, length, flags)
        return bytes(text)
    finally:
        _lib.wipe(ours, length)
        _lib.wipe(block, _BLOCK)


def _step_of(kind: int) -> Callable[..., Any]:
    """Returns the library's step for a run of this kind: an unwrap or a wrap, under either KEK."""
    step: Callable[..., Any] = _lib.step_wrap_each
    if kind & _OLD_UNWRAP:
        step = _lib.step_unwrap_each
    return step


def _ciphers(
    decrypt: Cipher, encrypt: Cipher, pass_new: Optional[Cipher]
) -> Dict[int, Cipher]:
    """Returns the cipher for the blocks of each kind of run of a rewrapping."""
    ciphers = {_OLD_UNWRAP: decrypt, _NEW_WRAP: encrypt}
    if pass_new is not None:
        ciphers[_NEW_UNWRAP] = pass_new
    return ciphers


def _rewrap_refusal(status: int, length: int, flags: int) -> KeywrapError:
    """Returns the exception for the status of a rewrapping of a text of this length."""
    is_either = bool(flags & _EITHER_LENGTH)
    legal = _legal_to_unwrap(is_either)
    return _refusals.refusal(status, "the wrapped key", length, legal)


def rewrap_many(
    decrypt: Cipher,
    encrypt: Cipher,
    wrapped: Items,
    length: Optional[int] = None,
    *,
    old_padded: bool = False,
    new_padded: bool = False,
    keep_form: bool = False,
    pass_new: Optional[Cipher] = None,
) -> List[Union[bytes, KeywrapError]]:
    """Returns what `keywrap.rewrap_many` returns: `decrypt` has the old KEK, and `encrypt` the new one.

    Each cipher gets a block of each key at a time. `pass_new`, which decrypts under the new KEK, gets those of the keys
    that are not under the old one.
    """
    flags = _flags(old_padded, new_padded, keep_form, pass_new is not None)
    slots = _slots(wrapped, length, "the wrapped key")
    if not slots.number:
        return []
    ciphers = _ciphers(decrypt, encrypt, pass_new)
    statuses = _rewrap_slots(ciphers, slots.buffer, slots.length, flags)
    return _results(slots.each(slots.length), statuses, "")


def rewrap_slots(
    decrypt: Cipher, encrypt: Cipher, texts: bytearray, length: int, flags: int
) -> bytearray:
    """Rewraps the wrapped keys in the slots of `texts`, and returns their statuses. A refused one stays as it is."""
    return _rewrap_slots(_ciphers(decrypt, encrypt, None), texts, length, flags)


def _rewrap_slots(
    ciphers: Dict[int, Cipher], texts: bytearray, length: int, flags: int
) -> bytearray:
    """Rewraps in a copy: if a cipher fails, the texts are as they were, and the library restores a refused one."""
    rewrapping = _Rewrapping(texts, length, flags)
    try:
        rewrapping.begin()
        while slots := rewrapping.next_run():
            cipher = ciphers[rewrapping.kind_of(slots[0])]
            rewrapping.make_run(cipher, slots)
        texts[:] = rewrapping.work
        return rewrapping.statuses
    finally:
        rewrapping.wipe()


class _Rewrapping:
    """The rewrapping of many texts of one length. A run is all steps of a wrap or an unwrap; the library says for each
    text, by its phase, which run comes next. So texts that have the same one make its steps together.
    """

    def __init__(self, texts: bytearray, length: int, flags: int) -> None:
        self.texts = texts
        self.length = length
        self.flags = flags
        # Keys of no bytes are refused as one is.
        self.number = len(texts) // length if length else 1
        self.work = bytearray(texts)
        self.blocks = bytearray(_BLOCK * self.number)
        self.phases = _new("uint32_t[]", self.number)
        self.steps = _new("uint64_t[]", self.number)
        self.statuses = bytearray(self.number)

    def begin(self) -> None:
        """Begins to rewrap each text. Raises `BadLength`: all have the same length.

        A length that no wrapped key under the old KEK has is refused, too. The rewrapping of one text asks whether it
        is new already.
        """
        work = _from("uint8_t[]", self.work)
        blocks = _from("uint8_t[]", self.blocks)
        for at in range(self.number):
            status = _lib.keywrap_begin_rewrap(
                self.flags,
                work + self.length * at,
                self.length,
                self.phases + at,
                self.steps + at,
                blocks + _BLOCK * at,
            )
            if self.phases[at] & _NEW_WRAP:
                status = _lib.KEYWRAP_BAD_LENGTH
            if status:
                raise _rewrap_refusal(status, self.length, self.flags)

    def kind_of(self, slot: int) -> int:
        """Returns which cipher the next run of this text needs, or 0 if its rewrapping has ended."""
        phase: int = self.phases[slot]
        return phase & _NEW_UNWRAP

    def next_run(self) -> Sequence[int]:
        """Returns the slots of texts that can make their next run together: none if all have ended."""
        kinds = [self.kind_of(slot) for slot in range(self.number)]
        left = {*kinds} - {0}
        if not left:
            return ()
        kind = min(left)
        return [slot for slot in range(self.number) if kinds[slot] == kind]

    def make_run(self, cipher: Cipher, slots: Sequence[int]) -> None:
        """Makes all steps of the next run of these texts, and has the library end it."""
        if len(slots) == self.number:
            self._make_steps(cipher, slots, self.work, self.blocks)
        else:
            self._make_steps_apart(cipher, slots)
        self._end_run(slots, self.steps[slots[0]])

    def _make_steps_apart(self, cipher: Cipher, slots: Sequence[int]) -> None:
        """Makes the steps of some of the texts in copies without gaps between them."""
        texts = _gathered(self.work, self.length, slots)
        blocks = _gathered(self.blocks, _BLOCK, slots)
        try:
            self._make_steps(cipher, slots, texts, blocks)
            _scatter(texts, self.work, self.length, slots)
            _scatter(blocks, self.blocks, _BLOCK, slots)
        finally:
            _wipe(texts)
            _wipe(blocks)

    def _make_steps(
        self, cipher: Cipher, slots: Sequence[int], texts: bytearray, blocks: bytearray
    ) -> None:
        """Makes all steps of a run of the texts of these slots. The first one counts the steps for all."""
        kind = self.kind_of(slots[0])
        step = _step_of(kind)
        first = _from("uint8_t[]", texts)
        block = _from("uint8_t[]", blocks)
        steps = self.steps + slots[0]
        for _ in range(_lib.keywrap_step_count(self.length - 8)):
            _replace(blocks, cipher)
            if step(first, self.length, len(slots), steps, block):
                raise RuntimeError("internal error: a step was refused")

    def _end_run(self, slots: Sequence[int], steps: int) -> None:
        """Has the library end the run of each text: what comes next is in its phase, or its status is final."""
        copies = _from("uint8_t[]", self.texts)
        work = _from("uint8_t[]", self.work)
        blocks = _from("uint8_t[]", self.blocks)
        for at in slots:
            self.steps[at] = steps
            begin = self.length * at
            self.statuses[at] = _lib.keywrap_next_rewrap_from(
                self.flags,
                copies + begin,
                self.length,
                work + begin,
                self.length,
                self.phases + at,
                self.steps + at,
                blocks + _BLOCK * at,
            )

    def wipe(self) -> None:
        """Clears what may be key material."""
        _wipe(self.work)
        _wipe(self.blocks)


def _wipe(buffer: bytearray) -> None:
    _lib.wipe(_from("uint8_t[]", buffer), len(buffer))


def _gathered(buffer: bytearray, size: int, slots: Sequence[int]) -> bytearray:
    """Copies these slots, each of `size` bytes, into one buffer without gaps."""
    with memoryview(buffer) as view:
        return bytearray().join(view[size * at : size * (at + 1)] for at in slots)


def _scatter(
    gathered: bytearray, buffer: bytearray, size: int, slots: Sequence[int]
) -> None:
    """Copies them back into their slots."""
    with memoryview(gathered) as view:
        for number, at in enumerate(slots):
            source = size * number
            target = size * at
            buffer[target : target + size] = view[source : source + size]


def wrap_many(
    encrypt: Cipher, keys: Items, length: Optional[int] = None, *, padded: bool = False
) -> List[bytes]:
    """Returns what `keywrap.wrap_many` returns, with AES by `encrypt` of a block of each key at a time."""
    return _wrap(encrypt, keys, length, _DEFAULT_IV, padded)


def unwrap_many(
    decrypt: Cipher,
    wrapped: Items,
    length: Optional[int] = None,
    *,
    padded: bool = False,
) -> List[Union[bytes, KeywrapError]]:
    """Returns what `keywrap.unwrap_many` returns, with AES by `decrypt` of a block of each key at a time."""
    return _unwrap(decrypt, wrapped, length, _DEFAULT_IV, padded)


def _iv_of(iv: Optional[ReadableBuffer]) -> bytes:
    if iv is None:
        return _DEFAULT_IV
    return _copied(iv)


def _only(results: List[Union[bytes, KeywrapError]]) -> bytes:
    """Returns the only result, or raises it."""
    (result,) = results
    if isinstance(result, KeywrapError):
        raise result
    return result


class _Calls(NamedTuple):
    """The library's calls for one text, which is the first 8 bytes of a wrapped key and the registers.

    `begin(text, steps, block)`, `step` of all texts, and `end(number, text, steps, block)`.
    """

    begin: Callable[..., Any]
    step: Callable[..., Any]
    end: Callable[..., Any]


def _wrap(
    encrypt: Cipher, keys: Items, length: Optional[int], iv: bytes, padded: bool
) -> List[bytes]:
    slots = _slots(keys, length, "the key", 8, padded)
    size = slots.length + slots.offset
    legal = _refusals.PLAIN_KEYS
    if padded:
        legal = _refusals.PADDED_KEYS

    def begin(text: Any, done: Any, block: Any) -> Any:
        if padded:
            return _lib.keywrap_begin_wrap_padded(
                slots.length, text + 8, size, done, block
            )
        return _lib.keywrap_begin_wrap(iv, len(iv), text + 8, size, done, block)

    def end(_: int, text: Any, done: int, block: Any) -> Any:
        return _lib.keywrap_end_wrap(text, text + 8, size, done, block)

    def refuse(status: int) -> None:
        _refuse(status, iv, "the key", slots.length, legal)

    calls = _Calls(begin, _lib.step_wrap_each, end)
    try:
        _run(encrypt, slots, 8 + size, calls, refuse)
        return slots.each(8 + size)
    finally:
        slots.wipe()


def _unwrap(
    decrypt: Cipher,
    wrapped: Items,
    length: Optional[int],
    iv: bytes,
    padded: bool,
    form: Any = None,
) -> List[Union[bytes, KeywrapError]]:
    """Unwraps in the given form, or each text in the form that it has, which is written to `form`."""
    slots = _slots(wrapped, length, "the wrapped key")
    try:
        statuses, sizes = _unwrap_slots(decrypt, slots, iv, padded, form)
        begins = (8 + slots.length * at for at in range(slots.number))
        with memoryview(slots.buffer) as view:
            keys = [bytes(view[at : at + size]) for at, size in zip(begins, sizes)]
        return _results(keys, statuses, _legal_to_unwrap(padded))
    finally:
        slots.wipe()


def _legal_to_unwrap(padded: bool) -> str:
    """Returns the legal lengths of a wrapped key, in words."""
    if padded:
        return _refusals.WRAPPED_PADDED
    return _refusals.WRAPPED_PLAIN


def _unwrap_slots(
    decrypt: Cipher, slots: _Slots, iv: bytes, padded: bool, form: Any
) -> Tuple[bytearray, Any]:
    """Unwraps the texts in their slots. Returns their statuses, and the lengths of the keys."""
    # A text that is too short has its first 8 bytes, too.
    slots.buffer.extend(bytes(8))
    size = max(slots.length - 8, 0)
    sizes = _new("size_t[]", [size] * slots.number)
    legal = _legal_to_unwrap(padded)

    def begin(text: Any, left: Any, block: Any) -> Any:
        call = _lib.keywrap_begin_unwrap
        if padded:
            call = _lib.keywrap_begin_unwrap_padded
        return call(text, text + 8, size, left, block)

    def end(at: int, text: Any, left: int, block: Any) -> Any:
        if form:
            return _lib.keywrap_end_unwrap_any(
                text + 8, size, left, block, form + at, sizes + at
            )
        if padded:
            return _lib.keywrap_end_unwrap_padded(
                text + 8, size, left, block, sizes + at
            )
        return _lib.keywrap_end_unwrap(iv, len(iv), text + 8, size, left, block)

    def refuse(status: int) -> None:
        _refuse(status, iv, "the wrapped key", slots.length, legal)

    calls = _Calls(begin, _lib.step_unwrap_each, end)
    statuses = _run(decrypt, slots, slots.length, calls, refuse)
    return statuses, sizes


def check_slots(
    decrypt: Cipher, texts: Union[bytes, bytearray], length: int
) -> Tuple[bytearray, bytearray]:
    """Returns for each slot a status, 0 if it is a wrapped key, and 1 if it is a padded one, else 0."""
    number = 0
    if length:
        number = len(texts) // length
    if not number:
        return bytearray(), bytearray()
    slots = _Slots(bytearray(texts), 0, number, length)
    forms = _new("uint32_t[]", number)
    try:
        statuses, _ = _unwrap_slots(decrypt, slots, _DEFAULT_IV, True, forms)
    except BadLength:
        statuses = bytearray([_lib.KEYWRAP_INTEGRITY]) * number
    finally:
        slots.wipe()
    return statuses, bytearray(forms)


def unwrap_any_slots(
    decrypt: Cipher, texts: bytearray, length: int
) -> List[Union[Tuple[bytes, Kind], KeywrapError]]:
    """Returns for each slot what `unwrap_any` returns or raises. All slots are unwrapped together."""
    forms = _new("uint32_t[]", len(texts) // length)
    keys = _unwrap(decrypt, texts, length, _DEFAULT_IV, True, forms)
    results: List[Union[Tuple[bytes, Kind], KeywrapError]] = []
    for key, form in zip(keys, forms):
        if isinstance(key, KeywrapError):
            results.append(key)
        else:
            results.append((key, _KINDS[form]))
    return results


def _refuse(status: int, iv: bytes, what: str, length: int, legal: str) -> None:
    """Raises the refusal of a whole call."""
    if status == _lib.KEYWRAP_BAD_IV:
        raise _refusals.bad_initial_value(iv)
    if status:
        raise _refusals.refusal(status, what, length, legal)


def _run(
    cipher: Cipher,
    slots: _Slots,
    size: int,
    calls: _Calls,
    refuse: Callable[[int], None],
) -> bytearray:
    """Makes all steps of texts of this size. Returns for each whether its end checked out.

    The library counts the steps: an end before the last one is a bad length and changes nothing. So a bad initial
    value is refused before the first call of the cipher, too.
    """
    blocks = bytearray(_BLOCK * slots.number)
    steps = _new("uint64_t *")
    all_texts = _from("uint8_t[]", slots.buffer)
    all_blocks = _from("uint8_t[]", blocks)
    first = all_texts + slots.offset
    places = []
    for at in range(slots.number):
        places.append((first + size * at, all_blocks + _BLOCK * at))
    statuses = bytearray(slots.number)
    try:
        for text, block in places:
            status = calls.begin(text, steps, block)
            refuse(status)
        for at, (text, block) in enumerate(places):
            status = calls.end(at, text, steps[0], block)
            while status == _lib.KEYWRAP_BAD_LENGTH:
                _replace(blocks, cipher)
                if calls.step(first, size, slots.number, steps, all_blocks):
                    raise RuntimeError("internal error: a step was refused")
                status = calls.end(at, text, steps[0], block)
            if status != _lib.KEYWRAP_INTEGRITY:
                refuse(status)
            statuses[at] = status
        return statuses
    finally:
        _lib.wipe(all_blocks, len(blocks))


def _replace(blocks: bytearray, cipher: Cipher) -> None:
    """Replaces the blocks by what the cipher returns for them."""
    answer = cipher(bytes(blocks))
    try:
        returned = memoryview(answer)
    except TypeError:
        kind = type(answer).__name__
        raise TypeError(f"the callable returned {kind!r}, not bytes") from None
    with returned, memoryview(blocks) as ours:
        if returned.nbytes != len(blocks):
            raise ValueError(
                f"the callable returned {returned.nbytes} bytes for {len(blocks)}"
            )
        ours[:] = returned.cast("B")
