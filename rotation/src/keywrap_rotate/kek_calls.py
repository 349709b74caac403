"""The proved calls under a KEK, which is bytes in this process or a key in a token."""

import collections
import hmac
from typing import DefaultDict, List, Optional, Tuple, Union

import keywrap
from keywrap import KeywrapError, Kind, _flags, _many, steps

from .found import Refused
from .pkcs11 import TokenKek

Kek = Union[bytes, TokenKek]
_KEEP_FORM = _flags(False, False, True, False)
#: A key and the form of its wrapping, or `None` if there is no such key.
Unwrapped = Optional[Tuple[bytes, Kind]]


def wrapped_under(kek: Kek, key: bytes) -> bytes:
    """Wraps a key in the plain form."""
    if isinstance(kek, bytes):
        return keywrap.wrap(kek, key)
    return steps.wrap(kek.encrypt, key)


def is_under(kek: Kek, wrapped: bytes) -> bool:
    """Whether this is a wrapped key under the KEK."""
    return bool(wrapped) and not any(check_slots(kek, wrapped, len(wrapped)))


def is_same(one: Kek, other: Kek) -> bool:
    """Whether both are the same key. A KEK in a token is compared by what it encrypts."""
    if isinstance(one, bytes) and isinstance(other, bytes):
        return hmac.compare_digest(one, other)
    zeros = bytes(32)
    return hmac.compare_digest(wrapped_under(one, zeros), wrapped_under(other, zeros))


def check_slots(kek: Kek, texts: Union[bytes, bytearray], length: int) -> bytearray:
    """Returns a status for each slot of this length: 0 if it is a wrapped key under the KEK."""
    if isinstance(kek, bytes):
        return _many.check_slots(kek, texts, length)[0]
    return steps.check_slots(kek.decrypt, texts, length)[0]


def rewrap_slots(old: Kek, new: Kek, texts: bytearray, length: int) -> bytearray:
    """Rewraps the wrapped keys in the slots of `texts`, in their form. Returns a status for each: 0 if it was
    rewrapped. A refused one stays as it is."""
    if isinstance(old, bytes) and isinstance(new, bytes):
        return _many.rewrap_slots(old, new, texts, length, _KEEP_FORM)
    before = bytearray(texts)
    if isinstance(old, TokenKek) and isinstance(new, TokenKek):
        statuses = steps.rewrap_slots(
            old.decrypt, new.encrypt, texts, length, _KEEP_FORM
        )
    else:
        statuses = _rewrap_by_keys(old, new, texts, length)
    rewrapped = [slot for slot, status in enumerate(statuses) if not status]
    _check_same_keys(old, new, before, texts, rewrapped, length)
    return statuses


def _check_same_keys(
    old: Kek,
    new: Kek,
    before: bytearray,
    after: bytearray,
    slots: List[int],
    length: int,
) -> None:
    """Raises `Refused` unless the old and the new texts in these slots have the same keys, each unwrapped once more.

    The integrity check is not enough: a token that exchanges two answers in the first call of a wrapping, or the last
    call of an unwrapping, makes a valid wrapping of another key.
    """
    if not slots:
        return
    old_texts, new_texts = (
        bytearray().join(texts[slot * length : (slot + 1) * length] for slot in slots)
        for texts in (before, after)
    )
    keys = _unwrapped(old, old_texts, length)
    if None in keys or keys != _unwrapped(new, new_texts, length):
        raise Refused("a rewrapped key is not the key that it was")


def _rewrap_by_keys(old: Kek, new: Kek, texts: bytearray, length: int) -> bytearray:
    """Rewraps from a token to a KEK in memory, or the other way: the keys are in memory between the two."""
    keys = _unwrapped(old, texts, length)
    statuses = bytearray(len(keys))
    groups: DefaultDict[Tuple[int, Kind], List[Tuple[int, bytes]]]
    groups = collections.defaultdict(list)
    for slot, found in enumerate(keys):
        if found is None:
            statuses[slot] = 1
        else:
            key, form = found
            groups[len(key), form].append((slot, key))
    for (_, form), group in groups.items():
        wrapped = _wrapped(new, [key for _, key in group], form)
        for (slot, _), fresh in zip(group, wrapped):
            texts[slot * length : (slot + 1) * length] = fresh
    return statuses


def _unwrapped(kek: Kek, texts: bytearray, length: int) -> List[Unwrapped]:
    """Returns the key and the form of each slot."""
    if isinstance(kek, bytes):
        slots = range(0, len(texts), length)
        return [_unwrapped_one(kek, bytes(texts[at : at + length])) for at in slots]
    results = steps.unwrap_any_slots(kek.decrypt, texts, length)
    return [None if isinstance(each, KeywrapError) else each for each in results]


def _unwrapped_one(kek: bytes, wrapped: bytes) -> Unwrapped:
    try:
        return keywrap.unwrap_any(kek, wrapped)
    except (keywrap.IntegrityFailed, keywrap.BadLength):
        return None


def _wrapped(kek: Kek, keys: List[bytes], form: Kind) -> List[bytes]:
    """Wraps keys of one length in this form."""
    is_padded = form is Kind.PADDED
    if isinstance(kek, bytes):
        return keywrap.wrap_many(kek, keys, padded=is_padded)
    return steps.wrap_many(kek.encrypt, keys, padded=is_padded)
