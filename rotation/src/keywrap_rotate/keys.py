"""Wrapped keys as stores have them: read, classified by the proved calls, rewrapped, and checked before a write.

All stores use the same steps. The texts of a store are read into batches: keys of one length in one buffer, without
gaps. The calls for many keys rewrap a batch in its place. Each new text is read again before it is written, and checked
under the new KEK.
"""

import argparse
import base64
import binascii
import contextlib
import hashlib
from typing import (
    Any,
    Callable,
    Dict,
    Iterator,
    List,
    NamedTuple,
    Optional,
    Sequence,
    Tuple,
    TypeVar,
    Union,
)

from . import signs
from .found import Found, Refused
from .kek_calls import Kek, check_slots, rewrap_slots
from .keks import Ring, Rings

BLANKS = b" \t\r\n"
#: The longest wrapped key in bytes, and as hex with some blanks around it.
LONGEST_KEY = 1048584
LONGEST = 2 * LONGEST_KEY + 1024
#: A key as it is written in a store; why a place has something else; or `None` for a place without a key.
Text = Union[bytes, str, None]
Item = TypeVar("Item")
#: Refuses the key at a place, with the reason.
Refuse = Callable[[int, str], None]
#: How many rows are read and written at once.
ROWS = 2000
#: About how many bytes are read and written at once.
BYTES = 1 << 20
#: A key, how long it is, the name of its KEK, and what identifies its row. An oversized value is not fetched.
Row = Tuple[Any, ...]
#: The columns of a key that each database reads, before the columns that identify its row.
KEY = (
    "CASE WHEN {octets}({key}) <= "
    + str(LONGEST)
    + " THEN {key} END, {octets}({key}), {kek}"
)


class Batch(NamedTuple):
    """Keys of one length in one buffer, without gaps, and the place of each in its store."""

    places: Sequence[int]
    keys: bytearray
    length: int
    #: Whether they are written with the prefix of new keys.
    has_new_prefix: bool = True

    def key(self, slot: int) -> bytearray:
        return self.keys[slot * self.length : (slot + 1) * self.length]

    def keys_of(self, slots: Sequence[int]) -> bytearray:
        """Returns the keys in these slots, without gaps: the buffer itself if these are all."""
        if len(slots) == len(self.places):
            return self.keys
        return bytearray().join(map(self.key, slots))


def _from_base64(text: bytes) -> bytes:
    """Reads either alphabet, with padding or without; mixed alphabets are refused."""
    key = base64.urlsafe_b64decode(text + b"==")
    whole = base64.b64encode(key), base64.urlsafe_b64encode(key)
    if text not in (*whole, *(each.rstrip(b"=") for each in whole)):
        raise ValueError("not base64")
    return key


def _to_base64url(key: bytes) -> bytes:
    return base64.urlsafe_b64encode(key).rstrip(b"=")


_READ: Dict[str, Callable[[bytes], bytes]] = {
    "hex": binascii.unhexlify,
    "base64": _from_base64,
    "base64url": _from_base64,
    "raw": bytes,
}
_WRITE: Dict[str, Callable[[bytes], bytes]] = {
    "hex": binascii.hexlify,
    "base64": base64.b64encode,
    "base64url": _to_base64url,
    "raw": bytes,
}


def _is_legal(length: int) -> bool:
    return length % 8 == 0 and 16 <= length <= LONGEST_KEY


class Notation(NamedTuple):
    """How keys are written, and the prefixes before them. New keys get the new prefix."""

    name: str = "hex"
    prefixes: Tuple[bytes, ...] = ()
    new_prefix: bytes = b""
    #: Whether a record without a key is refused.
    needs_keys: bool = False

    def read(self, text: Union[bytes, str]) -> Tuple[bytes, bool]:
        """Returns the key, and whether it has the prefix of new keys. Raises `Refused`."""
        if isinstance(text, str):
            raise Refused(text)
        if self.name != "raw":
            text = text.strip(BLANKS)
        if not text:
            raise Refused("blank")
        for prefix in (self.new_prefix, *self.prefixes):
            if text.startswith(prefix):
                break
        else:
            raise Refused("not in the notation of the store")
        key = b""
        with contextlib.suppress(ValueError):
            key = _READ[self.name](text[len(prefix) :])
        if not key:
            raise Refused("not in the notation of the store")
        if not _is_legal(len(key)):
            raise Refused("bad length")
        return key, prefix == self.new_prefix

    def batches(
        self, texts: Sequence[Text], places: Sequence[int], refuse: Refuse
    ) -> Iterator[Batch]:
        """Reads the texts at these places. A text that is not a wrapped key is refused."""
        if (batch := self._whole(texts, places)) is not None:
            yield batch
            return
        groups: Dict[Tuple[int, bool], Tuple[List[int], List[bytes]]] = {}
        for place, text in zip(places, texts):
            try:
                key, has_new_prefix = self.read(b"" if text is None else text)
            except Refused as refusal:
                refuse(place, str(refusal))
                continue
            group = groups.setdefault((len(key), has_new_prefix), ([], []))
            group[0].append(place)
            group[1].append(key)
        for (length, has_new_prefix), (their_places, keys) in groups.items():
            yield Batch(their_places, bytearray().join(keys), length, has_new_prefix)

    def _whole(self, texts: Sequence[Any], places: Sequence[int]) -> Optional[Batch]:
        """Reads texts of one length at once, in a tenth of the time. Returns `None` if they are not in hex or raw."""
        if self.prefixes or self.new_prefix or self.name not in ("hex", "raw"):
            return None
        if {*map(type, texts)} != {bytes} or len({*map(len, texts)}) != 1:
            return None
        content = b"".join(texts)
        keys = bytearray()
        if self.name == "raw":
            keys += content
        else:
            with contextlib.suppress(ValueError):
                keys = bytearray.fromhex(content.decode("ascii"))
            # fromhex skips blanks: without any, each byte has two digits.
            if 2 * len(keys) != len(content) or len(texts[0]) % 2:
                return None
        length = len(keys) // len(texts)
        return Batch(places, keys, length) if _is_legal(length) else None

    def write(self, keys: bytes, length: int) -> List[bytes]:
        """Returns the texts of keys of one length."""
        if self.name == "hex" and not self.new_prefix:
            digits = keys.hex().encode("ascii")
            size = 2 * length
            return [digits[at : at + size] for at in range(0, len(digits), size)]
        each = (keys[at : at + length] for at in range(0, len(keys), length))
        return [self.new_prefix + _WRITE[self.name](key) for key in each]


def rewrapped_texts(
    rings: Rings,
    notation: Notation,
    texts: Sequence[Text],
    found: Found,
    place: Callable[[int], str],
    names: Sequence[Any] = (),
) -> Dict[int, bytes]:
    """Counts the keys, refuses what is not one, and returns the new texts of those that are not new, by their places.

    `place` names a place in a refusal. `names` has the name of each key's KEK, if the store has such names.
    """

    before = sum(found.old.values())
    try:
        return _rewrapped_by_kek(rings, notation, texts, found, place, names)
    except BaseException:
        # None of them is written.
        found.unwritten += sum(found.old.values()) - before
        raise


def _rewrapped_by_kek(
    rings: Rings,
    notation: Notation,
    texts: Sequence[Text],
    found: Found,
    place: Callable[[int], str],
    names: Sequence[Any],
) -> Dict[int, bytes]:
    def refuse(at: int, why: str) -> None:
        found.refuse(place(at), why)

    fresh: Dict[int, bytes] = {}
    for name, places in _by_kek(rings, texts, names).items():
        found.keys += len(places)
        if name in rings:
            texts_of_kek = texts
            if len(places) < len(texts):
                texts_of_kek = [texts[at] for at in places]
            for batch in notation.batches(texts_of_kek, places, refuse):
                fresh.update(_new_texts(rings[name], notation, batch, found, refuse))
            continue
        why = f"no KEK for the name {name!r}"
        if name is None:
            why = "it has no name of a KEK"
        for at in places:
            refuse(at, why)
    signs.pace(len(fresh))
    return fresh


def rewrapped_lines(
    ring: Ring, content: bytes, found: Found, place: Callable[[int], str]
) -> Optional[bytes]:
    """Does the same for lines of hex that are all as long as the first one, without a text for each line. Returns what
    they become, the content itself if nothing changes, or `None` if the lines are of another form.
    """
    batch = _batch_of_lines(content)
    if batch is None:
        return None
    found.keys += len(batch.places)
    slots = _rewrapped(ring, batch, found, lambda at, why: found.refuse(place(at), why))
    if not slots:
        return content
    fresh = f"{batch.keys.hex(chr(10), batch.length)}\n".encode("ascii")
    if len(slots) < len(batch.places):
        fresh = _spliced(content, fresh, slots, len(batch.places))
    again = _batch_of_lines(fresh)
    statuses = check_slots(ring.new, batch.keys_of(slots), batch.length)
    if again is None or again.keys != batch.keys or any(statuses):
        raise Refused("a rewrapped key is not under the new KEK")
    signs.pace(len(slots))
    return fresh


def _batch_of_lines(content: bytes) -> Optional[Batch]:
    """Reads lines of hex of one length, each with its end. Returns `None` for any other content."""
    size = content.find(b"\n") + 1
    if not size or len(content) % size or size % 2 == 0:
        return None
    count = len(content) // size
    length = size // 2
    try:
        keys = bytearray.fromhex(content.decode("ascii"))
    except ValueError:
        return None
    # fromhex skips blanks: the ends of the lines are the only ones if all other bytes are digits.
    if len(keys) != length * count or content[size - 1 :: size] != b"\n" * count:
        return None
    return Batch(range(count), keys, length) if _is_legal(length) else None


def _spliced(content: bytes, fresh: bytes, slots: Sequence[int], count: int) -> bytes:
    """Returns the content with the fresh lines at these places. All other bytes stay."""
    size = len(content) // count
    parts = [content[at : at + size] for at in range(0, len(content), size)]
    for slot in slots:
        parts[slot] = fresh[slot * size : (slot + 1) * size]
    return b"".join(parts)


def _by_kek(
    rings: Rings, texts: Sequence[Text], names: Sequence[Any]
) -> Dict[Optional[str], Sequence[int]]:
    """Returns the places that have a key, by the names of their KEKs."""
    places: Sequence[int] = range(len(texts))
    if type(None) in {*map(type, texts)}:
        places = [at for at in places if texts[at] is not None]
    if None in rings:
        return {None: places} if places else {}
    groups: Dict[Optional[str], List[int]] = {}
    for at in places:
        name = None if names[at] is None else str(names[at])
        groups.setdefault(name, []).append(at)
    return {**groups}


def _new_texts(
    ring: Ring, notation: Notation, batch: Batch, found: Found, refuse: Refuse
) -> Iterator[Tuple[int, bytes]]:
    """Rewraps the keys of a batch. Yields the place and the new text of each that is not new."""
    changed = _rewrapped(ring, batch, found, refuse)
    if changed:
        keys = batch.keys_of(changed)
        texts = notation.write(bytes(keys), batch.length)
        _check_new(ring, notation, texts, keys)
        yield from zip((batch.places[slot] for slot in changed), texts)


def _rewrapped(ring: Ring, batch: Batch, found: Found, refuse: Refuse) -> Sequence[int]:
    """Rewraps the keys of a batch in their place, and counts them. Returns the slots that have to be written."""
    work = _BatchWork(ring, batch, found, refuse)
    if ring.has_token():
        work.try_each_kek()
    else:
        work.try_keks_of_first_keys()
    return work.changed


class _BatchWork:
    """The rewrapping of a batch."""

    def __init__(self, ring: Ring, batch: Batch, found: Found, refuse: Refuse) -> None:
        self.ring = ring
        self.batch = batch
        self.found = found
        self._refuse = refuse
        #: The slots that have to be written.
        self.changed: List[int] = []

    def try_keks_of_first_keys(self) -> None:
        """The first key that is left decides under which KEK all of them are tried: in most batches all are under
        one."""
        left: Sequence[int] = range(len(self.batch.places))
        while left:
            kek = _kek_of(self.ring, self.batch.key(left[0]), self.batch.length)
            if kek is None:
                self.refuse_foreign(left[0])
                left = left[1:]
            else:
                left = self.try_kek(*kek, left)

    def try_each_kek(self) -> None:
        """Tries all keys that are left under each KEK. A token that answers late makes a call for one key as slow as
        one for a whole batch."""
        left: Sequence[int] = range(len(self.batch.places))
        for label, kek in (("", self.ring.new), *self.ring.old):
            if left:
                left = self.try_kek(label, kek, left)
        for slot in left:
            self.refuse_foreign(slot)

    def refuse_foreign(self, slot: int) -> None:
        why = (
            "under no KEK of this rotation"
            if self.ring.old
            else "not under the new KEK"
        )
        self._refuse(self.batch.places[slot], why)

    def try_kek(self, label: str, kek: Kek, left: Sequence[int]) -> Sequence[int]:
        """Counts the keys in these slots that are under this KEK, and rewraps them if it is an old one. Returns the
        slots of the others."""
        new = self.ring.new
        keys = self.batch.keys_of(left)
        is_new = kek is new
        if is_new:
            statuses = check_slots(new, keys, self.batch.length)
        else:
            statuses = rewrap_slots(kek, new, keys, self.batch.length)
        done = left
        rest: Sequence[int] = ()
        if any(statuses):
            done = [slot for slot, status in zip(left, statuses) if not status]
            rest = [slot for slot, status in zip(left, statuses) if status]
        if is_new:
            self._take_new(done)
        elif done:
            _put_back(self.batch, left, statuses, keys)
            self.found.old[label] += len(done)
            self.changed += done
        return rest

    def _take_new(self, slots: Sequence[int]) -> None:
        """Counts keys that are under the new KEK. With the prefix of an old one they have to be written."""
        if self.batch.has_new_prefix:
            self.found.new += len(slots)
        elif not self.ring.old:
            for slot in slots:
                why = "it does not have the prefix of new keys"
                self._refuse(self.batch.places[slot], why)
        elif slots:
            self.found.old["an old prefix"] += len(slots)
            self.changed += slots


def _kek_of(ring: Ring, key: bytearray, length: int) -> Optional[Tuple[str, Kek]]:
    """Returns the KEK that a key is under, with its label: the new one, or one of the old ones."""
    for label, kek in (("", ring.new), *ring.old):
        if not any(check_slots(kek, key, length)):
            return label, kek
    return None


def _put_back(
    batch: Batch, slots: Sequence[int], statuses: bytearray, keys: bytearray
) -> None:
    """Puts keys that were rewrapped outside of the batch into their slots."""
    if keys is batch.keys:
        return
    size = batch.length
    for number, slot in enumerate(slots):
        if not statuses[number]:
            key = keys[number * size : (number + 1) * size]
            batch.keys[slot * size : (slot + 1) * size] = key


def _check_new(
    ring: Ring, notation: Notation, texts: Sequence[bytes], keys: bytearray
) -> None:
    """Raises `Refused` unless the texts, read again, are these keys, each under the new KEK with the new prefix."""
    refused: List[int] = []
    batches = [
        *notation.batches(texts, range(len(texts)), lambda at, _: refused.append(at))
    ]
    if len(batches) == 1 and not refused:
        (batch,) = batches
        statuses = check_slots(ring.new, batch.keys, batch.length)
        if batch.keys == keys and batch.has_new_prefix and not any(statuses):
            return
    raise Refused("a rewrapped key is not under the new KEK")


def next_batch(items: Iterator[Item], length: Callable[[Item], int]) -> List[Item]:
    """Takes a batch of at most ROWS rows or records, and about BYTES bytes."""
    taken: List[Item] = []
    size = 0
    most = signs.batch_size(ROWS)
    for item in items:
        taken.append(item)
        size += length(item)
        if len(taken) == most or size >= BYTES:
            break
    return taken


def quoted(name: str) -> str:
    """The name of a table or a column in a statement."""
    return '"' + name.replace('"', '""') + '"'


def _binary(value: Any, size: Optional[int]) -> Text:
    """Returns a value as raw bytes, or why it is neither that nor text; `None` for text and for NULL."""
    if isinstance(value, bytes) or size is None or isinstance(value, str):
        return value if isinstance(value, bytes) else None
    return "longer than any key" if value is None else "neither binary nor text"


def _textual(value: Any) -> Text:
    """Returns a text as the bytes of its notation; `None` for any other value."""
    if isinstance(value, str):
        return value.encode("utf-8", "surrogateescape")
    return None


def rewrapped_rows(
    rings: Rings, notation: Notation, rows: Sequence[Row], found: Found
) -> List[Tuple[Any, Row]]:
    """Returns the new value and the row of each key that is not new. Binary values are raw. Adds the digests of the
    values to that of the table, if it has one: the sum does not depend on how the rows were read.
    """

    def place(at: int) -> str:
        return "row " + ", ".join(map(str, rows[at][3:]))

    values, sizes, names, *_ = zip(*rows)
    kinds = {*map(type, values)}
    writes: List[Tuple[Any, Row]] = []
    if kinds != {str}:
        raw: Sequence[Text] = values
        if kinds != {bytes}:
            raw = [_binary(value, size) for value, size in zip(values, sizes)]
        fresh = rewrapped_texts(rings, Notation("raw"), raw, found, place, names)
        writes += [(key, rows[at]) for at, key in fresh.items()]
    if str in kinds:
        texts = [_textual(value) for value in values]
        fresh = rewrapped_texts(rings, notation, texts, found, place, names)
        writes += [(text.decode("ascii"), rows[at]) for at, text in fresh.items()]
    if None in sizes:
        for at, size in enumerate(sizes):
            if size is None:
                found.miss(place(at), notation.needs_keys)
    if found.digest is not None:
        found.digest = _digest_of(values, found.digest)
    return writes


def digest_of_none(options: argparse.Namespace) -> Optional[str]:
    """Returns the digest of no values, to which those of rows are added, or None if the run compares none."""
    return "0" if options.report or options.verify_record else None


def _digest_of(values: Sequence[Any], before: str) -> str:
    """Returns the sum of a digest, in hex, and of the digests of the values."""
    total = int(before, 16)
    for value in values:
        content = value if isinstance(value, bytes) else repr(value).encode()
        digest = hashlib.blake2b(content, digest_size=32).digest()
        total += int.from_bytes(digest, "big")
    return f"{total % (1 << 256):064x}"
