"""Files of wrapped keys, below directories. A format finds the keys in a file."""

import argparse
import contextlib
import functools
import hashlib
import io
import itertools
import os
from typing import (
    Callable,
    ContextManager,
    Iterable,
    Iterator,
    Optional,
    Tuple,
)

from . import signs
from .found import Changed, Found, Gone, Refused
from .keks import Rings
from .keys import BLANKS, LONGEST, Notation, rewrapped_texts, rewrapped_lines
from .listing import FileListing, Listing, Names, Sightings, Unit
from .replacing import (
    LONGEST_NAME,
    Successor,
    blocks,
    has_name,
    identity,
    opened,
    short,
    sync_directory,
)


#: Reads a file by its blocks. Yields each part of it, and what that becomes: itself if nothing changes.
Format = Callable[[Iterable[bytes], Rings, Found], Iterator[Tuple[bytes, bytes]]]


def lines(
    notation: Notation, blocks: Iterable[bytes], rings: Rings, found: Found
) -> Iterator[Tuple[bytes, bytes]]:
    """One key on each line. Blanks and ends of lines stay."""
    number = 1
    rest = b""
    # The empty block is the end of the file: all that is left is its last line.
    for block in itertools.chain(blocks, [b""]):
        rest += block
        end = len(rest)
        if block:
            end = rest.rfind(b"\n") + 1
        content = rest[:end]
        rest = rest[end:]
        if content:
            yield content, _rewrapped_lines(notation, content, rings, found, number)
        number += content.count(b"\n")
        if len(rest) > LONGEST:
            raise Refused(f"line {number}: longer than any wrapped key")


def _rewrapped_lines(
    notation: Notation, content: bytes, rings: Rings, found: Found, first: int
) -> bytes:
    def place(at: int) -> str:
        return f"line {first + at}"

    if notation == Notation(needs_keys=notation.needs_keys):
        fresh = rewrapped_lines(rings[None], content, found, place)
        if fresh is not None:
            return fresh
    each = list(io.BytesIO(content))
    keys = [line.strip(BLANKS) for line in each]
    texts = rewrapped_texts(rings, notation, keys, found, place)
    if not texts:
        return content
    for at, text in texts.items():
        each[at] = each[at].replace(keys[at], text, 1)
    return b"".join(each)


def one_key(
    notation: Notation, blocks: Iterable[bytes], rings: Rings, found: Found
) -> Iterator[Tuple[bytes, bytes]]:
    """The file is one key, which may span lines."""
    content = b""
    end = b"" if notation.name == "raw" else b"\n"
    for block in blocks:
        content += block
        if len(content) > 2 * LONGEST:
            raise Refused("longer than any wrapped key")
    text = content.translate(None, BLANKS) if end else content
    texts = rewrapped_texts(rings, notation, [text], found, lambda at: "its key")
    yield content, texts[0] + end if texts else content


class Files:
    """All files that the names denote: a directory means the files below it."""

    noun = "files"

    def __init__(self, format: Format, names: Names, quiesced: bool = False) -> None:
        self.format = format
        self.names = names
        self.quiesced = quiesced
        self._sightings: Optional[Sightings] = None

    def listed(self, may_write: bool) -> ContextManager[Listing]:
        self._sightings = self._sightings or Sightings()
        return contextlib.nullcontext(
            FileListing(self.names, may_write, self._sightings)
        )

    def do(self, unit: Unit, rings: Rings, may_write: bool, found: Found) -> None:
        path = os.fsencode(unit.name)
        digest = hashlib.blake2b()
        length = 0
        own = Found()
        new: Optional[Successor] = None
        try:
            with opened(path, is_shared=not may_write) as (
                descriptor,
                before,
            ), contextlib.ExitStack() as stack:
                own.read_identity = identity(before)
                if os.pread(descriptor, 16, 0) == b"SQLite format 3\0":
                    raise Refused("an SQLite database: name its table by --table")
                if len(os.path.basename(path)) > LONGEST_NAME and any(
                    ring.old for ring in rings.values()
                ):
                    raise Refused(
                        f"its name is longer than {LONGEST_NAME} bytes: it has no room for a temporary name"
                    )
                for content, fresh in self.format(blocks(descriptor), rings, own):
                    if new is None and may_write and fresh is not content:
                        new = Successor(path, before)
                        stack.callback(new.close)
                        new.copy(descriptor, length, short(digest))
                    digest.update(content)
                    length += len(content)
                    if new is not None:
                        new.write(fresh)
                    signs.beat(unit.weight * len(content) // max(before.st_size, 1))
                if not own.keys:
                    raise Refused("no key")
                if new is not None:
                    before = new.replace(
                        descriptor, short(digest), quiesced=self.quiesced
                    )
                elif not has_name(path, before):
                    raise Changed
        except FileNotFoundError:  # Only absence is excused.
            raise (Changed if os.path.lexists(path) else Gone) from None
        own.digest = digest.hexdigest()[:64]
        own.identity = identity(before)
        found.become(own)


def replace(path: str, new_bytes: bytes, *, old_bytes: bytes) -> None:
    """Replaces a file in one step: synced, with the old owner, group and mode.

    `old_bytes` is what the new content was made from. If the file contains anything else by now, or is a link,
    `Refused` is raised and the file is as it was.
    """

    def given(
        blocks: Iterable[bytes], rings: Rings, found: Found
    ) -> Iterator[Tuple[bytes, bytes]]:
        if b"".join(blocks) != old_bytes:
            raise Changed
        found.keys = 1
        yield old_bytes, new_bytes

    if not new_bytes:
        raise Refused("the new content is empty")
    try:
        Files(given, Names([])).do(Unit(path, 0, ""), {}, True, Found())
    except (Changed, Gone):
        raise Refused(
            "somebody else wrote or removed the file meanwhile: read it again"
        ) from None
    sync_directory(os.fsencode(os.path.dirname(os.path.abspath(path))))


def open_store(
    options: argparse.Namespace, notation: Notation, names: Names
) -> "Files":
    """Makes the store of files of lines, or of one key each."""
    format = one_key if options.one_key or notation.name == "raw" else lines
    return Files(functools.partial(format, notation), names, options.quiesced)
