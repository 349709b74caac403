"""Files with a key in a field of each record: a column of CSV, or a member of JSON Lines. A key is replaced in its
place; everything else stays to the byte."""

import argparse
import contextlib
import copy
import csv
import json
from typing import (
    Any,
    Dict,
    Iterable,
    Iterator,
    List,
    NamedTuple,
    Optional,
    Sequence,
    Tuple,
    Union,
)

from .files import Files
from .found import Found, Refused
from .keks import Rings
from .keys import LONGEST, Notation, Text, next_batch, rewrapped_texts
from .listing import Names

#: The way to a field in what a parser returns: the number of a column, or names of members, each in the one before.
Path = Sequence[Union[int, str]]


class Record(NamedTuple):
    """A record of a file, or a line that is none: of the titles of CSV, or a blank one."""

    #: As it is written, and the number of its first line.
    content: str
    line: int
    is_record: bool
    #: Its key or why it has none, and the name of its KEK.
    text: Text = None
    name: Optional[str] = None
    #: The content that its parser returns, and the path to the key in it.
    parsed: Any = None
    path: Path = ()


def _lines(blocks: Iterable[bytes]) -> Iterator[str]:
    """Reads lines of UTF-8 with their ends. Other bytes stay what they are."""
    rest = b""
    for block in blocks:
        *lines, rest = (rest + block).split(b"\n")
        if len(rest) > 2 * LONGEST:
            raise Refused("a line is longer than any record with a wrapped key")
        yield from ((line + b"\n").decode("utf-8", "surrogateescape") for line in lines)
    if rest:
        yield rest.decode("utf-8", "surrogateescape")


def _bytes(text: str) -> bytes:
    return text.encode("utf-8", "surrogateescape")


class Fields:
    """A format of files of records."""

    #: The reason for which a file without any key is refused.
    missing: str

    def __init__(self, notation: Notation) -> None:
        self.notation = notation

    def records(self, lines: Iterator[str]) -> Iterator[Record]:
        """Reads the records, and the lines between them."""
        raise NotImplementedError

    def parsed(self, content: str) -> Any:
        """Parses the content of one record. Raises `ValueError` or `csv.Error`."""
        raise NotImplementedError

    def rewrapped(
        self, blocks: Iterable[bytes], rings: Rings, found: Found
    ) -> Iterator[Tuple[bytes, bytes]]:
        """Yields each part of a file, and what it becomes."""
        records = self.records(_lines(blocks))
        while batch := next_batch(records, lambda record: len(record.content)):
            texts = rewrapped_texts(
                rings,
                self.notation,
                [record.text for record in batch],
                found,
                lambda at: f"line {batch[at].line}",
                [record.name for record in batch],
            )
            for record in batch:
                if record.is_record and record.text is None:
                    found.miss(f"line {record.line}", self.notation.needs_keys)
            content = fresh = "".join(record.content for record in batch)
            if texts:
                fresh = "".join(
                    self._with(record, texts[at]) if at in texts else record.content
                    for at, record in enumerate(batch)
                )
            before = _bytes(content)
            yield before, _bytes(fresh) if texts else before
        if not found.keys:
            raise Refused(self.missing)

    def _with(self, record: Record, text: bytes) -> str:
        """Puts the new key in the place of the old one: the place from which the parser reads it."""
        value = _value_at(record.parsed, record.path)
        new = text.decode("ascii")
        old = value.strip()
        wanted = _replaced(record.parsed, record.path, value.replace(old, new, 1))
        at = record.content.find(old)
        while at >= 0:
            changed = record.content[:at] + new + record.content[at + len(old) :]
            with contextlib.suppress(ValueError, csv.Error):
                if self.parsed(changed) == wanted:
                    return changed
            at = record.content.find(old, at + 1)
        why = "the key is written with escapes, and cannot be replaced in its place"
        raise Refused(f"line {record.line}: {why}")


def _value_at(parsed: Any, path: Path) -> Any:
    """Returns the value at the end of a path, or `None`."""
    for name in path:
        if isinstance(parsed, dict):
            parsed = parsed.get(name)
        elif isinstance(parsed, list) and str(name).isdecimal():
            parsed = parsed[int(name)] if int(name) < len(parsed) else None
        else:
            return None
    return parsed


def _replaced(parsed: Any, path: Path, value: Any) -> Any:
    """Returns a copy with another value at the end of the path."""
    if not path:
        return value
    changed = copy.copy(parsed)
    name = path[0] if isinstance(parsed, dict) else int(path[0])
    changed[name] = _replaced(parsed[name], path[1:], value)
    return changed


class Csv(Fields):
    """CSV with a line of titles."""

    def __init__(
        self,
        column: str,
        notation: Notation,
        kek_name: Optional[str] = None,
        delimiter: str = ",",
    ) -> None:
        super().__init__(notation)
        self.columns = [name for name in (column, kek_name) if name is not None]
        self.has_kek_names = kek_name is not None
        self.delimiter = delimiter
        self.missing = f"no key in the column {column!r}"

    def records(self, lines: Iterator[str]) -> Iterator[Record]:
        csv.field_size_limit(2 * LONGEST)
        taken: List[str] = []

        def kept() -> Iterator[str]:
            for line in lines:
                taken.append(line)
                yield line

        number = 1
        columns: List[int] = []
        try:
            for row in csv.reader(kept(), delimiter=self.delimiter, strict=True):
                content = "".join(taken)
                if not columns:
                    columns = self._columns_of(row)
                    yield Record(content, number, False)
                else:
                    yield self._record(content, number, row, columns)
                number += len(taken)
                taken.clear()
        except csv.Error:
            raise Refused(f"line {number}: not CSV") from None

    def _columns_of(self, titles: List[str]) -> List[int]:
        """Returns the numbers of the columns of the key, and of the name of its KEK."""
        titles = [title.lstrip("\ufeff") for title in titles]
        for name in self.columns:
            if titles.count(name) != 1:
                raise Refused(f"the first line does not have the column {name!r} once")
        return [titles.index(name) for name in self.columns]

    def _record(
        self, content: str, number: int, row: List[str], columns: List[int]
    ) -> Record:
        if not row:
            return Record(content, number, False)
        if len(row) <= max(columns):
            return Record(content, number, True, "the column is missing")
        text = _bytes(row[columns[0]].strip()) or None
        name = row[columns[1]] if self.has_kek_names else None
        return Record(content, number, True, text, name, row, (columns[0],))

    def parsed(self, content: str) -> Any:
        (row,) = csv.reader([content], delimiter=self.delimiter, strict=True)
        return row


class _Number(str):
    """A number as it is written: it must not change."""


def _object(members: List[Tuple[str, Any]]) -> Any:
    if len(dict(members)) != len(members):
        raise ValueError
    return dict(members)


class Json(Fields):
    """Lines of JSON objects."""

    def __init__(
        self, path: Path, notation: Notation, kek_path: Optional[Path] = None
    ) -> None:
        super().__init__(notation)
        self.path = path
        self.kek_path = kek_path
        self.missing = f"no line has the member {'/'.join(map(str, path))!r}"

    def records(self, lines: Iterator[str]) -> Iterator[Record]:
        for number, line in enumerate(lines, 1):
            if not line.strip():
                yield Record(line, number, False)
                continue
            try:
                members = self.parsed(line)
            except (ValueError, RecursionError):
                why = "not a JSON object, or a member comes twice"
                yield Record(line, number, True, why)
                continue
            value = _value_at(members, self.path)
            name = None
            if self.kek_path is not None:
                name = _value_at(members, self.kek_path)
            text: Text = None if value is None else "not a string"
            if type(value) is str:
                text = _bytes(value.strip())
            kek_name = name if type(name) is str else None
            yield Record(line, number, True, text, kek_name, members, self.path)

    def parsed(self, content: str) -> Dict[str, Any]:
        members = json.loads(
            content,
            object_pairs_hook=_object,
            parse_float=_Number,
            parse_int=_Number,
            parse_constant=_Number,
        )
        if not isinstance(members, dict):
            raise ValueError
        return members


def _path_of(pointer: str) -> Path:
    """Returns the names of members of a JSON pointer (RFC 6901)."""
    names = pointer.split("/")[1:]
    return [name.replace("~1", "/").replace("~0", "~") for name in names]


def open_store(options: argparse.Namespace, notation: Notation, names: Names) -> Files:
    """Makes the store of CSV or JSON files."""
    fields: Fields
    if options.csv is not None:
        delimiter = options.delimiter or ","
        fields = Csv(options.csv, notation, options.kek_name, delimiter)
        return Files(fields.rewrapped, names, options.quiesced)
    path: Path = [options.json]
    if options.json_pointer is not None:
        path = _path_of(options.json_pointer)
    kek_path: Optional[Path] = None
    if options.kek_name is not None:
        is_pointer = options.json is None and options.kek_name.startswith("/")
        kek_path = _path_of(options.kek_name) if is_pointer else [options.kek_name]
    fields = Json(path, notation, kek_path)
    return Files(fields.rewrapped, names, options.quiesced)
