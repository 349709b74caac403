"""The must-fail edits that are tried before a release: tests/edits/CRATE.txt has those of a crate.

The first line of an edit has its name, and its file in the crate. Then `-` marks a line that the file has exactly once,
or a part of one, and `+` after it what stands there instead. The edits of the gate are files in crates/CRATE/must-fail,
as rt reads them."""

import pathlib
import re
from typing import NamedTuple

CRATES = pathlib.Path(__file__).resolve().parents[2] / "crates"
DIRECTORY = CRATES.parent / "tests/edits"


class Change(NamedTuple):
    file: str
    old: str
    new: str


class Edit(NamedTuple):
    crate: str
    name: str
    changes: list

    def as_rt_reads_it(self):
        lines = []
        for file, old, new in self.changes:
            lines += [f"file: {file}", f"old: {old}", f"new: {new}"]
        return "\n".join(lines) + "\n"

    def edited_files(self):
        """The text of each file after the edit, by its path. Each old text stands once in its file."""
        texts = {}
        for file, old, new in self.changes:
            path = CRATES / self.crate / file
            text = texts.get(path) or path.read_text()
            assert text.count(old) == 1, f"{self.crate}: {self.name}"
            texts[path] = text.replace(old, new)
        return texts


def of_release():
    """The edits of tests/edits."""
    return [edit for table in sorted(DIRECTORY.glob("*.txt")) for edit in of(table)]


def of(table):
    """The edits of one crate."""
    found = []
    for entry in re.findall(r"^(?![-+#]).+\n(?:[-+].*\n)+", table.read_text(), re.M):
        first, *lines = entry.splitlines()
        name, file = first.split(": ")
        found.append(Edit(table.stem, name, changes(file, lines)))
    return found


def changes(file, lines):
    """The changes of a file: each is a line with `-`, and then one with `+`."""
    assert [line[0] for line in lines] == ["-", "+"] * (len(lines) // 2), lines
    texts = [line[1:] for line in lines]
    return [Change(file, old, new) for old, new in zip(texts[::2], texts[1::2])]


def of_gate():
    """The edits of crates/CRATE/must-fail."""
    return [read(path) for path in sorted(CRATES.glob("*/must-fail/*.edit"))]


def read(path):
    """An edit in the form of rt, in which `file:` holds until the next one."""
    found = []
    for kind, value in re.findall(r"^(file|old|new): ?(.*)$", path.read_text(), re.M):
        if kind == "file":
            file = value
        elif kind == "old":
            old = value
        else:
            found.append(Change(file, old, value))
    return Edit(path.parents[1].name, path.stem, found)
