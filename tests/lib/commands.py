"""The files that each test finds in its directory, and commands.txt: what the program does with each command.

The tests that put the program under faults of the system take their commands from here."""

import pathlib
import re
import string
from typing import NamedTuple, Optional

from vectors import VALUES, VECTOR_LINES, raw, zeros

# The usual command lines.
WRAP = "wrap --kek kek16.hex"
UNWRAP = "unwrap --kek kek16.hex"
CHECK = "check --kek kek16.hex"
REWRAP = "rewrap --kek kek16.hex --new-kek kek32.hex"
SAME_KEK = "rewrap --kek kek16.hex --new-kek kek16.hex"
MAX_FILE = 4194304
TESTS = pathlib.Path(__file__).resolve().parent.parent


def table(name, section, **values):
    """The rows of a section of NAME.txt: the fields between bars, with the values of $NAMES. `\\` joins two lines."""
    page = (TESTS / f"{name}.txt").read_text().replace("\\\n", "")
    lines = re.search(rf"^\[{section}\]\n((?:.+\n)+)", page, re.M)[1]
    filled = string.Template(lines).substitute({**VALUES, **globals(), **values})
    rows = [line for line in filled.splitlines() if not line.startswith("#")]
    return [[field.strip() for field in row.split("|")] for row in rows]


def unescaped(field):
    """The text of a field with escapes as in Python."""
    return field.encode().decode("unicode_escape")


_HEX = dict(table("commands", "files in hex"))
FILES = {
    **{f"{name}.hex": f"{digits}\n".encode() for name, digits in _HEX.items()},
    **{
        f"{name}.raw": raw(_HEX[name])
        for name in "kek16 kek24 kek32 kek5649 key wrapped padded".split()
    },
    **{name: f"{text}\n".encode() for name, text in table("commands", "files")},
    "nothing": b"",
    "vectors": VECTOR_LINES.encode(),
}
# Files that are too long to be written for each test: links lead to them.
LARGE = {"long.hex": zeros(MAX_FILE // 2 + 1).encode(), "blank.hex": b" " * MAX_FILE}


class Command(NamedTuple):
    """A command line, the file that is its standard input (None: it reads none), and its results. An answer of None
    is a text of the program, such as its help."""

    name: str
    args: list
    stdin: Optional[str]
    status: int
    stdout: Optional[bytes]
    stderr: str = ""

    @property
    def given(self):
        """The bytes of standard input."""
        return b"" if self.stdin is None else {**FILES, **LARGE}[self.stdin]


def chosen(commands, names):
    """The commands of these names. An unknown name is an error."""
    by_name = {command.name: command for command in commands}
    return [by_name[name] for name in names]


def _commands(section, kept=None):
    """The commands of a section. `kept` is the output of its refusals."""
    for name, command, result in table("commands", section):
        args, _, given = command.partition(" <")
        status, result = result.split(" ", 1)
        written = [FILES[result]] if kept is None else [kept, f"keywrap: {result}\n"]
        yield Command(name, args.split(), given or None, int(status), *written)


# The commands that read a KEK and standard input.
JOBS = [*_commands("jobs")]
ANSWERS = [*JOBS, *_commands("more answers")]
ANSWERS += [Command(flag, [f"--{flag}"], None, 0, None) for flag in ("help", "version")]
REFUSALS = [*_commands("refusals", b"")]
# The output is to/file, which first contains FILES["old"]. `stdout` is its content afterwards.
INTO_FILES = [*_commands("into files"), *_commands("not into files", FILES["old"])]
