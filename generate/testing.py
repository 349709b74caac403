#!/usr/bin/env python3
"""Writes the numbers of docs/TESTING.md: what is tested with, counted from the files that have it.

usage: generate/testing.py             writes the table
       generate/testing.py --check     fails if the table is another"""

import re
import sys
from pathlib import Path

TOP = Path(__file__).resolve().parent.parent
PAGE = TOP / "docs/TESTING.md"
sys.path[:0] = [str(TOP / "tests"), str(TOP / "tests/lib")]

import edits
import published
import rows

BEGIN, END = (f"<!-- generate/testing.py: {edge} -->\n" for edge in ("begin", "end"))


def planted_bugs():
    """The bugs of the tables, each of which begins with its name."""
    tables = sorted(TOP.glob("tests/*/bugs.txt"))
    by_name = r"^[\w-]+: \S+$"
    in_rows = r"^[^#\n|]+\|[^|]+\|"
    found = 0
    for table in tables:
        text = table.read_text()
        found += len(re.findall(by_name, text, re.M) or re.findall(in_rows, text, re.M))
    return found


def theorems():
    statement = (TOP / "theory/Statement.v").read_text()
    return len(re.findall(r"^  Parameter ", statement, re.M))


def numbers():
    """The rows of the table, each a name and a number."""
    yield "rows of calls, each with its name", len(rows.read())
    yield "these and the rows that follow from them", len([*rows.with_kept_keks()])
    yield "calls with a published answer of Wycheproof or ACVP", len(
        published.foreign()
    )
    yield "must-fail edits in the gate", len(edits.of_gate())
    yield "must-fail edits before a release", len(edits.of_release())
    yield "planted bugs that are tried again and again", planted_bugs()
    yield "theorems in Coq", theorems()


def table():
    lines = ["| What | Number |", "|---|---|"]
    lines += [f"| {what} | {number:,} |" for what, number in numbers()]
    return "\n".join(lines) + "\n"


def main(arguments):
    if arguments not in ([], ["--check"]):
        sys.exit(__doc__)
    page = PAGE.read_text()
    head, rest = page.split(BEGIN)
    _, tail = rest.split(END)
    wanted = f"{head}{BEGIN}{table()}{END}{tail}"
    if not arguments:
        PAGE.write_text(wanted)
    elif page != wanted:
        print("docs/TESTING.md: stale, run generate/testing.py")
        return 1
    return 0


if __name__ == "__main__":
    sys.exit(main(sys.argv[1:]))
