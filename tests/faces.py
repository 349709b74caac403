"""Asks a face of the library for the rows of rows.txt, rows that are not kept (`more`), and published cases, and
compares its answers.

A runner for each language reads lines

    CALL KEK NEW IV FLAGS GIVEN ROOM KEY_LEN COUNT LENS_COUNT FORMS_COUNT

of hex digits and numbers, or - for nothing, and prints NAME=VALUE.. for each. Where GIVEN has items, commas are between
them. face_answers.py says what the buffers of C and Rust are."""

import functools
import re
from typing import NamedTuple

import pytest

import published
import rows
from builds import run
from face_answers import answer, asked_of
from face_limits import reason

# The words of a line, after the call. The size of a buffer is that of what is given.
WORDS = [name for name in rows.ARGUMENTS if name != "size"]


def short_rows():
    """Without long keys, which take seconds."""
    return [
        row
        for row in table("rows")
        if not row.is_done or len(row.arguments["given"]) < rows.LONG
    ]


TABLES = {
    "rows": rows.with_kept_keks,
    "more": rows.more,
    "foreign": published.foreign_rows,
    "nist": published.nist_rows,
    "short": short_rows,
}
each_group = pytest.mark.parametrize(
    "group", sorted({row.group for row in rows.read()})
)


class Question(NamedTuple):
    """A line for a runner, what it has to answer, and the row."""

    line: str
    due: str
    row: rows.Row


@functools.cache
def table(name):
    """The rows of a table, or skips the test."""
    return list(TABLES[name]())


@functools.cache
def asked(face, *names):
    """The questions of these tables that a face can express."""
    return [
        question_of(face, row, call)
        for name in names
        for row in table(name)
        if reason(face, row) is None
        for call in asked_of(face, row)
    ]


def question_of(face, row, call):
    count = call.fields.get("count", "-")
    fields = {
        "lens_count": count,
        "forms_count": count,
        **row.arguments,
        **call.fields,
    }
    words = [word(fields.get(name)) for name in WORDS]
    line = " ".join([call.call, *words])
    expected = [
        f"{name}={shown(value)}" for name, value in answer(face, row, call).items()
    ]
    return Question(line, " ".join(expected), row)


def word(value):
    """A word of a line. No bytes are - like a value that is not there; one empty item is an empty word."""
    if value is None or value == b"":
        return "-"
    return shown(value)


def shown(value):
    """A value as a runner reads and prints it."""
    if isinstance(value, str):
        return value
    if isinstance(value, bytes):
        return value.hex()
    if isinstance(value, list):
        return ",".join(map(shown, value))
    return str(int(value))


def is_right(given, due):
    """Whether the answer is the one that is due, with a text of the pattern that is."""
    given, _, text = given.partition(" text=")
    due, _, pattern = due.partition(" text=")
    return given == due and re.fullmatch(pattern, text) is not None


def answers(runner, text):
    """The answers of a runner, which is a command that reads the lines, or a function of them."""
    output = runner(text) if callable(runner) else run(*runner, input=text)
    return re.findall("^status=.*", output, re.M)


def faults(face, runner, *names):
    """The rows of these tables to which a runner gives another answer, each with a text."""
    questions = asked(face, *names)
    lines = "".join(f"{question.line}\n" for question in questions)
    given = answers(runner, lines)
    assert len(given) == len(questions), (len(given), len(questions), given[-1:])
    found = []
    for question, line in zip(questions, given):
        if not is_right(line, question.due):
            found.append((question.row, fault_text(question, line)))
    return found


def fault_text(question, given):
    row = rows.shown_row(question.row)
    call = f"{question.line:.40}: {given:.300}, not {question.due:.300}"
    return f"{row:.300}\n  {call}\n"


def check(face, runner, *names):
    wrong = [text for _, text in faults(face, runner, *names)]
    assert wrong == [], f"{len(wrong)} wrong answers\n{''.join(wrong[:20])}"


def check_group(group, once, name, face, runner):
    """Checks the rows of one group of rows.txt, and those that follow from them. The first test of a name runs all
    groups, for all processes."""

    def find(directory):
        for row, text in faults(face, runner, "rows"):
            with open(directory / row.group, "a") as wrong:
                wrong.write(text)

    wrong = once(f"rows-{name}", find) / group
    assert not wrong.exists(), wrong.read_text()


def has_fault(face, runner, *names):
    """Whether there is one. A runner that ends too early has one, too."""
    try:
        return faults(face, runner, *names) != []
    except AssertionError:
        return True
