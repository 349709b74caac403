"""--lines: the answer to each line, how lines are split, the line at which a run stops, and the reports."""

import os
import pathlib
import re
import subprocess

import pytest

from checks import LENGTH, comes_to, leaves_input
from commands import CHECK, MAX_FILE, REWRAP, UNWRAP, WRAP, table, unescaped
from program import CLOSED, refused
from vectors import BAD_LENGTH, KEY16, UNSENT, WRAPPED16

ODD = (6, "odd number of hex digits")
TOO_LONG = (6, "too long")
KEEP_GOING = pytest.mark.parametrize(
    "keep_going", [False, True], ids=["stops", "keeps going"]
)


def parts(field):
    return [part.strip() for part in field.split(",")]


def outcomes_in(field):
    """The outcomes that `comes_to` expects."""
    outcomes = parts(field)
    for at, outcome in enumerate(outcomes):
        if re.match("[4-6] ", outcome):
            status, message = outcome.split(" ", 1)
            outcomes[at] = int(status), message
    return outcomes


def rows():
    """Commands, inputs and the outcomes of their lines."""
    for args, given, outcomes in table("lines", "runs"):
        yield args, parts(given), outcomes_in(outcomes)
    for given, outcomes in table("lines", "bytes"):
        yield WRAP, unescaped(given).encode("latin-1"), outcomes_in(outcomes)


def rows_at_borders_of_buffers():
    """Two keys with blanks, so that the first line ends near the end of a buffer and the second one begins there."""
    for border in 4096, 8192, 65536:
        for length in range(border - 2, border + 3):
            yield WRAP, f"{KEY16.ljust(length)}\n{KEY16.rjust(length)}", [WRAPPED16] * 2


def rows_with_a_refused_last_line():
    keys = f"{KEY16}\n" * 4999
    answers = [WRAPPED16] * 4999
    too_long = " " * (MAX_FILE + 1) + "\n"
    for last, outcome in ("0\n", ODD), ("0", ODD), (too_long, TOO_LONG):
        yield WRAP, keys + last, [*answers, outcome]


ROWS = [
    *rows(),
    *rows_at_borders_of_buffers(),
    *rows_with_a_refused_last_line(),
    (WRAP, "\n" * 65536, [LENGTH] * 65536),
]


class TestLines:
    @pytest.mark.parametrize(
        "args, given, outcomes", ROWS, ids=[args for args, *_ in ROWS]
    )
    @KEEP_GOING
    def test_lines(self, keywrap, args, given, outcomes, keep_going):
        comes_to(keywrap, args, given, outcomes, keep_going)

    def test_longest_line(self, keywrap):
        """A line has the same answer as a file with only this line."""
        longest = ("00" * 1048576).ljust(MAX_FILE)
        answer = keywrap(WRAP, stdin=longest).stdout.strip()
        lines = f"{KEY16}\n{longest}\n{KEY16}"
        comes_to(keywrap, WRAP, lines, [WRAPPED16, answer, WRAPPED16])

    @KEEP_GOING
    @pytest.mark.parametrize(
        "args", [WRAP, UNWRAP, CHECK, REWRAP], ids=lambda args: args.split()[0]
    )
    def test_no_line(self, keywrap, args, keep_going):
        args += " --lines --keep-going" if keep_going else " --lines"
        no_lines = refused(4, "no lines")
        assert keywrap(args) == no_lines
        assert keywrap(args, stdin=CLOSED) == no_lines
        assert keywrap(f"{args} -i nothing -o old") == no_lines
        assert pathlib.Path("old").read_text() == "old\n"
        assert keywrap(f"{args} -i nothing -o new") == no_lines
        assert not os.path.exists("new")

    @pytest.mark.parametrize(
        "args, status, message", table("lines", "before the first line")
    )
    def test_refusal_before_the_first_line(self, keywrap, args, status, message):
        refusal = refused(int(status), message)
        assert keywrap(f"{args} --lines") == refusal
        leaves_input(keywrap, f"{args} --lines", refusal)

    @pytest.mark.parametrize(
        "args, good, answer, bad, outcomes", table("lines", "one of three")
    )
    @pytest.mark.parametrize("at", [0, 1, 2])
    @KEEP_GOING
    def test_one_of_three_lines_is_refused(
        self, keywrap, args, good, answer, bad, outcomes, at, keep_going
    ):
        refusals = [*zip(parts(bad), outcomes_in(outcomes))]
        refusals.append((" " * MAX_FILE + "A", TOO_LONG))
        notation = "undecodable base64" if "base64" in args else "undecodable"
        for line, field in table("lines", notation):
            (outcome,) = outcomes_in(field)
            refusals.append((unescaped(line), outcome))
        for line, outcome in refusals:
            given = [good] * 3
            expected = [answer] * 3
            given[at] = line
            expected[at] = outcome
            comes_to(keywrap, args, given, expected, keep_going)

    def test_refusals_come_as_their_lines_are_met(self, keywrap):
        """Each refused line is reported once, in order, and before its empty line is written."""
        refused_lines = [999, 1998, 2997, 3996, 4995]
        lines = [KEY16] * 4999
        for number in refused_lines:
            lines[number - 1] = "g"
        given = "".join(f"{line}\n" for line in lines)
        args = f"{WRAP} --lines --keep-going"
        ended = keywrap(args, stdin=given, stderr=subprocess.STDOUT)

        answers = 0
        reported = []
        for line in ended.stdout.splitlines():
            report = re.fullmatch(r"keywrap: line (\d+): no hex digit at byte 0", line)
            if report is None:
                answers += 1
            else:
                number = int(report[1])
                assert answers < number
                reported.append(number)
        assert reported == refused_lines
        assert answers == 4999

    @pytest.mark.parametrize("args, given, outcomes, report", table("lines", "counts"))
    @pytest.mark.parametrize("flags", ["--verbose", "--verbose --quiet"])
    def test_verbose_counts_the_lines(
        self, keywrap, args, given, outcomes, report, flags
    ):
        """The last line on standard error has the counts."""
        args = f"{args} {flags}"
        lines = parts(given)
        outcomes = outcomes_in(outcomes)
        report_line = f"keywrap: {report}\n"
        comes_to(keywrap, args, lines, outcomes, True, report_line)
        if " 0 refused" in report:
            comes_to(keywrap, args, lines, outcomes, False, report_line)

    def test_run_that_stops_has_no_counts(self, keywrap):
        """It goes on only with --keep-going, and makes no file."""
        args = f"{WRAP} --lines --verbose"
        given = f"{KEY16}\n00\n{KEY16}\n"
        message = f"line 2: {BAD_LENGTH}"
        reason = "standard input: a plain key has 16 or more, a multiple of 8"
        refusal = refused(4, message, reason)
        assert keywrap(args, stdin=given) == refusal._replace(stdout=f"{WRAPPED16}\n")
        assert keywrap(f"{args} -o new", stdin=given) == refusal
        assert not os.path.exists("new")

    def test_full_disk_has_no_counts(self, keywrap):
        message = UNSENT.format(49, 1)
        reason = "standard output: No space left on device (os error 28)"
        ended = keywrap(f"{WRAP} --lines --verbose", stdin=KEY16, stdout="/dev/full")
        assert ended == refused(6, message, reason)
