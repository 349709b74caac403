"""Runs on a terminal: raw bytes do not go there, a line says what is read from there, and with --lines a line that is
rewritten says how far the run is."""

import pathlib
import re
import time

import pytest

from commands import WRAP, table, unescaped
from program import Ended
from vectors import KEK16, KEY16, VECTOR_LINES, WRAPPED16

RAW = (
    "keywrap: output: raw bytes do not go to a terminal; redirect it or use --output\n"
)
PROMPT = "keywrap: reading the {} from the terminal; Ctrl-D ends it\n"


class TestStreams:
    @pytest.mark.parametrize("args", [args for args, in table("terminal", "raw bytes")])
    def test_raw_bytes_are_refused(self, terminal, args):
        """They are refused before any file is opened, and standard input is not read."""
        pathlib.Path("left").write_text("left\n")
        command = f"keywrap {args} 2>err; status=$?; cat; exit $status"
        run = terminal(f"{{ {command}; }} <left")
        assert run.ended() == Ended(2, "left\n")
        assert pathlib.Path("err").read_text() == RAW

    @pytest.mark.parametrize("line, status, screen", table("terminal", "no raw bytes"))
    def test_no_raw_bytes(self, terminal, line, status, screen):
        """Standard output is a terminal, or a file has the raw bytes."""
        run = terminal(unescaped(f"keywrap {line}"))
        assert run.ended() == Ended(int(status), unescaped(screen))
        if "file" in line:
            assert pathlib.Path("file").read_bytes().hex() == WRAPPED16

    @pytest.mark.parametrize(
        "args, read, typed, status, answer, message",
        [*table("terminal", "typed"), ("vectors", "", "", 0, VECTOR_LINES[:-1], "")],
    )
    def test_typed_input(self, terminal, args, read, typed, status, answer, message):
        """Standard input and standard error are a terminal. A line is printed for each file that is read from it."""
        written = f"{answer}\n" if answer else ""
        error = "".join(PROMPT.format(file) for file in read.split(", ") if file)
        prompts = error.count("\n")
        if message:
            error += f"keywrap: {message}\n"

        run = terminal(f"keywrap {args} >out 2>err")
        if prompts:
            run.waits_for("err", "ends it\n", prompts)
            run.types(f"{typed}\n" if typed else "")
        assert run.ended() == Ended(int(status))
        assert pathlib.Path("out").read_text() == written
        assert pathlib.Path("err").read_text() == error

    @pytest.mark.parametrize("redirections", ["", ">&- 2>&-"], ids=["open", "closed"])
    def test_prompt_on_the_terminal(self, terminal, redirections):
        """If standard error is closed, the file of --output has its descriptor. Only the answer is in it."""
        run = terminal(f"keywrap {WRAP} --output file {redirections}")
        if not redirections:
            prompt = PROMPT.format("input")
            run.child.expect_exact(prompt.replace("\n", "\r\n"))
        run.types(f"{KEY16}\n")
        assert run.ended() == Ended(0)
        assert pathlib.Path("file").read_text() == f"{WRAPPED16}\n"

    @pytest.mark.parametrize("line, message, reason", table("terminal", "reasons"))
    def test_reasons_and_warnings(self, terminal, line, message, reason):
        """On a terminal they are shown without --verbose."""
        pathlib.Path("kek.digits").write_text(KEK16)
        screen = f"keywrap: {message}\n"
        if reason:
            screen += f"  {reason}\n"
        assert terminal(f"keywrap {line}").ended().stdout == screen


LINES = f"keywrap {WRAP} --lines"
FAR = r"keywrap: (\d+) lines, (\d+) a second"
COUNTS = "keywrap: {0} lines: {0} answered, 0 refused\n"
REFUSAL = "keywrap: line {}: no hex digit at byte 0\n"
# The number of lines of the three files that `slowly` writes.
COUNT = 4999


def answers_in(name="out"):
    """How many lines the file has, which are all the answer to KEY16."""
    text = pathlib.Path(name).read_text()
    lines = text.splitlines()
    assert text == f"{WRAPPED16}\n" * len(lines)
    return len(lines)


def slowly(parts):
    """The start of a pipeline that writes each part after a pause."""
    return f"{{ for part in {parts}; do sleep 0.6; cat $part; done; }} | {LINES}"


def rewritten(pattern):
    """The line, once and again: the one before it is cleared, it is cut at the terminal's width, and in the end it is
    cleared."""
    return rf"(\r\x1b\[K\x1b\[\?7l{pattern}\x1b\[\?7h)+\r\x1b\[K"


class TestProgress:
    SLOWLY = slowly("first middle last")
    REFUSED = slowly("first middle bad")

    @pytest.fixture(autouse=True)
    def parts(self):
        """The files that `slowly` writes. The last line of `bad` is refused."""
        key = f"{KEY16}\n"
        pathlib.Path("few").write_text(2 * key)
        pathlib.Path("first").write_text(1000 * key)
        pathlib.Path("middle").write_text(2999 * key)
        pathlib.Path("last").write_text(1000 * key)
        pathlib.Path("bad").write_text(1000 * key + "g\n")

    def test_how_far_it_is(self, terminal):
        """The input is a pipe, whose length is unknown. The runs are parallel. With --output, standard output may be a
        pipe, too."""
        refusal = REFUSAL.format(COUNT + 1)
        reason = "  standard input: not hex\n"
        counts = COUNTS.format(COUNT)
        counts_with_refusal = f"keywrap: 5000 lines: {COUNT} answered, 1 refused\n"
        keep_going = "--keep-going --verbose --input /dev/stdin --output other"
        rows = [
            (f"{self.SLOWLY} >out", 0, [counts]),
            (f"{self.SLOWLY} --output piped | cat", 0, [counts]),
            (f"{self.REFUSED} >refused", 6, [refusal, reason]),
            (f"{self.REFUSED} {keep_going}", 6, [refusal, counts_with_refusal]),
        ]
        runs = [terminal(line) for line, *_ in rows]
        for run, (line, status, messages) in zip(runs, rows):
            ended = run.ended()
            assert ended.status == status, line
            between = ""
            if "--keep-going" in line:
                # A slow machine shows it again after the refusal.
                between = f"(?:{rewritten(FAR)})?"
            pattern = between.join(map(re.escape, messages))
            assert re.fullmatch(rewritten(FAR) + pattern, ended.stdout), line
        assert answers_in("out") == COUNT
        assert answers_in("piped") == COUNT

    @pytest.mark.parametrize(
        "rest, has_counts, TERM",
        [
            ("--quiet >out", False, "xterm"),
            (">out 2>err", False, "xterm"),
            ("| cat >out", True, "xterm"),
            ("--quiet --verbose >out", True, "xterm"),
            (">out", True, "dumb"),
            (">out", True, ""),
            (">out", True, None),
        ],
    )
    def test_not_shown(self, terminal, rest, has_counts, TERM):
        """With --quiet, standard error in a file, answers into a pipe, or a terminal that cannot rewrite a line."""
        run = terminal(f"{self.SLOWLY} {rest}", TERM=TERM)
        screen = COUNTS.format(COUNT) if has_counts else ""
        assert run.ended() == Ended(0, screen)
        assert answers_in("out") == COUNT
        if "2>err" in rest:
            assert pathlib.Path("err").read_text() == ""

    def test_answers_on_the_terminal(self, terminal):
        """Each answer is shown whole, and nothing else."""
        answer = f"{WRAPPED16}\n"
        slow = terminal(slowly("few few few"))
        assert slow.ended() == Ended(0, 6 * answer)
        verbose = terminal(f"cat few few | {LINES} --verbose")
        assert verbose.ended() == Ended(0, 4 * answer)
        # If standard error is elsewhere, it has the counts.
        counted = terminal(f"cat few few | {LINES} --verbose 2>counts")
        assert counted.ended() == Ended(0, 4 * answer)
        assert pathlib.Path("counts").read_text() == COUNTS.format(4)

    def test_refusal_on_another_terminal(self, terminal):
        """The answers are on the inner terminal, and the refusal is on the outer one, which is standard error."""
        pathlib.Path("refused").write_text("g\n")
        pathlib.Path("inner").write_text(f"{slowly('few few few refused')} 2>$outer")
        outer = terminal("outer=$(tty) script -qec '. ./inner' inner.raw >/dev/null")
        ended = outer.ended()
        assert ended.status == 6
        assert ended.stdout.startswith(REFUSAL.format(7))
        shown = pathlib.Path("inner.raw").read_text().replace("\r", "")
        own_lines = [
            line for line in shown.splitlines() if not line.startswith("Script ")
        ]
        assert list(filter(None, own_lines)) == [WRAPPED16] * 6

    def test_typed_lines(self, terminal):
        """Nothing is shown while lines are typed, or afterwards."""
        shown = terminal(f"{LINES} 2>err")
        to_file = terminal(f"{LINES} >out")
        verbose = terminal(f"{LINES} --verbose >verbose")
        for run in to_file, verbose:
            run.child.expect("Ctrl-D ends it\r\n")
        runs = [shown, to_file, verbose]
        for _ in 1, 2:
            time.sleep(0.8)
            for run in runs:
                run.child.sendline(KEY16)
        for run in runs:
            run.child.sendeof()
        assert shown.ended() == Ended(0, f"{WRAPPED16}\n" * 2)
        for run, name in (to_file, "out"), (verbose, "verbose"):
            assert run.ended() == Ended(0)
            assert answers_in(name) == 2

    @pytest.mark.parametrize(
        "milliseconds, screen",
        [(124, ""), (126, rewritten(FAR + ", 100 % done, 0 s left"))],
    )
    def test_nothing_in_the_first_half_second(
        self, terminal, compiled, milliseconds, screen
    ):
        """Uses a fake clock that advances only in the four reads: of a KEK and its end, and of an input and its end."""
        clock = f"LD_PRELOAD={compiled('fail_read')} TICK_READ={milliseconds}"
        ended = terminal(f"env {clock} {LINES} --input first >out").ended()
        assert ended.status == 0
        assert re.fullmatch(screen + COUNTS.format(1000), ended.stdout)

    def test_how_far_a_file_is(self, terminal, compiled):
        """The length of a regular file is known. It is read in five parts of 65,536 bytes, with a pause after each."""
        count = 9900
        pause = 0.6
        pathlib.Path("in").write_text(f"{KEY16}\n" * count)
        slow = f"LD_PRELOAD={compiled('fail_read')} SLOW_READ={int(1000 * pause)}"
        began = time.monotonic()
        ended = terminal(f"env {slow} {LINES} --input in >out").ended()
        most_seconds = time.monotonic() - began

        assert ended.status == 0
        pattern = FAR + r", (\d+) % done, (\d+) s left"
        assert re.fullmatch(rewritten(pattern) + COUNTS.format(count), ended.stdout)
        reports = re.findall(pattern, ended.stdout)
        assert len(reports) >= 5
        for number, report in enumerate(reports, 1):
            lines, pace, done, left = map(int, report)
            least_seconds = number * pause
            assert lines / most_seconds - 1 <= pace <= lines / least_seconds
            part = lines / count
            assert 100 * part - 1 <= done <= 100 * part + 1
            remaining = (1 - part) / part
            assert least_seconds * remaining - 1 <= left
            assert left <= most_seconds * remaining + 1
            # 0 seconds are left only at the end.
            assert left > 0 or done == 100

    def test_a_file_that_grows(self, terminal, compiled):
        """All of it is read. When more is read than it had at first, it is done as far as the program knows. The read
        at its old end waits until it has grown."""
        key = f"{KEY16}\n"
        old_end = 3000 * len(key)
        pathlib.Path("in").write_text(3000 * key)
        library = compiled("fail_read")
        hold = f"LD_PRELOAD={library} HOLD_READ={old_end} TICK_READ=600"
        run = terminal(f"env {hold} {LINES} --input in >out")
        run.child.expect("% done, [0-9]+ s left")
        with open("in", "a") as more:
            more.write(6000 * key)
        # The read goes on when this file exists.
        pathlib.Path("go").touch()
        ended = run.ended()
        assert ended.status == 0
        assert answers_in("out") == 9000
        reports = re.findall(FAR + r", (\d+) % done, (\d+) s left", ended.stdout)
        _, _, done, left = reports[-1]
        assert (done, left) == ("100", "0")
