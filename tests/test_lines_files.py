"""--lines with files and streams that fail, in place, and in little memory; and random keys, compared with pyca."""

import bisect
import functools
import os
import pathlib
import random
import re
import shutil
import signal
import subprocess

import pytest

from checks import NO_OUTPUT, fresh, keeps, lands, no_output, state
from commands import CHECK, SAME_KEK, UNWRAP, WRAP
from program import CLOSED, Ended, failing_after, piped, refused
from tools import need
from vectors import (
    INTEGRITY,
    KEK24,
    KEK32,
    KEY16,
    KEY7,
    UNSENT,
    WRAPPED16,
    WRAPPED24,
    WRAPPED32,
    WRAPPED7,
    in_base64,
    in_url,
    raw,
)

LINES = f"{WRAP} --lines"
REWRAP = "rewrap --kek kek24.hex --new-kek kek32.hex"
MANY_KEYS = (KEY16 + "\n") * 4999
MANY_WRAPPED = (WRAPPED16 + "\n") * 4999
BEFORE_END = f"keywrap: {UNSENT}\n".format(r"(\d+)", r"(\d+)")
KEEP_GOING = "--lines --keep-going"
IN_PLACE = "-i to/file -o to/file"


def needs_more_memory(program):
    """Whether 100,000 lines need at least 64 KiB more than 5,000, which fill each buffer. The lines are in a file: how
    much a read gets of a pipe, and so the size of a buffer, depends on the load of the machine.
    """
    few = 5000
    many = 100000
    for count in few, many:
        pathlib.Path(str(count)).write_text((KEY16 + "\n") * count)

    def goes_through(kilobytes, count, kind):
        limits = {kind: 1024 * kilobytes}
        ended = program(f"{LINES} --quiet -i {count}", limits=limits)
        return ended == Ended(0, (WRAPPED16 + "\n") * count)

    # A kernel without a limit for data has only one for addresses.
    has_limit_for_data = not goes_through(4, few, "DATA")
    kind = "DATA" if has_limit_for_data else "AS"
    sizes = range(4, 1 << 22, 4)
    least = bisect.bisect(
        sizes, False, key=lambda kilobytes: goes_through(kilobytes, few, kind)
    )
    return not goes_through(sizes[least] + 64, many, kind)


def test_rewrap_in_place(keywrap):
    fresh(MANY_WRAPPED.encode())
    lands(keywrap, f"{SAME_KEK} --lines {IN_PLACE}", MANY_WRAPPED.encode())


class TestInPlaceWithKeepGoing:
    """The input file must not be the output: it has the only copy of the refused lines."""

    @pytest.fixture(autouse=True)
    def two_lines(self):
        """A file with a line that is rewrapped, and a line that is refused."""
        fresh(f"{WRAPPED24}\n{WRAPPED16}\n".encode())
        os.link("to/file", "to/link")
        os.symlink("file", "to/name")

    @pytest.mark.parametrize(
        "name", ["to/file", "./to/../to/file", "to/link", "to/name"]
    )
    @pytest.mark.parametrize(
        "job", [REWRAP, f"{REWRAP} --keep-form", WRAP, UNWRAP, CHECK]
    )
    def test_refused(self, keywrap, job, name):
        args = f"{job} {KEEP_GOING} -o to/file"
        keeps(keywrap, f"{args} -i {name}", NO_OUTPUT)
        with open(name, "rb") as given:
            keeps(keywrap, args, NO_OUTPUT, stdin=given)
            assert given.tell() == 0
            keeps(keywrap, f"{args} -i /dev/stdin", NO_OUTPUT, stdin=given)

    @pytest.mark.parametrize(
        "job, reason",
        [
            (
                REWRAP,
                "is the input, whose refused lines would be lost with --keep-going",
            ),
            ("wrap --kek to/file", "is the KEK file"),
        ],
    )
    def test_reasons(self, keywrap, job, reason):
        args = f"{job} {KEEP_GOING} --verbose {IN_PLACE}"
        keeps(keywrap, args, no_output(f"to/file: {reason}"))

    WRITTEN = f"{WRAPPED32}\n\n"
    ERROR = f"keywrap: line 2: {INTEGRITY}\n"

    def test_standard_output(self, keywrap):
        ended = keywrap(f"{REWRAP} {KEEP_GOING} -i to/file")
        assert ended == Ended(5, self.WRITTEN, self.ERROR)

    def test_copy_of_the_input(self, keywrap):
        """It may be the output."""
        shutil.copy("to/file", "to/copy")
        ended = keywrap(f"{REWRAP} {KEEP_GOING} -i to/file -o to/copy")
        assert ended == Ended(5, "", self.ERROR)
        assert pathlib.Path("to/copy").read_text() == self.WRITTEN

    @pytest.mark.parametrize("is_pipe", [False, True], ids=["file", "pipe"])
    def test_input_is_a_stream(self, keywrap, is_pipe):
        """The output may be any file."""
        given = pathlib.Path("to/file")
        with piped(given.read_bytes(), 100) as pipe:
            stdin = pipe if is_pipe else given
            ended = keywrap(f"{REWRAP} {KEEP_GOING} -o to/new", stdin=stdin)
        assert ended == Ended(5, "", self.ERROR)
        assert pathlib.Path("to/new").read_text() == self.WRITTEN


def refused_at(ended):
    """The byte at which the output was refused. The message counts back from the end of a line of 49 bytes."""
    unsent, line = re.fullmatch(BEFORE_END, ended.stderr).groups()
    assert (ended.status, ended.stdout) == (6, "")
    return 49 * int(line) - int(unsent)


class TestFaults:
    def test_read_error(self, keywrap):
        """A read fails in the third line, which ends every run."""
        ended = Ended(6, f"{WRAPPED16}\n" * 2, "keywrap: line 3: cannot be read\n")
        with failing_after(f"{KEY16}\n{KEY16}\n00".encode()) as given:
            assert keywrap(f"{LINES} --keep-going", stdin=given) == ended

    @pytest.mark.parametrize(
        "lines, taken",
        [
            *((3, taken) for taken in (0, 1, 48, 49, 50, 98, 146, 147)),
            *((4999, taken) for taken in (0, 1, 65535, 65536, 65537, 131072)),
            *((4999, taken) for taken in (244950, 244951)),
        ],
    )
    def test_output_that_takes_some_bytes(self, keywrap, lines, taken):
        """It takes all of the 49 bytes of each line only if the run succeeds."""
        given = (KEY16 + "\n") * lines
        answers = (WRAPPED16 + "\n") * lines
        ended = keywrap(LINES, stdin=given, stdout="out", limits={"FSIZE": taken})
        if taken == len(answers):
            assert ended == Ended(0)
        else:
            assert refused_at(ended) == taken
        assert pathlib.Path("out").read_text() == answers[:taken]

    @pytest.mark.parametrize("stdout", ["/dev/full", CLOSED], ids=["full", "closed"])
    def test_output_that_takes_nothing(self, keywrap, stdout):
        ended = keywrap(LINES, stdin=KEY16, stdout=stdout)
        assert ended == refused(6, UNSENT.format(49, 1))

    @pytest.mark.parametrize("flags", ["", "--keep-going"])
    def test_full_disk(self, keywrap, flags):
        """A file that would be replaced stays as it was."""
        fresh(b"old\n")
        pathlib.Path("keys").write_text(MANY_KEYS)
        before = state()
        args = f"{LINES} {flags} -i keys -o to/file"
        assert refused_at(keywrap(args, limits={"FSIZE": 102400})) == 102400
        assert state() == before

    @pytest.mark.parametrize(
        "ignoring", [[], [signal.SIGPIPE]], ids=["SIGPIPE", "no SIGPIPE"]
    )
    def test_reader_that_goes_away(self, keywrap, ignoring):
        pathlib.Path("keys").write_text(MANY_KEYS)
        with keywrap.started(
            LINES,
            stdin="keys",
            stdout=subprocess.PIPE,
            stderr=subprocess.PIPE,
            ignoring=ignoring,
        ) as run:
            assert run.stdout.read(147).decode() == MANY_WRAPPED[:147]
            run.stdout.close()
            assert re.fullmatch(BEFORE_END, run.stderr.read().decode())
        assert run.returncode == 6

    def test_memory_does_not_grow(self, keywrap):
        assert not needs_more_memory(keywrap)

    def test_growing_memory(self, preloaded):
        """Three bytes that are kept for each line are noticed."""
        program = functools.partial(preloaded("fail_read"), KEEP_READ="3")
        assert needs_more_memory(program)

    @pytest.mark.parametrize(
        "args, key, answer",
        [
            (WRAP, KEY16, WRAPPED16),
            ("unwrap --padded --kek kek5649.hex", WRAPPED7, KEY7),
            (f"{REWRAP} --keep-form", WRAPPED24, WRAPPED32),
            (CHECK, WRAPPED16, "plain 16"),
            (f"{UNWRAP} --base64", in_base64(WRAPPED16), in_base64(KEY16)),
            (f"{REWRAP} --base64url", in_base64(WRAPPED24), in_url(WRAPPED32)),
        ],
    )
    @pytest.mark.parametrize(
        "call, lines, status, message",
        [("alloc", 6, 7, "out of memory"), ("read", 4000, 6, "cannot be read")],
    )
    def test_each_call_that_fails(
        self, preloaded, args, key, answer, call, lines, status, message
    ):
        """Each allocation after the parser's, or each read, fails in turn. The run still succeeds, or it names the line
        at which it stops and has written the answers before it. The second line has blanks at its ends.
        """
        program = preloaded(f"fail_{call}")
        args = f"{args} --lines"
        given = f"{key}\n {key}\t\n" + f"{key}\n" * (lines - 2)
        complete = Ended(0, f"{answer}\n" * lines)
        assert program(args, stdin=given) == complete

        count = program.count(args, stdin=given)
        assert count > 5
        variable = f"FAIL_{call.upper()}"
        for number in range(max(count - 63, 1), count + 1):
            ended = program(args, stdin=given, **{variable: str(number)})
            if ended == complete:
                continue
            pattern = rf"keywrap: (?:line (\d+): |.*){message}\n"
            fault = re.fullmatch(pattern, ended.stderr)
            assert fault, number
            answers = int(fault[1]) - 1 if fault[1] else 0
            assert ended.status == status, number
            assert ended.stdout == f"{answer}\n" * answers, number


def with_another_last_digit(digits):
    last = "1" if digits[-1] == "0" else "0"
    return digits[:-1] + last


class TestRandomKeys:
    """1,000 keys of 16, 24, 32 and 40 bytes."""

    KEYS = [
        random.Random(number).randbytes(16 + 8 * (number % 4)).hex()
        for number in range(1000)
    ]
    OLD = "--kek kek24.hex"

    @pytest.fixture
    def both(self):
        """The keys, alternately plain and padded, wrapped by pyca under the old KEK and under the new one."""
        need("import cryptography")
        from cryptography.hazmat.primitives import keywrap as pyca

        def wrapped_under(kek):
            texts = []
            for key in map(raw, self.KEYS):
                plain = pyca.aes_key_wrap(raw(kek), key)
                padded = pyca.aes_key_wrap_with_padding(raw(kek), key)
                texts += [plain.hex(), padded.hex()]
            return texts

        return wrapped_under(KEK24), wrapped_under(KEK32)

    def test_wrap(self, keywrap, both):
        old, _ = both
        self.answers(keywrap, f"wrap {self.OLD}", self.KEYS, old[::2])
        self.answers(keywrap, f"wrap --padded {self.OLD}", self.KEYS, old[1::2])

    def test_unwrap(self, keywrap, both):
        old, _ = both
        self.answers(keywrap, f"unwrap {self.OLD}", old[::2], self.KEYS)
        self.answers(keywrap, f"unwrap --padded {self.OLD}", old[1::2], self.KEYS)

    def test_rewrap(self, keywrap, both):
        old, new = both
        self.answers(keywrap, f"{REWRAP} --keep-form", old, new)
        self.answers(keywrap, REWRAP, old[::2], new[::2])

    def test_check(self, keywrap, both):
        old, _ = both
        kinds = []
        for key in self.KEYS:
            length = len(key) // 2
            kinds += [f"plain {length}", f"padded {length}"]
        self.answers(keywrap, f"check {self.OLD}", old, kinds)

    @staticmethod
    def answers(keywrap, args, given, answers):
        """The command has these answers to these lines."""
        ended = keywrap(f"{args} --lines", stdin="\n".join(given) + "\n")
        assert ended == Ended(0, "\n".join(answers) + "\n")

    @pytest.mark.parametrize(
        "flags, answers, counts",
        [
            (
                "--keep-form",
                ("new plain", "new padded", "new plain", "new padded", ""),
                "400 answered, 400 passed, 200 refused",
            ),
            (
                "",
                ("new plain", "", "new plain", "", ""),
                "200 answered, 200 passed, 600 refused",
            ),
            (
                "--new-padded",
                ("new padded", "", "", "new padded", ""),
                "200 answered, 200 passed, 600 refused",
            ),
        ],
    )
    def test_new_ones_pass(self, keywrap, both, flags, answers, counts):
        """A line is wrapped under the old or the new KEK, in either form, or is damaged. `answers` says for each of
        these five which text of the same key is its answer."""
        old, new = both
        given = []
        expected = []
        for at in range(1000):
            texts = {
                "old plain": old[2 * at],
                "old padded": old[2 * at + 1],
                "new plain": new[2 * at],
                "new padded": new[2 * at + 1],
                "damaged": with_another_last_digit(old[2 * at]),
                "": "",
            }
            given.append([*texts.values()][at % 5])
            expected.append(texts[answers[at % 5]])
        args = f"{REWRAP} --lines --pass-new {flags}"
        ended = keywrap(f"{args} --keep-going --verbose", stdin="\n".join(given))
        assert ended.status == 5
        assert ended.stdout.split("\n")[:-1] == expected
        assert ended.stderr.splitlines()[-1] == f"keywrap: 1000 lines: {counts}"
        # All that was written passes.
        written = "".join(f"{answer}\n" for answer in expected if answer)
        assert keywrap(args, stdin=written) == Ended(0, written)
