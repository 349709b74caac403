"""The files that are read, of --kek, --new-kek and --input, and standard input: what they may be, when they are read,
what is refused, and which refusal comes first."""

import itertools
import os
import pathlib
import signal
import socket
import subprocess
from typing import NamedTuple, Optional

import pytest

from checks import leaves_input
from commands import CHECK, FILES, JOBS, MAX_FILE, REWRAP, UNWRAP, WRAP
from program import (
    CLOSED,
    PIPES,
    Ended,
    answered,
    failing_after,
    finish,
    piped,
    refused,
    sh,
    shared,
    words,
)
from vectors import (
    BAD_LENGTH,
    FULL,
    KEY16,
    INTEGRITY,
    KEK16,
    KEK32,
    KEK_LENGTH,
    NEW_KEK_LENGTH,
    NOT_OPENED,
    PADDED16,
    PADDED7,
    WRAPPED16,
    WRAPPED32,
    WRONG,
    raw,
    zeros,
)

WRAPPED = answered(WRAPPED16)
REWRAPPED = answered(WRAPPED32)
NONE = Ended(5, "none\n")
BAD = refused(4, BAD_LENGTH)
NO_KEK = refused(6, "key file: cannot be opened")
NOT_HEX = refused(6, "input: no hex digit at byte 1")
BAD_KEK = refused(3, KEK_LENGTH)
BAD_NEW_KEK = refused(3, NEW_KEK_LENGTH)
NOT_RIGHT = refused(5, INTEGRITY)
# Each command with a good input, its result, and the result of an empty input.
RESULTS = {
    "wrap": (WRAP, KEY16, WRAPPED, BAD),
    "unwrap": (UNWRAP, WRAPPED16, answered(KEY16), BAD),
    "check": (CHECK, WRAPPED16, answered("plain 16"), NONE),
    "rewrap": (REWRAP, WRAPPED16, REWRAPPED, BAD),
}
# Command lines that end before the name of a file that is read, the name that messages give it, and a good content.
KEKS = [
    ("wrap --kek", "key file", KEK16),
    ("unwrap --kek", "key file", KEK16),
    ("check --kek", "key file", KEK16),
    ("rewrap --new-kek kek32.hex --kek", "key file", KEK16),
    ("rewrap --kek kek16.hex --new-kek", "new key file", KEK32),
]
INPUTS = [(f"{args} -i", "input", given) for args, given, *_ in RESULTS.values()]
EACH_FILE = pytest.mark.parametrize("args, file, content", KEKS + INPUTS)


def ends_of_each_kind_of_file(content, run):
    """How runs end with the name of a file with this content: two pipes, an open file, and a named pipe."""
    pathlib.Path("content").write_bytes(content)
    ends = set()
    for size in len(content), 5:
        with piped(content, size) as pipe:
            ends.add(run(pipe))
    with open("content", "rb") as file, shared(file.fileno()) as name:
        ends.add(run(name))
    os.mkfifo("named")
    with subprocess.Popen(["timeout", "240", "sh", "-c", "cat content >named"]):
        ends.add(run("named"))
    return ends


@pytest.mark.parametrize("job", JOBS)
class TestEachJob:
    def test_kek(self, keywrap, job):
        """It may be any file that can be read."""
        kek = pathlib.Path(self.kek_of(job)).read_bytes()

        def run(name):
            args = self.with_kek(job, name)
            return keywrap(args, stdin=job.given, text=False)

        assert ends_of_each_kind_of_file(kek, run) == {job[3:]}

    def test_kek_on_standard_input(self, keywrap, job):
        """It takes all of standard input, and no input is left."""
        kek = pathlib.Path(self.kek_of(job)).read_bytes()
        args = self.with_kek(job, "/dev/stdin")
        ended = keywrap(args, stdin=kek)
        if job.args[0] == "check":
            assert ended == NONE
        else:
            assert ended == BAD

    @staticmethod
    def kek_of(job):
        return job.args[job.args.index("--kek") + 1]

    @staticmethod
    def with_kek(job, name):
        """The arguments, with another name of the KEK."""
        at = job.args.index("--kek") + 1
        return [*job.args[:at], name, *job.args[at + 1 :]]

    def test_input(self, keywrap, job):
        """With --input, standard input is not read."""

        def run(name, stdin=WRONG):
            return keywrap(job.args, "--input", name, stdin=stdin, text=False)

        assert ends_of_each_kind_of_file(job.given, run) == {job[3:]}
        assert run(job.stdin, CLOSED) == job[3:]

    @pytest.mark.parametrize("size", [1, 7])
    def test_standard_input_in_pieces(self, keywrap, job, size):
        with piped(job.given, size) as given:
            assert keywrap(job.args, stdin=given, text=False) == job[3:]

    def test_standard_input_while_stopped(self, keywrap, job):
        with keywrap.started(job.args, **PIPES) as run:
            run.send_signal(signal.SIGSTOP)
            run.stdin.write(job.given)
            run.send_signal(signal.SIGCONT)
            assert finish(run, text=False) == job[3:]

    def test_read_error(self, keywrap, job):
        """A directory, a file that is only open for writing, and a pipe that fails after some bytes."""
        some_bytes = job.given[:5]
        with (
            open("full", "wb") as only_for_writing,
            failing_after(b"") as fails,
            failing_after(some_bytes) as fails_later,
        ):
            unreadable = [
                pathlib.Path("directory"),
                only_for_writing,
                fails,
                fails_later,
            ]
            for given in unreadable:
                ended = keywrap(job.args, stdin=given)
                assert ended == refused(6, "input: cannot be read")


SPACED_KEY = "0011 2233 4455 6677\n8899 AABB CCDD EEFF\n"
SPACED_KEK = b"00 01 02 03\t04 05 06 07\r\n\n08090A0b0c0D0e0F\r\n"


class TestFiles:
    @pytest.mark.parametrize(
        "args, stdin, ended",
        [
            # Links, and names with blanks, dashes and letters that are not ASCII.
            ([*words(WRAP), "-i", "a key"], WRONG, WRAPPED),
            (f"{WRAP} -i ./-x", WRONG, WRAPPED),
            (f"{WRAP} -i link", WRONG, WRAPPED),
            (f"{WRAP} -i é", WRONG, WRAPPED),
            (f"{WRAP} --input=-x", WRONG, WRAPPED),
            (f"{WRAP} -ikey.hex", WRONG, WRAPPED),
            # The names of standard output.
            (f"{WRAP} -i key.hex -o -", WRONG, WRAPPED),
            (f"{WRAP} -i key.hex --output -", WRONG, WRAPPED),
            (f"{WRAP} -i key.hex -o-", WRONG, WRAPPED),
            # Blanks and either case in a file.
            (["wrap", "--kek", "kek link"], SPACED_KEY, WRAPPED),
            (f"{UNWRAP} -i ./-", None, NOT_RIGHT),
            ("wrap --kek ./-", KEY16, REWRAPPED),
            # --raw-kek is for both KEKs.
            (
                "rewrap --raw-kek --kek kek16.raw --new-kek kek32.raw",
                WRAPPED16,
                REWRAPPED,
            ),
            ("rewrap --raw-kek --kek kek16.raw --new-kek kek32.hex", None, BAD_NEW_KEK),
            ("rewrap --raw-kek --kek kek16.hex --new-kek kek32.raw", None, BAD_KEK),
            # A closed standard input is no KEK. No file that is opened later gets its descriptor.
            ("wrap --kek missing", CLOSED, NO_KEK),
            ("wrap --kek /dev/fd/3", CLOSED, NO_KEK),
            ("wrap --kek /dev/stdin -i key.hex", CLOSED, BAD_KEK),
        ],
    )
    def test_runs(self, keywrap, args, stdin, ended):
        sh("cp key.hex 'a key'; cp key.hex ./-x; cp key.hex é; ln -s key.hex link")
        sh("cp kek32.hex ./-; ln -s spaced 'kek link'")
        pathlib.Path("kek32.raw").write_bytes(raw(KEK32))
        pathlib.Path("spaced").write_bytes(SPACED_KEK)
        assert keywrap(args, stdin=stdin) == ended

    @pytest.mark.parametrize(
        "name",
        [
            "--input /dev/stdin",
            "-i -",
            "--input=-",
            "-i-",
            "-i /dev/fd/0",
            "-i /proc/self/fd/0",
            "",
        ],
    )
    def test_standard_input_by_name(self, keywrap, name):
        """A closed standard input is like an empty file."""
        assert keywrap(f"{WRAP} {name}", stdin=KEY16) == WRAPPED
        for args, _, _, empty in RESULTS.values():
            assert keywrap(f"{args} {name}", stdin=CLOSED) == empty

    @pytest.mark.parametrize(
        "given, args",
        [
            ("key.hex", f"{WRAP} -i"),
            ("kek16.hex", "wrap -i key.hex --kek"),
            ("kek16.hex", "rewrap --kek kek32.hex -i wrapped32.hex --new-kek"),
        ],
    )
    def test_socket(self, keywrap, given, args):
        """A socket cannot be opened by a name. As standard input it is still read, under any of its names."""
        for name in "/dev/stdin", "/dev/fd/0", "/proc/self/fd/0":
            end, other = socket.socketpair()
            with end, other:
                other.sendall(FILES[given])
                other.shutdown(socket.SHUT_WR)
                assert keywrap(f"{args} {name}", stdin=end.fileno()) == WRAPPED

    @EACH_FILE
    @pytest.mark.parametrize(
        "message, names",
        [
            (
                "cannot be opened",
                ["", "./-", "missing", "loop", "link/", "key.hex/", "key.hex/key"],
            ),
            ("cannot be opened", ["missing/key", "/dev/fd/77", "a\nb", zeros(2500)]),
            ("cannot be read", ["directory", "/proc/self/mem"]),
            ("too long", ["long.hex"]),
            ("no hex digit at byte 1", ["digit.hex"]),
            ("no hex digit at byte 22", ["spaced"]),
            ("odd number of hex digits", ["odd.hex", "odd"]),
        ],
    )
    def test_refused_file(self, keywrap, args, file, content, message, names):
        """The KEK files are read before the input, so the next command gets the whole input."""
        sh("ln -s loop loop; ln -s key.hex link")
        pathlib.Path("spaced").write_text("0001020304050607 0809ag")
        pathlib.Path("odd").write_text("000102 03040506070809 0a0b0c0d0e0f0")
        refusal = refused(6, f"{file}: {message}")
        for name in names:
            leaves_input(keywrap, [*words(args), name], refusal)

    @pytest.mark.parametrize("args, file, content", KEKS)
    def test_kek_length(self, keywrap, args, file, content):
        pathlib.Path("most").write_bytes(zeros(MAX_FILE // 2).encode())
        refusal = BAD_KEK if file == "key file" else BAD_NEW_KEK
        for name in "kek15.hex", "nothing", "/dev/null", "most":
            leaves_input(keywrap, f"{args} {name}", refusal)

    @pytest.mark.parametrize("args, file, content", KEKS)
    def test_raw_kek_length(self, keywrap, args, file, content):
        pathlib.Path("kek17.raw").write_bytes(bytes(17))
        pathlib.Path("most").write_bytes(zeros(MAX_FILE // 2).encode())
        # The other KEK of a rewrap is raw, too.
        args = args.replace("kek16.hex", "kek16.raw")
        refusal = BAD_KEK if file == "key file" else BAD_NEW_KEK
        for name in "kek17.raw", "kek16.hex", "nothing", "most":
            leaves_input(keywrap, f"{args} {name} --raw-kek", refusal)

    @EACH_FILE
    def test_longest_file(self, keywrap, args, file, content):
        """A file of 4,194,304 bytes is accepted. A file with one byte more is not."""
        _, given, ended, _ = RESULTS[words(args)[0]]
        pathlib.Path("file").write_text(content.ljust(MAX_FILE))
        assert keywrap(f"{args} file", stdin=given) == ended
        pathlib.Path("file").write_text(content.ljust(MAX_FILE + 1))
        too_long = refused(6, f"{file}: too long")
        assert keywrap(f"{args} file", stdin=given) == too_long

    @EACH_FILE
    def test_endless_file(self, keywrap, args, file, content):
        too_long = refused(6, f"{file}: too long")
        with subprocess.Popen(["yes", "00"], stdout=subprocess.PIPE) as yes:
            with shared(yes.stdout.fileno()) as endless:
                assert keywrap(f"{args} {endless}") == too_long
        if file == "input":
            raw_args = f"{args} /dev/zero --raw"
        else:
            raw_args = f"{args} /dev/zero --raw-kek".replace("kek16.hex", "kek16.raw")
        assert keywrap(raw_args) == too_long

    @pytest.mark.parametrize(
        "args, given, ended, empty, stdin, flag",
        [
            pytest.param(*result, stdin, flag, id=f"{command}-{name}")
            for command, result in RESULTS.items()
            for name, stdin, flag in [
                ("nothing", "", ""),
                ("most digits", zeros(MAX_FILE // 2), ""),
                ("most raw bytes", bytes(MAX_FILE), "--raw"),
            ]
        ],
    )
    def test_length_of_standard_input(
        self, keywrap, args, given, ended, empty, stdin, flag
    ):
        """Input of an illegal length ends as an empty one. The longest input has 4,194,304 bytes."""
        self.reads(keywrap, f"{args} {flag}", stdin, empty)

    @pytest.mark.parametrize("args, given, ended, empty", RESULTS.values(), ids=RESULTS)
    def test_standard_input_with_blanks(self, keywrap, args, given, ended, empty):
        self.reads(keywrap, args, given.ljust(MAX_FILE), ended)
        too_long = refused(6, "input: too long")
        self.reads(keywrap, args, given.ljust(MAX_FILE + 1), too_long)

    @pytest.mark.parametrize("args, given, ended, empty", RESULTS.values(), ids=RESULTS)
    def test_refused_standard_input(self, keywrap, args, given, ended, empty):
        too_long = refused(6, "input: too long")
        self.reads(keywrap, f"{args} --raw", bytes(MAX_FILE + 1), too_long)
        self.reads(keywrap, args, "0g", NOT_HEX)
        self.reads(keywrap, args, "00 1", refused(6, "input: odd number of hex digits"))

    @staticmethod
    def reads(keywrap, args, content, ended):
        """The command ends like this if standard input has the content, and if a named pipe has it."""
        assert keywrap(args, stdin=content) == ended
        with piped(content) as pipe:
            assert keywrap(f"{args} -i {pipe}") == ended

    @pytest.mark.parametrize("args, given, ended, empty", RESULTS.values(), ids=RESULTS)
    def test_standard_input_is_read_from_where_it_is(
        self, keywrap, args, given, ended, empty
    ):
        pathlib.Path("two").write_text(f"first\n{given}\n")
        with open("two", "rb") as file:
            os.lseek(file.fileno(), len("first\n"), os.SEEK_SET)
            assert keywrap(args, stdin=file) == ended

    @pytest.mark.parametrize(
        "args, sizes",
        [
            (WRAP, [0, 8, 15, 17, 1048584]),
            (UNWRAP, [0, 8, 16, 23, 25, 1048592]),
            (f"{WRAP} --padded", [0, 1048577]),
            (f"{UNWRAP} --padded", [0, 8, 17, 1048592]),
            (REWRAP, [0, 8, 16, 23, 25, 1048592]),
            (f"{REWRAP} --new-padded", [0, 8, 16, 23, 25, 1048592]),
            (f"{REWRAP} --padded", [0, 8, 17, 23, 1048592]),
            (f"{REWRAP} --keep-form", [0, 8, 17, 23, 1048592]),
        ],
    )
    def test_lengths(self, keywrap, args, sizes):
        for size in sizes:
            assert keywrap(args, stdin=zeros(size)) == BAD, size
            assert keywrap(f"{args} --raw", stdin=bytes(size)) == BAD, size

    def test_three_pipes(self, keywrap):
        with (
            piped(KEK16, 5) as old,
            piped(KEK32, 5) as new,
            piped(WRAPPED16, 5) as given,
        ):
            args = f"rewrap --kek {old} --new-kek {new} -i {given}"
            assert keywrap(args, stdin=WRONG) == REWRAPPED

    @pytest.mark.parametrize(
        "content, args, ended",
        [
            ("", "wrap --kek {}", BAD_KEK),
            (KEK16[:10], "wrap --kek {}", BAD_KEK),
            (KEK16, "wrap --kek {}", BAD),
            (KEK16, "rewrap --kek {0} --new-kek {0}", BAD_NEW_KEK),
        ],
    )
    def test_kek_of_a_pipe(self, keywrap, content, args, ended):
        """One pipe has only one KEK, and leaves none for the new KEK."""
        with piped(content) as pipe:
            assert keywrap(args.format(pipe), stdin=CLOSED) == ended

    @pytest.mark.parametrize(
        "old, refusal",
        [
            ("missing", NO_KEK),
            ("directory", refused(6, "key file: cannot be read")),
            ("kek15.hex", BAD_KEK),
            ("digit.hex", refused(6, "key file: no hex digit at byte 1")),
        ],
    )
    def test_new_kek_is_not_read_after_a_refusal(self, keywrap, old, refusal):
        with piped(KEK32) as pipe:
            assert keywrap(f"rewrap --kek {old} --new-kek {pipe}") == refusal
            assert pipe.read_text() == KEK32

    @pytest.mark.parametrize(
        "args", [f"{WRAP} -o directory", f"{REWRAP} -o missing/file"]
    )
    def test_input_is_not_read_without_an_output(self, keywrap, args):
        leaves_input(keywrap, args, refused(6, NOT_OPENED))

    @pytest.mark.parametrize(
        "args", ["wrap --kek missing -i pipe", "rewrap --kek missing --new-kek pipe"]
    )
    def test_nothing_is_opened_after_a_missing_kek(self, keywrap, args):
        """Nobody writes to the pipe, so a run that opened it would wait."""
        os.mkfifo("pipe")
        assert keywrap(args, prefix=["timeout", "60"]) == NO_KEK

    def test_both_keks_are_opened_before_either_is_read(self, keywrap):
        """The writer of the old KEK waits until the new KEK is read."""
        sh("mkfifo kek new")
        writer = "exec 7>kek 6>new; cat kek32.hex >&6; exec 6>&-; cat kek16.hex >&7"
        args = "rewrap --kek kek --new-kek new"
        with subprocess.Popen(["sh", "-c", writer]):
            assert keywrap(args, stdin=WRAPPED16) == REWRAPPED


# The order of refusals.
class Cause(NamedTuple):
    """The cause of a refusal. A cause with a lower place comes before the others. None: nothing is wrong."""

    place: int
    given: Optional[str]
    refusal: Optional[Ended]


NOTHING_WRONG = 99


def first_refusal(causes):
    """The refusal that comes first, or None."""
    return min(causes, key=lambda cause: cause.place).refusal


OLD_KEKS = [
    Cause(NOTHING_WRONG, "kek16.hex", None),
    Cause(1, "missing", NO_KEK),
    Cause(5, "digit.hex", refused(6, "key file: no hex digit at byte 1")),
    Cause(6, "kek15.hex", BAD_KEK),
]
NEW_KEKS = [
    Cause(NOTHING_WRONG, "kek32.hex", None),
    Cause(2, "missing", refused(6, "new key file: cannot be opened")),
    Cause(7, "digit.hex", refused(6, "new key file: no hex digit at byte 1")),
    Cause(8, "kek15.hex", BAD_NEW_KEK),
]
# The wrapped key has the padded form, and the new one the plain form.
GIVEN = [
    Cause(NOTHING_WRONG, PADDED16, None),
    Cause(9, "0g", NOT_HEX),
    Cause(10, PADDED16[:-2], BAD),
    Cause(11, PADDED16[:-2] + "d4", NOT_RIGHT),
    Cause(12, PADDED7, BAD),
]
OUTPUTS = [
    Cause(NOTHING_WRONG, None, None),
    Cause(13, "/dev/full", refused(6, FULL.format(0))),
]


@pytest.mark.parametrize("kek", OLD_KEKS, ids=lambda cause: cause.given)
def test_order(keywrap, kek):
    for causes in itertools.product([kek], NEW_KEKS, GIVEN, OUTPUTS):
        old, new, given, output = [cause.given for cause in causes]
        args = f"rewrap --padded --kek {old} --new-kek {new}"
        ended = keywrap(args, stdin=f"{given}\n", stdout=output)
        assert ended == (first_refusal(causes) or REWRAPPED), causes
