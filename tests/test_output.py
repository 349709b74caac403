"""Standard output and standard error: full, closed, or without a reader.

A run never writes a wrong answer, and no more than a counted prefix of the answer."""

import fcntl
import functools
import itertools
import os
import pathlib
import re
import signal
import subprocess
import time

import pytest

from checks import held
from commands import ANSWERS, CHECK, INTO_FILES, REFUSALS, WRAP, Command
from program import CLOSED, PIPES, UNREAD, Ended, answered, refused
from vectors import BAD_LENGTH, KEY16, FULL, WRAPPED16, drilled_zeros, zeros

NOTHING_TAKEN = refused(6, FULL.format(0))
LONG = Command(
    "long drill", ["drill", zeros(4096)], None, 0, drilled_zeros(512).encode() + b"\n"
)
COMMANDS = [
    *ANSWERS,
    *REFUSALS,
    *INTO_FILES,
    LONG,
    Command("rewind", ["rewind"], None, 2, b"", None),
    Command(
        "refused line",
        f"{CHECK} --lines --keep-going -i digit.hex -o to/file".split(),
        None,
        6,
        b"\n",
        "keywrap: line 1: no hex digit at byte 1\n",
    ),
]
# A command for each way in which something is written; and, for each of the stages of a run, from its arguments to the
# check of a wrapped key, one that is refused there, with a line on standard error.
ANSWERED = [
    "wrap",
    "raw wrap",
    "unwrap",
    "rewrap",
    "check",
    "check of a wrong byte",
    "wrap in base64",
    "wrap of a file",
    "drill",
    "long drill",
    "vectors",
    "help",
    "version",
]
REFUSED = [
    "IV of 15 digits",
    "no KEK file",
    "KEK of 15 bytes",
    "bad digit",
    "key of 7 bytes",
    "wrong byte",
    "no input file",
    "drill of a wrong byte",
    "rewind",
]
FILED = [
    "wrap into a file",
    "unwrap into a file",
    "check of a wrong byte into a file",
    "refused line",
    "wrong byte, no file",
    "directory as output",
]
each = functools.partial(pytest.mark.parametrize, "command", indirect=True)
SIGPIPE = pytest.mark.parametrize(
    "ignoring", [[], [signal.SIGPIPE]], ids=["SIGPIPE", "no SIGPIPE"]
)


@pytest.fixture(autouse=True)
def nothing_is_left(files, monkeypatch):
    """No file is changed, and no file is left in any directory that a program could use."""
    for name in "home", "temporary", "to":
        os.mkdir(name)
    monkeypatch.setenv("HOME", str(files / "home"))
    monkeypatch.setenv("TMPDIR", str(files / "temporary"))
    pathlib.Path("to/file").write_bytes(b"old\n")

    def state():
        found = {}
        for path in files.rglob("*"):
            if path.name not in ("out", "file", "to"):
                status = path.stat()
                found[path] = status.st_ino, status.st_mtime_ns, status.st_size
        return found

    before = state()
    yield
    assert state() == before


@pytest.fixture
def command(request, keywrap):
    """The command of this name, with what it writes, if that is a text of the program."""
    (found,) = [each for each in COMMANDS if each.name == request.param]
    own = keywrap(found.args)
    if found.stdout is None:
        found = found._replace(stdout=own.stdout.encode())
    if found.stderr is None:
        found = found._replace(stderr=own.stderr)
    return found


@pytest.fixture
def full_pipe():
    """Both ends of a full pipe, to which a write does not wait."""
    reading, writing = os.pipe()
    os.set_blocking(writing, False)
    fcntl.fcntl(writing, fcntl.F_SETPIPE_SZ, 65536)
    with open(reading, "rb", buffering=0) as read, open(
        writing, "wb", buffering=0
    ) as written:
        while written.write(bytes(4096)):
            pass
        yield read, written


def closed_streams():
    """Each set of standard streams that are closed, and one that is full or has no reader."""
    for count in range(4):
        for names in itertools.combinations(PIPES, count):
            yield dict.fromkeys(names, CLOSED)
    yield {"stdout": "/dev/full"}
    yield {"stdout": UNREAD}
    yield {"stderr": "/dev/full"}


STREAMS = [*closed_streams()]


class TestStreams:
    @each(ANSWERED)
    def test_output_that_takes_some_bytes(self, keywrap, command):
        """If the output accepts some bytes, this prefix of the answer is written, and the refusal counts it."""
        if command.name == "version":
            # The program in C writes a second line apart from the first.
            keywrap.need_kit()
        size = len(command.stdout)
        if command.name == "wrap":
            counts = range(size + 1)
        else:
            counts = {0, 1, size // 3, size // 2, 1024, 4095, 4096, 4097, 8192}
            counts |= {size - 2, size - 1, size}
        for taken in sorted(counts):
            options = {"stdin": command.given, "limits": {"FSIZE": taken}}
            ended = keywrap(command.args, stdout="out", **options)
            assert pathlib.Path("out").read_bytes() == command.stdout[:taken]
            if taken < size:
                assert ended == refused(6, FULL.format(taken))
            else:
                assert ended == Ended(command.status, "", command.stderr)

    @pytest.mark.parametrize("stream", ["nobody reads", "full device", "full pipe"])
    @SIGPIPE
    @each(ANSWERED + REFUSED)
    def test_nothing_is_taken(self, keywrap, command, stream, ignoring, full_pipe):
        _, full = full_pipe
        streams = {
            "nobody reads": UNREAD,
            "full device": "/dev/full",
            "full pipe": full,
        }
        options = {"stdin": command.given, "ignoring": ignoring}
        ended = keywrap(command.args, stdout=streams[stream], **options)
        if command.stdout:
            assert ended == NOTHING_TAKEN
        else:
            assert ended == Ended(command.status, "", command.stderr)
        ended = keywrap(command.args, stderr=streams[stream], text=False, **options)
        assert ended == (command.status, command.stdout, "")

    def test_pipe_with_some_room(self, keywrap, full_pipe):
        reading, writing = full_pipe
        reading.read(4096)
        assert keywrap(LONG.args, stdout=writing) == refused(6, FULL.format(4096))
        writing.close()
        assert reading.read()[-4096:] == LONG.stdout[:4096]

    @SIGPIPE
    @each(["long drill", "vectors"])
    @pytest.mark.parametrize("taken", [0, 1, 100, 4096, 8208])
    def test_reader_that_goes_away(self, keywrap, command, ignoring, taken):
        """The run succeeds, or reports how many bytes were written: fewer than the whole."""
        streams = {**PIPES, "stdin": None}
        with keywrap.started(command.args, **streams, ignoring=ignoring) as run:
            assert run.stdout.read(taken) == command.stdout[:taken]
            run.stdout.close()
            error = run.stderr.read().decode()
        if run.returncode == 0:
            assert error == ""
            return
        assert run.returncode == 6
        report = r"keywrap: output: refused after (\d+) bytes\n"
        written = int(re.fullmatch(report, error)[1])
        assert written < len(command.stdout)

    @SIGPIPE
    def test_reader_that_goes_away_while_the_program_waits(
        self, keywrap, full_pipe, ignoring
    ):
        reading, writing = full_pipe
        os.set_blocking(writing.fileno(), True)
        streams = {"stdout": writing, "stderr": subprocess.PIPE}
        with keywrap.started(LONG.args, **streams, ignoring=ignoring) as run:
            reading.read(4096)
            time.sleep(0.05)
            writing.close()
            reading.close()
            error = run.stderr.read().decode()
        refusals = [refused(6, FULL.format(taken)).stderr for taken in (0, 4096)]
        assert error in refusals
        assert run.returncode == 6

    @pytest.mark.parametrize("streams", STREAMS, ids="-".join)
    @each(
        [
            "wrap",
            "check",
            "wrap of a file",
            "drill",
            "vectors",
            "no KEK file",
            "wrong byte",
            "rewind",
            *FILED,
        ]
    )
    def test_closed_streams(self, keywrap, command, streams):
        """A closed input is empty, and a closed or full standard error shows no line.

        The file of --output is unchanged or has the answer, and no other file is next to it.
        """
        is_filed = command.name in FILED
        status = command.status
        answer = command.stdout
        line = command.stderr
        if "stdin" in streams and command.stdin:
            if command.args[0] == "check":
                status = 5
                answer = b"none\n"
                line = ""
            else:
                status = 4
                line = f"keywrap: {BAD_LENGTH}\n"
                answer = b"old\n" if is_filed else b""
        if "stdout" in streams and answer and not is_filed:
            status = 6
            answer = b""
            line = NOTHING_TAKEN.stderr
        if "stderr" in streams:
            line = ""
        written = answer
        content = b"old\n"
        if is_filed:
            written = b""
            content = answer
        ended = keywrap(command.args, text=False, **{"stdin": command.given, **streams})
        assert ended == (status, written, line)
        assert held() == content

    # Closed standard streams are held by pipes, so that no file gets their descriptors.
    @pytest.mark.parametrize(
        "count, streams, ended",
        [
            (1, {"stdin": CLOSED}, refused(6, "input: cannot be opened")),
            (2, {"stdout": CLOSED}, refused(6, "output: cannot be opened")),
            (3, {"stderr": CLOSED}, Ended(6)),
            (4, {}, answered(WRAPPED16)),
        ],
    )
    @pytest.mark.parametrize("args", [WRAP, f"{WRAP} --verbose"])
    def test_descriptors(self, keywrap, args, count, streams, ended):
        """Fewer than four are too few. No second line is written: the stream that failed is not a file of the run."""
        streams = {"stdin": KEY16, **streams}
        assert keywrap(args, **streams, limits={"NOFILE": count}) == ended
