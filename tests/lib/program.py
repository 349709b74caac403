"""Runs the program, and returns how it ended."""

import concurrent.futures
import contextlib
import functools
import os
import pathlib
import resource
import signal
import subprocess
import time
from typing import NamedTuple, Union

import pytest

# Slow tests run only with KEYWRAP_ALL=1, which `make gate` sets, and those that are left to `make evidence` only with
# KEYWRAP_EVIDENCE=1, too.
ALL = os.environ.get("KEYWRAP_ALL") == "1"
SLOW = "left to KEYWRAP_ALL=1"
slow = pytest.mark.skipif(not ALL, reason=SLOW)
evidence = pytest.mark.skipif(os.environ.get("KEYWRAP_EVIDENCE") != "1", reason=SLOW)


def all_of(values, few, in_gate=None):
    """The values as parameters. All but these few of them are slow, and all but those in the gate, if these are given,
    are left to `make evidence`."""
    parameters = []
    for value in values:
        if value in few:
            parameters.append(value)
        elif in_gate is None or value in in_gate:
            parameters.append(pytest.param(value, marks=slow))
        else:
            parameters.append(pytest.param(value, marks=evidence))
    return parameters


class Ended(NamedTuple):
    """The exit status (negative: the signal) and everything that was written."""

    status: int
    stdout: Union[str, bytes] = ""
    stderr: str = ""


# Instead of a standard stream: a closed one, and a pipe without a reader.
CLOSED = object()
UNREAD = object()
# The last line of --version, if the program is the one in C.
IN_C = "built from C (dist/command)\n"
# The options of a run with pipes.
PIPES = dict.fromkeys(("stdin", "stdout", "stderr"), subprocess.PIPE)
# The descriptors that each run inherits.
SHARED = set()


def answered(text):
    """A run without an error: the text is the only line of standard output."""
    return Ended(0, f"{text}\n")


def refused(status, message, reason=None):
    """A refusal: one line on standard error, a second one with --verbose, and nothing on standard output."""
    error = f"keywrap: {message}\n"
    if reason:
        error += f"  {reason}\n"
    return Ended(status, "", error)


def words(args):
    """The arguments: a text is split at blanks, a list stays as it is."""
    return args.split() if isinstance(args, str) else list(args)


def sh(script):
    """Runs lines of sh, which have to succeed."""
    subprocess.run(["sh", "-euc", script], check=True)


def finish(run, given=None, text=True):
    """Writes the given bytes to a run, and returns how it ended. If `text` is False, its answer stays bytes."""
    try:
        output, error = run.communicate(given, timeout=600)
    except subprocess.TimeoutExpired:
        run.kill()
        raise
    output = output or b""
    if text:
        output = output.decode(errors="backslashreplace")
    error = (error or b"").decode(errors="backslashreplace")
    return Ended(run.returncode, output, error)


def wait_for(ready):
    """Waits until this function returns true, for at most five minutes: a busy machine may take one."""
    end = time.monotonic() + 300
    while not ready():
        assert time.monotonic() < end, "the run does not come to this point"
        time.sleep(0.01)


TO_WRITE = os.O_WRONLY | os.O_CREAT | os.O_TRUNC


def opened_stream(opened, stream, flags):
    """A standard stream as `Popen` takes it. What is opened for it is closed with `opened`."""
    if stream in (None, CLOSED):
        return subprocess.DEVNULL
    if stream is UNREAD:
        reading, descriptor = os.pipe()
        os.close(reading)
    elif isinstance(stream, (str, pathlib.Path)):
        descriptor = os.open(stream, flags, 0o644)
    else:
        return stream
    opened.callback(os.close, descriptor)
    return descriptor


class Program:
    """The program at a path. A call runs it; see `__call__`."""

    def __init__(self, path):
        self.path = str(path)

    @functools.cached_property
    def is_in_c(self):
        return self("--version").stdout.endswith(IN_C)

    def need_kit(self):
        """Skips the test if this is the program in C."""
        if self.is_in_c:
            pytest.skip("no program of the kit: make build")

    def __call__(
        self, args=(), *more, stdin=None, stdout=None, stderr=None, text=True, **options
    ):
        """Runs the program with these arguments, see `words`, and returns an `Ended`. `more` are not split.

        stdin: str or bytes through a pipe, a `Path` or an open file, CLOSED; None is an empty input.
        stdout, stderr: a path to write to, CLOSED or UNREAD; what went there is not returned.
        text: if False, the answer is returned as bytes.
        options: see `started`."""
        given = None
        if isinstance(stdin, str):
            stdin = stdin.encode()
        if isinstance(stdin, bytes):
            given = stdin
            stdin = subprocess.PIPE
        if stdout is None:
            stdout = subprocess.PIPE
        if stderr is None:
            stderr = subprocess.PIPE
        with self.started(
            args, *more, stdin=stdin, stdout=stdout, stderr=stderr, **options
        ) as run:
            return finish(run, given, text)

    def started(
        self,
        args=(),
        *more,
        stdin=None,
        stdout=None,
        stderr=None,
        limits={},
        ignoring=None,
        env={},
        prefix=(),
        **options,
    ):
        """Starts the program and returns the `Popen`. Streams are as above, or subprocess.PIPE.

        limits: by name, as {"FSIZE": 1024}; a write beyond FSIZE fails, as on a full disk.
        ignoring: signals that are ignored. None is SIGXFSZ if there is a limit FSIZE, which is an error then.
        env: variables besides the environment's own.
        prefix: a command that runs the program, as setpriv.
        options: of `Popen`, as cwd and user."""
        streams = (stdin, stdout, stderr)
        closed = [number for number in range(3) if streams[number] is CLOSED]
        if ignoring is None:
            ignoring = [signal.SIGXFSZ] if "FSIZE" in limits else []

        def prepare():
            for number in closed:
                os.close(number)
            for name, value in limits.items():
                resource.setrlimit(getattr(resource, f"RLIMIT_{name}"), (value, value))
            for number in ignoring:
                signal.signal(number, signal.SIG_IGN)

        with contextlib.ExitStack() as opened:
            return subprocess.Popen(
                [*prefix, self.path, *words(args), *more],
                stdin=opened_stream(opened, stdin, os.O_RDONLY),
                stdout=opened_stream(opened, stdout, TO_WRITE),
                stderr=opened_stream(opened, stderr, TO_WRITE),
                env={**os.environ, **env},
                pass_fds=SHARED,
                preexec_fn=prepare if closed or limits or ignoring else None,
                **options,
            )


@contextlib.contextmanager
def shared(descriptor):
    """Lets each run inherit the descriptor. Returns its name for the program."""
    SHARED.add(descriptor)
    try:
        yield pathlib.Path(f"/dev/fd/{descriptor}")
    finally:
        SHARED.remove(descriptor)


@contextlib.contextmanager
def piped(content, size=1 << 30):
    """A pipe with the content, in pieces of this size with a pause after each. Returns its name for the program."""
    content = content.encode() if isinstance(content, str) else content
    reading, writing = os.pipe()

    def write():
        with contextlib.suppress(BrokenPipeError), os.fdopen(
            writing, "wb", buffering=0
        ) as pipe:
            for at in range(0, len(content), size):
                pipe.write(content[at : at + size])
                time.sleep(0.002)

    with concurrent.futures.ThreadPoolExecutor() as pool, open(reading, "rb"), shared(
        reading
    ) as name:
        pool.submit(write)
        yield name


@contextlib.contextmanager
def failing_after(content):
    """The descriptor of a pipe with the content and then an error, because a read cannot wait for more bytes."""
    reading, writing = os.pipe()
    with open(reading, "rb"), open(writing, "wb", buffering=0) as pipe:
        pipe.write(content)
        os.set_blocking(reading, False)
        yield reading
