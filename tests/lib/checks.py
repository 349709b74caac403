"""Checks of runs that leave files: the file to/file, everything else in the test's directory, the lines of --lines."""

import os
import pathlib
import stat

from program import Ended, refused, words
from vectors import BAD_LENGTH, INTEGRITY, NOT_FLUSHED, NOT_OPENED

DONE = Ended(0)
NO_OUTPUT = refused(6, NOT_OPENED)
FLUSH_FAULT = refused(6, NOT_FLUSHED)
# The outcome of a line is the answer, or (status, message) if the line is refused.
LENGTH = (4, BAD_LENGTH)
WRONG_LINE = (5, INTEGRITY)


def no_output(reason):
    """The refusal of an output with --verbose."""
    return refused(6, NOT_OPENED, reason)


def fresh(content=None, mode=0o644):
    """Makes an empty directory `to`, or one with a file of this content."""
    os.mkdir("to")
    if content is not None:
        pathlib.Path("to/file").write_bytes(content)
        os.chmod("to/file", mode)


def held():
    """The content of the only file in `to`."""
    assert os.listdir("to") == ["file"]
    return pathlib.Path("to/file").read_bytes()


def state(*without):
    """The names, kinds, modes, owners and contents of all files, except these and the files of the tests themselves."""
    left_out = {"met", "pipe", *without}
    paths = [path for path in pathlib.Path().rglob("*") if str(path) not in left_out]
    return {str(path): state_of(path) for path in paths}


def state_of(path):
    status = path.lstat()
    content = None
    if stat.S_ISREG(status.st_mode):
        content = path.read_bytes()
    elif path.is_symlink():
        content = os.readlink(path)
    mode = oct(status.st_mode)
    return mode, status.st_uid, status.st_gid, status.st_ino, content


def has_mode(name, mode):
    """It is a file of this mode. Wine makes modes of lists of access rights, of which test_windows.py has rows."""
    if "KEYWRAP_ON_WINE" not in os.environ:
        assert oct(os.lstat(name).st_mode) == oct(stat.S_IFREG | mode)


def lands(keywrap, args, answer, name="to/file", **options):
    """The answer goes into the file, and nothing else changes. The file keeps its mode, but only its owner can read it
    if it is new or has an unwrapped key."""
    is_private = words(args)[0] == "unwrap" or not os.path.exists(name)
    mode = 0o600 if is_private else stat.S_IMODE(os.stat(name).st_mode)
    before = state(name)
    assert keywrap(args, **options) == DONE
    assert pathlib.Path(name).read_bytes() == answer
    has_mode(name, mode)
    assert state(name) == before


def keeps(keywrap, args, ended, **options):
    """The run ends as given, and no file changes."""
    before = state()
    assert keywrap(args, **options) == ended
    assert state() == before


def leaves_input(keywrap, args, ended, **options):
    """The run ends as given, and reads nothing from standard input."""
    with open("key.hex", "rb") as given:
        assert keywrap(args, stdin=given, **options) == ended
        assert given.tell() == 0


def comes_to(keywrap, args, given, outcomes, keep_going=False, report=""):
    """The run over these lines ends as expected, with streams and with files: a run that stops keeps the old file."""
    ended, is_filed = outcome_of_lines(outcomes, keep_going)
    ended = ended._replace(stderr=ended.stderr + report)
    args = [*words(args), "--lines"]
    if keep_going:
        args.append("--keep-going")
    if not isinstance(given, (str, bytes)):
        given = "\n".join(given) + "\n"
    if isinstance(given, str):
        given = given.encode()
    assert keywrap(args, stdin=given) == ended

    pathlib.Path("in").write_bytes(given)
    os.makedirs("lines", exist_ok=True)
    pathlib.Path("lines/file").write_text("old\n")
    os.chmod("lines/file", 0o644)
    assert keywrap(args, "-i", "in", "-o", "lines/file") == ended._replace(stdout="")
    assert os.listdir("lines") == ["file"]
    content = ended.stdout if is_filed else "old\n"
    assert pathlib.Path("lines/file").read_text() == content
    mode = 0o600 if is_filed and args[0] == "unwrap" else 0o644
    has_mode("lines/file", mode)


def outcome_of_lines(outcomes, keep_going):
    """How a run ends whose lines have these outcomes, and whether it writes the file of --output."""
    answers = ""
    error = ""
    status = 0
    for number, outcome in enumerate(outcomes, 1):
        if isinstance(outcome, str):
            answers += f"{outcome}\n"
            continue
        line_status, message = outcome
        error += f"keywrap: line {number}: {message}\n"
        status = status or line_status
        # The end of such a line is unknown, so these end every run.
        if not keep_going or message in ("too long", "cannot be read"):
            return Ended(status, answers, error), False
        answers += "\n"
    if status == 0 and "none" in outcomes:
        status = 5
    return Ended(status, answers, error), True
