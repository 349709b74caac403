"""Sentences of the manual page, compared with runs: the temporary file's name and mode, exit statuses, lines on
standard error, numbers, the order of errors."""

import base64
import os
import pathlib
import re
import stat
import subprocess

import pytest

from checks import fresh
from commands import CHECK, WRAP
from program import refused, wait_for
from vectors import KEK16, KEY16, NOT_OPENED

PAGE = (
    pathlib.Path(__file__).resolve().parent.parent / "command/man/keywrap.1"
).read_text()


def text_of_the_page():
    """The page as one line, without macros."""
    text = re.sub(r"(?m)^\.?Fl (-?\w)|\bFl (-?\w)", r"-\1\2", PAGE)
    text = re.sub(r"(?m)^\.(?:\\\".*|(?:[A-Z][a-z]\b ?)+)", "", text)
    text = text.replace(r"\&", "").replace("\\ ", " ")
    return re.sub(r" ([,.:;)])(?= |$)", r"\1", " ".join(text.split()))


TEXT = text_of_the_page()


def temporary_file(keywrap):
    """The name and the mode of the new file in `to` while a run waits for its input. It is removed."""
    others = {*os.listdir("to")}
    run = keywrap.started(f"{WRAP} -o to/file", stdin=subprocess.PIPE)
    try:
        wait_for(lambda: {*os.listdir("to")} != others)
        (name,) = {*os.listdir("to")} - others
        return name, stat.S_IMODE(os.stat(f"to/{name}").st_mode)
    finally:
        run.kill()
        run.communicate()
        os.remove(f"to/{name}")


def test_temporary_file(keywrap):
    """It has the first free name of the page, and the mode of the page without what the umask removes."""
    first, second, last = re.search(
        r"Its name is file with (\S+) appended, or the first of (\S+) to (\S+) that does not exist\.",
        TEXT,
    ).groups()
    mode = int(
        re.search(
            r"is created with mode (\d+), or less if the umask 2 removes more,", TEXT
        )[1],
        8,
    )
    assert f"If all of {first} to {last} exist, the output cannot be opened." in TEXT
    stem, count = re.fullmatch(r"(\D+)(\d+)", last).groups()
    names = [f"file{stem}{number}" for number in range(int(count) + 1)]
    assert names[:2] == [f"file{first}", f"file{second}"]
    fresh()
    for others in 0, 1, int(count):
        for name in names[:others]:
            pathlib.Path("to", name).touch()
        for mask in 0o022, 0o277:
            os.umask(mask)
            assert temporary_file(keywrap) == (names[others], mode & ~mask)
    pathlib.Path("to", names[-1]).touch()
    assert keywrap(f"{WRAP} -o to/file") == refused(6, NOT_OPENED)


@pytest.mark.parametrize(
    "sentence, args, fails",
    [
        (
            "swap the two KEKs by mistake, the run still ends with status N",
            "rewrap --pass-new --kek kek32.hex --new-kek " "kek16.hex -i wrapped.hex",
            "",
        ),
        (
            "cannot get the owner or the mode .*?, the run is refused: status N",
            f"{WRAP} -i key.hex -o to/file",
            "fchmod",
        ),
        (
            "refuses statx 2, .* is always refused: status N",
            f"{WRAP} -i key.hex -o to/file",
            "statx",
        ),
        (
            "A run is refused with status N, output: cannot be opened, if file is a directory",
            f"{WRAP} -i key.hex -o directory",
            "",
        ),
        (
            "refused only at the rename: .* Then the status is N",
            f"{WRAP} -i key.hex -o to/file",
            "rename",
        ),
        (
            "check writes even none into file, and ends with status N",
            f"{CHECK} -i wrong.hex -o to/file",
            "",
        ),
        (
            "An input without a line is refused: status N",
            f"{WRAP} --lines -i nothing",
            "",
        ),
        (
            "none for a line that is not a wrapped key, goes on, and ends with status N",
            f"{CHECK} --lines -i wrong.hex",
            "",
        ),
        ("check and vectors that end with status N", f"{CHECK} -i wrong.hex", ""),
    ],
)
def test_status(preloaded, sentence, args, fails):
    """A sentence of the page with a status, and a run that ends with it."""
    (status,) = re.findall(sentence.replace("N", r"(\d)\b"), TEXT)
    fresh(b"old\n")
    assert preloaded("fail_call")(args, FAIL_CALL=fails, FAIL_ERRNO="1").status == int(
        status
    )


def test_numbers(keywrap):
    """The length of a name, the place of a wrong character, and a hex KEK that is read as base64."""
    length = int(re.search(r"if its name has (\d+) bytes or more", TEXT)[1])
    text, at = re.search(r": in (\S+) the colon is at byte (\d+)\.", TEXT).groups()
    digits, count = map(
        int,
        re.search(
            r"with --base64-kek (\d+) hex digits are a KEK of (\d+) bytes\.", TEXT
        ).groups(),
    )
    assert keywrap(f"{WRAP} -i key.hex -o", "0" * (length - 1)).status == 0
    assert keywrap(f"{WRAP} -i key.hex -o", "0" * length) == refused(6, NOT_OPENED)
    assert keywrap(WRAP, stdin=text) == refused(6, f"input: no hex digit at byte {at}")
    pathlib.Path("kek").write_text(KEK16[:digits])
    pathlib.Path("kek.raw").write_bytes(base64.b64decode(KEK16[:digits]))
    assert os.path.getsize("kek.raw") == count
    as_base64 = keywrap("wrap --base64-kek --kek kek", stdin=KEY16)
    assert as_base64 == keywrap("wrap --raw-kek --kek kek.raw", stdin=KEY16)
    assert as_base64.status == 0


def test_order_of_errors(terminal):
    """A run with all of these errors reports the first. Without that one it reports the next, and so on."""
    errors = [
        ("the arguments,", "--xyz", "", "error: unexpected argument '--xyz' found"),
        ("the values of --iv", "--iv 0", "", "keywrap: --iv is not 16 hex digits"),
        ("and --new-iv,", "--new-iv 0", "", "keywrap: --new-iv is not 16 hex digits"),
        (
            "raw output to a terminal,",
            "--raw",
            "--raw -o no/file",
            "keywrap: output: raw bytes do not go to a "
            "terminal; redirect it or use --output",
        ),
        (
            "then opening the KEK file,",
            "--kek no",
            "--kek directory",
            "keywrap: key file: cannot be opened",
        ),
        (
            "the new KEK file,",
            "--new-kek no",
            "--new-kek directory",
            "keywrap: new key file: cannot be opened",
        ),
        ("the input", "-i no", "-i directory", "keywrap: input: cannot be opened"),
        (
            "and the temporary file,",
            "-o no/file",
            "-o file",
            "keywrap: output: cannot be opened",
        ),
        (
            "then reading the KEK file,",
            "--kek directory",
            "--kek kek16.hex",
            "keywrap: key file: cannot be read",
        ),
        (
            "the new KEK file",
            "--new-kek directory",
            "--new-kek kek32.hex",
            "keywrap: new key file: cannot be read",
        ),
        (
            "and the input.",
            "-i directory",
            "-i wrapped.raw",
            "keywrap: input: cannot be read",
        ),
    ]
    assert f"The order is: {' '.join(name for name, *_ in errors)} " in TEXT
    line = "keywrap rewrap " + " ".join(
        error
        for _, error, *_ in errors
        if "directory" not in error and "/" not in error
    )
    for name, error, without, message in errors:
        assert terminal(line).ended().stdout.splitlines()[0] == message, name
        line = line.replace(f" {error}", f" {without}")
    assert terminal(line).ended() == (0, "", "")
