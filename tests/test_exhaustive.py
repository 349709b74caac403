"""The program in C over every short text and every fault of the system, in one process: tests/command has host.c over
files in memory, what a text denotes, and the texts. Expected answers are OpenSSL's."""

import importlib.util
import re
import subprocess

import pytest

from builds import ROOT, run
from program import evidence, slow
from tools import need

HERE = ROOT / "tests/command"
# It is loaded by its path: other tests put generate/ on Python's path, where command.py is another module.
SPEC = importlib.util.spec_from_file_location("planted", HERE / "planted.py")
planted = importlib.util.module_from_spec(SPEC)
SPEC.loader.exec_module(planted)
PROGRAM = ROOT / "dist/command"


def build(directory, sources):
    """Makes the program of tests/command/exhaustive.c from the program in C of a directory."""
    objects = []
    for source in ["program.c", "aes.c", "host.c"]:
        options = ["-include", "in_memory.h"] if source == "host.c" else []
        objects.append(directory / f"{source}.o")
        path = sources / source
        run("cc", "-O1", f"-I{HERE}", *options, "-c", path, "-o", objects[-1])
    parts = [HERE / name for name in ("in_memory.c", "meaning.c", "exhaustive.c")]
    options = ["-std=gnu99", "-O1", "-Wall", "-Wextra", "-Werror"]
    program = directory / "exhaustive"
    run("cc", *options, *parts, *objects, "-lcrypto", "-o", program)


@pytest.fixture(scope="session")
def exhaustive(once):
    """The path of the program of tests/command/exhaustive.c."""
    need("cc", "<openssl/evp.h>")
    made = once("exhaustive", lambda directory: build(directory, PROGRAM))
    return made / "exhaustive"


@pytest.fixture(scope="session")
def exhaustive_with_bugs(once):
    """The same with the bugs of tests/command/planted.py."""
    need("cc", "<openssl/evp.h>")

    def with_bugs(directory):
        planted.main(directory)
        build(directory, directory)

    return once("exhaustive-with-bugs", with_bugs) / "exhaustive"


@pytest.mark.parametrize(
    "words, least",
    [
        pytest.param(["faults"], 500, marks=slow, id="faults"),
        pytest.param(["texts", "3"], 13_107, marks=slow, id="texts of 3 characters"),
        pytest.param(["texts", "4"], 209_715, marks=evidence, id="texts of 4"),
        pytest.param(["pairs"], 786_432, marks=evidence, id="pairs of bytes"),
    ],
)
def test_no_command_is_wrong(exhaustive, words, least):
    """Each command writes what is due, on both streams, and ends with the right status."""
    output = run(exhaustive, *words)
    totals = r"(\d+) commands are right; (\d+) freed blocks had the KEK"
    commands, freed = re.match(totals, output).groups()
    assert int(commands) >= least
    # SECURITY.md says how many. Faults are not counted.
    assert words == ["faults"] or freed == commands


@evidence
@pytest.mark.parametrize("number", range(1, len(planted.BUGS) + 1))
def test_bug_is_found(exhaustive_with_bugs, number):
    """Bugs of a class of bytes, of a place, or of a state between two lines, which are rare in rows."""
    words = planted.BUGS[number - 1].found_by.split()
    ended = subprocess.run(
        [exhaustive_with_bugs, *words],
        env={"PLANTED": str(number)},
        capture_output=True,
        text=True,
    )
    assert ended.returncode == 1
    assert "the last one is wrong" in ended.stdout
