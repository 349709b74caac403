"""Runs in which allocations fail, each in turn, and runs in ever more memory.

Each run ends with status 7 and `out of memory`, and writes nothing, or ends as it does with ample memory. With --output
the file is as it was, or has the answer, and no other file is left."""

import itertools
import os
import pathlib
import re
import subprocess

import pytest

from checks import held
from commands import ANSWERS, FILES, INTO_FILES, REFUSALS, Command, chosen
from program import Ended, Program, refused
from vectors import KEK_LENGTH, MEMORY

# Command lines that are refused, the last with bytes that are not UTF-8.
ARGUMENTS = [
    Command(" ".join(map(repr, args)), args, None, 2, b"", None)
    for args in (
        [],
        ["rewind"],
        ["wrap", "--kek", "kek16.hex", "--secret"],
        ["wrap"],
        ["drill", "00", "11"],
        ["drill", b"\xff"],
    )
]
COMMANDS = [
    *ANSWERS,
    *REFUSALS,
    *ARGUMENTS,
    *INTO_FILES,
    Command(
        "second line",
        ["wrap", "--verbose", "--kek", "kek15.hex"],
        None,
        3,
        b"",
        refused(3, KEK_LENGTH, "kek15.hex: 15 bytes of KEK").stderr,
    ),
]
# Every allocation fails, the parser's too, by itself and with all later ones. Of the others only the last ones fail,
# by themselves, which are at most 40: the parser makes 110 to 190 before them, as it does for these.
WHOLE = [
    "wrap",
    "rewrap",
    "drill",
    "help",
    *(command.name for command in ARGUMENTS),
]
LAST = 48


@pytest.fixture
def succeeds(keywrap, command):
    """succeeds(program, **options) returns whether a run ends as with ample memory. Otherwise nothing was written."""
    own = keywrap(command.args, text=False)
    into_file = command in INTO_FILES
    answer = own.stdout if command.stdout is None else command.stdout
    line = own.stderr if command.stderr is None else command.stderr
    complete = (
        Ended(command.status, b"" if into_file else answer, line),
        answer if into_file else FILES["old"],
    )
    os.mkdir("to")

    def run(program, **options):
        pathlib.Path("to/file").write_bytes(FILES["old"])
        ended = (
            program(command.args, stdin=command.given, text=False, **options),
            held(),
        )
        assert ended in (
            complete,
            (refused(7, MEMORY)._replace(stdout=b""), FILES["old"]),
        ), options
        return ended == complete

    return run


@pytest.mark.parametrize("number", ["1", "1+"])
def test_first_allocation(preloaded, number):
    """The library makes allocations fail: no command gets on without the first."""
    for command in ANSWERS:
        ended = preloaded("fail_alloc")(
            command.args, stdin=command.given, FAIL_ALLOC=number
        )
        assert ended == refused(7, MEMORY), command


@pytest.mark.parametrize("command", COMMANDS)
def test_each_allocation(preloaded, command, succeeds):
    program = preloaded("fail_alloc")
    count = program.count(command.args, stdin=command.given)
    first, ways = (
        (1, ["", "+"]) if command.name in WHOLE else (max(count - LAST, 1), [""])
    )
    for number, after in itertools.product(range(first, count + 1), ways):
        succeeds(program, FAIL_ALLOC=f"{number}{after}")
        assert program.met
    assert succeeds(program, FAIL_ALLOC=str(count + 1))


@pytest.mark.parametrize(
    "command", chosen(COMMANDS, ["padded rewrap", "unwrap into a file"])
)
def test_ever_more_memory(keywrap, command, succeeds):
    """The C library uses separate pages for each allocation, so each page more allows one allocation more.

    It begins with the lowest limit with which the program starts. Some systems apply only one of the two limits.
    """
    pages = {
        "GLIBC_TUNABLES": "glibc.malloc.mmap_threshold=1:glibc.malloc.mmap_max=1000000"
    }
    for kind in "DATA", "AS":
        sizes = range(4096, 64 << 20, 4096)
        start = next(
            size
            for size in sizes
            if keywrap("--version", limits={"CORE": 0, kind: size}).status in (0, 7)
        )
        limits = range(start, start + (12 << 20), 4096)
        if start < next(
            limit
            for limit in limits
            if succeeds(keywrap, env=pages, limits={kind: limit})
        ):
            return
    pytest.skip("no limit lets the program start and leaves it no memory")


def calls(crates):
    """The tests refuses_each_growth_* of the test programs that `rt test` built in the crates."""
    for crate, count in ("key_wrap", 6), ("keywrap_cli", None):
        program = os.path.abspath(f"{crates}/{crate}/out/{crate}_tests")
        listed = subprocess.run(
            [program, "--list"], capture_output=True, text=True
        ).stdout
        names = re.findall(r"(?m)^(.*::refuses_each_growth_.*): test$", listed)
        assert names, f"no test refuses_each_growth_* in {program}"
        yield from (pytest.param(program, name, count, id=name) for name in names)


if "TESTS" in os.environ:

    @pytest.mark.parametrize("after", ["", "+"], ids=["one", "all after it"])
    @pytest.mark.parametrize("program, name, count", calls(os.environ["TESTS"]))
    def test_each_allocation_of_a_call(preloaded, program, name, count, after):
        """The test fails if a call returns anything but Memory, or all that it returns with ample memory, and if a call
        that returns Memory has written something, or given its pair a block. The tests of key_wrap make six calls, and
        one allocation in each."""
        run = preloaded("fail_alloc", Program(program))
        for number in itertools.count():
            ended = run([name], FAIL_ALLOC=f"{number + 1}{after}")
            assert ended.status == 0, (number, ended)
            if not run.met:
                break
        assert number == count if count else number > 0
