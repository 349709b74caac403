"""Branches and addresses of the built C library that depend on secrets. Memcheck runs each call with the KEK, the key
and the wrapped key marked as undefined, and finds branches and addresses that depend on them: only at the decision of
an unwrapping, which the caller learns (secrets/decision.supp). A second program counts the bytes below the stack
pointer that depend on a KEK or a key after each call."""

import pathlib

import pytest

from builds import ROOT, run
from machines import EXPORTS, MACHINES, STRICT, need_sysroot
from program import evidence
from tools import need

OWN = ROOT / "tests/secrets"
SOURCES = [OWN / "secrets.c", ROOT / "tests/reference/one_table.c"]
OPTIONS = [*STRICT, "-O1", "-g", f"-I{ROOT}/tests/reference"]
DECISION = f"--suppressions={OWN}/decision.supp"
# The longest keys, in bytes.
LONGEST = (136, pytest.param(1024, marks=evidence))
LONGEST_UNDER_QEMU = 24


def left_on_the_stack(machine, archive):
    """The lines of stack.c, split. Without -z now, the loader's own work would be in them too."""
    run(machine.cc, *OPTIONS, OWN / "stack.c", archive, "-Wl,-z,now", "-o", "stack")
    lines = [line.split() for line in run(*machine.runs, "./stack").splitlines()]
    # Each call but the self test has a line for each length of a KEK with which it ends well, and others.
    assert sorted({"keywrap_" + words[0].split(",")[0] for words in lines}) == EXPORTS
    assert len(lines) >= 6 * len(EXPORTS)
    return lines


def reports(command, lengths, *options):
    """The reports of memcheck in each call, by the lines of secrets.c. It runs keys of up to this many bytes. No report
    is taken for one of the caller of its function, as some are if memcheck follows a call.
    """
    flags = [
        "-q",
        "--vex-guest-chase=no",
        "--error-limit=no",
        "--log-file=valgrind.log",
        *options,
    ]
    counted = []
    for line in run(*command, *flags, "./secrets", lengths).splitlines():
        call, _, words = line.partition(": ")
        count = words.split()[0]
        counted.append((call, int(count)))
    return counted


@pytest.fixture(params=["here", pytest.param("aarch64", marks=evidence)])
def machine(request):
    if request.param == "aarch64":
        need_sysroot()
    machine = MACHINES[request.param]
    need(machine.cc)
    return machine


@pytest.fixture
def archive(machine, built, request):
    """Its library."""
    if machine is MACHINES["here"]:
        return request.getfixturevalue("library") / "libkeywrap.a"
    return built("arm64") / "libkeywrap.a"


def test_stack(machine, archive):
    """The bytes that depend on the KEK, the new KEK and the key, and copies of half a secret: at most as many as
    SECURITY.md says, after a failed check, after a padded wrap of 8 bytes, and after a KEK is kept.
    """
    for words in left_on_the_stack(machine, archive):
        done = {
            "kek_init": (4, 0, 0, 0),
            "wrap_padded,8": (16, 0, 16, 0),
            "wrap_padded_in_place,8": (16, 0, 16, 0),
        }
        most = (
            (8, 0, 8, 0)
            if words[1] == "integrity"
            else done.get(words[0], (0, 0, 1, 0))
        )
        assert all(int(count) <= limit for count, limit in zip(words[3:7], most)), words


@pytest.mark.parametrize("longest", LONGEST)
def test_branches_and_addresses(machine, archive, longest):
    need(
        "<valgrind/memcheck.h>",
        *[] if pathlib.Path(machine.memcheck[-1]).is_file() else ["valgrind"],
    )
    run(machine.cc, *OPTIONS, *SOURCES, archive, "-o", "secrets")
    longest = longest if machine is MACHINES["here"] else LONGEST_UNDER_QEMU
    # With no suppression. That memcheck looks is seen at the decision, and at an AES by look-ups in tables.
    found = reports(machine.memcheck, longest)
    for begin, least, most in (
        ("keywrap_wrap", 0, 0),
        ("keywrap_unwrap", 1, 10**7),
        ("tables", 10**4, 10**7),
    ):
        counts = [count for call, count in found if call.startswith(begin)]
        assert counts, found
        assert all(least <= count <= most for count in counts), found
    # Without the decision, which a rewrap and keywrap_kind make at the same place.
    found = reports(machine.memcheck, longest, DECISION)
    for begin in "unwrap", "rewrap", "kind":
        counts = [count for call, count in found if call.startswith(f"keywrap_{begin}")]
        assert counts, found
        assert not any(counts), found
