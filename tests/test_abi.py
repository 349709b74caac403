"""The shared object of today has all that earlier versions of the C library declare, with the same types and numbers.
tests/library/released has the declarations and the map of the last release: a node for each minor version."""

import itertools
import re

import pytest

from builds import ROOT, VERSION, run
from machines import nodes

BEFORE = ROOT / "tests/library/released"
TODAY = ROOT / "c/include"
MAP = BEFORE / "keywrap.map"
CALLS = dict(zip(nodes(MAP), itertools.accumulate(nodes(MAP).values())))
pytestmark = pytest.mark.needs("cc")
each_version = pytest.mark.parametrize("calls", CALLS.values(), ids=CALLS)


def calls_of(header):
    return re.findall(r"\b(keywrap_\w+)\(", header.read_text())


def stubs(directory, header, calls):
    """A shared object with these calls, of the types that the header or what it includes declares. They return 0."""

    def stub(declaration):
        if declaration[1] not in calls:
            return ""
        return declaration[0].replace(";", " { return 0; }")

    text = run("cc", "-E", "-P", "-U__GNUC__", header)
    source = re.sub(r"__attribute__ *\(\(.*?\)\)\)?(?= |\n)", "", text)
    source = re.sub(r"\w+ (keywrap_\w+)\([^;{}]*\);", stub, source)
    directory.mkdir()
    (directory / "stubs.c").write_text(source)
    run(
        "cc",
        "-std=c99",
        "-g",
        "-w",
        "-shared",
        "-fPIC",
        f"-Wl,--version-script={MAP}",
        "-o",
        directory / "stubs.so",
        directory / "stubs.c",
    )
    return directory / "stubs.so"


def constants(*headers):
    """Each constant and macro, except the version."""
    text = "".join(path.read_text() for path in headers)
    text = re.sub(r"/\*.*?\*/", "", text, flags=re.S).replace("\\\n", " ")
    found = dict(re.findall(r"\b(KEYWRAP_\w+) = (\d+)", text))
    macro = r"^#define (KEYWRAP_\w+(?:\(\w+\))?) +(.*?) *$"
    found |= dict(re.findall(macro, text, re.M))
    return {
        name: value
        for name, value in found.items()
        if not name.startswith("KEYWRAP_VERSION")
    }


def test_numbers_and_lengths_stay():
    before = constants(BEFORE / "keywrap.h")
    today = constants(*sorted(ROOT.glob("dist/keywrap*.h")))
    assert {
        "KEYWRAP_OK",
        "KEYWRAP_INTEGRITY",
        "KEYWRAP_MAX_KEY",
        "KEYWRAP_ROOM(wrapped_len)",
    } <= before.keys()
    assert before == {name: today.get(name) for name in before}


def test_nodes_of_releases_stay():
    """Only the next version may have a new node."""
    released = nodes(MAP)
    today = nodes(TODAY / "keywrap.map")
    assert released.items() <= today.items()
    next_node = f"KEYWRAP_{VERSION.rpartition('.')[0]}"
    assert today.keys() - released.keys() <= {next_node}


def test_each_name_is_in_a_node():
    *_, released = CALLS.values()
    assert sorted(calls_of(BEFORE / "keywrap.h")) == sorted(released)
    declared = set()
    for header in ROOT.glob("dist/keywrap*.h"):
        declared |= {*calls_of(header)}
    in_nodes = set()
    for names in nodes(TODAY / "keywrap.map").values():
        in_nodes |= {*names}
    assert declared == in_nodes


@pytest.mark.needs("abidiff")
@each_version
def test_types_stay(calls, tmp_path):
    """abidiff compares the types of all names that both headers declare."""
    before = stubs(tmp_path / "before", BEFORE / "keywrap.h", calls)
    run("abidiff", before, stubs(tmp_path / "today", TODAY / "keywrap_steps.h", calls))


@pytest.mark.needs("abidiff")
@each_version
def test_names_stay(calls, library, tmp_path):
    """The library has no types for abidiff, only names and their versions."""
    before = stubs(tmp_path / "before", BEFORE / "keywrap.h", calls)
    run(
        "abidiff",
        "--no-added-syms",
        "--ignore-soname",
        before,
        library / "libkeywrap.so.1",
    )
