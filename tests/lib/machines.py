"""The machines that the C library is built for and tested on, and what its files show to a linker."""

import os
import pathlib
import re
from typing import NamedTuple

import pytest

from builds import ROOT, run
from tools import need

VERSION = re.compile(r"GLIBC_([0-9]+)\.([0-9]+)")


class Machine(NamedTuple):
    """Its compiler, how the names of its tools begin, and the commands that run its programs, also under memcheck."""

    cc: str
    tools: str
    runs: list
    memcheck: list


# Debian's files for aarch64, as packaging/sysroot.sh unpacks them.
SYSROOT = pathlib.Path(
    os.environ.get("SYSROOT")
    or pathlib.Path(
        os.environ.get("XDG_CACHE_HOME") or pathlib.Path.home() / ".cache",
        "keywrap/sysroot-aarch64-unknown-linux-gnu",
    )
)
# Valgrind's launcher would start a program of this machine.
ARM_MEMCHECK = [
    "env",
    f"VALGRIND_LIB={SYSROOT}/usr/libexec/valgrind",
    "VALGRIND_LAUNCHER=/usr/bin/valgrind",
    "qemu-aarch64",
    "-L",
    SYSROOT,
    f"{SYSROOT}/usr/libexec/valgrind/memcheck-arm64-linux",
]
MACHINES = {
    "here": Machine("cc", "", [], ["valgrind"]),
    "aarch64": Machine(
        "aarch64-linux-gnu-gcc",
        "aarch64-linux-gnu-",
        ["qemu-aarch64", "-L", "/usr/aarch64-linux-gnu"],
        ARM_MEMCHECK,
    ),
}
ARM = ["TARGET=aarch64-unknown-linux-gnu", f"SYSROOT={SYSROOT}"]
# A processor that lacks what the library needs, and one that has only that.
WITHOUT_SSE41 = ["qemu-x86_64", "-cpu", "qemu64,-ssse3,-sse4.1,-sse4.2,-popcnt"]
WITH_SSE41 = ["qemu-x86_64", "-cpu", "qemu64,+ssse3,+sse4.1,-sse4.2,-popcnt"]
STRICT = ["-std=c99", "-Wall", "-Wextra", "-pedantic", "-Werror", f"-I{ROOT}/c/include"]
SANITIZED = ["-fsanitize=address,undefined", "-fno-sanitize-recover=all"]


def need_sysroot():
    need("aarch64-linux-gnu-gcc", "qemu-aarch64")
    if not SYSROOT.is_dir():
        pytest.skip(f"no {SYSROOT} (packaging/sysroot.sh '{SYSROOT}')")


def declared(pattern, *headers):
    """The names that the pattern finds in these headers."""
    text = "".join((ROOT / f"{header}.h").read_text() for header in headers)
    return sorted(re.findall(rf"^{pattern} (keywrap_[a-z_]*)\(", text, re.M))


# The calls that return a status, and all names of the library.
EXPORTS = declared("int32_t", "dist/keywrap")
NAMES = declared(r"(?:u?int[0-9]+_t|size_t|void)", "dist/keywrap", "dist/keywrap_steps")


def shown(file, *options, tools=""):
    """The names that the file shows, by nm with these options."""
    names = []
    for line in run(f"{tools}nm", *options, "--defined-only", file).splitlines():
        words = line.split()
        # The others are of a file, or absolute.
        if len(words) == 3 and words[1] != "A":
            names.append(words[2])
    return sorted(names)


def needed(archive, tools=""):
    """The names that an archive needs of others."""
    listed = run(f"{tools}nm", "-u", archive).splitlines()
    words = [line.split() for line in listed]
    return {line[1] for line in words if len(line) == 2}


def nodes(path):
    """The nodes of a linker map, each with its names."""
    text = re.sub(r"/\*.*?\*/", "", path.read_text(), flags=re.S)
    return {
        node: re.findall(r"keywrap_\w+", listed)
        for node, listed in re.findall(r"(KEYWRAP_[\d.]+) \{(.*?)\}", text, re.S)
    }


def check_library(directory, name="libkeywrap", tools=""):
    """The names that the archive and the shared object show and need. Each name of the shared object is under the node
    of the version that it came with, its tables are read-only once it is loaded, and its own name is right.
    """
    archive = directory / f"{name}.a"
    shared = directory / f"{name}.so.1"
    assert shown(archive, "-g", tools=tools) == NAMES
    others = {call for call in needed(archive, tools) if call[:8] != "keywrap_"}
    assert others <= {"memcpy", "memmove", "memset"}

    came = {}
    for node, calls in nodes(ROOT / "c/include/keywrap.map").items():
        came |= dict.fromkeys(calls, node)
    with_nodes = sorted(f"{call}@@{came[call]}" for call in NAMES)
    assert shown(shared, "-D", tools=tools) == with_nodes

    elf = run("readelf", "-dlW", shared)
    assert "BIND_NOW" in elf
    assert "GNU_RELRO" in elf
    assert "TEXTREL" not in elf
    assert re.search(rf"SONAME.*\[{re.escape(name)}\.so\.1\]", elf)


def check_glibc(file, tools=""):
    """It needs no symbol of glibc that is newer than 2.17."""
    versions = VERSION.findall(run(f"{tools}objdump", "-T", file))
    assert versions
    assert max((int(major), int(minor)) for major, minor in versions) <= (
        2,
        17,
    )
