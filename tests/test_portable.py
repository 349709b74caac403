"""The C of dist/: what it is made of, rows.txt and published cases by each compiler and machine,
random calls compared with the library, the symbols that the object needs, and planted bugs."""

import functools
import json
import os
import pathlib
import re
import shutil
import subprocess
import sys
from typing import NamedTuple

import pytest

import faces
from builds import run
from hardware.bugs import bugs_of, plant
from program import ALL, all_of, evidence, slow
from tools import need

ROOT = pathlib.Path(__file__).resolve().parent.parent
DIST = ROOT / "dist"
ROWS = [ROOT / "tests/rows.c"]
STRICT = ["-std=c99", "-Wall", "-Wextra", "-pedantic", "-Werror"]
OWN = ROOT / "tests/portable"
SANITIZED = ["-fsanitize=address,undefined", "-fno-sanitize-recover=all"]
TABLES = "-DKEYWRAP_NO_AES_INSTRUCTIONS"

# Each compiler: its command, and what runs its programs here.
MACHINES = {
    "gcc": (["gcc"], []),
    "clang": (["clang"], []),
    "gcc, tables": (["gcc", TABLES], []),
    "clang, tables": (["clang", TABLES], []),
    "an old x86-64": (["gcc", "-static"], ["qemu-x86_64", "-cpu", "Nehalem"]),
    "aarch64": (["aarch64-linux-gnu-gcc", "-static"], ["qemu-aarch64"]),
    # As for Apple's processors: the compiler knows that they have AES.
    "aarch64 with AES": (
        ["aarch64-linux-gnu-gcc", "-static", "-march=armv8-a+crypto"],
        ["qemu-aarch64"],
    ),
    "i686": (["i686-linux-gnu-gcc", "-static"], ["qemu-i386"]),
    "musl": (["musl-gcc", "-static"], []),
    "riscv64": (["riscv64-linux-gnu-gcc", "-static"], ["qemu-riscv64"]),
    "arm": (["arm-linux-gnueabihf-gcc", "-static"], ["qemu-arm"]),
    "s390x": (["s390x-linux-gnu-gcc", "-static"], ["qemu-s390x"]),
}
NATIVE = ["gcc", "clang"]
# The gate runs the native ones and a big-endian one.
IN_GATE = [*NATIVE, "gcc, tables", "s390x"]


@pytest.fixture
def portable_program(once):
    """portable_program("gcc", SOURCES, "-O2") is the command of a program over dist/, of which each object is compiled
    once for all tests, or over the keywrap.c of another directory, in which a bug is planted.
    """

    def make(name, sources, *options, directory=DIST):
        compiler, runner = MACHINES[name]
        need(compiler[0], *runner[:1])
        command = [*compiler, *STRICT, *options]
        if directory != DIST:
            # A bug may leave something unused.
            command.append("-Wno-error")

        def compile_object(there):
            run(*command, "-c", f"{directory}/keywrap.c", "-o", f"{there}/keywrap.o")

        if directory == DIST:
            words = "-".join(["object", name, *options])
            there = once(re.sub("[ /]", "-", words), compile_object)
        else:
            there = pathlib.Path()
            compile_object(there)
        includes = [f"-I{directory}", f"-I{ROOT}/tests/reference"]
        linked = [*sources, there / "keywrap.o"]
        run(*command, *includes, *linked, "-o", "program")
        return [*runner, "./program"]

    return make


@functools.cache
def made_here():
    """Skips if dist/ is by other tools than those here."""
    need("wasm-opt", "wasm2c")
    if not shutil.which("rt"):
        pytest.skip("no rt on the PATH")
    named = re.search(r"^ \* By (.*)\.$", (DIST / "keywrap.c").read_text(), re.M)[1]
    here = run(sys.executable, ROOT / "generate/portable.py", "--tools").strip()
    if here != named:
        pytest.skip(f"dist/ is by {named}; here are {here}")


@slow
def test_is_what_the_tree_makes(built):
    """Each file that the script writes, byte by byte."""
    made_here()
    modules = built("portable.wasm"), built("keywrap.wasm")
    run(sys.executable, ROOT / "generate/portable.py", *modules, "made")
    assert sorted(os.listdir("made")) == ["README", "keywrap.c", "keywrap.wasm"]
    for path in pathlib.Path("made").iterdir():
        assert (DIST / path.name).read_bytes() == path.read_bytes(), path


LEAVES = {"clear", "decrypt", "decrypt_many", "encrypt", "encrypt_many", "expand"}


@pytest.mark.needs("wasm-opt")
@pytest.mark.parametrize(
    "imports, message",
    [
        (LEAVES - {"expand"}, "does not call [('aes', 'expand')], and imports []"),
        (LEAVES | {"other"}, "does not call [], and imports [('aes', 'other')]"),
    ],
)
def test_other_imports_are_refused(monkeypatch, imports, message):
    """A module that imports other functions than leaves.c.in has is not translated."""
    calls = [f"  (*Z_aesZ_{name})(instance->Z_aes_instance);\n" for name in imports]
    pathlib.Path("module.c").write_text("".join(calls))
    wasm2c = pathlib.Path("wasm2c")
    wasm2c.write_text("#!/bin/sh\ncp module.c $5\n")
    wasm2c.chmod(0o755)
    monkeypatch.setenv("WASM2C", str(wasm2c.resolve()))
    ended = subprocess.run(
        [sys.executable, ROOT / "generate/portable.py", "a.wasm", "b.wasm", "made"],
        stderr=subprocess.PIPE,
        text=True,
    )
    assert ended.returncode == 1
    assert ended.stderr == f"portable.py: the module {message}\n"


@pytest.mark.parametrize("compiler", all_of(NATIVE, ["clang"]))
@pytest.mark.parametrize(
    "only",
    all_of(
        ["", TABLES, "-DKEYWRAP_STEPS_ONLY", "-DKEYWRAP_TRAP()=__builtin_trap()"], [""]
    ),
)
@pytest.mark.parametrize(
    "options",
    all_of(
        ["-O0 -std=c99", "-O2 -std=c17", "-O3 -std=c99", "-Os -std=c99"],
        [],
        ["-O2 -std=c17"],
    ),
)
def test_compiles_without_a_warning(portable, compiler, only, options):
    """The other tests compile it with -O2 as C99, most by gcc."""
    need(compiler)
    run(
        compiler,
        *STRICT,
        *options.split(),
        *only.split(),
        "-c",
        portable / "keywrap.c",
        "-o",
        "keywrap.o",
    )


@faces.each_group
def test_rows(portable_program, once, group):
    program = lambda text: run(*portable_program("gcc", ROWS, "-O2"), input=text)
    faces.check_group(group, once, "portable", "c", program)


@pytest.mark.parametrize("name", all_of(MACHINES, ["gcc"], IN_GATE))
def test_rows_of_machines(portable_program, name):
    """Under an emulator without the long ones, and with the published cases."""
    program = portable_program(name, ROWS, "-O2")
    is_native = len(program) == 1
    tables = ["foreign"]
    if name != "gcc":
        # test_rows has those of gcc.
        tables.insert(0, "rows" if is_native else "short")
    if name == "gcc" or ALL and is_native:
        tables += ["more", "nist"]
    faces.check("c", program, *tables)


def calls_of(header):
    """The calls that the text of a header declares."""
    return re.findall(r"^\w+ (keywrap_\w+)\(", header, re.M)


def rename_calls(file):
    """Writes a header that renames the calls of dist/, so that a program can have those of the library, too."""
    text = ""
    for header in "keywrap.h", "keywrap_steps.h":
        for call in calls_of((DIST / header).read_text()):
            line = f"#define {call} dist_{call}\n"
            if line not in text:
                text += line
    pathlib.Path(file).write_text(text)


def random_calls(directory, library, name, *options):
    """Compiles fuzz.c over the keywrap.c in the directory and over the library. Returns its command."""
    compiler, runner = MACHINES[name]
    need(compiler[0], *runner[:1])
    rename_calls("renamed.h")
    command = [*compiler, *STRICT, "-O2", f"-I{OWN}", *options]
    of_dist = [*command, "-include", "./renamed.h", f"-I{directory}", "-c"]
    run(*of_dist, f"{directory}/keywrap.c", "-o", "dist.o")
    run(*of_dist, "-DCALL=dist_call", OWN / "fuzz_call.c", "-o", "dist_call.o")
    of_library = [*command, f"-I{ROOT}/c/include", "-DCALL=library_call"]
    sources = [OWN / "fuzz_call.c", OWN / "fuzz.c"]
    objects = ["dist.o", "dist_call.o", library / "libkeywrap.a"]
    run(*of_library, *sources, *objects, "-o", "fuzz")
    return [*runner, "./fuzz"]


@pytest.mark.parametrize(
    "name",
    all_of([*NATIVE, "gcc, tables", "an old x86-64"], [], ["gcc", "gcc, tables"]),
)
def test_as_the_library(portable, library, name):
    """Random calls, right ones and refusals, of all calls and steps: as the library, byte by byte."""
    cases = 40000
    if ALL and name in NATIVE:
        cases = 200000
    elif name == "an old x86-64":
        cases = 10000
    program = random_calls(portable, library, name)
    assert run(*program, str(cases), "1") == f"{cases} cases agree\n"


@pytest.mark.parametrize("name", all_of(NATIVE, [], ["gcc"]))
@pytest.mark.parametrize("table", all_of(["short", "rows", "more"], [], ["short"]))
def test_sanitizers(portable_program, name, table):
    need(f"sanitizers of {name}")
    faces.check("c", portable_program(name, ROWS, "-O2", "-g", *SANITIZED), table)


@evidence
def test_valgrind(portable_program):
    need("valgrind")
    program = portable_program("gcc", ROWS, "-O1", "-g")
    faces.check(
        "c",
        ["valgrind", "-q", "--error-exitcode=9", "--leak-check=full", *program],
        "rows",
    )


@pytest.mark.parametrize("name", all_of(MACHINES, ["gcc"], IN_GATE))
def test_lengths(portable_program, name):
    assert run(*portable_program(name, [OWN / "lengths.c"], "-O2")) == "all are right\n"


class SecretsLeft(NamedTuple):
    """The most bytes below the stack pointer that depend on a KEK or a key, copies of these, and how many calls there
    are."""

    most: int
    copies: int
    calls: int


def secrets_left(portable_program, name, level, **directory):
    """The first call is left out: it also tests the AES."""
    sources = [ROOT / "tests/secrets/stack.c", "-Wl,-z,now"]
    program = portable_program(name, sources, level, **directory)
    most = 0
    copies = 0
    calls = 0
    for line in run(*program).splitlines()[1:]:
        kek, new_kek, key, copied = map(int, line.split()[3:7])
        most = max(most, kek, new_kek, key)
        copies = max(copies, copied)
        calls += 1
    return SecretsLeft(most, copies, calls)


def documented_secrets(name):
    """The most bytes that SECURITY.md has."""
    page = " ".join((ROOT / "SECURITY.md").read_text().split())
    sentence = (
        r"at most (\d+) bytes below the stack pointer depend on a KEK or a key, "
        r"and with AES instructions at most (\d+)"
    )
    with_tables, with_instructions = re.search(sentence, page).groups()
    return int(with_tables if "tables" in name else with_instructions)


@pytest.mark.parametrize(
    "name",
    all_of(
        [*NATIVE, "gcc, tables", "clang, tables", "aarch64"],
        [],
        ["gcc", "clang", "gcc, tables"],
    ),
)
@pytest.mark.parametrize(
    "level", all_of(["-O1", "-O2", "-O3", "-Os"], ["-O2"], ["-Os"])
)
def test_stack(portable, portable_program, name, level):
    """SECURITY.md's bytes below the stack pointer depend on a KEK or a key."""
    left = secrets_left(portable_program, name, level)
    header = (portable / "keywrap.h").read_text()
    exports = re.findall(r"^int32_t keywrap_", header, re.M)
    assert left.calls >= 6 * len(exports) - 1
    assert left.most <= documented_secrets(name)
    assert left.copies == 0


def compile_for(name, portable, only):
    """Compiles keywrap.o for this machine, and returns the prefix of its tools."""
    (command, *options), _ = MACHINES[name]
    need(command)
    options = [option for option in options if option != "-static"]
    options += ["-O2", "-fno-pic", *only.split()]
    run(command, *STRICT, *options, "-c", portable / "keywrap.c", "-o", "keywrap.o")
    return "" if command in NATIVE else command.removesuffix("gcc")


def symbols(tools, *flags):
    return {
        line.split()[-1] for line in run(f"{tools}nm", *flags, "keywrap.o").splitlines()
    }


# The functions of the C library that a caller without one has to give.
IMPORTS = {"memcpy", "memmove", "memset", "memcmp", "abort", "getauxval"}
# The machines for which keywrap.c has AES by instructions, and a variable that says whether they work.
WITH_AES_INSTRUCTIONS = [*NATIVE, "an old x86-64", "aarch64"]


@pytest.mark.parametrize("only", all_of(["", "-DKEYWRAP_STEPS_ONLY"], [""]))
@pytest.mark.parametrize("name", all_of(MACHINES, ["gcc"], IN_GATE))
def test_object(portable, name, only):
    """The object imports nothing unexpected, exports the calls of the headers only, and has no other writable data."""
    tools = compile_for(name, portable, only)
    # Names with leading underscores are the compiler's: division on 32-bit Arm, and atomics on aarch64.
    imported = {name for name in symbols(tools, "-u") if not name.startswith("__a")}
    assert imported <= IMPORTS

    declared = set()
    for header in ["keywrap_steps.h"] if only else ["keywrap.h", "keywrap_steps.h"]:
        text = (portable / header).read_text()
        declared |= set(calls_of(text.partition("#ifndef KEYWRAP_PORTABLE\n/*")[0]))
    assert symbols(tools, "-g", "--defined-only") == declared

    sizes = run(f"{tools}size", "keywrap.o").splitlines()[1].split()
    _, data, bss = map(int, sizes[:3])
    assert data == 0
    has_word = name in WITH_AES_INSTRUCTIONS and not only
    assert bss <= (4 if has_word else 0)


@pytest.mark.parametrize("at, options", [(0, [TABLES]), (1, [])], ids=["tables", "AES"])
def test_stack_in_readme(portable, at, options):
    """The largest frame of a call that gcc compiles, with tables and with AES instructions. The frames around it are
    small."""
    need("gcc")
    page = (portable / "README").read_text()
    shown = re.findall(r"takes (?:about|up to) ([\d,]+) bytes", page)
    assert len(shown) == 2
    flags = [*STRICT, "-O1", "-fstack-usage", *options]
    run("gcc", *flags, "-c", portable / "keywrap.c", "-o", "keywrap.o")
    frames = []
    for line in pathlib.Path("keywrap.su").read_text().splitlines():
        _, size, _ = line.split("\t")
        frames.append(int(size))
    assert 0.7 < max(frames) / int(shown[at].replace(",", "")) < 1


@slow
@pytest.mark.parametrize("options, aes", [([], "instructions"), ([TABLES], "tables")])
def test_self_test_sees_a_changed_byte(portable, options, aes):
    need("gcc")
    flags = [*STRICT, "-O2", "-shared", "-fPIC", *options]
    run("gcc", *flags, portable / "keywrap.c", "-o", "keywrap.so")
    run(sys.executable, ROOT / "tests/library/patched.py", "keywrap.so", aes)


RIGHT = "8 vectors and the self test: right"


@pytest.fixture
def copied(portable):
    """A copy of dist/."""
    ignored = shutil.ignore_patterns(
        "*.o", "*.a", "*.so.1", "vectors", "keywrap", "keywrap.built_from"
    )
    return pathlib.Path(shutil.copytree(portable, "copy", ignore=ignored))


def test_makefile(copied):
    """The check says what it ran, the shared object has its name, and `make clean` leaves what was there."""
    need("cc")
    before = sorted(directory_files(copied))
    assert RIGHT in run("make", "-C", copied, "check").splitlines()
    assert "alloc" not in run("nm", "-u", f"{copied}/keywrap.o")
    run("make", "-C", copied, "shared")
    assert "[libkeywrap.so.1]" in run("readelf", "-d", f"{copied}/libkeywrap.so.1")
    run("make", "-C", copied, "clean")
    assert sorted(directory_files(copied)) == before


def test_makefile_for_macos(copied):
    """A compiler that names Darwin gets its options and names, not those of Linux. Nothing is compiled."""
    pathlib.Path("compiler").write_text(
        '#!/bin/sh\n[ "$1" != -dumpmachine ] || echo arm64-apple-darwin22.6.0\n'
    )
    os.chmod("compiler", 0o755)
    words = "shared", "install", f"CC={os.getcwd()}/compiler", "prefix=/opt"
    shown = run("make", "-n", "-C", copied, *words)
    (line,) = re.findall(r"^.*compiler .*-o libkeywrap\.1\.dylib .*$", shown, re.M)
    assert "-dynamiclib -install_name '/opt/lib/libkeywrap.1.dylib'" in line
    assert "-Wl" not in line
    assert "ln -sf libkeywrap.1.dylib '/opt/lib/libkeywrap.dylib'" in shown


# What keywrap.c uses of the system's headers, which are not here for macOS.
HEADERS_OF_APPLE = {
    "string.h": """#include <stddef.h>
void *memcpy(void *, const void *, size_t);
void *memmove(void *, const void *, size_t);
void *memset(void *, int, size_t);
int memcmp(const void *, const void *, size_t);
""",
    "stdlib.h": "void abort(void);\n",
}


@slow
@pytest.mark.needs("clang")
@pytest.mark.parametrize(
    "machine, instruction", [("arm64", "aese"), ("x86_64", "aesenc")]
)
def test_aes_instructions_of_apple(portable, machine, instruction):
    """Both processors of Apple get AES instructions: `__linux__` is not asked for there."""
    os.mkdir("headers")
    for name, text in HEADERS_OF_APPLE.items():
        pathlib.Path("headers", name).write_text(text)
    target = f"--target={machine}-apple-macos11"
    options = ["-std=c99", "-O1", "-ffreestanding", "-nostdlibinc", "-Iheaders", "-S"]
    run("clang", target, *options, f"{portable}/keywrap.c", "-o", "keywrap.s")
    code = pathlib.Path("keywrap.s").read_text()
    assert len(re.findall(rf"^\s+{instruction}\b", code, re.M)) >= 4


@slow
def test_makefile_for_another_machine(copied):
    """The line of README, after a build for this one."""
    need("cc", "s390x-linux-gnu-gcc", "qemu-s390x")
    (line,) = re.findall(
        r"^    \$ (make .*RUN=.*)", (copied / "README").read_text(), re.M
    )
    run("make", "-C", copied)
    assert RIGHT in run("bash", "-ec", line, cwd=copied)


@slow
def test_check_of_a_wrong_unwrap(portable_program):
    """The check fails over a library that unwraps to a key with a wrong byte."""
    pathlib.Path("wrong.c").write_text(
        '#include "keywrap.h"\n#define keywrap_unwrap(a, b, c, d, key, f) (keywrap_unwrap(a, b, c, d, key, f) ? 5 : '
        '(*(key) ^= 1, 0))\n#include "check/vectors.c"\n'
    )
    program = portable_program("gcc", ["wrong.c"], "-O2")
    assert subprocess.run(program, capture_output=True).returncode == 1


@slow
@pytest.mark.parametrize(
    "place",
    ["to[room]", "to[-1]", "((uint8_t *)key)[0]"],
    ids=["after a buffer", "before a buffer", "only read"],
)
def test_runner_sees_a_change_elsewhere(portable_program, place):
    pathlib.Path("wrong.c").write_text(
        f'#include "{DIST}/keywrap.h"\n#define keywrap_wrap(kek, n, key, len, to, room) (({place} ^= 1), '
        f'keywrap_wrap(kek, n, key, len, to, room))\n#include "{ROWS[0]}"\n'
    )
    program = portable_program("gcc", ["wrong.c"], "-O2")
    assert faces.has_fault("c", program, "foreign")


def directory_files(directory):
    return [
        str(path.relative_to(directory)) for path in pathlib.Path(directory).rglob("*")
    ]


class Example(NamedTuple):
    """The lines of README that build its program by make, its lines for CMake, and the output of the program."""

    make: str
    cmake: str
    output: str


@pytest.fixture
def example(portable):
    """Puts the program of README, by the name that it has there, into a directory, and returns an `Example`."""
    page = (portable / "README").read_text()
    source = r"^    #include <keywrap.h>\n(?:    .*\n|\n)*?    }\n"
    (program,) = re.findall(source, page, re.M)
    built = re.search(r"^    \$ (make && .*)\n    ([0-9a-f]+)$", page, re.M)
    make, output = built.groups()
    cmake = re.search(r"^    add_subdirectory.*\n(?:    .*\n)*", page, re.M)[0]
    project = "cmake_minimum_required(VERSION 3.13)\nproject(program C)\n"

    def put(directory):
        pathlib.Path(directory, "wrap.c").write_text(program)
        return Example(make, project + cmake, f"{output}\n")

    return put


def test_program_of_readme(copied, example):
    """It prints what it shows, and compiles without a warning."""
    need("cc")
    shown = example(copied)
    assert run("bash", "-ec", shown.make, cwd=copied).endswith(shown.output)
    run("cc", *STRICT, "-fsyntax-only", "-I.", "wrap.c", cwd=copied)


def built_by_cmake(*options):
    """Builds the directory `program` in `out`."""
    run("cmake", "-S", "program", "-B", "out", *options)
    run("cmake", "--build", "out")
    # The program's build has neither the vectors nor their test.
    assert "vectors" not in " ".join(directory_files("out"))
    assert "vectors" not in run("ctest", "--test-dir", "out", "-N")


@slow
@pytest.mark.needs("cmake", "cc")
def test_cmake_with_the_directory(copied, example):
    """The lines of README, with the directory in the program's."""
    os.mkdir("program")
    shown = example("program")
    assert re.match(r" *add_subdirectory\(keywrap\b", shown.cmake.splitlines()[2])
    shutil.move(copied, "program/keywrap")
    pathlib.Path("program/CMakeLists.txt").write_text(shown.cmake)
    built_by_cmake()
    assert run("out/wrap") == shown.output


@slow
@pytest.mark.needs("cmake", "cc")
def test_cmake_with_an_installed_library(copied, example):
    """The other line of README, with what `cmake --install` put elsewhere."""
    os.mkdir("program")
    shown = example("program")
    there = f"{os.getcwd()}/there"
    options = ["-DBUILD_TESTING=OFF", f"-DCMAKE_INSTALL_PREFIX={there}"]
    run("cmake", "-S", copied, "-B", "built", *options)
    run("cmake", "--build", "built")
    run("cmake", "--install", "built")
    assert sorted(os.listdir("there/include")) == ["keywrap.h", "keywrap_steps.h"]
    shutil.rmtree(copied)
    lines = re.sub(r"add_subdirectory\(keywrap\) +#.*: (.*)", r"\1", shown.cmake)
    lines = lines.replace("(keywrap R", "(keywrap 1.1 R")
    assert re.match(r" *find_package\(keywrap\b", lines.splitlines()[2])
    pathlib.Path("program/CMakeLists.txt").write_text(lines)
    built_by_cmake(f"-DCMAKE_PREFIX_PATH={there}")
    assert run("out/wrap") == shown.output


@pytest.mark.needs("cc", "pkg-config")
def test_install(copied, example):
    """`make install` puts the library where pkg-config finds it, and where the lines of README link and run it."""
    prefix = pathlib.Path("there").absolute()
    shown = example(os.getcwd())
    page = (copied / "README").read_text()
    (line,) = re.findall(r"^    \$ (cc wrap\.c \$\(pkg-config .*)", page, re.M)
    run("make", "-C", copied, "install", f"prefix={prefix}")
    headers = sorted(os.listdir(prefix / "include"))
    assert headers == ["keywrap.h", "keywrap_steps.h"]
    libraries = ["libkeywrap.a", "libkeywrap.so", "libkeywrap.so.1"]
    assert sorted(os.listdir(prefix / "lib")) == [*libraries, "pkgconfig"]
    places = {
        **os.environ,
        "PKG_CONFIG_PATH": f"{prefix}/lib/pkgconfig",
        "LD_LIBRARY_PATH": f"{prefix}/lib",
    }
    assert run("bash", "-ec", line, env=places) == shown.output
    header = (copied / "keywrap.h").read_text()
    version = re.findall(r"^#define KEYWRAP_VERSION_\w+ (\d+)$", header, re.M)
    packed = run("pkg-config", "--modversion", "keywrap", env=places)
    assert packed == ".".join(version) + "\n"


@slow
def test_cmake_shared(copied, example):
    """With BUILD_SHARED_LIBS `keywrap` is shared, and `keywrap_static` is not."""
    need("cmake", "cc")
    os.mkdir("program")
    shown = example("program")
    shutil.move(copied, "program/keywrap")
    static = "add_executable(static wrap.c)\ntarget_link_libraries(static keywrap::keywrap_static)\n"
    pathlib.Path("program/CMakeLists.txt").write_text(shown.cmake + static)
    run("cmake", "-S", "program", "-B", "out", "-DBUILD_SHARED_LIBS=ON")
    run("cmake", "--build", "out")
    assert run("out/wrap") == shown.output
    assert run("out/static") == shown.output
    assert "libkeywrap.so.1" in run("ldd", "out/wrap")
    assert "libkeywrap" not in run("ldd", "out/static")


@pytest.mark.parametrize(
    "given, found",
    [
        ([], ["-O2"]),
        (["-DCMAKE_BUILD_TYPE=Release"], ["-O3"]),
        (["-DCMAKE_BUILD_TYPE=Debug"], []),
        (["-DCMAKE_C_FLAGS=-O1"], ["-O1"]),
    ],
)
def test_cmake_optimizes(portable, given, found):
    """CMake optimizes, also if no build type is given."""
    need("cmake", "cc")
    options = ["-DCMAKE_EXPORT_COMPILE_COMMANDS=ON", *given]
    run("cmake", "-S", portable, "-B", "built", *options)
    rows = json.loads(pathlib.Path("built/compile_commands.json").read_text())
    (row,) = [row for row in rows if row["file"].endswith("keywrap.c")]
    assert re.findall(r"-O\S*", row["command"]) == found


@slow
def test_cmake(portable):
    need("cmake", "cc")
    run(
        "cmake",
        "-S",
        portable,
        "-B",
        "built",
        "-DCMAKE_C_FLAGS=-fno-pie",
        "-DCMAKE_EXE_LINKER_FLAGS=-no-pie",
    )
    run("cmake", "--build", "built")
    run("ctest", "--test-dir", "built", "--no-tests=error")
    run(
        "cc",
        "-shared",
        "-o",
        "shared.so",
        "-Wl,--whole-archive",
        "built/libkeywrap.a",
        "-Wl,--no-whole-archive",
    )


def test_freestanding(portable):
    """Links for a Cortex-M0 without a C library, with three functions of the caller's own."""
    need("arm-none-eabi-gcc")
    run(
        "arm-none-eabi-gcc",
        "-mcpu=cortex-m0",
        "-mthumb",
        "-ffreestanding",
        *STRICT,
        "-Os",
        "-DKEYWRAP_TRAP()=__builtin_trap()",
        f"-I{portable}",
        "-fno-tree-loop-distribute-patterns",
        OWN / "freestanding.c",
        portable / "keywrap.c",
        "-nostdlib",
        "-o",
        "firmware.elf",
        "-lgcc",
    )


TOPICS_OF_PYTHON = "calls", "objects", "pyca", "vectors"


@pytest.fixture
def env_without_kit(compiler):
    """The environment, without the kit on the PATH."""
    kit = pathlib.Path(shutil.which("rt") or "/rt").parent
    directories = os.environ["PATH"].split(":")
    path = [name for name in directories if pathlib.Path(name) != kit]
    return {
        **os.environ,
        "PATH": ":".join(path),
        "CC": compiler,
        "LDSHARED": f"{compiler} -shared",
        "SOURCE_DATE_EPOCH": "1767225600",
    }


@slow
@pytest.mark.needs("Python.h", "import build", "import cffi", "import ensurepip")
@pytest.mark.needs("import setuptools", "import wheel")
@pytest.mark.parametrize("compiler", ["gcc", pytest.param("clang", marks=evidence)])
def test_sdist(compiler, env_without_kit):
    """pip builds the source distribution without the kit, and the package's tests pass on it. It is the same again."""
    need(compiler)
    version = (ROOT / "VERSION").read_text().strip().replace("-dev", ".dev0")
    name = f"keywrap-{version}"

    def packed_in(directory):
        there = pathlib.Path(directory).absolute()
        variables = [f"DIST={there}", f"PYTHON={sys.executable}"]
        run("make", "-s", "-C", ROOT, "sdist", *variables, env=env_without_kit)
        return there / f"{name}.tar.gz"

    packed = packed_in("one")
    assert packed.read_bytes() == packed_in("two").read_bytes()

    run(sys.executable, "-m", "venv", "--system-site-packages", "env")
    python = ["env/bin/python3", "-m"]
    options = ["--no-build-isolation", "--no-index"]
    run(*python, "pip", "install", *options, packed, env=env_without_kit)
    run("tar", "-xzf", packed)
    tests = [f"{name}/tests/test_{topic}.py" for topic in TOPICS_OF_PYTHON]
    variables = {**env_without_kit, "KEYWRAP_CALLS": "10000"}
    options = ["-q", "-p", "no:cacheprovider"]
    output = run(*python, "pytest", *options, *tests, env=variables)
    assert re.search(r"^\d{3,} passed", output, re.M)
    assert "skipped" not in output


@pytest.mark.parametrize(
    "suite, base", [("hardware", ROOT), ("portable", DIST), ("rust", DIST)]
)
def test_bugs_can_be_planted(tmp_path, suite, base):
    """Each edit fits the sources, also those that only `make evidence` tries."""
    for bug, (name, _, _) in bugs_of(suite).items():
        file = tmp_path / name
        file.parent.mkdir(parents=True, exist_ok=True)
        shutil.copy(base / name, file)
        plant(suite, bug, tmp_path)


@pytest.mark.parametrize(
    "bug", all_of([*bugs_of("portable")], [], ["numbers-exchanged"])
)
def test_bug_is_caught(portable, portable_program, library, tmp_path, bug):
    """Caught by random calls with or without AES instructions, by the longest lengths, or on the stack."""
    need("sanitizers of gcc")
    for name in "keywrap.c", "keywrap.h", "keywrap_steps.h":
        shutil.copy(portable / name, tmp_path)
    plant("portable", bug, tmp_path)

    def fails(program, *words):
        return subprocess.run([*program, *words], capture_output=True).returncode != 0

    def calls_differ(name):
        program = random_calls(tmp_path, library, name, "-Wno-error")
        return fails(program, "20000", "1")

    def lengths_are_wrong():
        sources = [OWN / "lengths.c"]
        options = ["-O1", *SANITIZED]
        name = "gcc, tables"
        return fails(portable_program(name, sources, *options, directory=tmp_path))

    def leaves_secrets():
        name = "gcc, tables"
        left = secrets_left(portable_program, name, "-O2", directory=tmp_path)
        return left.most > documented_secrets(name)

    is_seen_in_calls = calls_differ("gcc, tables") or calls_differ("gcc")
    assert is_seen_in_calls or lengths_are_wrong() or leaves_secrets()
