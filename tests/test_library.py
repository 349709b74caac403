"""The C library as users have it: its header by each compiler; its files by both compilers of the toolchain, rows.txt
over them; installed, from C, C++ and CMake; what it needs of the processor."""

import os
import re
import shutil
import subprocess
import sys

import pytest

import faces
from builds import NAMES, ROOT, make_library, run
from machines import (
    NAMES as CALLS,
    SANITIZED,
    STRICT,
    WITH_SSE41,
    WITHOUT_SSE41,
    check_library,
    shown,
)
from program import evidence
from tools import need
from vectors import WRAPPED16, WRAPPED24

pytestmark = pytest.mark.needs("cc")
COMPILERS = ["gcc", "clang"]
INSTALLED = ROOT / "tests/library/installed"
EXAMPLE = ROOT / "c/examples/c/wrap.c"
VERSION = NAMES["VERSION"]
DEBIAN = NAMES["DEBIAN"]
NUMBER = VERSION.removesuffix("-dev")

### The header


@pytest.mark.parametrize(
    "compiler, standard",
    [
        (compiler, standard)
        for compilers, standards in [
            (COMPILERS, ["c89", "c99", "c11", "c17", "c2x"]),
            (["g++", "clang++"], ["c++11", "c++17", "c++20"]),
        ]
        for compiler in compilers
        for standard in standards
    ],
)
def test_header(compiler, standard):
    need(compiler)
    language = "c++" if compiler.endswith("++") else "c"
    run(
        compiler,
        f"-std={standard}",
        *STRICT[1:],
        "-fsyntax-only",
        "-x",
        language,
        "-",
        input="#include <keywrap.h>\n",
    )


def preprocessed(*options):
    return run(
        "cc",
        "-std=c99",
        STRICT[-1],
        *options,
        "-E",
        "-",
        input="#include <keywrap.h>\n",
    )


def test_macros():
    """KEYWRAP_H and those of the page. A release has no KEYWRAP_PRERELEASE. A compiler unlike GCC sees restrict."""
    defined = set(re.findall(r"^#define KEYWRAP_([A-Z_]*)", preprocessed("-dM"), re.M))
    assert defined == {
        "ALREADY_NEW",
        "CPU_SUPPORTED",
        "H",
        "KEEP_FORM",
        "KEK_LEN",
        "MAX_KEY",
        "MAX_TEXT",
        "NEW_PADDED",
        "OLD_PADDED",
        "PADDED_TEXT_LEN",
        "PASS_NEW",
        "ROOM",
        "TEXT_LEN",
        "VERSION",
        "VERSION_MAJOR",
        "VERSION_MINOR",
        "VERSION_PATCH",
        *["PRERELEASE"] * VERSION.endswith("-dev"),
    }
    assert "*restrict wrapped" in preprocessed("-U__GNUC__")


### The library, by both compilers of the toolchain


@pytest.fixture(scope="session", params=["llvm", "rattle"])
def of_toolchain(request, once, built):
    """The name of a compiler, and the directory of its library."""
    name = request.param
    if name == "llvm":
        return name, request.getfixturevalue("library")
    return name, once(
        f"library-{name}", lambda directory: make_library(directory, built(f"{name}.a"))
    )


def rows_over(library, compiler="gcc", *options):
    """The command of rows.c, linked with the archive or the shared object."""
    need(compiler)
    run(
        compiler,
        *STRICT,
        "-O1",
        "-g",
        *options,
        ROOT / "tests/rows.c",
        library,
        "-o",
        "program",
    )
    return ["env", f"LD_LIBRARY_PATH={library.parent}", "./program"]


class TestFiles:
    def test_names_and_needs(self, of_toolchain):
        check_library(of_toolchain[1])

    def test_self_test_sees_a_changed_byte(self, of_toolchain):
        name, directory = of_toolchain
        run(
            sys.executable,
            ROOT / "tests/library/patched.py",
            directory / "libkeywrap.so.1",
            *["tables"] * (name != "rattle"),
        )


@faces.each_group
def test_rows(once, library, group):
    faces.check_group(
        group,
        once,
        "library",
        "c",
        lambda text: run(*rows_over(library / "libkeywrap.a"), input=text),
    )


def test_more_rows(library):
    faces.check("c", rows_over(library / "libkeywrap.a"), "foreign", "more")


@pytest.mark.parametrize("compiler", COMPILERS)
@pytest.mark.parametrize(
    "linked, options",
    [
        ("shared", []),
        *(
            pytest.param(linked, SANITIZED, marks=evidence)
            for linked in ("static", "shared")
        ),
    ],
    ids=["shared", "static, sanitized", "shared, sanitized"],
)
@pytest.mark.parametrize(
    "of_toolchain", ["llvm", pytest.param("rattle", marks=evidence)], indirect=True
)
class TestCalls:
    @pytest.fixture
    def program(self, of_toolchain, compiler, linked, options):
        need(compiler, *[f"sanitizers of {compiler}"] * bool(options))
        name = "libkeywrap.a" if linked == "static" else "libkeywrap.so.1"
        return rows_over(of_toolchain[1] / name, compiler, *options)

    def test_rows(self, program):
        faces.check("c", program, "rows", "foreign")

    @evidence
    def test_more(self, program):
        faces.check("c", program, "more")


### Installed


@pytest.fixture
def flags(prefix, monkeypatch):
    """The words of a compiler, by keywrap.pc."""
    need("pkg-config")
    monkeypatch.setenv("PKG_CONFIG_PATH", f"{prefix}/lib/pkgconfig")
    monkeypatch.setenv("LD_LIBRARY_PATH", f"{prefix}/lib")
    return run("pkg-config", "--cflags", "--libs", "keywrap").split()


def files_under(directory):
    """The names of files and links below the directory, except documents."""
    names = set()
    for path in directory.rglob("*"):
        name = path.relative_to(directory)
        is_file = path.is_symlink() or not path.is_dir()
        if is_file and "doc" not in name.parts:
            names.add(str(name))
    return names


def files_of(include, lib):
    """The installed files, except documents."""
    names = [
        "libkeywrap.a",
        "libkeywrap.so",
        "libkeywrap.so.1",
        f"libkeywrap.so.{DEBIAN}",
        "pkgconfig/keywrap.pc",
        "cmake/keywrap/keywrap-config.cmake",
        "cmake/keywrap/keywrap-config-version.cmake",
    ]
    return {
        f"{include}/keywrap.h",
        f"{include}/keywrap_steps.h",
        *(f"{lib}/{name}" for name in names),
    }


class TestInstalled:
    def test_one_version(self, prefix):
        """The header's, and with ~dev for -dev keywrap.pc's and the shared object's."""
        header = (prefix / "include/keywrap.h").read_text()
        assert (
            ".".join(
                re.findall(r"^#define KEYWRAP_VERSION_[A-Z]* (\d+)$", header, re.M)
            )
            == NUMBER
        )
        assert (
            f"\nVersion: {DEBIAN}\n"
            in (prefix / "lib/pkgconfig/keywrap.pc").read_text()
        )
        shared = (prefix / "lib/libkeywrap.so").resolve()
        assert (shared.name, shared.stat().st_mode & 0o777) == (
            f"libkeywrap.so.{DEBIAN}",
            0o644,
        )

    def test_before_the_release(self, flags):
        """pkg-config and dpkg take what is not released for older than the release."""

        def is_at_least(version):
            return not subprocess.run(
                ["pkg-config", f"--atleast-version={version}", "keywrap"]
            ).returncode

        assert is_at_least(1)
        assert is_at_least(NUMBER.rpartition(".")[0])
        assert is_at_least(NUMBER) == (VERSION == NUMBER)
        if VERSION != NUMBER and shutil.which("dpkg"):
            run("dpkg", "--compare-versions", DEBIAN, "lt", NUMBER)

    def test_c_example(self, flags):
        """It names a refused value."""
        run("cc", *STRICT, EXAMPLE, *flags, "-o", "example")
        output = run("./example")
        assert WRAPPED24 in output
        assert "reserved value: initial value is not 8 bytes" in output

    @pytest.mark.parametrize("compiler", ["g++", "clang++"])
    def test_cpp(self, flags, compiler):
        """It links only if the library has every call."""
        need(compiler)
        with open("names.h", "w") as names:
            names.writelines(f"reinterpret_cast<void *>({name}),\n" for name in CALLS)
        run(
            compiler,
            "-std=c++11",
            *STRICT[1:5],
            "-I.",
            INSTALLED / "calls.cc",
            *flags,
            "-o",
            "example",
        )
        assert WRAPPED16 in run("./example")

    @pytest.mark.parametrize(
        "variables, include, lib, begin",
        [
            (
                "prefix=/usr libdir=/usr/lib64",
                "usr/include",
                "usr/lib64",
                "/usr ${prefix}/lib64 ${prefix}/include",
            ),
            (
                "PREFIX=/usr LIBDIR=/usr/lib64",
                "usr/include",
                "usr/lib64",
                "/usr ${prefix}/lib64 ${prefix}/include",
            ),
            (
                "prefix=/a libdir=/b/lib includedir=/c docdir=/d/doc",
                "c",
                "b/lib",
                "/a /b/lib /c",
            ),
            ("prefix= STRIP=1", "include", "lib", None),
        ],
    )
    def test_directories(self, words, tmp_path, variables, include, lib, begin):
        """The files, the first lines of keywrap.pc, and that `make uninstall-library` removes all. With STRIP=1 the
        shared object has only the names that it exports, and the archive has all."""
        stage = tmp_path / "stage"
        given = [*words, f"DESTDIR={stage}", *variables.split()]
        run("make", "-s", "-C", ROOT, "install-library", *given)
        assert files_under(stage) == files_of(include, lib)
        pages = {
            str(path.parent.relative_to(stage)) for path in stage.rglob("C_LIBRARY.md")
        }
        assert len(pages) == 1
        assert "docdir" not in variables or pages == {"d/doc"}
        if begin:
            first = (stage / lib / "pkgconfig/keywrap.pc").read_text().splitlines()[:3]
            names = "prefix", "libdir", "includedir"
            assert first == [
                f"{name}={value}" for name, value in zip(names, begin.split())
            ]
        else:
            shared = stage / "lib/libkeywrap.so"
            assert (
                "no symbols"
                in subprocess.run(["nm", shared], capture_output=True, text=True).stderr
            )
            assert shown(shared, "-D", "--without-symbol-versions") == CALLS
            assert shown(stage / "lib/libkeywrap.a", "-g") == CALLS
        run("make", "-s", "-C", ROOT, "uninstall-library", *given)
        assert [path for path in stage.rglob("*") if not path.is_dir()] == []
        assert [path for path in ROOT.rglob("libkeywrap*") if path.is_symlink()] == []

    @pytest.mark.needs("cmake")
    @pytest.mark.parametrize("elsewhere", [False, True])
    def test_cmake(self, prefix, words, tmp_path, elsewhere):
        """The example by the package file, both ways. A version that is not there is refused."""
        lib = prefix / "lib"
        if elsewhere:
            lib = tmp_path / "b/lib"
            run(
                "make",
                "-s",
                "-C",
                ROOT,
                "install-library",
                *words,
                f"DESTDIR={tmp_path}",
                "prefix=/a",
                "libdir=/b/lib",
                "includedir=/c",
                "docdir=/d",
            )

        def configured(version):
            shutil.rmtree("made", ignore_errors=True)
            settings = [
                f"-Dasked={version}",
                f"-Dexample={EXAMPLE}",
                f"-Dkeywrap_DIR={lib}/cmake/keywrap",
            ]
            command = ["cmake", "-S", INSTALLED, "-B", "made", *settings]
            ended = subprocess.run(command, capture_output=True)
            return ended.returncode == 0

        assert not any(
            map(
                configured,
                ["1.99", "2", "1.1.0;EXACT", "1.0...1.1", f"1.0...<{NUMBER}"],
            )
        )
        assert configured(f"{NUMBER};EXACT")
        assert configured(f"1.0...{NUMBER}")
        assert configured("1.0...<2")
        assert configured(1 if elsewhere else NUMBER)
        run("cmake", "--build", "made")
        assert WRAPPED24 in run("made/static")
        assert WRAPPED24 in run(
            "made/shared", env={**os.environ, "LD_LIBRARY_PATH": str(lib)}
        )


### Processors


@pytest.mark.needs("qemu-x86_64")
class TestProcessor:
    def test_instructions(self, library):
        """None of SSE4.2, POPCNT, AES or AVX, which the header does not check for."""
        code = run("objdump", "-d", "--no-show-raw-insn", library / "libkeywrap.a")
        used = {
            line.split("\t")[1].split()[0]
            for line in code.splitlines()
            if line.count("\t")
        }
        beyond = "popcnt|crc32.*|pcmpgtq|pcmp.str.|aes.*|pclmul.*|v[a-z].*|[lt]zcnt|bextr|pdep|pext"
        assert "pshufb" in used
        assert [name for name in used if re.fullmatch(beyond, name)] == []

    @pytest.mark.parametrize("compiler", COMPILERS)
    def test_supported(self, compiler):
        """KEYWRAP_CPU_SUPPORTED is 0 without SSE4.1, and with SSSE3 only."""
        need(compiler)
        run(
            compiler,
            *STRICT,
            "-x",
            "c",
            "-",
            "-o",
            "supported",
            input="#include <keywrap.h>\nint main(void) { return KEYWRAP_CPU_SUPPORTED() ? 0 : 7; }\n",
        )
        ssse3 = ["qemu-x86_64", "-cpu", "qemu64,+ssse3,-sse4.1,-sse4.2,-popcnt"]
        assert [
            subprocess.run([*runs, "./supported"]).returncode
            for runs in (WITHOUT_SSE41, ssse3, WITH_SSE41)
        ] == [7, 7, 0]

    def test_c_example(self, library):
        run("cc", STRICT[-1], EXAMPLE, library / "libkeywrap.a", "-o", "example")
        assert WRAPPED24 in run(*WITH_SSE41, "./example")
