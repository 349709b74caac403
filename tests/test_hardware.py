"""libkeywrap_hw, with and without the processor's AES, on x86-64 and aarch64: its names, the rows of rows.txt, NIST's
cases, the provider's comparisons, threads, what depends on secrets, planted bugs. And the steps of the C library around
OpenSSL's AES and a token's."""

import os
import pathlib
import re
import subprocess
import sys

import pytest

import faces
from builds import NAMES, ROOT, make_library, run
from machines import (
    ARM,
    MACHINES,
    SANITIZED,
    STRICT,
    SYSROOT,
    check_library,
)
from program import evidence, slow
from test_library import rows_over
from test_secrets import DECISION, left_on_the_stack, reports
from tools import missing, need
from vectors import WRAPPED16

pytestmark = pytest.mark.needs("cc")
OWN = ROOT / "tests/hardware"
AES = ROOT / "c/aes"
# All C of libkeywrap_hw.
SOURCES = sorted(AES.glob("*.c"))
INCLUDED = [f"-I{ROOT}/c/include", f"-I{ROOT}/tests/reference"]
OPTIONS = [*STRICT, "-O2", *INCLUDED]
COMPARING = [
    path
    for path in sorted((ROOT / "tests/provider").glob("*.c"))
    if path.name != "direct.c"
]
OF_DEBIAN = [
    word
    for part in ("", "/aarch64-linux-gnu")
    for word in ("-idirafter", f"{SYSROOT}/usr/include{part}")
]
HAS_OPENSSL = (SYSROOT / "usr/include/openssl").is_dir()


@pytest.fixture(scope="session")
def hardware(once, built):
    """The directory of `make library HARDWARE=1`."""
    return once(
        "hardware",
        lambda directory: make_library(
            directory, built("llvm.a"), "HARDWARE=1", f"HW_ARCHIVE={built('hw.a')}"
        ),
    )


@pytest.fixture(scope="session")
def arm_hardware(once, built):
    archive = built("arm64") / "libkeywrap.a"
    words = ["HARDWARE=1", f"HW_ARCHIVE={built('hw-arm64.a')}", *ARM]
    return once(
        "hardware-arm",
        lambda directory: make_library(directory, archive, *words),
    )


def kept():
    return [
        "rows",
        "foreign",
        *(() if missing("import cryptography_vectors") else ("nist",)),
    ]


class TestFiles:
    def test_names_and_needs(self, hardware):
        check_library(hardware, "libkeywrap_hw")

    @slow
    def test_with_lto(self, built):
        """Built by these flags, in a directory with a blank in its name."""
        make_library(
            f"{os.getcwd()}/with lto",
            built("llvm.a"),
            "HARDWARE=1",
            f"HW_ARCHIVE={built('hw.a')}",
            "CC=cc",
            "CFLAGS=-O2 -flto",
        )
        run(
            "cc",
            "-flto",
            *OPTIONS,
            ROOT / "tests/rows.c",
            "with lto/libkeywrap_hw.a",
            "-o",
            "program",
        )
        faces.check("c", ["./program"], "rows")

    @pytest.mark.parametrize(
        "compiler, standard",
        [("cc", "c89"), ("cc", "c99"), ("cc", "c11"), ("c++", "c++11")],
    )
    def test_header_of_steps(self, compiler, standard):
        need(compiler)
        run(
            compiler,
            f"-std={standard}",
            *STRICT[1:],
            "-fsyntax-only",
            "-x",
            "c++" if compiler == "c++" else "c",
            "-",
            input="#include <keywrap_steps.h>\n",
        )


# The leaves, each with its result and parameters, as LLVM's text has them.
LEAVES = {
    "available": ("i1", ""),
    "expand": ("void", "ptr %0, i64 %1, ptr %2, i64 %3"),
    "encrypt": ("void", "ptr %0, i64 %1, ptr %2"),
    "decrypt": ("void", "ptr %0, i64 %1, ptr %2"),
    "encrypt_many": ("void", "ptr %0, i64 %1, ptr %2, i64 %3"),
    "decrypt_many": ("void", "ptr %0, i64 %1, ptr %2, i64 %3"),
    "clear": ("void", "ptr %0"),
}


class TestLeaves:
    """C is in the place of each leaf, or nothing is built."""

    def test_archive_needs_each(self, built):
        needed = re.findall(r" U (keywrap_\w+)", run("nm", "-u", built("hw.a")))
        assert sorted(needed) == sorted(f"keywrap_aes_{name}" for name in LEAVES)

    @staticmethod
    def substituted(
        leaves, triple="x86_64-unknown-linux-gnu", uncalled=None, more=None
    ):
        """How substitute.py ends for a module of LLVM with these leaves, and a caller of each other than `uncalled`.
        `more` is another line of the module."""
        lines = [f'target triple = "{triple}"']
        if more is not None:
            lines.append(more)
        for name, (result, parameters) in leaves.items():
            leaf = f'@"aes_leaves::leaves::{name}"'
            lines.append(f"define internal {result} {leaf}({parameters}) noinline {{")
            lines.append("}")
            if name != uncalled:
                lines.append(f"  call {result} {leaf}({parameters})")
        pathlib.Path("module.ll").write_text("\n".join(lines))
        return subprocess.run(
            [sys.executable, ROOT / "generate/substitute.py", "module.ll", "new.ll"],
            stderr=subprocess.PIPE,
            text=True,
        )

    def test_calls_are_of_c(self):
        ended = self.substituted(LEAVES)
        assert (ended.returncode, ended.stderr) == (0, "")
        called = re.findall(
            r"^  call .*@(\S+)\(", pathlib.Path("new.ll").read_text(), re.M
        )
        assert called == [f"keywrap_aes_{name}" for name in LEAVES]

    def test_module_of_webassembly_does_not_choose(self):
        leaves = {name: LEAVES[name] for name in LEAVES if name != "available"}
        ended = self.substituted(leaves, "wasm64-unknown-unknown")
        assert (ended.returncode, ended.stderr) == (0, "")

    @pytest.mark.parametrize("name", LEAVES)
    def test_missing_leaf_is_refused(self, name):
        others = {leaf: LEAVES[leaf] for leaf in LEAVES if leaf != name}
        ended = self.substituted(others)
        assert ended.returncode == 1
        assert ended.stderr == f"substitute.py: {name}: defined 0 times\n"

    @pytest.mark.parametrize("name", LEAVES)
    def test_leaf_of_another_type_is_refused(self, name):
        result, parameters = LEAVES[name]
        another = result, f"{parameters}, i32 %9".removeprefix(", ")
        ended = self.substituted({**LEAVES, name: another})
        assert ended.returncode == 1
        assert ended.stderr.startswith(f"substitute.py: {name}: another type: ")

    @pytest.mark.parametrize(
        "parameters",
        [
            "ptr byval([16 x i8]) %0, i64 %1, ptr %2",
            "<2 x ptr> %0, i64 %1, ptr %2",
            "ptr %0, i64 inreg %1, ptr %2",
        ],
    )
    def test_leaf_that_takes_a_parameter_in_another_way_is_refused(self, parameters):
        ended = self.substituted({**LEAVES, "encrypt": ("void", parameters)})
        assert ended.returncode == 1
        assert ended.stderr.startswith("substitute.py: encrypt: another type: ")

    def test_leaf_of_another_calling_convention_is_refused(self):
        _, parameters = LEAVES["encrypt"]
        ended = self.substituted({**LEAVES, "encrypt": ("fastcc void", parameters)})
        assert ended.returncode == 1
        assert ended.stderr.startswith("substitute.py: encrypt: another type: fastcc")

    @pytest.mark.parametrize(
        "use",
        [
            "store ptr @{}, ptr %0",
            "call fastcc void @{}(ptr %0, i64 %1, ptr %2)",
            "call void @other(ptr @{})",
        ],
    )
    def test_leaf_that_is_used_in_another_way_is_refused(self, use):
        line = "  " + use.format('"aes_leaves::leaves::encrypt"')
        ended = self.substituted(LEAVES, more=line)
        assert ended.returncode == 1
        message = f"substitute.py: encrypt: another use: {line.strip()}\n"
        assert ended.stderr == message

    @pytest.mark.parametrize("name", LEAVES)
    def test_leaf_that_nothing_calls_is_refused(self, name):
        ended = self.substituted(LEAVES, uncalled=name)
        assert ended.returncode == 1
        assert ended.stderr == f"substitute.py: {name}: nothing calls it\n"


class TestSteps:
    @pytest.mark.needs("<openssl/evp.h>")
    @pytest.mark.parametrize("name", ["keywrap", "keywrap_hw"])
    def test_around_openssl(self, hardware, library, name):
        """With the numbers of steps that the header has."""
        sentence = r"There are (\d+) steps for each 8 bytes of the registers, or (\d+) if they are 8 bytes long"
        (steps,) = re.findall(sentence, (ROOT / "dist/keywrap_steps.h").read_text())
        numbers = [f"-DSTEPS_OF_WORD={steps[0]}", f"-DSTEPS_OF_ONE_WORD={steps[1]}"]
        archive = (library if name == "keywrap" else hardware) / f"lib{name}.a"
        run(
            "cc",
            *OPTIONS,
            *numbers,
            OWN / "steps.c",
            archive,
            "-lcrypto",
            "-o",
            "steps",
        )
        assert " passed, 0 failed" in run("./steps")

    @pytest.mark.needs("<openssl/evp.h>")
    def test_example_of_openssl(self, library):
        run(
            "cc",
            *OPTIONS,
            ROOT / "c/examples/c/evp.c",
            library / "libkeywrap.a",
            "-lcrypto",
            "-o",
            "evp",
        )
        assert WRAPPED16 in run("./evp")

    @pytest.mark.needs("openssl", "softhsm2-util", "pkcs11.h of p11-kit", "pkg-config")
    def test_recipe_of_a_token(self, prefix):
        """Over the library as it is installed."""
        flags = run("pkg-config", "--cflags", "p11-kit-1").split()
        source = ROOT / "c/examples/c/token.c"
        run("cc", *OPTIONS, *flags, "-c", source, "-o", "token.o")
        page = (ROOT / "docs/RECIPES.md").read_text()
        heading = "## A KEK that never leaves a token\n"
        (section,) = re.findall(f"^{heading}(.*?)^## ", page, re.M | re.S)
        recipe = re.findall("^    (.*\n)", section, re.M)
        commands = [line[2:] for line in recipe if line.startswith("$ ")]
        output = [line for line in recipe if not line.startswith("$ ")]
        os.mkdir("token")
        ended = subprocess.run(
            ["bash", "-c", "".join(commands)],
            cwd="token",
            text=True,
            stdout=subprocess.PIPE,
            stderr=subprocess.STDOUT,
            env={
                **os.environ,
                "EXAMPLES": f"{prefix}/share/doc/keywrap/examples",
                "LD_LIBRARY_PATH": f"{prefix}/lib",
                "PKG_CONFIG_PATH": f"{prefix}/lib/pkgconfig",
            },
        )
        assert ended.stdout == "".join(output)


class TestSecrets:
    @slow
    @pytest.mark.needs("valgrind", "<valgrind/memcheck.h>")
    def test_calls(self, hardware):
        run(
            "cc",
            *OPTIONS,
            "-O1",
            "-g",
            ROOT / "tests/secrets/secrets.c",
            ROOT / "tests/reference/one_table.c",
            hardware / "libkeywrap_hw.a",
            "-o",
            "secrets",
        )
        found = reports(["valgrind"], 264, DECISION)
        assert ("keywrap_kind", 0) in found
        assert {call.partition(",")[0] for call, count in found if count} == {
            "tables"
        }, found

    def test_stack(self, hardware):
        """No call leaves more than a block of the wrapped key, except the first, which makes the known-answer test."""
        for words in left_on_the_stack(MACHINES["here"], hardware / "libkeywrap_hw.a")[
            1:
        ]:
            assert max(map(int, words[3:6])) <= 16, words


class TestHere:
    """As this processor runs it."""

    @faces.each_group
    def test_rows(self, once, hardware, group):
        library = hardware / "libkeywrap_hw.a"
        faces.check_group(
            group,
            once,
            "hardware",
            "c",
            lambda text: run(*rows_over(library), input=text),
        )

    def test_more_rows(self, hardware):
        faces.check("c", rows_over(hardware / "libkeywrap_hw.a"), *kept()[1:], "more")

    @slow
    @pytest.mark.needs("sanitizers of cc")
    @pytest.mark.parametrize(
        "names",
        [("short", "foreign"), pytest.param((*kept(), "more"), marks=evidence)],
        ids=["short", "all"],
    )
    def test_sanitized(self, built, names):
        sources = [ROOT / "tests/rows.c", *SOURCES, built("hw.a")]
        run("cc", *OPTIONS, "-g", *SANITIZED, *sources, "-o", "program")
        faces.check("c", ["./program"], *names)

    @pytest.mark.needs("the processor's AES")
    def test_wrong_aes_is_not_chosen(self):
        """Each way of the processor's AES is tested, with each length of a KEK."""
        sources = [OWN / "chosen.c", OWN / "wrong_aes.c", AES / "aes.c"]
        run("cc", *OPTIONS, *sources, "-o", "chosen")
        places = [
            "",
            *(f"{way}{rounds}" for way in "edEDFC" for rounds in (10, 12, 14)),
        ]
        chosen = [run("env", f"WRONG={place}", "./chosen") for place in places]
        assert chosen == ["instructions\n"] + 18 * ["software\n"]

    @pytest.mark.parametrize("name", ["keywrap", "keywrap_hw", "sanitized"])
    def test_threads(self, hardware, library, built, name):
        threads = ["cc", *OPTIONS, "-g", "-pthread", OWN / "threads.c", "-o", "threads"]
        if name == "sanitized":
            need("thread sanitizer of cc")
            run(*threads, "-fsanitize=thread", *SOURCES, built("hw.a"))
        else:
            run(*threads, (library if name == "keywrap" else hardware) / f"lib{name}.a")
        assert " passed, 0 failed" in run("./threads")

    @evidence
    def test_provider(self, hardware):
        """The other tests of the provider."""
        env = {}
        for name, value in os.environ.items():
            if not name.startswith("PYTEST_"):
                env[name] = value
        env["KEYWRAP_ARCHIVES"] = str(hardware / "libkeywrap_hw.a")
        pytest_here = [sys.executable, "-m", "pytest", "-p", "no:xdist"]
        tests = ROOT / "tests/test_provider.py"
        run(*pytest_here, "-p", "no:cacheprovider", tests, env=env)

    @evidence
    @pytest.mark.needs("qemu-x86_64")
    def test_planted_bugs(self, built):
        """bugs.py runs the programs on emulated processors with and without AES instructions, hence qemu."""
        run(sys.executable, OWN / "bugs.py", built("hw.a"))


@pytest.fixture(scope="session")
def programs(once, request):
    """programs("here") is the directory of the programs of a build, over its libkeywrap_hw.so.1."""

    def compile_all(directory, library, compiler, openssl, *more):
        def compile_program(name, *words):
            run(*compiler, *OPTIONS, *words, *more, "-o", directory / name)

        compile_program("rows", ROOT / "tests/rows.c", library / "libkeywrap_hw.so.1")
        compile_program("chosen", OWN / "chosen.c", *SOURCES)
        if openssl:
            archive, *includes = openssl
            compile_program("compared", *includes, *COMPARING, archive)

    def provider(directory, library, archive, *words):
        run(
            "make",
            "-s",
            "-C",
            ROOT,
            "provider",
            "HARDWARE=1",
            f"LIBRARY={library}",
            f"ARCHIVE={archive}",
            f"PROVIDER={directory}",
            *words,
        )

    def here(directory):
        library = request.getfixturevalue("hardware")
        has_openssl = not missing("<openssl/evp.h>")
        compile_all(directory, library, ["cc"], ["-lcrypto"] * has_openssl)
        if has_openssl:
            built = request.getfixturevalue("built")
            in_place = f"HW_ARCHIVE={built('hw.a')}"
            provider(directory, library, built("llvm.a"), in_place)
            assert re.search(
                r"\bkeywrap_aes_encrypt\b", run("nm", directory / "keywrap.so")
            )

    def of_arm(*more):
        def build(directory):
            library = request.getfixturevalue("arm_hardware")
            openssl = [
                SYSROOT / "usr/lib/aarch64-linux-gnu/libcrypto.so",
                *OF_DEBIAN,
            ] * HAS_OPENSSL
            compile_all(directory, library, ["aarch64-linux-gnu-gcc"], openssl, *more)
            if HAS_OPENSSL:
                archive = request.getfixturevalue("built")("arm64") / "libkeywrap.a"
                in_place = request.getfixturevalue("built")("hw-arm64.a")
                provider(
                    directory,
                    library,
                    archive,
                    *ARM,
                    f"HW_ARCHIVE={in_place}",
                    f"CPPFLAGS={' '.join(OF_DEBIAN)}",
                )

        return build

    # Every processor of qemu has the instructions, so these programs replace getauxval.
    builds = {
        "here": here,
        "arm": of_arm(),
        "arm-without": of_arm("-rdynamic", OWN / "no_aes.c"),
    }
    return lambda name: once(f"hardware-programs-{name}", builds[name])


# An early processor of aarch64.
ON_ARM = [
    "qemu-aarch64",
    "-L",
    SYSROOT if HAS_OPENSSL else "/usr/aarch64-linux-gnu",
    "-cpu",
    "cortex-a53",
]
# The programs for each processor, how they run here, and the AES that they choose.
PROCESSORS = {
    "x86-64 with AES": ("here", ["qemu-x86_64", "-cpu", "max"], "instructions"),
    "x86-64 without AES": ("here", ["qemu-x86_64", "-cpu", "max,-aes"], "software"),
    "aarch64 with AES": ("arm", ON_ARM, "instructions"),
    "aarch64 without AES": ("arm-without", ON_ARM, "software"),
}


@pytest.fixture
def on(programs, hardware, request, monkeypatch):
    """on("x86-64 with AES", "rows", *words) runs this program there. Skips if it cannot be built."""

    def found(processor, name, *words):
        built, runs, _ = PROCESSORS[processor]
        need(runs[0], *["aarch64-linux-gnu-gcc"] * (built != "here"))
        library = (
            hardware if built == "here" else request.getfixturevalue("arm_hardware")
        )
        monkeypatch.setenv("KEYWRAP_VERSION", NAMES["VERSION"])
        directory = programs(built)
        if name == "compared":
            if built == "here":
                need("<openssl/evp.h>")
            elif not HAS_OPENSSL:
                pytest.skip(
                    f"no OpenSSL in {SYSROOT} (packaging/sysroot.sh '{SYSROOT}')"
                )
            words = [directory, *words]
        return [*runs, "-E", f"LD_LIBRARY_PATH={library}", directory / name, *words]

    return found


@slow
@pytest.mark.parametrize(
    "processor",
    [
        pytest.param(name, marks=evidence) if name == "aarch64 without AES" else name
        for name in PROCESSORS
    ],
)
class TestEachProcessor:
    def test_aes(self, on, processor):
        assert PROCESSORS[processor][2] in run(*on(processor, "chosen"))

    @pytest.mark.parametrize(
        "names",
        [("short", "foreign"), pytest.param((*kept(), "more"), marks=evidence)],
        ids=["short", "all"],
    )
    def test_rows(self, on, processor, names):
        faces.check("c", on(processor, "rows"), *names)

    @pytest.mark.parametrize(
        "part",
        [
            "parameters",
            pytest.param("sequences 200", marks=slow),
            *[
                pytest.param(part, marks=evidence)
                for part in ("lengths", "refusals few", "sequences 1000")
            ],
        ],
    )
    def test_provider(self, on, processor, part):
        run(*on(processor, "compared", *part.split()))
