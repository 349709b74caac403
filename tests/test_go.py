"""The Go module in dist/: its own tests, the rows of rows.txt over the library's AES and Go's, on other machines and
with sanitizers, the lines of dist/GO.md without a network, go-jose's tests over its key wrap."""

import os
import pathlib
import re
import shutil
import subprocess
import textwrap
import zipfile

import pytest

import faces
from builds import NAMES, ROOT, alone, run
from program import all_of, evidence, slow
from tools import need

pytestmark = pytest.mark.needs("go", "cc")

DIST = ROOT / "dist"
PROGRAMS = ROOT / "tests/go"
MODULE = "keywrap.example/keywrap"
VERSION = f"v{NAMES['VERSION']}"
SOURCES = [*sorted(DIST.glob("*.go")), DIST / "go.mod"]
# The other machines: the variables of a build, and what runs a program.
MACHINES = {
    "arm64": ({"GOARCH": "arm64", "CC": "aarch64-linux-gnu-gcc"}, "qemu-aarch64"),
    "s390x": ({"GOARCH": "s390x", "CC": "s390x-linux-gnu-gcc"}, "qemu-s390x"),
    "musl": ({"CC": "musl-gcc"}, None),
}


@pytest.fixture(scope="session")
def env(once):
    """An empty environment without the kit on the PATH and without a proxy. What is built is kept in its home."""
    home = once("go-home", lambda directory: None)
    return {
        "PATH": "/usr/bin:/bin",
        "HOME": str(home),
        "GOPROXY": "off",
        "GOFLAGS": "-modcacherw",
    }


@pytest.fixture
def module():
    """A copy of the module."""
    directory = pathlib.Path("module")
    directory.mkdir()
    for path in [*SOURCES, *DIST.glob("keywrap*.[ch]")]:
        shutil.copy(path, directory)
    return directory


@pytest.fixture
def program(env):
    """The directory of a program over dist/, with these files."""

    def make(*files):
        directory = pathlib.Path("program")
        directory.mkdir()
        run("go", "mod", "init", "example.org/program", cwd=directory, env=env)
        run(
            "go",
            "mod",
            "edit",
            "-require",
            f"{MODULE}@v0.0.0",
            "-replace",
            f"{MODULE}={DIST}",
            cwd=directory,
            env=env,
        )
        for file in files:
            shutil.copy(PROGRAMS / file, directory)
        return directory

    return make


def test_module(module, env):
    """Its tests, which run its examples, and nothing that gofmt or vet says. A key is cleared if the block cipher
    panics: not only the block, which a caller sees, too."""
    shutil.copy(PROGRAMS / "cleared_test.go", module)
    assert run("gofmt", "-l", ".", cwd=module, env=env) == ""
    vetted = subprocess.run(
        ["go", "vet", "./..."], cwd=module, env=env, capture_output=True, text=True
    )
    assert (vetted.returncode, vetted.stdout, vetted.stderr) == (0, "", "")
    output = run("go", "test", "-v", "./...", cwd=module, env=env)
    sources = "".join(path.read_text() for path in module.glob("*_test.go"))
    names = re.findall(r"^func ((?:Test|Example)\w*)\(", sources, re.M)
    assert sorted(re.findall(r"^--- PASS: (\w+)", output, re.M)) == sorted(names)
    assert len(names) >= 10


def test_calls_of_the_page(program, env):
    """The first lines of GO.md compile as they are, in one function, and each result is used."""
    page = (DIST / "GO.md").read_text()
    block = re.search(r"^    import .*\n(?:    .*\n|\n)*", page, re.M)[0]
    imported, *calls = textwrap.dedent(block).strip().splitlines()
    results = {
        name for line in calls for name in re.findall(r"\w+", line.partition(" := ")[0])
    }
    used = ", ".join(sorted(results - {"err"}))
    directory = program()
    (directory / "main.go").write_text(
        f"package main\n\n{imported}\n\n"
        "func calls(kek, newKEK, key []byte, list [][]byte) (any, error) {\n"
        + "".join(f"\t{line}\n" for line in calls if line)
        + f"\treturn []any{{{used}}}, err\n}}\n\nfunc main() {{}}\n"
    )
    run("go", "vet", "./...", cwd=directory, env=env)


@pytest.mark.parametrize(
    "variables",
    [{"CGO_ENABLED": "0"}, {"GOOS": "darwin"}],
    ids=["without cgo", "for macOS"],
)
def test_without_cgo(program, env, variables):
    """A build without cgo says what is missing, as GO.md has it."""
    (reason,) = re.findall(
        "`undefined: (.*?)`", " ".join((DIST / "GO.md").read_text().split())
    )
    directory = program()
    (directory / "main.go").write_text(
        f'package main\n\nimport _ "{MODULE}"\n\nfunc main() {{}}\n'
    )
    ended = subprocess.run(
        ["go", "build", "main.go"],
        cwd=directory,
        env={**env, **variables},
        capture_output=True,
        text=True,
    )
    assert ended.returncode != 0, ended
    assert f"undefined: {reason}\n" in ended.stderr, ended


@slow
@pytest.mark.parametrize(
    "option, tool",
    [("-race", "go"), pytest.param("-asan", "sanitizers of gcc", marks=evidence)],
)
def test_sanitizers(module, env, option, tool):
    """The race detector, and the addresses that C uses in Go's buffers."""
    need(tool)
    run("go", "test", "-short", option, "./...", cwd=module, env=env)


def runner(command, module, env):
    """Runs tests/go/rows_test.go over these lines."""

    def call(text):
        (module / "lines.txt").write_text(text)
        return run(
            *command,
            cwd=module,
            env={**env, "KEYWRAP_ROWS": f"{module.absolute()}/lines.txt"},
        )

    return call


@pytest.mark.parametrize(
    "names",
    [["rows"], pytest.param(["more", "foreign", "nist"], marks=slow)],
    ids=["kept", "all"],
)
def test_rows(module, env, names):
    shutil.copy(PROGRAMS / "rows_test.go", module)
    assert run("gofmt", "-l", ".", cwd=module, env=env) == ""
    faces.check(
        "go",
        runner(["go", "test", "-run", "TestRows", "-v", "./..."], module, env),
        *names,
    )


@pytest.mark.parametrize("name", all_of(MACHINES, [], []))
def test_other_machine(module, env, name):
    """The module's tests and the rows, as a static program."""
    variables, emulator = MACHINES[name]
    runs = [emulator] if emulator else []
    need(variables["CC"], *runs)
    there = {**env, **variables, "CGO_ENABLED": "1"}
    static = ["-ldflags", "-linkmode external -extldflags -static"]
    shutil.copy(PROGRAMS / "rows_test.go", module)
    run("go", "test", *static, "-c", "-o", "tests", ".", cwd=module, env=there)
    faces.check(
        "go",
        runner([*runs, "./tests", "-test.short", "-test.v"], module, env),
        "rows",
        "foreign",
    )


class TestReadme:
    PAGE = (DIST / "GO.md").read_text()
    # The lines that a reader types, before and after the sentence on `make go`.
    BEFORE, _, AFTER = PAGE.partition("## Use it")[2].partition("`make go`")
    LINE = "^    ((?:go|make|export) .*)"
    DIRECTORY = re.findall(LINE, BEFORE, re.M)
    PACKED = re.findall(LINE, AFTER, re.M)

    @pytest.mark.needs("no network")
    @slow
    @pytest.mark.parametrize("lines", [DIRECTORY, PACKED], ids=["directory", "packed"])
    def test_lines(self, program, env, lines):
        """Without a network, and without the kit on the PATH. The tests of the program fail if the module is wrong."""
        directory = program("program_test.go")
        (directory / "go.mod").write_text("module example.org/program\n\ngo 1.19\n")
        if lines is self.PACKED:
            # It writes into the repository.
            shutil.copytree(
                ROOT,
                "repository",
                ignore=lambda _, names: {"out", ".git", "crates"} & {*names},
            )
        given = {
            "HOME": os.getcwd(),
            "GOCACHE": f"{env['HOME']}/.cache/go-build",
            "KEYWRAP": DIST,
            "REPOSITORY": f"{os.getcwd()}/repository",
        }
        output = run(*alone(lines, **given), cwd=directory)
        assert re.search(r"^ok\s+example\.org/program\s", output, re.M)
        if lines is self.PACKED:
            assert re.search(rf"^ok\s+{re.escape(MODULE)}\s", output, re.M)
            assert f"{MODULE} {VERSION}\n" in run(
                *alone(["go list -m all"], **given), cwd=directory
            )
            run(
                *alone(["go mod vendor", "rm -r ~/go", "go test ./..."], **given),
                cwd=directory,
            )
        assert (directory / f"vendor/{MODULE}/keywrap.c").read_bytes() == (
            DIST / "keywrap.c"
        ).read_bytes()


def tracked_files(directory):
    """The files of a directory that git has, or would take."""
    flags = "--cached", "--others", "--exclude-standard"
    return run("git", "-C", ROOT, "ls-files", *flags, directory).split()


def test_packed_files(handed_out):
    """The files of the repository's dist/ but those of the program, under the name and the version."""
    with zipfile.ZipFile(handed_out("go") / MODULE / f"@v/{VERSION}.zip") as packed:
        found = {member: packed.read(member) for member in packed.namelist()}
    expected = {}
    for name in tracked_files("dist"):
        if not name.startswith("dist/command/"):
            member = name.replace("dist", f"{MODULE}@{VERSION}", 1)
            expected[member] = (ROOT / name).read_bytes()
    assert found == expected


@pytest.mark.needs("go-jose")
@slow
@pytest.mark.parametrize("package", ["./cipher", pytest.param(".", marks=evidence)])
def test_go_jose(env, package):
    """go-jose's own tests, of its key wrap and of all, with keywrap.Cipher over Go's AES for its key wrap."""
    need(*["go-cmp"] * (package == "."))
    there = pathlib.Path("go/src").absolute()
    shutil.copytree("/usr/share/gocode/src", there)
    shutil.copytree(DIST, there / MODULE)
    jose = there / "gopkg.in/square/go-jose.v2"
    shutil.copy(PROGRAMS / "key_wrap.go", jose / "cipher")
    for directory, name, calls in (".", "jose", "josecipher.Calls"), (
        "cipher",
        "josecipher",
        "Calls",
    ):
        imported = '"testing"' + '; josecipher "gopkg.in/square/go-jose.v2/cipher"' * (
            directory == "."
        )
        (jose / directory / "zz_test.go").write_text(
            f'package {name}\n\nimport ({imported})\n\nfunc TestZ(t *testing.T) {{ t.Log("calls:", {calls}) }}\n'
        )
    variables = {**env, "GO111MODULE": "off", "GOPATH": str(there.parent)}
    # In ./cipher, TestInvalidPaddingOpen, of AES-CBC, fails with some of the random bytes that it draws.
    only = ["-run", "KeyWrap|TestZ"] * (package == "./cipher")
    output = run("go", "test", "-v", *only, package, cwd=jose, env=variables)
    assert int(re.search(r"calls: (\d+)", output)[1]) >= 9
    assert (
        "--- PASS: "
        + ("TestAesKeyWrapInvalid" if package == "./cipher" else "TestRoundtripsJWE")
        in output
    )
