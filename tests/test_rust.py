"""The Rust crate in dist/: its package, its own tests by each cargo here, rows.txt, the lines of dist/RUST.md
without a network, clippy, a program without std, other targets, RustCrypto's AES, what it leaves on the stack, and
planted bugs. test_erased.py has the proved code."""

import csv
import os
import pathlib
import re
import shutil
import subprocess
import tarfile
from typing import NamedTuple

import pytest

import edits
import faces
import test_secrets
import vectors
from builds import ROOT, alone, run
from hardware.bugs import bugs_of, plant
from machines import MACHINES
from program import all_of, evidence, slow
from tools import need

pytestmark = pytest.mark.needs("cargo", "cc", "crates of Debian")

DIST = ROOT / "dist"
OWN = ROOT / "tests/rust"
PAGE = (DIST / "RUST.md").read_text()
VERSION = (ROOT / "VERSION").read_text().strip()
REGISTRY = "/usr/share/cargo/registry"
WASM = "wasm32-unknown-unknown"
PACKAGE = '[package]\nname = "program"\nversion = "0.0.0"\nedition = "2021"\n'


def cargos():
    """The directories of the cargos here: Debian's, and one that is first on the PATH."""
    found = {"debian": "/usr/bin"} if pathlib.Path("/usr/bin/cargo").exists() else {}
    # rustup's cargo needs variables of the environment. The toolchain that it starts does not.
    sysroot = subprocess.run(
        ["rustc", "--print", "sysroot"], capture_output=True, text=True
    ).stdout.strip()
    if sysroot and pathlib.Path(sysroot, "bin/cargo").exists():
        found.setdefault("debian" if sysroot == "/usr" else "first", f"{sysroot}/bin")
    return found


CARGOS = cargos() if shutil.which("rustc") else {}
# Without a cargo each test still has a name, by which it is skipped.
NAMES = [*CARGOS] or ["no cargo"]


class Cargo:
    """cargo("test") in a directory, without a network, in an empty environment without the kit on the PATH."""

    def __init__(self, name, home):
        self.home = home / name
        self.path = CARGOS[name]
        self.env = {
            "PATH": f"{self.path}:/usr/bin:/bin",
            "HOME": str(self.home),
            "CARGO_TARGET_DIR": f"{self.home}/out",
        }
        configured = self.home / ".cargo/config.toml"
        configured.parent.mkdir(parents=True, exist_ok=True)
        configured.write_text(
            f'source.crates-io.replace-with = "debian"\nsource.debian.directory = "{REGISTRY}"\n'
        )

    def __call__(self, *words, cwd, **options):
        env = {**self.env, **options.pop("env", {})}
        return run("unshare", "-rn", "cargo", *words, cwd=cwd, env=env, **options)


@pytest.fixture(scope="session")
def home(once):
    """Builds are kept here."""
    need("no network")
    return once("rust", lambda directory: None)


@pytest.fixture
def cargo(home):
    return Cargo(next(iter(CARGOS)), home)


@pytest.fixture(scope="session")
def crate(once, home):
    """The unpacked package."""
    name = f"keywrap-{VERSION}"

    def build(directory):
        copied = directory / "dist"
        own_files = shutil.ignore_patterns("target", "Cargo.lock")
        shutil.copytree(DIST, copied, ignore=own_files)
        out = directory / "out"
        cargo = Cargo(next(iter(CARGOS)), home)
        cargo(
            "package",
            "--offline",
            "--no-verify",
            cwd=copied,
            env={"CARGO_TARGET_DIR": str(out)},
        )
        with tarfile.open(out / f"package/{name}.crate") as packed:
            packed.extractall(directory)

    return once("rust-crate", build) / name


def counted(output):
    """How many tests passed; none failed or was left out."""
    results = re.findall(
        r"^test result: ok\. (\d+) passed; 0 failed; 0 ignored; 0 measured; 0 filtered",
        output,
        re.M,
    )
    assert len(results) == len(re.findall("^test result", output, re.M))
    return sum(map(int, results))


DEFAULT = {"std", "alloc"}
TEST = re.compile(r'(?:#\[cfg\(feature = "(\w+)"\)\]\n\s*)?#\[test\]\n\s*fn (\w+)')


def asked_features(options):
    """The features of a build with these options of cargo."""
    asked = set() if "--no-default-features" in options else set(DEFAULT)
    for names in re.findall(r"--features (\S+)", options):
        asked.update(names.split(","))
    return asked


def names_in(path, features):
    """The names of a file's tests that a build with these features has."""
    if "c" in features and DIST / "src/aes" in path.parents:
        return []
    source = path.read_text()
    of_file = re.findall(r'^#!\[cfg\(feature = "(\w+)"\)\]', source, re.M)
    if not features.issuperset(of_file):
        return []
    return [
        name
        for feature, name in TEST.findall(source)
        if not feature or feature in features
    ]


def names_of(features):
    """The names of the tests that a build with these features has."""
    files = DIST.glob("**/*.rs")
    return sorted(name for path in files for name in names_in(path, features))


def passed(output):
    """The names of the tests that passed, without those of the documentation. None failed or was left out."""
    assert counted(output)
    names = re.findall(r"^test (?:\w+::)*(\w+) \.\.\. ok$", output, re.M)
    return sorted(names)


def test_files(crate):
    """The crate, and the C of the feature `c` as it is in dist/; nothing of Go."""
    files = {
        str(path.relative_to(crate)) for path in crate.rglob("*") if path.is_file()
    }
    own = {
        str(path.relative_to(DIST))
        for name in ("src", "tests")
        for path in (DIST / name).rglob("*.rs")
    }
    copied = own | {
        "README",
        "RUST.md",
        "build.rs",
        "keywrap.c",
        "keywrap.h",
        "keywrap_steps.h",
    }
    assert files - {"Cargo.lock"} == copied | {"Cargo.toml", "Cargo.toml.orig"}
    for name in copied:
        assert (crate / name).read_bytes() == (DIST / name).read_bytes()


class TestPage:
    """The lines of RUST.md."""

    @slow
    def test_tests(self, cargo, crate):
        """Those without a network run all tests of the crate, without another configuration."""
        (lines,) = re.findall(r"^    (cargo --config .*\\\n.*)", PAGE, re.M)
        output = run(
            *alone([lines], **cargo.env, CARGO_HOME=f"{cargo.home}/empty"), cwd=crate
        )
        expected = names_of(DEFAULT)
        assert passed(output) == expected
        # The documentation has five.
        assert counted(output) == len(expected) + 5

    @slow
    @pytest.mark.needs("git")
    @pytest.mark.parametrize("way", ["path", "git"])
    def test_program(self, cargo, way):
        """A program with the example, to which the line adds the crate by its path or from a clone, and whose own
        configuration is the page's."""
        example = re.search(r"^    use keywrap(?:.*\n)*?(?=^\S)", PAGE, re.M)[0]
        (line,) = re.findall(f"^    (cargo add .*--{way} .*)", PAGE, re.M)
        pathlib.Path("program/src").mkdir(parents=True)
        pathlib.Path("program/.cargo").mkdir()
        sources = re.findall(r"^    (source\..*\n)", PAGE, re.M)
        pathlib.Path("program/.cargo/config.toml").write_text("".join(sources))
        pathlib.Path("program/Cargo.toml").write_text(PACKAGE)
        pathlib.Path("program/src/main.rs").write_text(
            "fn main() -> Result<(), Box<dyn std::error::Error>> {\nlet (bytes, key) = ([7; 32], [5; 16]);\n"
            f'{example}\nprintln!("done");\nOk(())\n}}\n'
        )
        run("git", "clone", "-q", ROOT, "clone")
        env = {
            **cargo.env,
            "CARGO_HOME": os.path.abspath("empty"),
            "CARGO_TARGET_DIR": os.path.abspath("out"),
            "KEYWRAP": os.path.abspath("clone/dist"),
            "REPOSITORY": f"file://{os.path.abspath('clone')}",
        }
        lines = [line, "cargo build", "cargo run --offline"]
        assert run(*alone(lines, **env), cwd="program") == "done\n"
        # No C was compiled.
        out = pathlib.Path("out")
        assert not [*out.rglob("cc-*"), *out.rglob("libkeywrap.a")]

    def test_version(self):
        """RUST.md and Cargo.toml have the same oldest Rust."""
        oldest = re.search(
            '^rust-version = "(.*)"$', (DIST / "Cargo.toml").read_text(), re.M
        )[1]
        assert f"needs Rust {oldest} or newer" in " ".join(PAGE.split())


FEATURES = [
    "--no-default-features",
    "--no-default-features --features alloc,tables",
    "--features zeroize",
    "--features zeroize,c",
]


@pytest.mark.parametrize("name", NAMES)
@pytest.mark.parametrize("features", all_of(FEATURES, []))
def test_features(name, home, crate, features):
    cargo = Cargo(name, home)
    output = cargo("test", "--offline", *features.split(), cwd=crate)
    assert passed(output) == names_of(asked_features(features))
    assert "warning" not in output


@pytest.mark.parametrize("name", all_of(NAMES, [], NAMES[:1]))
def test_lints(name, home, crate):
    """No warning of the compiler, of clippy or of rustdoc."""
    cargo = Cargo(name, home)
    if name == "debian":
        need("clippy of Debian")
    elif not pathlib.Path(cargo.path, "cargo-clippy").exists():
        pytest.skip(f"no cargo-clippy in {cargo.path}")
    for features in FEATURES:
        cargo(
            "clippy",
            "--offline",
            "--all-targets",
            *features.split(),
            "--",
            "-D",
            "warnings",
            cwd=crate,
        )
    cargo(
        "doc", "--offline", "--no-deps", cwd=crate, env={"RUSTDOCFLAGS": "-D warnings"}
    )


def test_formatted():
    """As rustfmt writes it."""
    need("rustfmt")
    sources = DIST / "build.rs", DIST / "src/lib.rs", *(DIST / "tests").glob("*.rs")
    run("rustfmt", "--check", "--edition", "2021", *sources)


def program(directory, source, crate, features, more):
    """Writes a package over the crate, with a source of tests/rust."""
    directory.mkdir()
    shutil.copy(OWN / source, directory)
    (directory / "Cargo.toml").write_text(
        f'{PACKAGE}{more}[dependencies]\nkeywrap = {{ path = "{crate}"{features} }}\n'
    )


@pytest.fixture(scope="session")
def crate_with_rows(once, crate):
    """A copy of the crate in which rows.rs is one of its tests."""

    def build(directory):
        shutil.copytree(crate, directory / "copy")
        shutil.copy(OWN / "rows.rs", directory / "copy/tests")

    return once("rust-rows", build) / "copy"


def runner(cargo, crate, face, features="std", **more):
    """Runs rows.rs over the lines for one of the faces, by a crate with these features."""

    def call(text):
        pathlib.Path("lines.txt").write_text(text)
        env = {
            "KEYWRAP_ROWS": os.path.abspath("lines.txt"),
            "CARGO_PROFILE_TEST_OPT_LEVEL": "1",
            **more,
            "KEYWRAP_WAY": FACES[face],
        }
        return cargo(
            "test",
            "--offline",
            "--features",
            features,
            "--test",
            "rows",
            "--",
            "--nocapture",
            cwd=crate,
            env=env,
        )

    return call


# Into buffers and in place, as a Vec, and by steps.
FACES = {"rust": "", "rust vec": "_vec", "rust steps": "_steps"}


@pytest.mark.needs("<openssl/evp.h>")
@pytest.mark.parametrize(
    "name",
    ["rows", *(pytest.param(name, marks=slow) for name in ("more", "foreign", "nist"))],
)
@pytest.mark.parametrize("face", all_of(FACES, ["rust"]))
def test_rows(cargo, crate_with_rows, face, name):
    faces.check(face, runner(cargo, crate_with_rows, face), name)


@pytest.mark.needs("<openssl/evp.h>")
@pytest.mark.parametrize("face", all_of(FACES, [], ["rust"]))
@pytest.mark.parametrize("features", ["tables", "c"])
def test_rows_of_features(cargo, crate_with_rows, features, face):
    """The tables and keywrap.c give the same answers, byte for byte."""
    faces.check(face, runner(cargo, crate_with_rows, face, features), "rows")


@slow
def test_without_std(cargo, crate):
    """A library with a panic handler of its own, which a program in C calls."""
    directory = pathlib.Path("program")
    program(
        directory,
        "no_std.rs",
        crate,
        ", default-features = false",
        '[lib]\npath = "no_std.rs"\ncrate-type = ["staticlib"]\n[profile.dev]\npanic = "abort"\n',
    )
    cargo("build", "--offline", cwd=directory)
    pathlib.Path("main.c").write_text(
        "_Bool wraps(void);\nint main(void) { return wraps() ? 0 : 1; }\n"
    )
    run("cc", "main.c", f"{cargo.home}/out/debug/libprogram.a", "-o", "main")
    run("./main")


@slow
@pytest.mark.needs("std of Rust for wasm32", "cargo of Debian", "wasm-ld", "node")
def test_wasm32(home, crate):
    """The library without std, as WebAssembly that Node runs. It imports nothing."""
    directory = pathlib.Path("program")
    program(
        directory,
        "no_std.rs",
        crate,
        ", default-features = false",
        '[lib]\npath = "no_std.rs"\ncrate-type = ["cdylib"]\n'
        '[profile.release]\npanic = "abort"\n',
    )
    cargo = Cargo("debian", home)
    linker = {"CARGO_TARGET_WASM32_UNKNOWN_UNKNOWN_LINKER": "wasm-ld"}
    words = ["build", "--offline", "--release", "--target", WASM]
    cargo(*words, cwd=directory, env=linker)
    module = f"{cargo.home}/out/{WASM}/release/program.wasm"
    script = (
        f"const module = new WebAssembly.Module(require('fs').readFileSync('{module}'))\n"
        "const { exports } = new WebAssembly.Instance(module)\n"
        "console.log(WebAssembly.Module.imports(module).length, exports.wraps())\n"
    )
    assert run("node", "-e", script) == "0 1\n"


@slow
@pytest.mark.needs("RustCrypto's aes of Debian")
def test_rustcrypto(cargo, crate):
    """The page's BlockPair over RustCrypto's AES, over the published vectors."""
    directory = pathlib.Path("program")
    more = '[lib]\npath = "rustcrypto.rs"\n'
    program(directory, "rustcrypto.rs", crate, "", more)
    with open(directory / "Cargo.toml", "a") as manifest:
        manifest.write('aes = "0.6"\n')
    (example,) = re.findall(r"^    use aes(?:.*\n)*?(?=^\S)", PAGE, re.M)
    source = directory / "rustcrypto.rs"
    source.write_text(re.sub("^    ", "", example, flags=re.M) + source.read_text())
    lines = [
        ("plain", vectors.KEK16, vectors.KEY16, vectors.WRAPPED16),
        ("plain", vectors.KEK24, vectors.KEY16, vectors.WRAPPED24),
        ("plain", vectors.KEK32, vectors.KEY16, vectors.WRAPPED32),
        ("plain", vectors.KEK24, vectors.KEY24, vectors.KEY24_UNDER_24),
        ("plain", vectors.KEK32, vectors.KEY24, vectors.KEY24_UNDER_32),
        ("plain", vectors.KEK32, vectors.KEY32, vectors.KEY32_UNDER_32),
        ("padded", vectors.KEK5649, vectors.KEY20, vectors.WRAPPED20),
        ("padded", vectors.KEK5649, vectors.KEY7, vectors.WRAPPED7),
    ]
    file = pathlib.Path("vectors")
    file.write_text("".join(" ".join(line) + "\n" for line in lines))
    words = ["test", "--offline", "--", "--nocapture"]
    output = cargo(*words, cwd=directory, env={"VECTORS": str(file.absolute())})
    assert f"{len(lines)} vectors\n" in output


@pytest.fixture(scope="session")
def crate_for_c(once, home, crate):
    """for_c(name, features) is a static library of a copy of the crate that exports.rs makes calls of C of."""

    def make(name, features):
        def build(directory):
            copy = pathlib.Path(shutil.copytree(crate, directory / "copy"))
            shutil.copy(OWN / "exports.rs", copy / "src")
            with open(copy / "src/lib.rs", "a") as library:
                library.write("mod exports;\n")
            manifest = (copy / "Cargo.toml").read_text()
            is_static = '[lib]\ncrate-type = ["staticlib"]\n\n[features]'
            manifest = manifest.replace("[features]", is_static)
            (copy / "Cargo.toml").write_text(manifest)
            Cargo(name, home)(
                *["build", "--offline", "--release", "--features", features],
                cwd=copy,
                env={"CARGO_TARGET_DIR": str(directory / "out")},
            )

        directory = once(f"rust-for-c-{name}-{features}", build)
        return directory / "out/release/libkeywrap.a"

    return make


@pytest.mark.parametrize("name", all_of(NAMES, [], NAMES[:1]))
@pytest.mark.parametrize("features", all_of(["std", "tables"], ["std"]))
def test_stack(crate_for_c, name, features):
    """In a release build nothing below the stack pointer depends on a KEK or a key after a call. The first one tries
    known answers, and so leaves other bytes than the second."""
    archive = crate_for_c(name, features)
    lines = test_secrets.left_on_the_stack(MACHINES["here"], archive)
    left = [words for words in lines[1:] if words[3:7] != ["0"] * 4]
    assert left == []


@slow
@pytest.mark.needs("valgrind", "<valgrind/memcheck.h>", "the processor's AES")
def test_branches_and_addresses(crate_for_c):
    """With AES instructions no branch and no address of a wrap depends on a secret. Each unwrap has reports."""
    archive = crate_for_c(NAMES[0], "std")
    sources = test_secrets.SOURCES
    options = test_secrets.OPTIONS
    run("cc", *options, *sources, archive, "-o", "secrets")
    found = test_secrets.reports(["valgrind"], "40")
    wraps = [count for call, count in found if call.startswith("keywrap_wrap")]
    unwraps = [count for call, count in found if call.startswith("keywrap_unwrap")]
    assert wraps, found
    assert not any(wraps), found
    assert unwraps, found
    assert all(unwraps), found


class Other(NamedTuple):
    """Another machine: the target of Rust, how the names of its tools begin, its emulator, and Debian's name for it."""

    target: str
    tools: str
    emulator: str
    architecture: str

    def sysroot(self):
        """Debian's std of Rust for it, or skips the test."""
        need(f"{self.tools}-gcc", self.emulator, "cargo of Debian")
        cache = os.environ.get("XDG_CACHE_HOME", os.path.expanduser("~/.cache"))
        root = pathlib.Path(cache, f"keywrap/sysroot-{self.target}/usr")
        if not list(root.glob(f"lib/rustlib/{self.target}/lib/libstd-*.rlib")):
            command = f"ARCHITECTURE={self.architecture} packaging/sysroot.sh"
            pytest.skip(f"no std of Rust in {root} ({command})")
        return root


OTHERS = {
    "aarch64": Other(
        "aarch64-unknown-linux-gnu", "aarch64-linux-gnu", "qemu-aarch64", "arm64"
    ),
    "i686": Other("i686-unknown-linux-gnu", "i686-linux-gnu", "qemu-i386", "i386"),
    "s390x": Other("s390x-unknown-linux-gnu", "s390x-linux-gnu", "qemu-s390x", "s390x"),
}


@evidence
@pytest.mark.parametrize("features", ["zeroize", "zeroize,tables", "zeroize,c"])
@pytest.mark.parametrize("name", OTHERS)
def test_other_machines(home, crate, name, features):
    """The crate's tests by Debian's cargo under qemu: with the instructions of aarch64 and without, with addresses of
    32 bits, and with the highest byte of a number first."""
    other = OTHERS[name]
    of_target = f"CARGO_TARGET_{other.target.upper().replace('-', '_')}"
    words = ["--offline", "--features", features, "--target", other.target]
    env = {
        f"{of_target}_RUSTFLAGS": f"--sysroot={other.sysroot()}",
        f"{of_target}_LINKER": f"{other.tools}-gcc",
        f"{of_target}_RUNNER": f"{other.emulator} -L /usr/{other.tools}",
        # qemu-i386 hangs in a program with several threads.
        "RUST_TEST_THREADS": "1",
    }
    output = Cargo("debian", home)("test", *words, cwd=crate, env=env)
    assert passed(output) == names_of(DEFAULT | {*features.split(",")})


@pytest.fixture
def seen_by(cargo, crate, crate_with_rows):
    """seen_by(edit) is what finds a fault in a copy of the crate after edit(copy): "tests", which are the crate's, or
    "rows", or None. One copy is used for all edits."""
    need("<openssl/evp.h>")
    copy = pathlib.Path(shutil.copytree(crate_with_rows, "copy"))
    target = os.path.abspath("out")
    lines = pathlib.Path("none.txt")
    lines.touch()
    env = {
        **cargo.env,
        "CARGO_TARGET_DIR": target,
        "KEYWRAP_ROWS": str(lines.absolute()),
    }

    def find(edit, features):
        shutil.copytree(crate / "src", copy / "src", dirs_exist_ok=True)
        edit(copy)
        given = "zeroize" + features
        tests = ["cargo", "test", "--offline", "--features", given, "--lib", "--tests"]
        # An edit that does not compile catches nothing.
        run(*tests, "--no-run", cwd=copy, env=env)
        ended = subprocess.run(tests, cwd=copy, env=env, capture_output=True)
        if ended.returncode:
            return "tests"
        is_seen = any(
            faces.has_fault(
                face,
                runner(cargo, copy, face, given, CARGO_TARGET_DIR=target),
                "rows",
            )
            for face in FACES
        )
        return "rows" if is_seen else None

    return find


@evidence
def test_bugs_are_caught(seen_by):
    """Each edit of bugs.txt is seen. Some are of code that only a feature has."""
    assert seen_by(lambda copy: None, "") is None
    survived = []
    for bug, (file, *_) in bugs_of("rust").items():
        features = ""
        if file == "src/sys.rs":
            features = ",c"
        if bug.startswith("tables"):
            features = ",tables"
        if seen_by(lambda copy: plant("rust", bug, copy), features) is None:
            survived.append(bug)
    assert survived == []


def must_fail_edit(name, copy):
    """Makes an edit of the crates, named as CRATE/NAME, in the proved code of a copy."""
    crate, _, edit_name = name.partition("/")
    of_both = [*edits.of_gate(), *edits.of_release()]
    [edit] = [edit for edit in of_both if (edit.crate, edit.name) == (crate, edit_name)]
    for file, *texts in edit.changes:
        module = file.removeprefix("src/").removesuffix(".rt")
        module = "mod" if module == "lib" else module
        source = copy / "src/proved" / crate / f"{module}.rs"
        paths = f"crate::proved::{crate}::"
        old, new = (text.replace("crate::", paths) for text in texts)
        code = source.read_text()
        assert code.count(old) == 1, name
        source.write_text(code.replace(old, new))


MUST_FAIL = list(csv.DictReader((OWN / "must_fail.csv").open()))


@evidence
def test_must_fail_edits(seen_by):
    """Each of these edits, which the prover refuses, is found in the Rust by the tests or the rows, as it says, or by
    none for the reason that it gives."""
    assert len(MUST_FAIL) >= 10
    wrong = []
    for edit in MUST_FAIL:
        found = seen_by(
            lambda copy: must_fail_edit(edit["edit"], copy), edit["features"]
        )
        is_reason = edit["seen by"] not in ("tests", "rows")
        if not (is_reason if found is None else found == edit["seen by"]):
            wrong.append((edit["edit"], found))
    assert wrong == []
