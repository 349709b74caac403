"""Fixtures: builds and packages. Each is made once, for all processes of pytest-xdist."""

import fcntl
import functools
import os
import pathlib
import shutil
import stat
import subprocess
import sys
import tarfile
import zipfile

import pytest

from tools import need

ROOT = pathlib.Path(__file__).resolve().parent.parent.parent


def run(*command, **options):
    """The standard output of a command that succeeds."""
    ended = subprocess.run(
        list(map(str, command)), capture_output=True, text=True, **options
    )
    assert (
        ended.returncode == 0
    ), f"{command[0]}: {ended.returncode}\n{ended.stdout[-2000:]}{ended.stderr[-2000:]}"
    return ended.stdout


def alone(lines, **env):
    """A command that runs lines of the shell with an empty environment, the system's commands and no network: a test
    that uses it needs "no network"."""
    given = [f"{name}={value}" for name, value in env.items()]
    return [
        "unshare",
        "-rn",
        "env",
        "-i",
        "PATH=/usr/bin:/bin",
        *given,
        "bash",
        "-ec",
        "\n".join(lines),
    ]


@pytest.fixture(scope="session")
def once(tmp_path_factory):
    """once("library", build) is a directory that the first process that asks for it makes with build(directory)."""
    base = tmp_path_factory.getbasetemp()
    base = base.parent if "PYTEST_XDIST_WORKER" in os.environ else base

    def make(name, build):
        directory = base / name
        made = base / f"{name}.made"
        with open(f"{directory}.lock", "w") as lock:
            fcntl.flock(lock, fcntl.LOCK_EX)
            if not made.exists():
                shutil.rmtree(directory, ignore_errors=True)
                mask = os.umask(0o022)
                directory.mkdir()
                build(directory)
                os.umask(mask)
                made.touch()
        return directory

    return make


@pytest.fixture(scope="session")
def built(once):
    """built("llvm.a") is a file or directory of tests/library/build.sh. KEYWRAP_BUILT=DIRECTORY: of the scripts' build.
    KEYWRAP_ARCHIVES is a list of paths: the last of them is in the place of llvm.a."""

    def find(name):
        if name == "llvm.a" and (
            archives := os.environ.get("KEYWRAP_ARCHIVES", "").split()
        ):
            return pathlib.Path(archives[-1]).absolute()

        given = os.environ.get("KEYWRAP_BUILT")
        directory = pathlib.Path(given) if given else once("built", lambda _: None)
        if not all(
            (directory / wanted).exists() for wanted in ("llvm.a", "rattle.a", name)
        ):
            need("rt")
        # It builds what is not there, and waits for another process that does.
        run(
            ROOT / "tests/library/build.sh",
            directory,
            *([] if name in ("llvm.a", "rattle.a") else [name]),
        )
        return directory / name

    return functools.cache(find)


def make_library(directory, archive, *words):
    run(
        "make",
        "-s",
        "-C",
        ROOT,
        "library",
        *words,
        f"LIBRARY={directory}",
        f"ARCHIVE={archive}",
    )


@pytest.fixture(scope="session")
def library(once, built):
    """The directory of `make library`."""
    return once("library", lambda directory: make_library(directory, built("llvm.a")))


STRICT = ["-O1", "-Wall", "-Wextra", "-Werror"]


def program_in_c(once, name, *options):
    """The path of the program as `make -C dist keywrap` builds it with these options, without a warning."""
    need("cc")
    flags = [*STRICT, "-DKEYWRAP_AES_INSTRUCTIONS_MUST_WORK", *options]

    def build(directory):
        shutil.copytree(ROOT / "dist/command", directory / "command")
        shutil.copy(ROOT / "dist/Makefile", directory)
        run("make", "-C", directory, "keywrap", f"CFLAGS={' '.join(flags)}")

    return once(name, build) / "keywrap"


@pytest.fixture(scope="session")
def in_c(once):
    """The path of the program in C."""
    return program_in_c(once, "program in C")


@pytest.fixture(scope="session")
def in_c_for_others(once):
    """The path of the program in C with what host.c has for systems other than Linux."""
    return program_in_c(once, "program in C for others", "-DKEYWRAP_HOST_NOT_LINUX")


@pytest.fixture(scope="session")
def portable():
    """The sources that everyone builds without the kit."""
    return ROOT / "dist"


VERSION = (ROOT / "VERSION").read_text().strip()
NAMES = {
    "VERSION": VERSION,
    "DEBIAN": VERSION.replace("-", "~"),
    "PYTHON": VERSION.replace("-dev", ".dev0"),
}
# Libraries and a wheel for this machine only, as Debian's Python builds them.
MACHINE = "TARGET=x86_64-unknown-linux-gnu"


def copied_tree(directory, program, archive):
    """A copy of the repository with the program and the archive, so that make there builds neither. Its rt only accepts
    `rt lib`."""
    tree = directory / "tree"
    tree.mkdir(parents=True)
    without = ["--exclude=.git", "--exclude=out", "--exclude=__pycache__"]
    packed = subprocess.Popen(
        ["tar", "-C", ROOT, *without, "-cf", "-", "."], stdout=subprocess.PIPE
    )
    run("tar", "-C", tree, "-xf", "-", stdin=packed.stdout)
    assert packed.wait() == 0
    for source, place in [
        (program, "keywrap/out/keywrap"),
        (archive, "keywrap_c/out/libkeywrap_c.a"),
    ]:
        (tree / "crates" / place).parent.mkdir()
        shutil.copy(source, tree / "crates" / place)
    (tree / "crates/keywrap/out/built_from").write_text(
        run(tree / "scripts/sources.sh")
    )
    (directory / "bin").mkdir()
    noted = f'echo "$*" >>{directory}/calls; exec /usr/bin/python3 "$@"'
    for name, script in [("rt", '[ "$1" = lib ]'), ("python3", noted)]:
        (directory / "bin" / name).write_text(f"#!/bin/sh\n{script}\n")
        (directory / "bin" / name).chmod(0o755)
    return tree


@pytest.fixture(scope="session")
def python():
    """The Python that builds the wheel: this one."""
    need(
        "import build",
        "import cffi",
        "import ensurepip",
        "import setuptools",
        "import wheel",
        "Python.h",
    )
    return sys.executable


@pytest.fixture(scope="session")
def words(library, built):
    """The variables with which make installs and packs what is built."""
    archives = [f"ARCHIVE={built('llvm.a')}", f"HW_ARCHIVE={built('hw.a')}"]
    return [f"LIBRARY={library}", *archives, MACHINE]


@pytest.fixture(scope="session")
def prefix(once, words):
    """The prefix where the library is installed."""
    return once(
        "library-installed",
        lambda directory: run(
            "make", "-s", "-C", ROOT, "install-library", *words, f"PREFIX={directory}"
        ),
    )


@pytest.fixture(scope="session")
def dist(once, words, built, python, program_path):
    """The directory of `make dist` for this machine."""
    need("rt", "musl-gcc")

    def build(directory):
        made = [f"PROGRAM={program_path}", f"JS={directory.parent}/dist.js"]
        run(
            "make",
            "-s",
            "-C",
            ROOT,
            "dist",
            *words,
            *made,
            f"DIST={directory}",
            f"PYTHON={python}",
            "-o",
            "build",
        )

    return once("dist", build)


@pytest.fixture(scope="session")
def wheel(once, words, python):
    """The wheel of `make wheel` for this machine."""
    need("rt")
    (made,) = once(
        "wheel",
        lambda directory: run(
            "make",
            "-s",
            "-C",
            ROOT,
            "wheel",
            *words,
            f"DIST={directory}",
            f"PYTHON={python}",
        ),
    ).glob("*.whl")
    return made


@pytest.fixture(scope="session")
def rotate_wheel(once, python):
    """The wheel of `make wheel-rotate`."""

    def build(directory):
        words = f"DIST={directory}", f"PYTHON={python}"
        run("make", "-s", "-C", ROOT, "wheel-rotate", *words)

    (made,) = once("wheel of rotation", build).glob("*.whl")
    return made


@pytest.fixture(scope="session")
def debs(once, built, program_path):
    """Debian's packages, built in tree/ over the program and the archives, and log."""
    need(
        "dpkg-buildpackage",
        "dh",
        "dh_python3",
        "import build",
        "import cffi",
        "import setuptools",
        "import wheel",
        "<openssl/evp.h>",
        "Python.h",
    )

    def build(directory):
        tree = copied_tree(directory, program_path, built("llvm.a"))
        shutil.copytree(tree / "packaging/debian", tree / "debian")
        path = f"{directory}/bin:/usr/sbin:/usr/bin:/sbin:/bin"
        log = run(
            "dpkg-buildpackage",
            "-b",
            "-us",
            "-uc",
            cwd=tree,
            env={**os.environ, "PATH": path, "HW_ARCHIVE": str(built("hw.a"))},
        )
        (directory / "log").write_text(log)

    return once("debs", build)


def package_of(debs, name):
    """The file of a package of Debian."""
    name = name.removeprefix("deb ")
    architecture = "all" if name == "keywrap-rotate" else "amd64"
    return debs / f"{name}_{NAMES['DEBIAN']}_{architecture}.deb"


def unpacked(archive, directory):
    """The only directory of a tar archive, which has no time, and whose members are of no user of this machine."""
    assert pathlib.Path(archive).read_bytes()[4:8] == bytes(4), archive
    with tarfile.open(archive) as packed:
        for member in packed:
            assert (member.uid, member.gid, member.mtime) == (
                0,
                0,
                1767225600,
            ), member.name
    directory.mkdir()
    run("tar", "-C", directory, "-xpzf", archive)
    return next(directory.iterdir())


@pytest.fixture
def handed_out(request, once, program_path):
    """handed_out("wheel") is the directory with all files of the wheel, as a user has it. Each test has a request of
    its own: pytest fails if a request asks twice for a fixture that was skipped."""

    def installed(goal, *more):
        def build(directory):
            run(
                "make",
                "-s",
                "-C",
                ROOT,
                goal,
                *request.getfixturevalue("words"),
                f"DESTDIR={directory}",
                "prefix=",
                f"PROGRAM={program_path}",
                "-o",
                "build",
                *more,
            )

        return build

    def hardware(directory):
        """Only the files that are not the library's."""
        words = [f"LIBRARY={directory}/build", *request.getfixturevalue("words")[1:]]
        for goal, words in [
            ("one", [*words, "HARDWARE=1"]),
            ("two", request.getfixturevalue("words")),
        ]:
            run(
                "make",
                "-s",
                "-C",
                ROOT,
                "install-library",
                *words,
                f"DESTDIR={directory}/{goal}",
                "prefix=",
            )
        for path in (directory / "two").rglob("*"):
            if path.is_symlink() or path.is_file():
                (directory / "one" / path.relative_to(directory / "two")).unlink()
        shutil.move(directory / "one/lib", directory / "lib")
        for name in "build", "one", "two":
            shutil.rmtree(directory / name)

    def wheel(fixture):
        def build(directory):
            with zipfile.ZipFile(request.getfixturevalue(fixture)) as files:
                files.extractall(directory)
                for member in files.infolist():
                    (directory / member.filename).chmod(
                        stat.S_IMODE(member.external_attr >> 16)
                    )

        return build

    def archive(pattern):
        def build(directory):
            (packed,) = request.getfixturevalue("dist").glob(pattern)
            for path in unpacked(packed, directory / "packed").iterdir():
                shutil.move(path, directory / path.name)
            shutil.rmtree(directory / "packed")

        return build

    def provider(directory):
        need("<openssl/evp.h>")
        installed(
            "install-provider", f"PROVIDER={directory}.built", "MODULESDIR=/modules"
        )(directory)
        shutil.rmtree(f"{directory}.built")

    def deb(name):
        return lambda directory: run(
            "dpkg-deb",
            "-x",
            package_of(request.getfixturevalue("debs"), name),
            directory,
        )

    def sdist_built(directory):
        """As pip installs it."""
        (packed,) = request.getfixturevalue("dist").glob(
            f"keywrap-{NAMES['PYTHON']}.tar.gz"
        )
        options = [
            "--no-build-isolation",
            "--no-index",
            "--no-deps",
            "--target",
            directory,
        ]
        run(request.getfixturevalue("python"), "-m", "pip", "install", *options, packed)

    makers = {
        "command": installed("install-command"),
        "library": installed("install-library"),
        "hardware": hardware,
        "provider": provider,
        "wheel": wheel("wheel"),
        "wheel-rotate": wheel("rotate_wheel"),
        "sdist": archive(f"keywrap-{NAMES['PYTHON']}.tar.gz"),
        "npm": archive("*.tgz"),
        "portable": archive("keywrap-portable-*"),
        "sdist built": sdist_built,
        "go": lambda directory: run("make", "-s", "-C", ROOT, "go", f"GO={directory}"),
        "archive of command": archive("keywrap-[0-9]*-linux.tar.gz"),
        "archive of library": archive("keywrap-library-*"),
    }

    def find(name):
        if name == "dist":
            return request.getfixturevalue("dist")
        return once(
            f"handed-out-{name}".replace(" ", "-"), makers.get(name) or deb(name)
        )

    return find
