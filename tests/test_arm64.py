"""The C library and the Python package for aarch64, by Debian's cross compiler, under qemu: the library's names and
instructions, its rows, what is packed, the package's tests. test_secrets.py and test_hardware.py run over it, too."""

import os
import re
import subprocess
import sys
import zipfile

import pytest

import faces
from builds import NAMES, ROOT, run, unpacked
from machines import (
    ARM,
    MACHINES,
    STRICT,
    SYSROOT,
    check_glibc,
    check_library,
    need_sysroot,
    shown,
)
from program import evidence, slow
from vectors import WRAPPED24

pytestmark = [slow, pytest.mark.needs("aarch64-linux-gnu-gcc", "qemu-aarch64")]
CC, TOOLS, RUNS, _ = MACHINES["aarch64"]
PYTHON = ["qemu-aarch64", "-L", SYSROOT, f"{SYSROOT}/usr/bin/python3", "-B"]
PACKED = f"keywrap-library-{NAMES['VERSION']}-aarch64-linux"
WHEEL = f"keywrap-{NAMES['PYTHON']}-cp39-abi3-manylinux_2_17_aarch64.whl"


@pytest.fixture
def library(built):
    return built("arm64")


@pytest.fixture(scope="session")
def making(once, built):
    """making("dist") is the directory with what this goal of make packs."""

    def made(goal):
        archive = built("arm64") / "libkeywrap.a"
        make = ["make", "-s", "-C", ROOT, goal, *ARM]
        variables = [f"ARCHIVE={archive}", f"PYTHON={sys.executable}"]

        def build(directory):
            places = [f"LIBRARY={directory}.library", f"DIST={directory}"]
            run(*make, *variables, *places)

        return once(f"arm64-{goal}", build)

    return made


@pytest.fixture
def packed(making, tmp_path):
    return unpacked(making("dist-library") / f"{PACKED}.tar.gz", tmp_path / "unpacked")


@pytest.fixture(scope="session")
def dist(making, python):
    """The archive that `make dist` packs."""
    need_sysroot()
    return making("dist")


@pytest.fixture(scope="session")
def site(once, dist):
    """The directory of the unpacked wheel."""

    def build(directory):
        with zipfile.ZipFile(dist / WHEEL) as files:
            files.extractall(directory)

    return once("arm64-site", build)


def are_arm(*files):
    """All objects in these files are for aarch64."""
    listed = run("readelf", "-h", *files, env={**os.environ, "LC_ALL": "C"})
    return set(re.findall(r"^ *Machine: *(.*)", listed, re.M)) == {"AArch64"}


class TestLibrary:
    def test_names_and_needs(self, library):
        assert are_arm(library / "libkeywrap.a", library / "libkeywrap.so.1")
        check_library(library, tools=TOOLS)

    def test_instructions(self, library):
        """It has the processor's byte shuffles, and no instruction that a processor may lack."""
        code = run(
            f"{TOOLS}objdump", "-d", "--no-show-raw-insn", library / "libkeywrap.a"
        )
        used = [line.split()[1] for line in code.splitlines() if len(line.split()) > 1]
        assert used.count("tbl") > 100
        assert [
            name
            for name in used
            if re.fullmatch("aes.*|sha.*|pmull2?|tbx|sdot|udot", name)
        ] == []

    @evidence
    def test_rows(self, library):
        """Over the shared object, on an early processor."""
        run(
            CC,
            *STRICT,
            "-O2",
            ROOT / "tests/rows.c",
            library / "libkeywrap.so.1",
            "-o",
            "program",
        )
        early = [*RUNS, "-cpu", "cortex-a53", "-E", f"LD_LIBRARY_PATH={library}"]
        faces.check("c", [*early, "./program"], "rows")


class TestPacked:
    @pytest.mark.needs("pkg-config")
    def test_c_example(self, packed):
        places = {**os.environ, "PKG_CONFIG_PATH": f"{packed}/lib/pkgconfig"}
        flags = run("pkg-config", "--cflags", "--libs", "keywrap", env=places).split()
        source = ROOT / "c/examples/c/wrap.c"
        run(CC, "-std=c99", source, *flags, "-o", "example")
        library_path = f"LD_LIBRARY_PATH={packed}/lib"
        assert WRAPPED24 in run(*RUNS, "-E", library_path, "./example")


class TestDist:
    def test_files(self, dist):
        version = NAMES["VERSION"]
        assert {path.name for path in dist.iterdir()} == {
            "SHA256SUMS",
            WHEEL,
            f"keywrap-{version}.cdx.json",
            f"{PACKED}.tar.gz",
            f"keywrap-{version}-aarch64-linux-static.tar.gz",
        }
        run("sha256sum", "-c", "--strict", "SHA256SUMS", cwd=dist)
        trust = ROOT / "generate/trust.py"
        run(sys.executable, trust, "--check-hashes", dist / "SHA256SUMS")

    def test_extension(self, site):
        extension = site / "keywrap/_ffi.abi3.so"
        assert are_arm(extension)
        assert shown(extension, "-D", tools=TOOLS) == ["PyInit__ffi"]
        check_glibc(extension, TOOLS)

    def test_python_takes_the_wheel(self, dist):
        """It accepts the tags in the wheel's name."""
        run(
            *PYTHON,
            "-c",
            "import sys; from packaging import tags, utils\n"
            "assert utils.parse_wheel_filename(sys.argv[1])[3] & set(tags.sys_tags())",
            WHEEL,
        )

    @evidence
    def test_of_the_package(self, site):
        """No test of the package fails or is skipped. Tests of threads are left out, and tests that start other
        programs, which qemu cannot: one_exception, keywrap.rotate, keywrap.vectors and install(). The memory of an
        emulator is not that of the calls."""
        left_out = "not thread and not one_exception and not pyca_installed and not take_no_memory"
        files = sorted((ROOT / "python/tests").glob("test_[!rv]*.py"))
        pytest_there = [*PYTHON, "-m", "pytest", "-q", "-p", "no:cacheprovider"]
        env = {**os.environ, "PYTHONPATH": str(site), "KEYWRAP_CALLS": "10000"}
        ended = subprocess.run(
            [*pytest_there, "-k", left_out, *files],
            capture_output=True,
            text=True,
            env=env,
        )
        counts = re.findall(r"^[0-9]+ passed.*", ended.stdout, re.M)
        assert counts, ended.stdout
        assert not re.search("skipped|failed|error", counts[-1]), ended.stdout
