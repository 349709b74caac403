"""The Python package: its wheel is installed as README says, and its own tests and published cases run there.
test_handed_out.py compares its files and fields, test_dist.py builds the wheel a second time."""

import os
import pathlib
import re
import shutil
import subprocess
import sys
import textwrap

import pytest

import faces
import published
import tokens
from builds import NAMES, ROOT, alone, run
from machines import WITH_SSE41, WITHOUT_SSE41
from program import all_of, evidence, slow
from vectors import WRAPPED16, WRAPPED32

# The directories with own tests: of the package, and of the rotation over it.
TESTS = ROOT / "python/tests", ROOT / "rotation/tests"
# The lines of the pages: an environment, the package over portable C, its use, and the wheel; for the rotation an
# environment, both packages, the version, and the wheels.
LINES, ROTATION_LINES = (
    re.findall(
        r"^    ((?:python3 -m venv|env/bin/).*)", (ROOT / page).read_text(), re.M
    )
    for page in ("python/README.md", "rotation/README.md")
)


def test_make_wheel_without_build(python):
    """A Python that lacks what it builds by is refused, with what to install, and nothing is built."""
    run(python, "-m", "venv", "--without-pip", "bare")
    here = os.getcwd()
    variables = [f"LIBRARY={here}/library", f"PYTHON={here}/bare/bin/python3"]
    command = ["make", "-s", "-C", ROOT, "wheel", *variables]
    ended = subprocess.run(command, capture_output=True, text=True)
    assert ended.returncode != 0
    assert not os.path.exists("library")
    packages = "python3-build python3-cffi python3-setuptools python3-wheel"
    assert f"apt-get install {packages}" in ended.stderr


@pytest.mark.needs("import cffi", "import setuptools")
def test_a_command_that_does_not_compile():
    """Then there is no package."""
    words = (
        sys.executable,
        "-B",
        "setup.py",
        "-q",
        "build_scripts",
        f"--build-dir={os.getcwd()}/out",
    )
    env = {**os.environ, "CC": "false"}
    ended = subprocess.run(
        words, cwd=ROOT / "python", env=env, capture_output=True, text=True
    )
    assert ended.returncode != 0, ended.stderr
    assert "CalledProcessError" in ended.stderr, ended.stderr


@slow
def test_make_wheel_names_it_last(words, python, dist):
    variables = [*words, f"DIST={os.getcwd()}", f"PYTHON={python}"]
    output = run("make", "-s", "-C", ROOT, "wheel", *variables)
    (wheel,) = pathlib.Path().glob("*.whl")
    assert output.splitlines()[-1] == str(wheel.absolute())
    assert wheel.read_bytes() == (dist / wheel.name).read_bytes()


def test_metadata(handed_out):
    """Its description links to no file, and it has classifiers, but none of a licence."""
    (path,) = handed_out("wheel").glob("*.dist-info/METADATA")
    text = path.read_text()
    links = re.findall(r"\]\(([^)]*)", text)
    assert links
    assert all(link.startswith("https://") for link in links)
    assert len(re.findall("^Classifier: (.*)", text, re.M)) >= 5
    fields = text.partition("\n\n")[0]
    assert not re.search("^(Classifier: )?licen[cs]e", fields, re.M | re.I)


def test_stripped_extension(handed_out):
    extension = handed_out("wheel") / "keywrap/_ffi.abi3.so"
    listed = subprocess.run(["nm", extension], capture_output=True, text=True)
    assert "no symbols" in listed.stderr
    assert ".debug" not in run("readelf", "-S", extension)


@pytest.fixture(scope="session")
def installed(once, wheel, rotate_wheel, python):
    """The Python of an environment with both wheels, by the pages' lines. The last one wraps as OpenSSL does."""

    def build(directory):
        for name in "out", "first":
            (directory / name).mkdir()
        for built in wheel, rotate_wheel:
            shutil.copy(built, directory / "out")
        (directory / "first/python3").symlink_to(python)
        environment, _, example, _, of_wheel = LINES
        *_, of_rotation = ROTATION_LINES
        script = "\n".join([environment, of_wheel, of_rotation, example])
        path = f"{directory}/first:{os.environ['PATH']}"
        env = {**os.environ, "PATH": path, "PIP_NO_INDEX": "1"}
        output = run("bash", "-ec", script, cwd=directory, env=env)
        last_line = output.splitlines()[-1]
        assert last_line == "b595a1c0afbe7a89ce43807cb3b2ba5737ff5d71d0a35cd7"

    return once("python-installed", build) / "env/bin/python3"


@slow
@pytest.mark.needs(
    "no network",
    "git",
    "cc",
    "import cffi",
    "import ensurepip",
    "import setuptools",
    "import wheel",
    "Python.h",
)
@pytest.mark.parametrize(
    "address",
    ["./python", pytest.param("git+file://$PWD#subdirectory=python", marks=evidence)],
)
def test_from_a_clone(address):
    """pip installs the package over portable C, without the kit and without a network, from the directory or by its
    address; help() names the modules. Then both packages are installed, with other flags: the rotation's page is there,
    and keywrap.rotate forwards to it. What pip leaves in the sources is ignored."""
    run("git", "clone", "-q", ROOT, "clone")
    _, of_both, version, _ = ROTATION_LINES
    lines = [line.replace("./python", f'"{address}"') for line in LINES[:3]]
    more = (
        "env/bin/python3 -c 'import keywrap; help(keywrap)'",
        "env/bin/python3 -m keywrap.rotate 2>&1 || [ $? = 2 ]",
        f"CPPFLAGS=-DKEYWRAP_NO_AES_INSTRUCTIONS {of_both}",
        version,
        "env/bin/python3 -m keywrap.rotate --version",
        "diff env/lib/python3*/site-packages/keywrap_rotate/ROTATION.md docs",
        '[ -z "$(objdump -d env/lib/python3*/site-packages/keywrap/_ffi*.so | grep aesenc)" ]',
        "git status --short",
    )
    output = run(*alone([*lines, *more], HOME=os.getcwd()), cwd="clone")
    assert "b595a1c0afbe7a89ce43807cb3b2ba5737ff5d71d0a35cd7\n" in output
    for name in "steps", "pyca", "rotate", "vectors":
        assert f"keywrap.{name}" in output
    missing = "the rotation is in the package keywrap-rotate, which is not installed"
    assert f"keywrap.rotate: {missing}\n" in output
    # Nothing follows the versions: git names no file that is not ignored.
    versions = f"keywrap-rotate {NAMES['PYTHON']}\n"
    assert output.count(versions) == 2
    assert output.endswith(versions)


def test_version(installed):
    """The package has the version of the program, and so has its METADATA; the library in it the numbers."""
    program = """
import importlib.metadata, keywrap
number = keywrap._ffi.lib.keywrap_version()
print(keywrap.__version__, importlib.metadata.version("keywrap"), end=" ")
print(number >> 16, number >> 8 & 255, number & 255, sep=".")"""
    printed = run(installed, "-c", program)
    version = NAMES["PYTHON"]
    numbers = version.removesuffix(".dev0")
    assert printed == f"{version} {version} {numbers}\n"


@pytest.mark.needs("qemu-x86_64")
def test_processor_without_sse41(installed):
    """An import raises an error on an old processor. A call would end the process."""
    call = "import keywrap; print(keywrap.wrap(bytes(range(16)), bytes(range(0, 256, 17))).hex())"
    command = [*WITHOUT_SSE41, installed, "-c", call]
    ended = subprocess.run(command, capture_output=True, text=True)
    assert ended.returncode != 0
    message = "this processor lacks SSSE3 or SSE4.1, which keywrap needs"
    assert ended.stderr.splitlines()[-1] == f"ImportError: {message}"
    assert run(*WITH_SSE41, installed, "-c", call) == f"{WRAPPED16}\n"


@pytest.fixture
def own_tests(installed, keywrap, record_property):
    """Runs tests in the environment. What they skip is counted as skipped here."""
    path = f"{installed.parent}:{os.environ['PATH']}"
    variables = {**os.environ, "PATH": path, "KEYWRAP": str(keywrap.path)}
    pytest_here = [installed, "-B", "-m", "pytest", "-q", "-rs"]

    def call(*args, cwd=None, **env):
        ended = subprocess.run(
            [*pytest_here, "-p", "no:cacheprovider", *args],
            cwd=cwd,
            env={**variables, **env},
            capture_output=True,
            text=True,
        )
        output = ended.stdout
        skipped = re.findall(r"^SKIPPED \[(\d+)\] \S+ (.*)$", output, re.M)
        # pytest's status is 5 if all tests of a file were skipped while it was read.
        all_skipped = ended.returncode == 5 and skipped
        assert ended.returncode == 0 or all_skipped, output + ended.stderr
        for count, reason in skipped:
            for _ in range(int(count)):
                record_property("skipped", reason)
        counts = r"^\d+ (passed|skipped|deselected)"
        assert re.search(counts, output, re.M), output

    return call


FILES = []
for directory in TESTS:
    FILES += [str(path.relative_to(ROOT)) for path in directory.glob("test_*.py")]
FILES.sort()
# These start servers, make a run for each row, or kill runs.
LONG = {
    f"rotation/tests/test_rotation_{name}.py"
    for name in (
        "command dask faults files keks kills objects operators passes"
        " mariadb postgresql recipes renames sqlite stores"
    ).split()
}


@pytest.mark.parametrize("file", all_of(FILES, {*FILES} - LONG))
def test_own_tests(own_tests, file):
    own_tests(ROOT / file)


@slow
@pytest.mark.needs("sanitizers of gcc")
def test_hostile_objects_under_the_address_sanitizer(own_tests):
    """The system's allocator has each object in a block of its own, whose ends the sanitizer watches."""
    sanitizer = run("gcc", "-print-file-name=libasan.so").strip()
    own_tests(
        ROOT / "python/tests/test_objects.py",
        "-k",
        "not many_calls and not thread",
        PYTHONMALLOC="malloc",
        ASAN_OPTIONS="detect_leaks=0",
        LD_PRELOAD=sanitizer,
    )


def test_foreign_vectors(installed):
    """keywrap.vectors over the files of Wycheproof and ACVP. The three keys of 0 bytes are refused, as they allow."""
    names = ["kw_test", "kwp_test"]
    for form in "KW", "KWP":
        names += [f"ACVP-AES-{form}", f"ACVP-AES-{form}.expected"]
    for name in names:
        pathlib.Path(name).write_text(published.foreign_text(name))
    output = run(installed, "-m", "keywrap.vectors", *names)
    refused = [line for line in output.splitlines() if "refuses it" in line]
    due = []
    for number in 11, 86, 171:
        for call in "unwrap_padded", "wrap_padded":
            case = f"kwp_test: tcId {number} SmallKey"
            due.append(f"{case}: {call} refuses it; acceptable")
    assert refused == due
    counts = re.findall(r"^(\S+): \d+ cases: .*, (\d+) wrong$", output, re.M)
    assert counts == [(name, "0") for name in names if not name.endswith(".expected")]


@faces.each_group
def test_rows(once, installed, group):
    faces.check_group(
        group, once, "python", "python", [installed, ROOT / "tests/rows_python.py"]
    )


@pytest.mark.parametrize("name", [pytest.param("more", marks=slow), "foreign", "nist"])
def test_more_rows(installed, name):
    faces.check("python", [installed, ROOT / "tests/rows_python.py"], name)


@pytest.mark.parametrize(
    "act",
    [
        'return (real(kek, key), 24 * b"\\xff")[type(key) is memoryview]',
        "got = real(kek, key)\n type(key) is bytearray and key.reverse()\n return got",
    ],
)
def test_runner_sees_a_wrong_call(installed, act):
    """One that is wrong for one type of argument, and one that changes its argument."""
    code = f"import keywrap, runpy, sys\nreal = keywrap.wrap\ndef wrap(kek, key):\n {act}\nkeywrap.wrap = wrap\n"
    runner = [
        installed,
        "-c",
        f"{code}runpy.run_path(sys.argv.pop(1))",
        ROOT / "tests/rows_python.py",
    ]
    assert faces.has_fault("python", runner, "foreign")


@pytest.mark.needs("import cryptography")
class TestSteps:
    @pytest.mark.parametrize(
        "name",
        [
            "short",
            "foreign",
            *(pytest.param(name, marks=slow) for name in ("rows", "nist")),
        ],
    )
    def test_rows(self, installed, name):
        faces.check(
            "python steps", [installed, ROOT / "tests/rows_python.py", "steps"], name
        )

    @pytest.mark.needs("import PyKCS11", "softhsm2-util")
    def test_token(self, installed):
        """The README's lines, over a KEK of RFC 3394 in a token, without and with padding. Then the same by ctypes, for
        many keys, one of them refused."""
        page = (ROOT / "python/README.md").read_text()
        blocks = {
            name: textwrap.dedent(
                re.search(rf"^    import {name}.*?(?=\n\n[^ ])", page, re.M | re.S)[0]
            )
            for name in ("PyKCS11", "ctypes")
        }
        before = """
import PyKCS11
token = PyKCS11.PyKCS11Lib()
token.load("/usr/lib/softhsm/libsofthsm2.so")
session = token.openSession(token.getSlotList(tokenPresent=True)[0], PyKCS11.CKF_RW_SESSION)
session.login("1234")
kek = session.createObject([
    (PyKCS11.CKA_CLASS, PyKCS11.CKO_SECRET_KEY), (PyKCS11.CKA_KEY_TYPE, PyKCS11.CKK_AES),
    (PyKCS11.CKA_VALUE, bytes(range(32))), (PyKCS11.CKA_ENCRYPT, True), (PyKCS11.CKA_DECRYPT, True)])
key = bytes(range(0, 256, 17))
"""
        after = """
print(wrapped.hex())
print(keywrap.steps.unwrap_padded(decrypt, keywrap.steps.wrap_padded(encrypt, b"of any length")))
"""
        many = """
many = keywrap.steps.wrap_many(encrypt, [key] * 1000)
print(many[999].hex())
results = keywrap.steps.rewrap_many(decrypt, encrypt, [bytes(24), *many])
print(type(results[0]).__name__, results[1:] == many)
"""
        pathlib.Path("softhsm2.conf").write_text(
            f"directories.tokendir = {os.getcwd()}\n"
        )
        env = {**os.environ, "SOFTHSM2_CONF": os.path.abspath("softhsm2.conf")}
        run(
            "softhsm2-util",
            "--init-token",
            "--free",
            "--label",
            "t",
            "--pin",
            "1234",
            "--so-pin",
            "1234",
            env=env,
        )
        program = before + blocks["PyKCS11"] + after + blocks["ctypes"] + many
        output = run(installed, "-c", program, env=env)
        assert output == (
            f"{WRAPPED32}\nb'of any length'\n{WRAPPED32}\nIntegrityFailed True\n"
        )

    @pytest.mark.needs("softhsm2-util", "pkcs11.h of p11-kit", "pkg-config")
    def test_many_keys_in_a_token(self, installed):
        """5,000 keys in 48 calls of the token, as test_tokens.py has it of C, Go and Rust."""
        env = tokens.environment()
        library = f"{tokens.library_over_token()}/libecb.so"
        program = tokens.SOURCES / "main.py"
        rate = tokens.check(installed, program, library, env=env)
        assert rate > tokens.LEAST


@pytest.mark.needs("import mypy")
class TestTypes:
    def test_packages(self, python):
        cache = f"--cache-dir={os.getcwd()}/mypy"
        run(
            python,
            "-m",
            "mypy",
            "--strict",
            cache,
            "--config-file=",
            ROOT / "python/src/keywrap",
            ROOT / "rotation/src/keywrap_rotate",
        )

    def test_caller(self, installed, python):
        """Over the package as it is installed: it is typed."""
        pathlib.Path("wrong.py").write_text(
            """import keywrap.steps
x: int = keywrap.wrap(b"", b"")
keywrap.steps.wrap(lambda blocks: 16, b"")
keywrap.steps.wrap(lambda blocks: bytearray(blocks), b"").hex()
"""
        )
        ended = subprocess.run(
            [
                python,
                "-m",
                "mypy",
                "--strict",
                "--cache-dir=/dev/null",
                "--config-file=",
                "--python-executable",
                installed,
                "wrong.py",
            ],
            capture_output=True,
            text=True,
        )
        assert {*re.findall(r"^wrong.py:(\d+): error: ", ended.stdout, re.M)} == {
            "2",
            "3",
        }, ended.stdout
