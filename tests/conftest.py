"""Fixtures and options of the tests of the program. CONTRIBUTING.md says how to add a test.

KEYWRAP=PATH tries another program."""

import bisect
import collections
import functools
import os
import pathlib
import pwd
import shutil
import signal
import subprocess
import tempfile
from typing import NamedTuple

import pytest

pytest.register_assert_rewrite("checks")

import counting
from builds import (
    built,
    debs,
    dist,
    in_c,
    in_c_for_others,
    library,
    once,
    portable,
    prefix,
    python,
    rotate_wheel,
    handed_out,
    wheel,
    words,
)  # noqa: F401
from commands import FILES, LARGE
from windows import OnWine, windows, windows_objects  # noqa: F401
from program import SLOW, Ended, Program, shared, wait_for
from tools import need

ROOT = pathlib.Path(__file__).resolve().parent.parent
# When a test began, in processor seconds of this process and of its processes that have ended.
BEFORE = pytest.StashKey()
# The files of long tests.
LONG = (
    "test_shell",
    "test_secrets",
    "test_hardware",
    "test_library",
    "test_arm64",
    "test_portable",
    "test_python",
    "test_dist",
    "test_debian",
    "test_handed_out",
    "test_provider",
    "test_facts",
    "test_go",
    "test_java",
    "test_js",
    "test_all_inputs",
    "test_theory",
)


def pytest_addoption(parser):
    parser.addoption("--skipped", help="a file for the reasons of what is skipped")
    parser.addoption(
        "--passed",
        help="a file for the names of the rows that pass as a whole, whatever the program is",
    )


def pytest_configure(config):
    """Finds the program."""
    # A shell that starts pytest in the background has these ignored, and so would the program.
    for number in signal.SIGINT, signal.SIGTERM, signal.SIGHUP:
        if signal.getsignal(number) == signal.SIG_IGN:
            signal.signal(number, signal.SIG_DFL)
    given = os.environ.get("KEYWRAP") or chosen_program()
    config.program = pathlib.Path(given).absolute()


def chosen_program():
    """The program that ./keywrap runs. It is compiled from C if it was not yet."""
    chosen = subprocess.run(
        [ROOT / "scripts/program.sh"],
        stdin=subprocess.DEVNULL,
        stdout=subprocess.PIPE,
        text=True,
    )
    if chosen.returncode:
        pytest.exit("there is no program to test", returncode=1)
    return ROOT / chosen.stdout.rstrip("\n")


def pytest_collection_modifyitems(config, items):
    """Shares the long tests out among the processes of pytest-xdist: each first gets a block of the items. The tests of
    groups of rows.txt, which wait for each other, stay together. KEYWRAP_PASSED=FILE leaves out what it names.
    """
    if file := os.environ.get("KEYWRAP_PASSED"):
        passed = {*pathlib.Path(file).read_text().splitlines()}
        items[:] = [item for item in items if item.nodeid not in passed]
    processes = int(os.environ.get("PYTEST_XDIST_WORKER_COUNT", "1"))
    block = len(items) // (4 * processes)
    long = [item for item in items if is_long(item)]
    # The item that is inserted last runs first.
    long.sort(key=lambda item: "long_list" in item.name)
    items[:] = [item for item in items if item not in long]
    for number, item in enumerate(long):
        items.insert(number % processes * block, item)


def is_long(item):
    return item.path.name.startswith(LONG) and "group" not in item.fixturenames


def pytest_runtest_setup(item):
    item.stash[BEFORE] = os.times()
    if "program_path" in item.fixturenames:
        item.user_properties.append(("program", True))
    for mark in item.iter_markers("needs"):
        need(*mark.args)


@pytest.hookimpl(trylast=True)
def pytest_runtest_teardown(item):
    now = os.times()
    # A test that a mark skips has no beginning.
    spent = sum(now[:4]) - sum(item.stash.get(BEFORE, now)[:4])
    item.user_properties.append(("processor", spent))


def pytest_unconfigure(config):
    """The last lines: the counts, and what was skipped and why, which --skipped=FILE has instead."""
    reporter = config.pluginmanager.get_plugin("terminalreporter")
    if not reporter or config.getoption("collectonly"):
        return

    def reports(kind):
        return reporter.stats.get(kind, [])

    if file := config.getoption("passed"):
        write_passed(file, reports("passed"))
    passed, failed, reasons = counting.of_reports(
        reports("passed"), reports("failed") + reports("error"), reports("skipped")
    )
    named = [f"{reason}\n" for reason in sorted({*reasons} - {SLOW})]
    if file := config.getoption("skipped"):
        pathlib.Path(file).write_text("".join(named))
    else:
        for reason in named:
            print(end=f"SKIPPED: {reason}")
    print_long_files(reports(""))
    print(counting.summary(passed, failed, reasons))


def write_passed(file, passed):
    """Writes the names of the rows that passed as a whole and do not depend on the program."""
    names = ""
    for report in passed:
        properties = dict(report.user_properties)
        if "skipped" not in properties and "program" not in properties:
            names += f"{report.nodeid}\n"
    pathlib.Path(file).write_text(names)


def print_long_files(reports):
    """Prints the files that took more than a minute of processor."""
    seconds = collections.Counter()
    for report in reports:
        file, _, _ = report.nodeid.partition("::")
        seconds[file] += dict(report.user_properties).get("processor", 0)
    for file, spent in seconds.most_common():
        if spent > 60:
            print(f"{file}: {spent:.0f} s of processor")


def pytest_make_parametrize_id(val):
    """A row with a command has its name. A long text is cut."""
    if getattr(val, "name", None):
        return val.name
    if isinstance(val, str) and len(val) > 60:
        return val[:60]
    return None


@pytest.fixture(autouse=True)
def files(tmp_path, tmp_path_factory, monkeypatch):
    """Every test runs in a directory with only the files of commands.py."""
    monkeypatch.chdir(tmp_path)
    for name, content in FILES.items():
        pathlib.Path(name).write_bytes(content)
    for name, content in LARGE.items():
        large = tmp_path_factory.getbasetemp() / name
        if not large.exists():
            large.write_bytes(content)
        os.symlink(large, name)
    os.mkdir("directory")
    mask = os.umask(0o022)
    yield tmp_path
    os.umask(mask)
    shutil.rmtree(tmp_path, ignore_errors=True)


@pytest.fixture(scope="session")
def program_path(pytestconfig):
    """The path of the program. A row that runs or packs the program has to depend on this fixture: --passed=FILE does
    not name such rows, since another run tests another program."""
    return pytestconfig.program


@pytest.fixture(scope="session")
def keywrap(program_path):
    """The program: keywrap("wrap --kek kek16.hex", stdin=KEY16) returns Ended(status, stdout, stderr)."""
    # test_windows.py runs rows with KEYWRAP_ON_WINE.
    kind = OnWine if "KEYWRAP_ON_WINE" in os.environ else Program
    return kind(program_path)


@pytest.fixture(scope="session")
def compiled(tmp_path_factory):
    """compiled("fail_read") builds tests/fail_read.c as a library for LD_PRELOAD, by cc or the kit's clang."""
    rt = pathlib.Path(shutil.which("rt") or "rt").resolve()
    kit = rt.parent.parent / "toolchain/bin"
    compilers = [["cc"], [f"{kit}/clang", f"-fuse-ld={kit}/ld.lld"]]
    options = ["-O1", "-shared", "-fPIC", "-nostdlib", "-ffreestanding"]

    @functools.cache
    def build(name):
        library = tmp_path_factory.mktemp(name) / f"{name}.so"
        files = ["-o", library, f"{ROOT}/tests/{name}.c"]
        for compiler in compilers:
            if not shutil.which(compiler[0]):
                continue
            command = [*compiler, *options, *files]
            if subprocess.run(command, capture_output=True).returncode == 0:
                return library
        need("cc")
        pytest.fail(f"cc does not build {name}.c")

    return build


@pytest.fixture
def preloaded(keywrap, compiled):
    """preloaded("fail_alloc") is the program over that library: a function with its variables, as FAIL_ALLOC="3+".

    `met` of the function is what the library wrote during the last run. `count(args)` is how many calls can fail.
    """

    def over(name, program=keywrap):
        library = compiled(name)

        def run(args, **options):
            env = {"FAIL_ALLOC": "0", "FAIL_READ": "0", "LD_PRELOAD": library}
            env.update(
                {name: options.pop(name) for name in list(options) if name.isupper()}
            )
            with open("met", "w+b") as met, shared(met.fileno()):
                ended = program(args, env={**env, "MET": str(met.fileno())}, **options)
                met.seek(0)
                run.met = met.read().decode()
            return ended

        def count(args, **options):
            def is_too_many(number):
                run(args, **{name.upper(): str(number)}, **options)
                return not run.met

            found = bisect.bisect(range(1, 9999), False, key=is_too_many)
            assert 0 < found < 9998
            return found

        run.count = count
        return run

    return over


@pytest.fixture
def as_nobody(keywrap, files, monkeypatch):
    """Runs the program as the user nobody, in a directory that everybody may enter. Other users than root stay."""
    options = {}
    if os.getuid() == 0:
        group = pwd.getpwnam("nobody").pw_gid
        options = {"user": "nobody", "group": group, "extra_groups": []}
    with tempfile.TemporaryDirectory() as directory:
        os.chmod(directory, 0o755)
        monkeypatch.chdir(shutil.copytree(files, f"{directory}/files", symlinks=True))
        os.chmod(".", 0o755)
        program = Program(shutil.copy(keywrap.path, f"{directory}/keywrap"))
        yield functools.partial(program, **options)


class Terminal(NamedTuple):
    """A line of sh on a terminal that does not echo. `child` is the pexpect.spawn."""

    child: object

    def waits_for(self, name, text, count):
        """Waits until the file has the text this often, or the program has ended."""
        path = pathlib.Path(name)

        def is_there():
            if not self.child.isalive():
                return True
            return path.exists() and path.read_text().count(text) >= count

        wait_for(is_there)

    def types(self, text):
        self.child.delaybeforesend = None
        self.child.send(text)
        self.child.sendeof()

    def ended(self):
        """The exit status, and the text on the terminal."""
        text = self.child.read()
        self.child.wait()
        self.child.ptyproc.delayafterclose = 0
        self.child.close()
        return Ended(self.child.exitstatus, text.replace("\r\n", "\n"))


@pytest.fixture
def terminal(keywrap, files):
    """terminal("keywrap wrap --kek kek16.hex >out") runs a line of sh on a terminal, and returns a `Terminal`."""
    need("import pexpect", "pseudo-terminals")
    import pexpect

    os.mkdir("bin")
    os.symlink(keywrap.path, "bin/keywrap")
    path = f"{files}/bin:{os.environ['PATH']}"

    def start(line, TERM="xterm", **env):
        variables = {**os.environ, **env, "PATH": path, "TERM": TERM}
        child = pexpect.spawn(
            "/bin/sh",
            ["-c", line],
            env={name: value for name, value in variables.items() if value is not None},
            timeout=600,
            echo=False,
            encoding="utf-8",
        )
        return Terminal(child)

    return start
