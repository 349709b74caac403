"""The program in C on Windows, by mingw and wine: commands of a user, random command lines compared with the build for
Linux, kills at each step of replacing a file, the rows of the program, and planted bugs of host_windows.c."""

import os
import pathlib
import re
import shutil
import stat
import subprocess
from typing import Callable, NamedTuple

import pytest

import faces
import test_rust
from builds import ROOT, run
from checks import NO_OUTPUT, keeps
from commands import INTO_FILES, WRAP
from machines import EXPORTS, shown
from program import Ended, Program, evidence, finish, refused, slow, wait_for
from test_command import DRILL, DRILLED, FILES, rows, works
from test_random_arguments import Lines, make_files, state
from tools import need
from vectors import KEK16, KEY16, NOT_FLUSHED, WRAPPED16
from windows import COMPILER, SETTINGS, STRICT, OnWine, linked

HERE = ROOT / "tests/command"
TOOLS = "x86_64-w64-mingw32-"
# Not in the gate: of some hundreds of starts wine loses one, or what it prints, and more where several begin at once.
pytestmark = evidence


@pytest.fixture(scope="session")
def program(windows, windows_objects, once):
    """The program for Windows: it is called as `keywrap` is."""
    built = once("program for windows", lambda here: linked(here, windows_objects))
    return OnWine(windows.script(built / "keywrap.exe"))


@pytest.fixture(scope="session")
def driver(windows, once):
    """tests/command/windows.c as a program."""

    def build(directory):
        link_driver(directory, ROOT / "dist/command/host_windows.c")

    return once("host of windows", build) / "windows.exe"


@pytest.fixture(scope="session")
def host(windows, driver):
    """A function: what the driver prints for these words."""
    return lambda *words: windows.run(driver, *words).strip()


def link_driver(directory, host_windows):
    sources = [HERE / "windows.c", host_windows]
    include = f"-I{ROOT}/dist/command"
    run(COMPILER, "-O1", include, "-o", directory / "windows.exe", *sources)


@slow
def test_make(windows):
    """`make` builds the program, without a warning, also beside the one for Linux."""
    need(COMPILER)
    run("cp", "-R", ROOT / "dist/command", ROOT / "dist/Makefile", ".")
    run("make", "keywrap.built_from")
    pathlib.Path("keywrap").touch()
    run("make", "keywrap", f"CC={COMPILER}", f"CFLAGS={' '.join(STRICT)}")
    assert windows.run("./keywrap.exe", *DRILL.split()) == f"{DRILLED}\n"


class TestUse:
    """The commands of a user."""

    def test_works(self, program, keywrap):
        works(program, keywrap)

    @pytest.mark.parametrize("command", INTO_FILES)
    def test_into_a_file(self, program, command):
        """-o over a file replaces it, or leaves it as it was."""
        os.mkdir("to")
        pathlib.Path("to/file").write_bytes(b"old\n")
        ended = program(command.args, stdin=command.given)
        assert (ended.status, ended.stderr) == (command.status, command.stderr)
        assert pathlib.Path("to/file").read_bytes() == command.stdout
        assert os.listdir("to") == ["file"]

    def test_input_and_output_are_one_file(self, program):
        pathlib.Path("f").write_text(f"{WRAPPED16}\n")
        args = "rewrap --kek kek16.hex --new-kek kek32.hex -i f -o f"
        assert program(args) == Ended(0)
        ended = program("unwrap --kek kek32.hex -i f")
        assert ended == Ended(0, f"{KEY16}\n")

    def test_refused_option(self, program):
        ended = program("wrap --secret")
        assert (ended.status, ended.stdout) == (2, "")
        assert ended.stderr.startswith("error: unexpected argument '--secret' found")

    @pytest.mark.parametrize("name", ["kö→😀.hex", "ÄÖÜß", "日本語"])
    def test_letters_of_names(self, program, name):
        """Names of files are the same letters inside and outside of Windows, also in messages."""
        pathlib.Path(name).write_text(f"{KEK16}\n")
        args = ["wrap", "--kek", name, "-o", f"{name}.out"]
        assert program(args, stdin=KEY16) == Ended(0)
        assert pathlib.Path(f"{name}.out").read_text() == f"{WRAPPED16}\n"
        missing = program(["check", "--verbose", "--kek", f"no {name}"])
        reason = f"no {name}: No such file or directory (os error 2)"
        assert missing == refused(6, "key file: cannot be opened", reason)

    def test_long_name(self, program):
        directory = "/".join(["d" * 100] * 4)
        os.makedirs(directory)
        pathlib.Path(directory, "kek").write_text(KEK16)
        args = ["wrap", "--kek", f"{directory}/kek", "-o", f"{directory}/out"]
        assert program(args, stdin=KEY16) == Ended(0)
        assert pathlib.Path(directory, "out").read_text() == f"{WRAPPED16}\n"

    def test_name_of_windows(self, program):
        """A drive and backslashes."""
        kek = "Z:" + os.path.abspath("kek16.hex").replace("/", "\\")
        args = ["wrap", "--kek", kek]
        assert program(args, stdin=KEY16) == Ended(0, f"{WRAPPED16}\n")

    def test_name_on_a_server(self, windows, program):
        """Two backslashes, the server and its share. Wine has a directory for them."""
        share = pathlib.Path(windows.env["WINEPREFIX"], "dosdevices/unc/server/share")
        share.mkdir(parents=True, exist_ok=True)
        shutil.copy("kek16.hex", share)
        names = r"--kek \\server\share\kek16.hex -o \\server\share\out"
        assert program(f"wrap {names}", stdin=KEY16) == Ended(0)
        assert (share / "out").read_text() == f"{WRAPPED16}\n"
        (share / "out").unlink()

    def test_lines_that_end_in_two_bytes(self, program):
        pathlib.Path("kek").write_bytes(f"{KEK16}\r\n".encode())
        keys = f"{KEY16}\r\n{KEY16}\r\n"
        wrapped = f"{WRAPPED16}\n" * 2
        ended = program("wrap --kek kek --lines", stdin=keys, text=False)
        assert ended.stdout == wrapped.encode()
        ended = program("wrap --kek kek", stdin=f"{KEY16}\r\n", text=False)
        assert ended.stdout == f"{WRAPPED16}\n".encode()

    # The second is a multiple of 8 bytes up to each byte that could end or change a text.
    @pytest.mark.parametrize(
        "key",
        [
            b"\x0a\x0d\x1a\x0d\x0a\x1a\x1a\x00\x0d\x0d\x0a\x0a\x1a\x0a\x0d\x00",
            bytes(16) + b"\x1a" + bytes(7) + b"\x0d\x0a" + bytes(6),
        ],
    )
    def test_pipes_of_bytes(self, program, keywrap, key):
        """Bytes that end lines or a text pass through pipes in both directions."""
        wrap = "wrap --raw --kek kek16.hex"
        wrapped = keywrap(wrap, stdin=key, text=False).stdout
        assert program(wrap, stdin=key, text=False) == Ended(0, wrapped)
        unwrap = "unwrap --raw --kek kek16.hex"
        assert program(unwrap, stdin=wrapped, text=False) == Ended(0, key)

    def test_kek_from_standard_input(self, program):
        args = "wrap --kek /dev/stdin -i key.hex"
        assert program(args, stdin=KEK16) == Ended(0, f"{WRAPPED16}\n")

    def test_directory_is_no_empty_file(self, program):
        """An error of a read is not the end of a file."""
        reason = "directory: Is a directory (os error 21)"
        ended = program("wrap --verbose --kek directory")
        assert ended == refused(6, "key file: cannot be read", reason)

    def test_device_is_not_replaced(self, program):
        ended = program("wrap --verbose --kek kek16.hex -o NUL", stdin=KEY16)
        reason = "NUL: is a device, pipe or socket"
        assert ended == refused(6, "output: cannot be opened", reason)

    @pytest.mark.parametrize(
        "name",
        [
            "",
            ".",
            "directory",
            "directory/",
            "directory/inner/..",
            "file/",
            "file/file",
            "missing/file",
            "missing/",
            "*",
            "a?b",
            "a\nb",
            "0" * 256,
        ],
        ids=lambda name: repr(name)[:20],
    )
    def test_names_that_are_refused(self, program, name):
        """Directories, names of files that are not there, and names that Windows has not. Nothing changes."""
        os.mkdir("directory/inner")
        pathlib.Path("file").write_text("old\n")
        keeps(
            program, ["wrap", "--kek", "kek16.hex", "-o", name], NO_OUTPUT, stdin=KEY16
        )

    def test_half_of_a_letter(self, program, host):
        """An argument that is not UTF-16 is refused, as one that is not UTF-8 is on Linux. No other file is read."""
        pathlib.Path("kek\ufffd").write_text(KEK16)
        path = pathlib.Path(program.path).with_suffix(".exe")
        assert host("half", path) == "2"

    def test_prompt_on_a_console(self, program):
        """It names the key that ends what is typed on Windows."""
        need("import pexpect", "pseudo-terminals")
        import pexpect

        size = (24, 120)
        child = pexpect.spawn(program.path, WRAP.split(), dimensions=size, timeout=300)
        child.expect_exact(
            "keywrap: reading the input from the terminal; Ctrl-Z ends it"
        )
        child.close(force=True)

    def test_temporary_name_of_another(self, program):
        """A new file never replaces one that has its temporary name."""
        pathlib.Path("out.part0").write_text("of another")
        assert program("wrap --kek kek16.hex -o out", stdin=KEY16) == Ended(0)
        assert pathlib.Path("out.part0").read_text() == "of another"
        assert pathlib.Path("out").read_text() == f"{WRAPPED16}\n"

    def test_kek_is_not_replaced(self, program):
        os.link("kek16.hex", "other name")
        for name in "kek16.hex", "other name":
            args = ["wrap", "--kek", "kek16.hex", "--verbose", "-o", name]
            reason = f"{name}: is the KEK file"
            assert program(args) == refused(6, "output: cannot be opened", reason)


def is_for_others(path):
    """Wine makes modes of lists of access rights. It gives the owner's rights to the group, too."""
    return os.stat(path).st_mode & stat.S_IRWXO != 0


class TestAccess:
    """Who may use a file: wine shows lists of access rights as modes."""

    def test_new_file(self, program):
        assert program("wrap --kek kek16.hex -o new", stdin=KEY16) == Ended(0)
        assert not is_for_others("new")

    def test_replaced_file(self, program):
        """A wrapped key keeps the rights of the file that it replaces, a key does not."""
        for name in "wrapped", "key":
            pathlib.Path(name).write_text("old")
            os.chmod(name, 0o644)
        assert program("wrap --kek kek16.hex -o wrapped", stdin=KEY16) == Ended(0)
        assert is_for_others("wrapped")
        assert program("unwrap --kek kek16.hex -o key", stdin=WRAPPED16) == Ended(0)
        assert not is_for_others("key")

    def test_replaced_file_that_is_only_read(self, program):
        """Its list and the one of a new file have the same length, and differ in a right."""
        pathlib.Path("wrapped").write_text("old")
        os.chmod("wrapped", 0o400)
        assert program("wrap --kek kek16.hex -o wrapped", stdin=KEY16) == Ended(0)
        assert os.stat("wrapped").st_mode & stat.S_IWUSR == 0

    def test_replaced_private_file(self, program):
        pathlib.Path("wrapped").write_text("old")
        os.chmod("wrapped", 0o600)
        assert program("wrap --kek kek16.hex -o wrapped", stdin=KEY16) == Ended(0)
        assert not is_for_others("wrapped")

    def test_open_files_are_shared(self, windows, program):
        """While the program waits for its input, others can append to its files, and rename them."""
        pathlib.Path("wait").touch()
        pipe = subprocess.PIPE
        with program.started("wrap --kek kek16.hex -o out", stdin=pipe) as waiting:
            wait_for(pathlib.Path("out.part0").exists)
            windows.run("cmd", "/c", "echo.>>kek16.hex")
            assert pathlib.Path("kek16.hex").read_bytes().endswith(b"\r\n")
            windows.run("cmd", "/c", "ren kek16.hex moved.hex")
            assert finish(waiting, KEY16.encode()).status == 0
        assert pathlib.Path("moved.hex").exists()
        assert pathlib.Path("out").read_text() == f"{WRAPPED16}\n"

    def test_file_that_another_program_holds(self, windows, driver, program):
        """Wine renames as Windows does before Windows 10: the run is refused, and both files stay as they were."""
        pathlib.Path("key").write_text(KEY16)
        pathlib.Path("out").write_text("old\n")
        command = ["wine", driver, "hold", "out"]
        pipe = subprocess.PIPE
        args = "wrap --verbose --kek kek16.hex -i key -o out"
        reason = "out: Permission denied (os error 13)"
        with subprocess.Popen(
            command, env=windows.env, stdin=pipe, stdout=pipe
        ) as holding:
            assert holding.stdout.readline().startswith(b"held")
            keeps(program, args, refused(6, NOT_FLUSHED, reason))
            holding.stdin.close()
        assert program(args) == Ended(0)
        assert pathlib.Path("out").read_text() == f"{WRAPPED16}\n"

    def test_flushed_before_it_is_renamed(self, windows, program):
        """Wine shows the calls of the new file in their order."""
        pathlib.Path("out").write_text("old\n")
        path = pathlib.Path(program.path).with_suffix(".exe")
        command = ["wine", path, *WRAP.split(), "-i", "key.hex", "-o", "out"]
        env = {**windows.env, "WINEDEBUG": "+relay"}
        ended = subprocess.run(command, env=env, stderr=subprocess.PIPE)
        assert ended.returncode == 0
        assert pathlib.Path("out").read_text() == f"{WRAPPED16}\n"
        calls = ended.stderr.decode(errors="replace")
        created = calls.index('out.part0",40060000')
        named = r"Call KERNEL32\.(WriteFile|FlushFileBuffers|MoveFileExW)\("
        steps = re.findall(named, calls[created:])
        assert steps == ["WriteFile", "FlushFileBuffers", "MoveFileExW"]


class TestHost:
    """The results of host_windows.c for the module."""

    @pytest.mark.parametrize(
        "mode, shown", [(0o600, "600"), (0o640, "600"), (0o644, "666"), (0o666, "666")]
    )
    def test_mode(self, host, mode, shown):
        """A file is private if nobody but its user and the system may use it. Wine shows no group."""
        os.chmod("key.hex", mode)
        assert host("mode", "key.hex") == shown

    def test_size_has_64_bits(self, host):
        with open("large", "wb") as file:
            file.truncate((5 << 30) + 3)
        assert host("size", "large") == str((5 << 30) + 3)

    def test_identity(self, host):
        os.link("kek16.hex", "other name")
        assert host("same", "kek16.hex", "other name") == "same"
        assert host("same", "kek16.hex", "key.hex") == "different"

    def test_empty_write_does_not_end_a_pipe(self, host):
        """Wine wakes no reader for it, so that only Windows itself shows whether the host reads on."""
        assert host("empty-write") == "3 abc"


# Before each of these texts of host_windows.c the program can be killed.
STEPS = [
    "    if (!WriteFile(handle, AT(from)",
    "    return FlushFileBuffers(handle)",
    "    FILE_RENAME_INFO *info = calloc(1, size);",
    "            close_files_named(AT(to));",
    "            done =\n                MoveFileExW(old_name",
    "    free(old_name);",
]
KILL = """
static int is_killed_here(void) {
    static int step;
    const char *number = getenv("KILLED_AT");
    if (number != NULL && ++step == atoi(number)) TerminateProcess(GetCurrentProcess(), 9);
    return 0;
}
"""
KILLABLE = [
    (
        "#define CLOSED INVALID_HANDLE_VALUE\n",
        f"#define CLOSED INVALID_HANDLE_VALUE\n{KILL}",
    )
]
KILLABLE += [(step, f"    is_killed_here();\n{step}") for step in STEPS]


def check_kills(program):
    """Whatever the step at which the program is killed, the output is the old file or the new one."""
    args = "rewrap --kek kek16.hex --new-kek kek32.hex -i f -o f"
    seen = set()
    for step in range(1, 100):
        pathlib.Path("f").write_text(f"{WRAPPED16}\n")
        for part in pathlib.Path().glob("f.part*"):
            part.unlink()
        ended = program(args, env={"KILLED_AT": str(step)})
        new = program("unwrap --kek kek32.hex -i f")
        if new == Ended(0, f"{KEY16}\n"):
            seen.add("new")
        else:
            seen.add("old")
            assert pathlib.Path("f").exists()
            assert pathlib.Path("f").read_text() == f"{WRAPPED16}\n"
        if ended.status == 0:
            break
        assert ended.status == 9
    assert step > len(STEPS)
    assert seen == {"old", "new"}


def test_killed(windows, windows_objects):
    path = linked(pathlib.Path("here").absolute(), windows_objects, *KILLABLE)
    check_kills(Program(windows.script(path)))


# Wine shows symbolic links of Linux as what they lead to, and has no files of these names. It cannot hand a directory
# over as standard input.
NAMES_OF_LINUX = {
    "link",
    "loop",
    "kek16.hex/",
    "/dev/null",
    "/dev/zero",
    "/dev/full",
    "/proc/self/mem",
}
INPUTS_OF_LINUX = {"directory", "/dev/null", "/dev/zero"}
# Windows starts no program with 32,768 characters of arguments.
LONGEST_LINE = 32000


def is_for_windows(words, given):
    """Whether a command line has only names and letters that Windows has, too."""
    values = {word.partition("=")[2] for word in words}
    if NAMES_OF_LINUX & ({*words} | values) or given in INPUTS_OF_LINUX:
        return False
    # Windows takes a blank or a dot from the end of a name.
    if any(word.endswith((" ", ".")) for word in words):
        return False
    line = " ".join(words)
    # Wine does not identify a file that is standard input, so an output that is there could be this file: refused.
    is_protected = "/dev/stdin" in line or "--keep-going" in words
    if is_protected and ("-o" in line or "--output" in line):
        return False
    return line.isascii() and len(line) < LONGEST_LINE


@evidence
def test_random_command_lines(program, in_c):
    """The same bytes, statuses and files as the build for Linux."""
    count, seed = (
        int(word) for word in os.environ.get("KEYWRAP_RANDOM", "1000 116").split()
    )
    lines = Lines(seed)

    def ended(program, words, given):
        make_files()
        done = program(words, cwd="here", stdin=pathlib.Path("here", given), text=False)
        left = {
            path: path.read_bytes()
            for path in pathlib.Path("here").rglob("*")
            if path.is_file()
        }
        return done, left

    compared = 0
    while compared < count:
        words, given = lines.line()
        if is_for_windows(words, given):
            expected = ended(Program(in_c), words, given)
            assert ended(program, words, given) == expected, (words, given)
            compared += 1


CONSOLE = (
    "a console of Wine gets control characters between the words; TestUse has a prompt"
)
# The files of the program's rows that are left out over keywrap.exe, and why.
FILES_LEFT_OUT = {
    "allocations": "a library that Linux loads before the program makes allocations fail",
    "filesystem": "mounts, limits, signals and calls of Linux; test_killed has the kills",
    "output": "another HOME and TMPDIR, in which wine starts again and leaves files",
    "random_arguments": "modes of files, and longer arguments than Windows takes; test_random_command_lines has others",
    "reading": "named pipes, sockets and /dev/fd, at which wine hangs",
    "terminal": CONSOLE,
}
TABLE = "reasons.py::TestReasons::test_refusals_of_the_table[rewrap --kek kek16.hex --new-kek kek32.hex -i wrapped.hex"
LOADED = "a library that Linux loads makes calls of C fail, and the program makes calls of Windows"
NO_NAME = "Windows has no such name, which TestUse has"
ANOTHER_USER = "Wine runs only for the user who made its directory"
# The rows of the other files that are left out, by how their names begin, and why.
LEFT_OUT = [
    (
        "arguments.py::TestRefusals::test_refused[args38",
        "Wine converts an argument that is not UTF-8; TestUse has one that is not UTF-16",
    ),
    ("arguments.py::TestHelp::test_examples_of_the_page", "modes of files"),
    (
        "lines.py::TestLines::test_no_line",
        "a closed standard input, of which Windows says an error",
    ),
    (
        "lines_files.py::TestFaults::test_read_error",
        "Wine waits for more bytes of a pipe at which a read of Linux fails",
    ),
    (
        "lines_files.py::TestFaults::test_memory_does_not_grow",
        "Wine itself takes more memory than lines that are kept, which this row would not see",
    ),
    ("lines_files.py::TestFaults::test_growing_memory", LOADED),
    ("lines_files.py::TestFaults::test_each_call_that_fails", LOADED),
    (r"output_file.py::TestContent::test_names['a\\n", NO_NAME),
    ("output_file.py::TestContent::test_names['*'", NO_NAME),
    (
        "output_file.py::TestContent::test_names_that_are_refused[wrap --kek kek16.hex -i",
        "Wine shows symbolic links as what they lead to; TestUse has the other names",
    ),
    (
        "output_file.py::TestContent::test_kek_file_that_only_standard_input_still_reads",
        ANOTHER_USER,
    ),
    ("output_file.py::test_directory_that_cannot_be_written", ANOTHER_USER),
    ("output_file.py::TestOwner", "owners of files"),
    ("output_file.py::test_owner_and_mode", "owners and modes of files"),
    (
        "output_file.py::test_directory_whose_files_others_may_read",
        "modes of files",
    ),
    (
        "output_file.py::test_steps_of_the_picture",
        "calls of Linux; TestAccess has the calls of Windows",
    ),
    ("page.py::test_temporary_file", "modes of files"),
    ("page.py::test_status[cannot get the owner", LOADED),
    ("page.py::test_status[refuses statx", LOADED),
    ("page.py::test_status[refused only at the rename", LOADED),
    ("page.py::test_order_of_errors", CONSOLE),
    ("published.py::TestProgram::test_nist", "thousands of starts"),
    (
        f"{TABLE} -o-6-output: cannot be opened-link",
        "Wine shows a symbolic link as what it leads to",
    ),
    (
        f"{TABLE} -o-6-output: cannot be opened-old/file",
        "Windows has one error for a missing file and a file in the place of a directory",
    ),
    ("reasons.py::TestReasons::test_files[key.hex/x", "the same"),
    (
        "reasons.py::TestReasons::test_output_without_room",
        "a limit of Linux for the size of files",
    ),
]


def options_for_windows():
    """Options of pytest that leave out these rows."""
    return [f"--deselect=test_{row}" for row, _ in LEFT_OUT]


@pytest.mark.parametrize("file", [name for name in FILES if name not in FILES_LEFT_OUT])
def test_rows(program, file):
    """The rows of the program, without the modes of files: TestAccess has these."""
    status, output = rows(
        program.path,
        [file],
        *options_for_windows(),
        with_slow=False,
        variables={"KEYWRAP_ON_WINE": "1"},
    )
    assert status == 0, output


class TestLibrary:
    """keywrap.c for Windows, as `make` builds it."""

    @slow
    def test_check_and_shared(self, windows):
        """The vectors are right, and the DLL has the calls of the archive and no other name."""
        shutil.copytree(ROOT / "dist", "dist")
        words = [f"CC={COMPILER}", "CFLAGS=-O1", "RUN=wine"]
        said = run(
            "make", "-s", "-C", "dist", "check", "shared", *words, env=windows.env
        )
        assert "8 vectors and the self test: right" in said
        headers = run(f"{TOOLS}objdump", "-p", "dist/keywrap.dll")
        table = headers.partition("[Ordinal/Name Pointer] Table")[2]
        exported = re.findall(r"^\t\[ *\d+\] (\S+)$", table, re.M)
        assert exported == shown("dist/libkeywrap.a", "-g", tools=TOOLS)
        assert {*EXPORTS} <= {*exported}
        # A program that is linked with the DLL.
        here = ["-Idist", "dist/check/vectors.c", "dist/libkeywrap.dll.a"]
        run(COMPILER, *here, "-o", "dist/linked.exe")
        said = windows.run("./linked.exe", cwd="dist")
        assert "8 vectors and the self test: right" in said

    def test_aes_instructions(self, windows):
        """The processor's are used."""
        need("the processor's AES")
        pathlib.Path("chosen.c").write_text(
            '#include "keywrap.c"\n'
            "int main(void) { return keywrap_aes_available() ? 0 : 1; }\n"
        )
        run(COMPILER, f"-I{ROOT}/dist", "chosen.c", "-o", "chosen.exe")
        windows.run("./chosen.exe")

    def test_install_and_clean(self, windows):
        """`make install` puts the DLL beside what links with it, and `make clean` leaves no file that was made."""
        of_linux = shutil.ignore_patterns("keywrap", "keywrap.built_from")
        shutil.copytree(ROOT / "dist", "dist", ignore=of_linux)
        before = sorted(os.listdir("dist"))
        make = ["make", "-s", "-C", "dist", f"CC={COMPILER}", "CFLAGS=-O0", "RUN=wine"]
        goals = ["check", "install", f"prefix={os.getcwd()}/there"]
        run(*make, *goals, env=windows.env)
        assert sorted(os.listdir("there/include")) == ["keywrap.h", "keywrap_steps.h"]
        libraries = ["keywrap.dll", "libkeywrap.a", "libkeywrap.dll.a", "pkgconfig"]
        assert sorted(os.listdir("there/lib")) == libraries
        run(*make, "clean", env=windows.env)
        assert sorted(os.listdir("dist")) == before

    @pytest.mark.needs("<openssl/evp.h>")
    def test_rows(self, windows):
        """The rows of keywrap.h without the long ones, and the published cases."""
        includes = [f"-I{ROOT}/dist", f"-I{ROOT}/tests/reference"]
        sources = [ROOT / "tests/rows.c", ROOT / "dist/keywrap.c"]
        run(COMPILER, "-std=c99", *STRICT, *includes, *sources, "-o", "rows.exe")

        def program(text):
            return windows.run("./rows.exe", input=text)

        faces.check("c", program, "short", "foreign")

    @evidence
    def test_go(self, windows, tmp_path):
        """The tests of the module. Go's cache is of this test only."""
        need("go")
        shutil.copytree(ROOT / "dist", "module")
        of_target = {"GOOS": "windows", "CGO_ENABLED": "1", "CC": COMPILER}
        places = {"HOME": str(tmp_path), "GOFLAGS": "-mod=mod", "CGO_CFLAGS": "-O1"}
        env = {**windows.env, **places, **of_target}
        command = ["go", "test", "-exec", "wine", "-v", "./..."]
        said = run(*command, cwd="module", env=env)
        assert len(re.findall(r"^--- PASS: ", said, re.M)) >= 10

    @evidence
    def test_rust(self, windows, tmp_path):
        """The tests of the crate, by Debian's cargo."""
        need("cargo of Debian", "crates of Debian", "std of Rust for Windows")
        skipped = shutil.ignore_patterns("target", "Cargo.lock")
        shutil.copytree(ROOT / "dist", "crate", ignore=skipped)
        target = "x86_64-pc-windows-gnu"
        of_target = f"CARGO_TARGET_{target.upper().replace('-', '_')}"
        tools = {f"{of_target}_LINKER": COMPILER, f"{of_target}_RUNNER": "wine"}
        env = {**SETTINGS, **tools, "WINEPREFIX": windows.env["WINEPREFIX"]}
        words = ["test", "--offline", "--features", "zeroize", "--target", target]
        cargo = test_rust.Cargo("debian", tmp_path)
        said = cargo(*words, "--lib", "--tests", cwd="crate", env=env)
        expected = test_rust.names_of(test_rust.DEFAULT | {"zeroize"})
        assert test_rust.passed(said) == expected


class Planted(NamedTuple):
    """A bug of host_windows.c: old and new texts, and a function of the fixtures that fails over it."""

    name: str
    edits: list
    finds: Callable


def found_by(row, *values):
    """The row finds it over the program."""
    return lambda made: row(made.program, *values)


def host_prints(expected, *words):
    """tests/command/windows.c prints something else."""

    def check(made):
        assert made.host(*words) == expected

    return check


def names_are_right(made):
    TestUse().test_letters_of_names(made.program, "kö→😀.hex")


def pipes_are_right(made):
    key = b"\x0a\x0d\x1a\x0d\x0a\x1a\x1a\x00\x0d\x0d\x0a\x0a\x1a\x0a\x0d\x00"
    TestUse().test_pipes_of_bytes(made.program, made.keywrap, key)


def files_are_shared(made):
    TestAccess().test_open_files_are_shared(made.windows, made.program)


def kills_are_survived(made):
    check_kills(made.program)


def sizes_are_right(made):
    with open("large", "wb") as file:
        file.truncate((5 << 30) + 3)
    host_prints(str((5 << 30) + 3), "size", "large")(made)


def modes_are_right(made):
    TestHost().test_mode(made.host, 0o644, "666")


def halves_of_letters_are_refused(made):
    TestUse().test_half_of_a_letter(made.program, made.host)


def servers_are_reached(made):
    TestUse().test_name_on_a_server(made.windows, made.program)


def files_are_flushed(made):
    TestAccess().test_flushed_before_it_is_renamed(made.windows, made.program)


def held_files_are_refused(made):
    row = TestAccess().test_file_that_another_program_holds
    row(made.windows, made.driver(), made.program)


# The last text of a call that both conversions of a name have.
NAME_IN_UTF8 = "MultiByteToWideChar(CP_UTF8, MB_ERR_INVALID_CHARS, text, -1, "
ARGUMENT_IN_UTF8 = "WideCharToMultiByte(CP_UTF8, WC_ERR_INVALID_CHARS, wide, -1, "
BUGS = [
    Planted(
        "standard output is a text",
        [
            (
                "    if (!WriteFile(handle, AT(from)",
                "    if (file == 1) {\n"
                "        count = (DWORD)fwrite(AT(from), 1, (size_t)len, stdout);\n"
                "        fflush(stdout);\n"
                "        return count;\n"
                "    }\n"
                "    if (!WriteFile(handle, AT(from)",
            )
        ],
        pipes_are_right,
    ),
    Planted(
        "standard input is a text",
        [
            (
                "    do {\n        if (!ReadFile(handle",
                "    if (file == 0) return fread(AT(to), 1, (size_t)len, stdin);\n"
                "    do {\n        if (!ReadFile(handle",
            )
        ],
        pipes_are_right,
    ),
    Planted(
        "open files cannot be written",
        [
            (
                "shared = FILE_SHARE_READ | FILE_SHARE_WRITE | FILE_SHARE_DELETE",
                "shared = FILE_SHARE_READ | FILE_SHARE_DELETE",
            )
        ],
        files_are_shared,
    ),
    Planted(
        "open files cannot be renamed",
        [
            (
                "shared = FILE_SHARE_READ | FILE_SHARE_WRITE | FILE_SHARE_DELETE",
                "shared = FILE_SHARE_READ | FILE_SHARE_WRITE",
            )
        ],
        files_are_shared,
    ),
    Planted(
        "a new file is for everybody",
        [
            (
                "SetSecurityDescriptorDacl(made, TRUE, &only.list, FALSE)",
                "SetSecurityDescriptorDacl(made, TRUE, NULL, FALSE)",
            ),
            (
                "if (list == NULL || user() == NULL) return 0;",
                "if (list == NULL || user() == NULL) return 1;",
            ),
            (
                "if (!EqualSid(who, user()) && !EqualSid(who, system)) return 0;",
                "(void)who;",
            ),
        ],
        found_by(TestAccess().test_new_file),
    ),
    Planted(
        "rights of the old file are lost",
        [
            (
                "if (!SetKernelObjectSecurity(handle, DACL_SECURITY_INFORMATION, groups[group])) "
                "return fail();",
                "",
            )
        ],
        found_by(TestAccess().test_replaced_file),
    ),
    Planted(
        "a rename deletes first",
        [
            *KILLABLE,
            (
                "        done = rename_as_posix(old_name",
                "        DeleteFileW(new_name);\n        done = rename_as_posix(old_name",
            ),
        ],
        kills_are_survived,
    ),
    Planted(
        "a name is cut",
        [
            (
                "full + 1 : full);",
                "full + 1 : full);\n        if (wcslen(whole) > 260) whole[260] = 0;",
            )
        ],
        found_by(TestUse().test_long_name),
    ),
    Planted(
        "names of files are in another code page",
        [
            (
                f"{NAME_IN_UTF8}{rest}",
                f"{NAME_IN_UTF8}{rest}".replace("CP_UTF8", "1252"),
            )
            for rest in ("NULL", "wide")
        ],
        names_are_right,
    ),
    Planted(
        "arguments are in another code page",
        [
            (
                f"{ARGUMENT_IN_UTF8}{rest}",
                f"{ARGUMENT_IN_UTF8}{rest}".replace(
                    "CP_UTF8, WC_ERR_INVALID_CHARS", "1252, 0"
                ),
            )
            for rest in ("NULL", "text")
        ],
        names_are_right,
    ),
    Planted(
        "a size has 32 bits",
        [
            (
                "(u64)found.nFileSizeHigh << 32 | found.nFileSizeLow",
                "found.nFileSizeLow",
            )
        ],
        sizes_are_right,
    ),
    Planted(
        "an error of a read is the end",
        [("number == ERROR_BROKEN_PIPE)", "number != ERROR_SUCCESS)")],
        found_by(TestUse().test_directory_is_no_empty_file),
    ),
    Planted(
        "all files are one",
        [("status->inode = halves[0];", "status->inode = 0;")],
        found_by(TestAccess().test_replaced_private_file),
    ),
    Planted(
        "a file is another one each time it is opened",
        [("status->inode = halves[0];", "status->inode = (u64)(uintptr_t)handle;")],
        found_by(TestUse().test_kek_is_not_replaced),
    ),
    Planted(
        "a temporary file of another is overwritten",
        [("access, CREATE_NEW", "access, CREATE_ALWAYS")],
        found_by(TestUse().test_temporary_name_of_another),
    ),
    Planted(
        "the run's own input stays open",
        [("            close_files_named(AT(to));\n", "")],
        found_by(TestUse().test_input_and_output_are_one_file),
    ),
    Planted(
        "a file of everybody is private",
        [
            (
                "if (!EqualSid(who, user()) && !EqualSid(who, system)) return 0;",
                "if (!EqualSid(who, user()) && !EqualSid(who, system)\n"
                "            && !IsWellKnownSid(who, WinWorldSid)) return 0;",
            )
        ],
        modes_are_right,
    ),
    Planted(
        "lists of one length are one",
        [(" && !memcmp(one, other, one->AclSize);", ";")],
        found_by(TestAccess().test_replaced_file_that_is_only_read),
    ),
    Planted(
        "nothing is flushed",
        [("return FlushFileBuffers(handle) ? 0 : fail();", "return 0;")],
        files_are_flushed,
    ),
    Planted(
        "half of a letter becomes another letter",
        [
            (
                f"{ARGUMENT_IN_UTF8}{rest}",
                f"{ARGUMENT_IN_UTF8}{rest}".replace("WC_ERR_INVALID_CHARS", "0"),
            )
            for rest in ("NULL", "text")
        ],
        halves_of_letters_are_refused,
    ),
    Planted(
        "a server is a directory",
        [(r'return L"\\\\?\\UNC";', r'return L"\\\\?\\";')],
        servers_are_reached,
    ),
    Planted(
        "a rename that fails is done",
        [
            (
                "free(new_name);\n    return done ? 0 : (u32)-1;",
                "free(new_name);\n    return 0;",
            )
        ],
        held_files_are_refused,
    ),
    Planted(
        "a missing file is denied",
        [("{ERROR_FILE_NOT_FOUND, NO_FILE}", "{ERROR_FILE_NOT_FOUND, DENIED}")],
        names_are_right,
    ),
]


class Made(NamedTuple):
    """What a row has to find a bug with."""

    windows: object
    keywrap: Program
    program: Program
    directory: pathlib.Path

    def driver(self):
        """As the fixture of this name, over the host with the bug."""
        link_driver(self.directory, self.directory / "host_windows.c")
        return self.directory / "windows.exe"

    def host(self, *words):
        """As the fixture of this name, over the host with the bug."""
        return self.windows.run(self.driver(), *words).strip()


@evidence
@pytest.mark.parametrize("bug", BUGS)
def test_bug_is_caught(windows, windows_objects, keywrap, bug):
    here = pathlib.Path("here").absolute()
    path = linked(here, windows_objects, *bug.edits)
    program = Program(windows.script(path))
    with pytest.raises(AssertionError):
        bug.finds(Made(windows, keywrap, program, here))
