"""--output against the system: calls that fail, limits, mounts, files that cannot be replaced, signals. The file is as
it was, or has the whole answer. The manual page says which other file can stay.

And a co-process with --lines, whose finished answers are written before it waits for the next line."""

import contextlib
import itertools
import os
import pathlib
import re
import select
import signal
import stat
import subprocess

import pytest

from checks import (
    DONE,
    FLUSH_FAULT,
    NO_OUTPUT,
    fresh,
    held,
    keeps,
    lands,
    no_output,
    state,
)
from commands import CHECK, FILES, JOBS, SAME_KEK, UNWRAP, WRAP
from program import PIPES, Ended, finish, refused, sh, slow, wait_for
from vectors import KEY16, NOT_FLUSHED, WRAPPED16

WRAP_FILE = f"{WRAP} -i key.hex -o to/file"
UNWRAP_FILE = f"{UNWRAP} -i wrapped.hex -o to/file"
WRAPPED = FILES["wrapped.hex"]
PART = pathlib.Path("to/file.part0")
NOT_KEPT = "to/file: owner, group or mode can't be kept"


@pytest.fixture(autouse=True)
def old_file(files):
    fresh(b"old\n")


class TestFaults:
    @pytest.fixture
    def failing(self, preloaded):
        """failing(args, FAIL_CALL="rename:1") runs the program. `failing.met` are the calls that it made."""
        return preloaded("fail_call")

    @pytest.mark.parametrize("job", JOBS)
    def test_sync(self, failing, job):
        """The new file is synced before it is renamed, and its directory afterwards. An error changes nothing."""
        args = [*job.args, "-i", job.stdin, "-o", "to/file"]
        for call in "fsync:1", "rename:1":
            keeps(failing, args, FLUSH_FAULT, FAIL_CALL=call)
        assert failing(args) == Ended(job.status)
        assert re.findall("fsync|rename", failing.met) == ["fsync", "rename", "fsync"]
        assert held() == job.stdout

    @pytest.mark.parametrize(
        "call, error, ended",
        [
            ("fsync:2", "22", DONE),
            ("fsync:2", "95", DONE),
            ("fsync:2", "5", FLUSH_FAULT),
            ("fchmod", "1", DONE),
        ],
    )
    def test_call_that_may_fail(self, failing, call, error, ended):
        """Some directories cannot be synced (22, 95). Some file systems refuse to set a mode, even to what it is."""
        os.chmod("to/file", 0o600)
        assert failing(WRAP_FILE, FAIL_CALL=call, FAIL_ERRNO=error) == ended
        assert (held(), oct(stat.S_IMODE(os.stat("to/file").st_mode))) == (
            WRAPPED,
            "0o600",
        )

    @pytest.mark.parametrize(
        "prepare, args, variables, ended",
        [
            (
                "",
                WRAP_FILE,
                {"FAIL_CALL": "rename"},
                refused(6, NOT_FLUSHED, "to/file: Input/output error (os error 5)"),
            ),
            (
                "",
                WRAP_FILE,
                {"FAIL_CALL": "fchmod", "FAIL_ERRNO": "1"},
                no_output(f"{NOT_KEPT}: Operation not permitted (os error 1)"),
            ),
            # A file that cannot be told from the KEK file, or from the input.
            *[
                (
                    "",
                    f"{WRAP_FILE} --lines --keep-going",
                    {"FAIL_CALL": f"statx:{number}"},
                    no_output("to/file: may be a file that was read"),
                )
                for number in (1, 2)
            ],
            # A file system without modes, where others can read a new file: everybody, the others, or the group.
            *[
                (
                    prepare,
                    args,
                    {"ONE_MODE": str(mode)},
                    no_output(f"{NOT_KEPT}: the file system has one for all"),
                )
                for prepare in ("chmod 600 to/file", "rm to/file")
                for args in (WRAP_FILE, UNWRAP_FILE)
                for mode in (0o777, 0o004, 0o040)
            ],
        ],
    )
    def test_refusal(self, failing, prepare, args, variables, ended):
        sh(prepare)
        keeps(failing, f"{args} --verbose", ended, **variables)

    @slow
    def test_each_error(self, failing):
        """The reason has the system's text and number of the error."""
        for number in range(1, 134):
            reason = f"to/file: {os.strerror(number)} (os error {number})"
            keeps(
                failing,
                f"{WRAP_FILE} --verbose",
                refused(6, NOT_FLUSHED, reason),
                FAIL_CALL="rename",
                FAIL_ERRNO=str(number),
            )

    @pytest.mark.parametrize(
        "args",
        [
            *[
                f"wrap --kek to/kek16.hex -i key.hex -o to/{name}"
                for name in ("file", "kek16.hex", "link")
            ],
            "rewrap --kek to/kek16.hex --new-kek to/kek32.hex -i wrapped.hex -o to/kek32.hex",
        ],
    )
    def test_look(self, failing, args):
        """If a file cannot be looked at, once or from then on, the run is refused and nothing changes.

        So a KEK file that cannot be told from the output is not replaced."""
        sh("cp kek16.hex kek32.hex to; ln to/kek16.hex to/link")
        before = state()
        reason = r"(Input/output error \(os error 5\)|may be a file that was read)"
        for call, after in itertools.product(range(1, 99), ("+", "")):
            ended = failing(f"{args} --verbose", FAIL_CALL=f"statx:{call}{after}")
            if failing.met.split().count("statx") < call:
                break
            found = ended.status, ended.stdout, state()
            assert found == (6, "", before), f"{call}{after}"
            assert re.fullmatch(
                f"({NO_OUTPUT.stderr}|{FLUSH_FAULT.stderr})  to/.*: {reason}\n",
                ended.stderr,
            )
        assert 1 < call < 98

    @pytest.mark.skipif(os.getuid() != 0, reason="only root can change owners")
    def test_owner_and_then_the_mode(self, failing):
        os.chown("to/file", 12345, 54321)
        os.chmod("to/file", 0o640)
        assert failing(WRAP_FILE) == DONE
        assert re.findall("fchown|fchmod", failing.met) == ["fchown", "fchmod"]

    @pytest.mark.parametrize("cwd, name", [(".", "to/file"), ("to", "file")])
    def test_directory_that_cannot_be_read(self, failing, files, cwd, name):
        """Then it is not synced, and no other directory either. Root needs two rights less for this."""
        setpriv = (
            ["setpriv", "--bounding-set=-dac_override,-dac_read_search"]
            if os.getuid() == 0
            else ["env"]
        )
        if subprocess.run([*setpriv, "true"], capture_output=True).returncode:
            pytest.skip("setpriv takes no right away")
        os.chmod("to", 0o300)
        args = f"wrap --kek {files}/kek16.hex -i {files}/key.hex -o {name}"
        assert failing(args, cwd=cwd, prefix=setpriv) == DONE
        assert re.findall("fsync|rename", failing.met) == ["fsync", "rename"]
        os.chmod("to", 0o755)
        assert held() == WRAPPED

    def test_limit_that_ends_the_program(self, keywrap):
        """The system reports a limit on the size of files by a signal, which ends the program if it is not ignored."""
        before = state(str(PART))
        assert keywrap(WRAP_FILE, limits={"CORE": 0, "FSIZE": 0}, ignoring=[]) == Ended(
            -signal.SIGXFSZ
        )
        assert (PART.read_bytes(), state(str(PART))) == (b"", before)
        lands(keywrap, WRAP_FILE, WRAPPED)

    @pytest.mark.needs("chattr")
    @pytest.mark.parametrize(
        "attribute, name, part", [("+i", "to/file", None), ("+a", "to", WRAPPED)]
    )
    def test_attribute(self, keywrap, attribute, name, part):
        """An immutable file; and a directory in which no file can be renamed or removed, so that the new one stays."""
        if subprocess.run(["chattr", attribute, name], capture_output=True).returncode:
            pytest.skip("chattr is not allowed here")
        before = state(str(PART))
        try:
            assert keywrap(WRAP_FILE) == FLUSH_FAULT
            assert (PART.read_bytes() if PART.exists() else None, state(str(PART))) == (
                part,
                before,
            )
        finally:
            subprocess.run(["chattr", "-ia", name], check=True)

    @pytest.mark.needs("tmpfs in a namespace")
    @pytest.mark.parametrize(
        "script, ended",
        [
            # Their first files have the same inode number. The KEK file is on one of them, the output on the other.
            (
                """mkdir one other; mount -t tmpfs none one; mount -t tmpfs none other
            cp kek16.hex one/kek; echo old >other/file
            [ "$(stat -c %i one/kek)" = "$(stat -c %i other/file)" ] || exit 77
            "$program" wrap --kek one/kek -i key.hex -o other/file; cat other/file""",
                Ended(0, WRAPPED.decode()),
            ),
            # It cannot be replaced, which the program notices only at the end.
            (
                """mount --bind kek24.hex to/file
            "$program" wrap --kek kek16.hex -i key.hex -o to/file || echo "status $?"
            cat to/file; ls to""",
                FLUSH_FAULT._replace(
                    status=0, stdout=f"status 6\n{FILES['kek24.hex'].decode()}file\n"
                ),
            ),
            # While a run waits for its input, a file of another file system takes the name and
            # the number of its new file.
            (
                """mkdir one; mount -t tmpfs none one; echo old >one/file; mkfifo pipe; exec 3<>pipe
            "$program" wrap --kek kek16.hex -i pipe -o one/file 3<&- & run=$!
            until [ -e one/file.part0 ]; do sleep 0.01; done
            number=$(stat -c %i one/file.part0)
            mount -t tmpfs none one; echo old >one/file; echo other >one/file.part0
            [ "$(stat -c %i one/file.part0)" = "$number" ] || exit 77
            cat key.hex >&3; exec 3>&-; wait $run || echo "status $?"
            cat one/file one/file.part0""",
                FLUSH_FAULT._replace(status=0, stdout="status 6\nold\nother\n"),
            ),
        ],
        ids=[
            "equal numbers on two file systems",
            "mount point",
            "equal number meanwhile",
        ],
    )
    def test_mounts(self, keywrap, script, ended):
        unshare = ["unshare", "-rm", "sh", "-eu", "-c"]
        env = {
            **os.environ,
            "program": keywrap.path,
        }
        run = subprocess.run(
            [*unshare, script], env=env, capture_output=True, text=True, timeout=1200
        )
        if run.returncode == 77:
            pytest.skip("the file systems give other numbers")
        assert (run.returncode, run.stdout, run.stderr) == ended


class TestWhileItWaits:
    """Runs that wait for their input, and are killed at the end if they still do."""

    @pytest.fixture
    def begin(self, keywrap):
        """begin(args) starts such a run over to/file."""
        with contextlib.ExitStack() as begun:

            def start(args=WRAP):
                run = begun.enter_context(
                    keywrap.started(f"{args} -o to/file", **PIPES)
                )
                begun.callback(run.kill)
                wait_for(PART.exists)
                return run

            yield start

    @pytest.mark.parametrize(
        "number", [signal.SIGKILL, signal.SIGINT, signal.SIGTERM, signal.SIGHUP]
    )
    @pytest.mark.parametrize(
        "given",
        ["", "--input pipe", "--lines"],
        ids=["standard input", "pipe", "many lines"],
    )
    def test_signal(self, keywrap, begin, number, given):
        """The file is unchanged, and only the new file may be left. The next run uses another name."""
        os.mkfifo("pipe")
        before = state()
        pipe = os.open("pipe", os.O_RDWR)
        run = begin(f"{WRAP} {given}")
        assert state(str(PART)) == before
        if given == "--lines":
            run.stdin.write((KEY16 + "\n").encode() * 4999)
            wait_for(lambda: PART.stat().st_size)
        run.send_signal(number)
        assert finish(run) == Ended(-number)
        os.close(pipe)
        assert state(str(PART)) == before
        if PART.exists():
            assert stat.S_IMODE(PART.stat().st_mode) in (0o600, 0o644)
            assert given == "--lines" or PART.read_bytes() == b""
        lands(keywrap, WRAP_FILE, WRAPPED)

    def test_two_runs(self, keywrap, begin):
        """They make two new files, and the run that ends last determines the file. Until then it is the old file."""
        before = state()
        run = begin()
        assert state(str(PART)) == before
        assert keywrap("wrap --kek kek32.hex -i key.hex -o to/file") == DONE
        assert (pathlib.Path("to/file").read_bytes(), PART.exists()) == (
            FILES["wrapped32.hex"],
            True,
        )
        assert finish(run, KEY16.encode()) == DONE
        assert held() == WRAPPED

    @pytest.mark.parametrize(
        "args, is_new", [(WRAP, True), (UNWRAP, True), (UNWRAP, False)]
    )
    def test_new_file_is_for_its_owner_alone(self, begin, args, is_new):
        """From the start, if it does not get the mode of an old file; and always for an unwrapped key."""
        if is_new:
            os.remove("to/file")
        os.umask(0)
        begin(args)
        assert oct(stat.S_IMODE(PART.stat().st_mode)) == "0o600"

    @pytest.mark.parametrize(
        "meanwhile, part",
        [
            ("rm to/file.part0", ""),
            ("rm to/file.part0; echo other >to/file.part0", ""),
            ("mv to moved; mkdir to", "moved/file.part0"),
            ("rm to/file; mkdir to/file", "to/file.part0"),
        ],
    )
    def test_what_changes_meanwhile(self, begin, meanwhile, part):
        """The new file goes away, or another takes its name, such as the new file of another run; another directory has
        the name of the one that the file is in; or a directory has its name. What is there then stays.
        """
        run = begin()
        sh(meanwhile)
        before = state(part)
        assert finish(run, KEY16.encode()) == FLUSH_FAULT
        assert (state(part), PART.exists()) == (before, "other" in meanwhile)


def ask(run, text, lines):
    """Writes the text, and returns this many lines of answers, which must come within five minutes."""
    run.stdin.write(text.encode())
    run.stdin.flush()
    answers = b""
    while answers.count(b"\n") < lines:
        assert select.select([run.stdout], [], [], 300)[0], "no answer"
        answers += os.read(run.stdout.fileno(), 1 << 16)
    return answers.decode()


class TestLines:
    @pytest.mark.parametrize(
        "args, given, answer",
        [
            (WRAP, KEY16, WRAPPED16),
            (UNWRAP, WRAPPED16, KEY16),
            (CHECK, WRAPPED16, "plain 16"),
            (f"{SAME_KEK} --keep-form", WRAPPED16, WRAPPED16),
        ],
    )
    def test_co_process_is_asked_1000_times(self, keywrap, args, given, answer):
        with keywrap.started(f"{args} --lines", **PIPES) as run:
            for _ in range(1000):
                assert ask(run, f"{given}\n", 1) == f"{answer}\n"
            assert finish(run) == DONE

    def test_a_line_is_answered_once_it_is_whole(self, keywrap):
        """Earlier lines are answered first. Refused lines, too, if the run continues."""
        with keywrap.started(f"{WRAP} --lines --keep-going", **PIPES) as run:
            for at in range(len(KEY16)):
                answers = ask(run, f"{KEY16}\n00\n{KEY16}\n{KEY16[:at]}", 3)
                assert answers == f"{WRAPPED16}\n\n{WRAPPED16}\n"
                assert select.select([run.stdout], [], [], 0)[0] == []
                assert ask(run, f"{KEY16[at:]}\n", 1) == f"{WRAPPED16}\n"
            assert finish(run).status == 4

    def test_refused_answer_ends_the_run(self, keywrap):
        """It reads no other line, which might never come, as in `keywrap wrap --lines | head -1`."""
        full = {**PIPES, "stdout": "/dev/full"}
        with keywrap.started(f"{WRAP} --lines", **full) as run:
            run.stdin.write(f"{KEY16}\n".encode())
            run.stdin.flush()
            assert run.wait(timeout=300) == 6

    @pytest.mark.needs("strace")
    def test_many_lines_are_written_in_few_pieces(self, keywrap):
        """So a file of many lines is as fast as before."""
        pathlib.Path("many").write_text(f"{WRAPPED16}\n" * 20_000)
        strace = "strace -f -o calls -e trace=write".split()
        assert (
            keywrap(f"{CHECK} --lines --input many --output answers", prefix=strace)
            == DONE
        )
        assert pathlib.Path("answers").read_text() == "plain 16\n" * 20_000
        assert len(pathlib.Path("calls").read_text().splitlines()) < 20
