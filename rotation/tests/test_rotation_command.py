"""`python -m keywrap_rotate`: arguments, exit statuses, reports, records, many files by several processes, which are
killed, hang and are interrupted."""

import base64
import contextlib
import itertools
import json
import os
import pathlib
import pty
import re
import resource
import signal
import sqlite3
import subprocess
import sys
import time

import pytest
from rotation_help import (
    KEK,
    NEW_KEK,
    ROTATE,
    SLOWLY,
    children,
    end,
    evidence,
    fill,
    left_over,
    lines_under,
    make_keys,
    patched,
    rotate,
    seen,
    start,
    state,
    wait_for,
    wrapped_under,
    write_lines,
)

import keywrap
from keywrap_rotate import options

FILES = 8
KEYS = [make_keys(30, seed) for seed in range(FILES)]
ALL_NEW = ["new"] * FILES


@pytest.fixture
def store(tmp_path):
    """A directory of files of lines."""
    fill(tmp_path / "store", KEYS)
    return tmp_path / "store"


def names(store):
    return [str(store / str(number)) for number in range(FILES)]


def found_in(store):
    return state(store, KEYS)


def report_of(path):
    """The lines of a report after the first one, which is about the whole run."""
    with open(path, encoding="utf-8") as file:
        heading, *lines = map(json.loads, file)
    assert "host" in heading
    pattern = r"20..-..-..T..:..:..\....\+00:00"
    assert all(re.fullmatch(pattern, line["time"]) for line in [heading, *lines])
    return lines


class TestStatus:
    @pytest.mark.parametrize("jobs", ["1", "2", "4"])
    def test_rotates_many_files(self, store, jobs):
        done = rotate("--jobs", jobs, "--report", "report", *names(store))
        assert done.status == 0
        assert found_in(store) == ALL_NEW
        assert len(done.messages) == 1
        assert done.counts == {
            "pass": 2,
            "keys": 240,
            "new": 240,
            "old": 0,
            "refused": 0,
            "rewrapped": 240,
        }
        *lines, last = report_of("report")
        for number, old in (1, 30), (2, 0):
            units = [line for line in lines if line["number"] == number]
            assert sorted(line["unit"] for line in units) == names(store)
            counts = {
                tuple(line[word] for word in ("keys", "old", "new", "refused"))
                for line in units
            }
            assert counts == {(30, old, 30 - old, 0)}
        assert last["status"] == 0
        assert last["passes"] == 2
        assert last["rewrapped"] == 240
        assert last["keys"] == 240
        assert last["new"] == 240
        assert os.stat("report").st_mode & 0o777 == 0o600
        before = list(map(seen, sorted(store.iterdir())))
        again = rotate(*names(store))
        assert list(map(seen, sorted(store.iterdir()))) == before
        assert again.status == 0
        assert again.counts["pass"] == 1
        assert again.counts["rewrapped"] == 0
        assert again.has(
            "no key was under the KEK: this rotation ran before, or the KEKs are swapped"
        )

    def test_a_caller_that_ignores_the_ends_of_processes(self, store):
        assert (
            rotate(
                store, preexec_fn=lambda: signal.signal(signal.SIGCHLD, signal.SIG_IGN)
            )
            == 0
        )

    def test_dry_run_and_verify_write_nothing(self, store):
        before = list(map(seen, sorted(store.iterdir())))
        dry = rotate("--dry-run", str(store))
        assert dry.status == 6
        assert dry.counts["old"] == 240
        assert dry.has("240 keys are under")
        verified = rotate("--verify", str(store))
        assert verified.status == 5
        assert verified.counts["refused"] == 240
        assert list(map(seen, sorted(store.iterdir()))) == before
        assert rotate(str(store)) == 0
        assert rotate("--dry-run", store).counts["new"] == 240
        os.unlink("kek.hex")
        assert rotate("--verify", str(store)) == 0

    def test_refused_and_new_are_told_apart(self, store):
        foreign = lines_under(bytes(16), KEYS[3][:2])
        (store / "3").write_bytes(foreign + lines_under(KEK, KEYS[3][2:]))
        (store / "5").write_bytes(b"")
        done = rotate("--report", "report", *names(store), str(store / "none"))
        assert done == 5
        assert sorted(done.messages[:-1]) == [
            f"keywrap-rotate: {store}/3: line 1: under no KEK of this rotation",
            f"keywrap-rotate: {store}/3: line 2: under no KEK of this rotation",
            f"keywrap-rotate: {store}/5: no key",
            f"keywrap-rotate: {store}/none: No such file or directory",
        ]
        not_new = [file for file, end in enumerate(found_in(store)) if end != "new"]
        assert not_new == [3, 5]
        expected = foreign + lines_under(NEW_KEK, KEYS[3][2:])
        assert (store / "3").read_bytes() == expected
        units = report_of("report")[:-1]
        named = [unit["named"] for unit in units if unit["unit"].endswith("3")]
        assert named[-1] == [
            ["line 1", "under no KEK of this rotation"],
            ["line 2", "under no KEK of this rotation"],
        ]


@pytest.mark.parametrize(
    "words",
    [
        ["none"],
        ["empty"],
        ["--files-from", "list"],
        ["--csv", "key", "empty"],
        ["--json", "key", "line"],
        ["--one-key", "none"],
        ["--table", "keys", "none.db"],
        ["--shard", "1/3", "empty"],
        ["--files-from", "missing"],
    ],
)
def test_a_store_that_is_not_there(words):
    os.mkdir("empty")
    write_lines("list", [])
    write_lines("line", ['{"kye": "00"}'])
    for mode in [], ["--verify"], ["--dry-run"]:
        done = rotate(*mode, *words)
        assert done == 5
        assert len(done.messages) >= 1


def test_an_empty_shard(store):
    """A run without units of its shard ends with 0. A file that is named twice is in one shard only."""
    os.mkdir("top")
    store = store.rename("top/store")
    names = "top", store, store / "5"
    shards = [
        rotate("--jobs", "1", "--shard", f"{number}/12", *names)
        for number in range(1, 13)
    ]
    assert [shard.status for shard in shards] == [0] * 12
    assert sum(shard.counts["keys"] for shard in shards) == 240
    assert [shard.has("no key was found in this shard") for shard in shards].count(
        True
    ) >= 4
    assert found_in(store) == ALL_NEW


class TestArguments:
    @pytest.mark.parametrize(
        "words, status, line",
        [
            (["--jobs", "0"], 2, "argument --jobs: must be a positive integer"),
            (["--timeout", "x"], 2, "argument --timeout: must be a positive integer"),
            (["--shard", "0/2"], 2, "argument --shard: not I/N"),
            (["--shard", "3/2"], 2, "argument --shard: not I/N"),
            (["--raw", "--base64"], 2, "not allowed with"),
            (["--one-key", "--table", "keys"], 2, "not allowed with"),
            (["--verify", "--dry-run"], 2, "not allowed with argument"),
            (
                ["--csv", "key", "--raw"],
                2,
                "--raw does not go with --csv",
            ),
            (
                ["--table", "keys", "--quiesced"],
                2,
                "--quiesced does not go with --table",
            ),
            (["--postgresql", "keys"], 2, "FILE does not go with --postgresql"),
            (["--verify-record", "record"], 2, "--verify-record goes with --verify"),
            (
                ["--kek-name", "who", "--csv", "key"],
                2,
                "--kek-name and --keks, or --new-keks, go together",
            ),
            (["--prefix", "v1:"], 2, "--prefix and --new-prefix go together"),
            (
                ["--prefix", "v1", "--new-prefix", "v11"],
                2,
                "one prefix begins with another one",
            ),
            (
                ["--prefix", "v1:", "--new-prefix", "v2:\n"],
                2,
                "neither blanks at its ends nor control characters",
            ),
            (
                ["--get", "cp {name} {file}"],
                2,
                "FILE does not go with --get",
            ),
            (
                ["--verify", "--verify-record", "none"],
                2,
                "--verify-record: none: No such file or directory",
            ),
            (
                ["--verify", "--verify-record", "kek.hex"],
                2,
                "kek.hex: it is not a whole report of status 0",
            ),
            (
                ["--kek", "kek.hex", "--kek", "new-kek.hex"],
                2,
                "the KEK and the new KEK are the same key",
            ),
            (["--kek", "none"], 3, "the KEK: {}/none: No such file or directory"),
            (["--new-kek", "."], 3, "the new KEK: {}: Is a directory"),
            (
                ["--report", "/dev/full/none"],
                2,
                "--report: /dev/full/none: Not a directory",
            ),
            (["--report", "kek.hex"], 2, "--report: kek.hex: File exists"),
            (["--report", "link"], 2, "link: File exists"),
            (["--report", "fifo"], 2, "fifo: File exists"),
            (["--report", "/dev/full"], 2, "/dev/full: File exists"),
            (
                ["--verify", "--verify-record", "/dev/zero"],
                2,
                "it is not a whole report",
            ),
            (["--verify", "--verify-record", "fifo"], 2, "it is not a whole report"),
            (["--files-from", "/dev/zero"], 5, "not a regular file"),
            (["--files-from", "fifo"], 5, "not a regular file"),
            (["--kek", "/dev/zero"], 3, "the KEK: /dev/zero: too long"),
            (["--new-kek", "/dev/full"], 3, "too long"),
            (["--new-challenge", "/dev/zero"], 3, "too long"),
            (["--new-challenge", "new-kek.hex"], 3, "KEKs swapped?"),
            (
                ["--csv", "key", "--kek-name", "who", "--keks", "/dev/zero"],
                3,
                "--keks: /dev/zero: too long",
            ),
        ],
    )
    def test_refuses_arguments_and_keks(self, store, keks, words, status, line):
        os.symlink("kek.hex", "link")
        os.mkfifo("fifo")
        kek = (keks / "kek.hex").read_bytes()
        limit = 1 << 30  # Whatever is read has a bound.
        done = rotate(
            "--jobs",
            "1",
            *words,
            *names(store),
            timeout=60,
            preexec_fn=lambda: resource.setrlimit(resource.RLIMIT_AS, (limit, limit)),
        )
        assert done.status == status, done
        assert done.has(line.format(keks)), done
        if status != 5:
            assert found_in(store) == ["old"] * FILES
        assert (keks / "kek.hex").read_bytes() == kek

    @pytest.mark.parametrize(
        "words", [[], ["--one-key"], ["--raw"], ["--csv", "key"], ["--table", "keys"]]
    )
    def test_a_device_or_a_pipe_is_no_store(self, words):
        os.mkfifo("fifo")
        for what in "/dev/zero", "/dev/full", "fifo":
            done = rotate("--jobs", "1", *words, what, timeout=60)
            assert done.status == 5, done
            assert done.has("regular file"), done

    def test_an_option_that_is_gone_says_what_to_do(self, store):
        shown = rotate("--help").printed
        for name, instead in options.GONE.items():
            for words in ([name, "x"], [f"{name}=x"]):
                done = rotate(*words, store)
                assert done == 2
                assert done.messages[-1].endswith(f"{name} is gone: {instead}")
                assert name not in shown
        assert found_in(store) == ["old"] * FILES

    def test_help_and_version(self, monkeypatch):
        monkeypatch.setenv("COLUMNS", "80")
        lines = rotate("--help").printed.splitlines()
        assert len(lines) <= 60
        assert max(map(len, lines)) <= 80
        assert "other programs rename during each listing" in " ".join(
            " ".join(lines).split()
        )
        assert rotate("--version").printed == f"keywrap-rotate {keywrap.__version__}\n"
        assert rotate().has("a FILE, or --files-from, is required")
        monkeypatch.delenv("KEYWRAP_NEW_KEK")
        message = "keywrap-rotate: give --kek and --new-kek, or set KEYWRAP_KEK and KEYWRAP_NEW_KEK"
        assert rotate("none").messages == [message]


class TestOutput:
    def test_a_report_among_the_files(self, store):
        """It is no file of keys, and replaces none."""
        assert rotate("--report", store / "0", store).has("--report")
        assert found_in(store) == ["old"] * FILES
        done = rotate("--report", store / "report", store)
        assert done.status == 5
        assert found_in(store) == ALL_NEW
        assert report_of(store / "report")[-1]["status"] == 5

    def test_a_report_or_record_that_cannot_be_written(self, store):
        """A status of its own. What was rotated is new."""
        for number in range(FILES, 200):
            (store / str(number)).write_bytes(lines_under(KEK, KEYS[0][:1]))
        for words in ["--report", "report"], ["--verify", "--record", "record"]:
            done = rotate(
                *words,
                store,
                preexec_fn=lambda: resource.setrlimit(
                    resource.RLIMIT_FSIZE, (8192, 8192)
                ),
            )
            assert done.status == 4
            assert done.messages[-1] == "keywrap-rotate: the report: File too large"
            assert left_over(store) == []
            assert rotate(store) == 0

    @pytest.mark.parametrize(
        "name", ["bad\x1b[2J\rkeywrap-rotate: all is well", "new\nline", "\udcff"]
    )
    def test_names_are_escaped(self, store, name):
        (store / name).write_bytes(b"")
        done = rotate("--report", "report", str(store))
        escaped = name.encode("unicode_escape").decode()
        assert done.status == 5
        assert done.messages[0] == f"keywrap-rotate: {store}/{escaped}: no key"


def of_kind(path, kind, kek, keys=KEYS[0], encode=bytes.hex):
    """Writes a store of this kind."""
    wrapped = [wrapped_under(kek, key) for key in keys]
    if path.exists():
        path.unlink()
    if kind == "table":
        with contextlib.closing(sqlite3.connect(path)) as connection, connection:
            connection.execute(
                "CREATE TABLE t (id TEXT PRIMARY KEY, k BLOB) WITHOUT ROWID"
            )
            connection.executemany(
                "INSERT INTO t VALUES (?, ?)",
                [(f"{at:03}", key) for at, key in enumerate(wrapped)],
            )
        return
    texts = list(map(encode, wrapped))
    write_lines(
        path,
        {
            "lines": texts,
            "one-key": texts[:1],
            "csv": ["k", *texts],
            "json": ['{"k":"' + text + '"}' for text in texts],
        }[kind],
    )


ENCODINGS = {
    "hex": bytes.hex,
    "base64": lambda key: base64.b64encode(key).decode(),
    "base64url": lambda key: base64.urlsafe_b64encode(key).decode().rstrip("="),
}
OPTIONS = {
    "lines": [],
    "one-key": ["--one-key"],
    "csv": ["--csv", "k"],
    "json": ["--json", "k"],
    "table": ["--table", "t", "--column", "k"],
}


class TestRecord:
    @pytest.mark.parametrize("kind", OPTIONS)
    @pytest.mark.parametrize("notation", ENCODINGS)
    def test_each_notation_of_each_store(self, tmp_path, kind, notation):
        one = tmp_path / "one"
        other = tmp_path / "other"
        of_kind(one, kind, KEK, encode=ENCODINGS[notation])
        of_kind(other, kind, NEW_KEK, encode=ENCODINGS[notation])
        words = [*OPTIONS[kind], *([] if notation == "hex" else [f"--{notation}"])]
        assert rotate("--dry-run", *words, one) == 6
        assert rotate(*words, one) == 0
        assert kind == "table" or one.read_bytes() == other.read_bytes()
        for path in (one, other):
            assert rotate("--verify", *words, path) == 0

    @pytest.mark.parametrize("kind", OPTIONS)
    def test_a_record_of_each_store(self, tmp_path, kind):
        path = tmp_path / "store"
        words = ["--verify", *OPTIONS[kind], path]
        of_kind(path, kind, NEW_KEK)
        for name in ("record", "again"):
            assert rotate("--record", name, *words) == 0
        first, again = map(report_of, ("record", "again"))
        assert first[-1]["status"] == 0
        assert first[0]["digest"] == again[0]["digest"]
        count = 1 if kind == "one-key" else 30
        assert [unit["keys"] for unit in first[:-1]] == [count]
        assert os.stat("record").st_mode & 0o777 == 0o600
        assert len(os.listdir()) == 5
        assert rotate("--verify-record", "record", *words) == 0
        keys = KEYS[0]
        other = b"another" * 3
        changes = [[*keys[:-1], other], keys[:-1], [*keys, other]]
        if kind == "one-key":
            changes = [keys[1:]]
        for change in changes:
            of_kind(path, kind, NEW_KEK, change)
            done = rotate("--verify-record", "record", *words)
            assert done == 5
            assert done.messages[0].startswith(
                f"keywrap-rotate: {path}: missing or changed since"
            )

    def test_a_record_of_many_files(self, store):
        rotate(str(store))
        assert rotate("--jobs", "3", "--verify", "--record", "record", str(store)) == 0
        (store / "3").rename(store.parent / "kept")
        (store / "1").write_bytes((store / "2").read_bytes())
        (store / "9").write_bytes((store / "5").read_bytes())
        (store / "7").unlink()  # The last one of the record, and nothing after it.
        (store / "9").rename(store / "4a")
        done = rotate("--verify", "--verify-record", "record", str(store))
        assert done.status == 5
        assert sorted(done.messages[:-1]) == sorted(
            f"keywrap-rotate: {store}/{what} since the record: 30 keys"
            for what in (
                "1: missing or changed",
                "1: added or changed",
                "3: missing or changed",
                "4a: added or changed",
                "7: missing or changed",
            )
        )

    @pytest.mark.parametrize(
        "status, change",
        [
            (
                5,
                lambda lines: [
                    lines[0].replace('"keys": 30', '"keys": 31'),
                    *lines[1:],
                ],
            ),
            (5, lambda lines: lines[1:]),
            (
                5,
                lambda lines: [
                    re.sub('"digest": "..', '"digest": "00', lines[0]),
                    *lines[1:],
                ],
            ),
            (2, lambda lines: lines[:-1]),
            (
                2,
                lambda lines: [
                    *lines[:-1],
                    lines[-1].replace('"status": 0', '"status": 00'),
                ],
            ),
            (2, lambda lines: []),
            (2, lambda lines: ["[" * 100000]),
            (2, lambda lines: ["[1]\n", *lines]),
            (2, lambda lines: [*lines[:-1], '{"status": 0}']),
            (0, lambda lines: [*lines[:1], *lines]),
        ],
    )
    def test_a_record_that_was_changed_is_no_success(self, store, status, change):
        rotate(str(store))
        rotate("--verify", "--record", "record", str(store))
        text = pathlib.Path("record").read_text()
        heading, *lines = text.splitlines(keepends=True)
        pathlib.Path("changed").write_text("".join([heading, *change(lines)]))
        assert rotate("--verify", "--verify-record", "changed", str(store)) == status

    @pytest.mark.parametrize("status", [5, 130])
    def test_a_record_of_a_run_that_did_not_end_with_0(self, store, status):
        rotate(str(store))
        if status == 5:
            (store / "0").write_bytes(lines_under(KEK, KEYS[0]))
            assert rotate("--verify", "--record", "record", str(store)) == 5
        else:
            running = started(
                "--verify", "--record", "record", *names(store), stop="check_slots"
            )
            running.send_signal(signal.SIGINT)
            assert ended(running) == 130
        done = rotate("--verify", "--verify-record", "record", str(store))
        assert done.status == 2
        assert done.has("it is not a whole report of status 0")
        last = open("record").read().splitlines()[-1]
        assert json.loads(last)["status"] == status


class TestNames:
    def test_the_same_file_twice(self, store, monkeypatch):
        monkeypatch.chdir(store)
        (store.parent / "link").symlink_to(store)
        done = rotate("0", "./0", str(store / "0"), "../link/0")
        assert done.status == 0
        assert done.counts["keys"] == 30
        done = rotate(str(store), "1", ".", "../link")
        assert done.status == 0
        assert done.counts["keys"] == 240
        assert done.counts["rewrapped"] == 210

    def test_a_directory_means_all_files_below(self, store):
        (store / "below" / "further").mkdir(parents=True)
        more = [
            "below/.hidden",
            "below/further/a key",
            "below/line\nend",
            "below/\udcff",
            ".rotating.1",
            "-rf",
        ]
        for number, name in enumerate(more):
            (store / name).write_bytes(lines_under(KEK, KEYS[number]))
        done = rotate(str(store))
        assert done.status == 0
        assert done.counts["keys"] == 420
        for number, name in enumerate(more):
            assert (store / name).read_bytes() == lines_under(NEW_KEK, KEYS[number])

    def test_links_below_a_directory_are_refused(self, store, tmp_path):
        other = tmp_path / "other"
        other.mkdir()
        (other / "keys").write_bytes(lines_under(KEK, KEYS[0]))
        (store / "link").symlink_to(other / "keys")
        (store / "directory").symlink_to(other)
        done = rotate(str(store))
        assert done == 5
        assert {
            f"keywrap-rotate: {store}/{name}: a symbolic link"
            for name in ("link", "directory")
        } <= {*done.messages}
        assert (other / "keys").read_bytes() == lines_under(KEK, KEYS[0])
        assert found_in(store) == ALL_NEW

    def test_exclude(self, store):
        (store / "below").mkdir()
        for name in ("README", "below/lock"):
            (store / name).write_text("no key\n")
        assert rotate(str(store)) == 5
        assert (
            rotate("--exclude", "README", "--exclude", f"{store}/below", str(store))
            == 0
        )
        (store / "a\rb").write_bytes(lines_under(KEK, KEYS[0]))
        write_lines(
            "list", [store / name for name in ("README", "1", "below/lock", "a\rb")]
        )
        assert (
            rotate(
                "--exclude", "README", "--exclude", "*/lock", "--files-from", "list"
            ).counts["keys"]
            == 60
        )
        assert (store / "a\rb").read_bytes() == lines_under(NEW_KEK, KEYS[0])


def test_progress_on_a_terminal(store):
    ours, theirs = pty.openpty()
    done = subprocess.run(
        [*ROTATE, "--jobs", "1", *names(store)], check=False, stderr=theirs
    )
    os.close(theirs)
    shown = b""
    try:
        while True:
            shown += os.read(ours, 1000)
    except OSError:
        os.close(ours)
    assert done.returncode == 0
    assert re.search(r"\b\d+ %", shown.decode())
    assert (
        "240 rewrapped" in shown.decode().rstrip().replace("\r", "\n").splitlines()[-1]
    )


def started(*words, stop="rewrap_slots", more="", jobs=2):
    """Each process waits at its first key until the test makes `go`. Its link has the answer of PR_GET_DUMPABLE."""
    running = start(
        "--jobs",
        jobs,
        *words,
        program=patched(
            f"""import ctypes
from keywrap import _many
def held(*words, real=_many.{stop}):
    os.path.lexists(at := f"at {{os.getpid()}}") or os.symlink(f"{{ctypes.CDLL(None).prctl(3, 0, 0, 0, 0)}}", at)
    while not os.path.exists("go"):
        time.sleep(0.01)
    return real(*words)
_many.{stop} = held
{more}"""
        ),
    )
    wait_for(
        lambda: running.poll() is not None
        or sum(name.startswith("at ") for name in os.listdir()) >= jobs
    )
    return running


def ended(running):
    time.sleep(0.3)
    pathlib.Path("go").touch()
    return end(running)


def with_files(at_a_file, *words):
    """A run that does this before each file, whose name is `name`."""
    return rotate(
        "--jobs",
        "2",
        *words,
        program=patched(
            f"""from keywrap_rotate import files
def do(store, unit, *words, real=files.Files.do):
    name = unit.name.rsplit("/", 1)[1]
    {at_a_file}
    return real(store, unit, *words)
files.Files.do = do"""
        ),
    )


def is_alive(pid):
    with contextlib.suppress(FileNotFoundError):
        return (
            pathlib.Path(f"/proc/{pid}/stat").read_text().rsplit(")", 1)[1].split()[0]
            != "Z"
        )
    return False


class TestProcesses:
    def test_processes_end_with_a_run_that_is_killed(self, store):
        """None of them leaves a core file or shows its memory."""
        running = started(store)
        workers = children(running)
        for pid in [running.pid, *workers]:
            assert resource.prlimit(pid, resource.RLIMIT_CORE) == (0, 0)
        assert {os.readlink(f"at {pid}") for pid in workers} == {"0"}
        running.kill()
        running.communicate(timeout=60)
        wait_for(lambda: not any(map(is_alive, workers)))
        assert "neither" not in found_in(store)
        assert rotate(store) == 0
        assert found_in(store) == ALL_NEW
        assert left_over(store) == []

    def test_a_process_ends_with_a_run_that_is_killed_before_it_serves(self, store):
        running = start(
            store,
            program=patched(
                """from keywrap_rotate import pool
pool._serve = lambda *words, real=pool._serve: time.sleep(1) or real(*words)"""
            ),
        )
        wait_for(lambda: children(running))
        running.kill()
        running.communicate(timeout=20)  # A process that lives holds the pipes.

    @pytest.mark.parametrize(
        "sent, to_all",
        [(signal.SIGINT, False), (signal.SIGINT, True), (signal.SIGTERM, False)],
    )
    def test_an_interrupt_ends_between_two_files(self, store, sent, to_all):
        """Ctrl-C of a terminal reaches all processes. The units at work are done, and the report is whole."""
        running = started("--report", "report", *names(store))
        for pid in [running.pid, *(children(running) * 2 if to_all else [])]:
            os.kill(pid, sent)
            time.sleep(
                0.1
            )  # Apart, so that both arrive. A process with the handler of the parent ends at the second.
        done = ended(running)
        assert done.status == 130
        assert done.messages[-1] == "keywrap-rotate: interrupted: run it again"
        found = found_in(store)
        assert "neither" not in found
        assert "old" in found
        assert found.count("new") >= 2
        *units, last = report_of("report")
        assert last["status"] == 130
        assert {line["unit"] for line in units} == {
            name for name, is_new in zip(names(store), found) if is_new == "new"
        }
        assert left_over(store) == []
        assert rotate(store) == 0

    def test_a_second_interrupt_ends_at_once(self, store):
        running = started(store)
        for _ in range(2):
            running.send_signal(signal.SIGINT)
            time.sleep(0.5)
        done = end(running)
        assert done.status == 130
        assert done.messages == ["keywrap-rotate: interrupted: run it again"]
        assert found_in(store) == ["old"] * FILES
        assert rotate(store) == 0
        assert left_over(store) == []

    @pytest.mark.parametrize(
        "what, why",
        [
            ("os.kill(os.getpid(), 9)", "its process died"),
            ("time.sleep(1000)", "its process died"),
            ("1 / 0", "unexpected ZeroDivisionError"),
            ('os.path.exists("hung") or os.mkdir("hung") or time.sleep(1000)', ""),
        ],
    )
    def test_a_unit_with_a_defect_harms_no_other_one(self, store, what, why):
        """Not even those of its batch. One that hangs once is done again."""
        fill(store, [*KEYS, *[KEYS[0][:1]] * 92])
        done = with_files(f'name == "5" and ({what})', "--timeout", "1", store)
        assert done == (6 if why else 0)
        assert done.has(f"keywrap-rotate: {store}/5: {why}") == (why != "")
        assert found_in(store).count("new") == (7 if why else 8)
        assert done.counts["new"] == (302 if why else 332)

    @pytest.mark.parametrize(
        "slowly",
        [
            "from keywrap_rotate import replacing; replacing.BLOCK = 1000\n"
            + SLOWLY[-1].split("from keywrap_rotate")[0],
            "def slow(*words, real=os.pread): time.sleep(0.05); return real(*words)\nos.pread = slow\n"
            "from keywrap_rotate import replacing; replacing.BLOCK = 4000",
            "def slow(disk, real=os.fsync): time.sleep(3), real(disk)\nos.fsync = slow",
        ],
        ids=["file", "read", "disk"],
    )
    def test_what_is_slow_is_not_given_up(self, store, slowly):
        """Each block is a sign of life, also when it is compared, and so is a wait for the disk."""
        (store / "large").write_bytes(lines_under(KEK, [KEYS[0][1]] * 3000))
        done = rotate(
            "--timeout",
            "1",
            store / "large",
            program=patched(slowly),
            env={**os.environ, "SLOW": "0.001"},
        )
        assert done.status == 0
        assert done.counts["rewrapped"] == 3000

    def test_keks_that_change_meanwhile(self, store):
        """The units at work have the KEKs of the begin; no other unit is done."""
        running = started(store)
        write_lines("other", ["77" * 16])
        os.rename("other", "new-kek.hex")
        done = ended(running)
        message = "keywrap-rotate: the KEKs of this machine are not those that the rotation began with"
        assert done.status == 3
        assert done.messages == [message]
        assert "neither" not in found_in(store)
        assert "old" in found_in(store)

    def test_memory_does_not_grow_with_the_number_of_files(self, tmp_path):
        """The parent lists names in a temporary file, and hands out a bounded window of units."""
        memory = []
        for count in (3000, 9000):
            (tmp_path / str(count)).mkdir()
            for number in range(count):
                (tmp_path / str(count) / f"{number:0100}").write_bytes(b"zz")
            program = [
                sys.executable,
                "-c",
                "import resource, subprocess, sys; subprocess.run(sys.argv[1:]); "
                "print(resource.getrusage(resource.RUSAGE_CHILDREN).ru_maxrss)",
            ]
            done = rotate(
                "--dry-run", tmp_path / str(count), program=[*program, *ROTATE]
            )
            memory.append(int(done.printed))
        assert memory[1] - memory[0] < 3000

    @pytest.mark.parametrize("runs", [20, pytest.param(500, marks=evidence)])
    def test_runs_under_load_end(self, tmp_path, runs):
        """Processes are forked and end in each pass, and some are killed: none of the runs hangs, on a busy machine."""
        with contextlib.ExitStack() as stack:
            for _ in range(2 * os.cpu_count()):
                stack.callback(
                    subprocess.Popen([sys.executable, "-c", "while True: pass"]).kill
                )
            for number in range(runs):
                fill(tmp_path / "busy", [KEYS[0][:2]] * 20)
                running = start("--jobs", number % 4 + 1, "busy")
                if number % 2:
                    time.sleep(0.03 * (number % 40))
                    for child in itertools.islice(
                        children(running) if running.poll() is None else [], 1
                    ):
                        os.kill(
                            child, (signal.SIGKILL, signal.SIGTERM)[number // 2 % 2]
                        )
                assert end(running) == 0


WITHOUT_POSIX = """import os, sys
os.name = "nt"
for name in "fcntl", "grp", "pwd", "resource", "termios":
    sys.modules[name] = None
import keywrap_rotate
sys.exit(keywrap_rotate.main())
"""


@pytest.mark.parametrize("words", [[], ["--help"]])
def test_system_without_posix(words):
    """No module of POSIX is loaded, and the command refuses with one line."""
    command = [sys.executable, "-c", WITHOUT_POSIX, *words]
    ended = subprocess.run(command, capture_output=True, text=True)
    refused = (
        "keywrap-rotate: it needs the locks and renames of POSIX: run it on Linux\n"
    )
    assert (ended.returncode, ended.stdout, ended.stderr) == (2, "", refused)


def test_processors_of_other_systems(monkeypatch):
    monkeypatch.delattr(os, "sched_getaffinity")
    assert options._processors() == os.cpu_count()
