"""--config: several stores in one run, checked as a whole before anything is touched."""

import json
import os
import sqlite3
import sys

import pytest

from keywrap_rotate import options
from rotation_help import (
    KEK,
    NEW_KEK,
    fill,
    make_keys,
    patched,
    rotate,
    seen,
    state,
    unwrapped,
    wrapped_under,
)

needs_toml = pytest.mark.skipif(
    sys.version_info < (3, 11), reason="no tomllib (Python 3.11)"
)
KEKS = 'kek = "kek.hex"\nnew-kek = "new-kek.hex"\n'
LINES = '[[store]]\nname = "lines"\nfiles = ["store"]\n'
TABLE = (
    '[[store]]\nname = "first"\ntable = "one"\ncolumn = "secret"\nfiles = ["keys.db"]\n'
)
OTHER = '[[store]]\nname = "second"\ntable = "two"\nfiles = "keys.db"\nbase64 = true\n'
STORE_KEYS = [make_keys(10, seed) for seed in range(2)]
TABLE_KEYS = make_keys(30, 7)


@pytest.fixture
def stores(tmp_path, monkeypatch):
    """A directory of files and two tables. The KEKs are only in the file that `config` writes."""
    monkeypatch.delenv("KEYWRAP_KEK")
    monkeypatch.delenv("KEYWRAP_NEW_KEK")
    fill(tmp_path / "store", STORE_KEYS)
    with sqlite3.connect(tmp_path / "keys.db") as database:
        for table, column in ("one", "secret"), ("two", "key"):
            database.execute(
                f"CREATE TABLE {table} (id INTEGER PRIMARY KEY, {column} BLOB)"
            )
            database.executemany(
                f"INSERT INTO {table} ({column}) VALUES (?)",
                [(wrapped_under(KEK, key),) for key in TABLE_KEYS],
            )
    return tmp_path


def config(directory, *parts):
    path = directory / "run.toml"
    path.write_text(KEKS + "".join(parts), encoding="utf-8")
    return path


def kek_of_tables(directory):
    """For each table the KEK of all its keys, or neither."""
    found = []
    with sqlite3.connect(directory / "keys.db") as database:
        for table, column in ("one", "secret"), ("two", "key"):
            rows = database.execute(f"SELECT {column} FROM {table} ORDER BY id")
            wrapped = [row[0] for row in rows]
            of_all = "neither"
            for name, kek in ("old", KEK), ("new", NEW_KEK):
                if [unwrapped(kek, each) for each in wrapped] == TABLE_KEYS:
                    of_all = name
            found.append(of_all)
    return found


@needs_toml
class TestRun:
    def test_all_stores(self, stores, tmp_path):
        """Each store has a line, and one is for all. Paths begin at the file's directory, wherever the run begins."""
        (tmp_path / "elsewhere").mkdir()
        path = config(stores, "jobs = 2\n", LINES, TABLE, OTHER)
        done = rotate("--config", path, "--summary-json", cwd=tmp_path / "elsewhere")
        assert done == 0
        assert state(stores / "store", STORE_KEYS) == ["new", "new"]
        assert kek_of_tables(stores) == ["new", "new"]
        assert [line.split(":")[1].strip() for line in done.messages] == [
            "lines",
            "first",
            "second",
            "stores",
        ]
        assert done.counts["keys"] == done.counts["rewrapped"] == 80
        total = json.loads(done.printed)
        assert (total["status"], total["new"]) == (0, 80)
        assert [each["new"] for each in total["stores"]] == [20, 30, 30]

    def test_report(self, stores):
        """Each line has its store, and the heading the options of all."""
        path = config(stores, 'report = "report"\n', LINES, TABLE)
        assert rotate("--config", path) == 0
        heading, *lines = map(json.loads, (stores / "report").open())
        assert [each["name"] for each in heading["stores"]] == ["lines", "first"]
        assert {line["store"] for line in lines[:-1]} == {"lines", "first"}
        assert lines[-1]["status"] == 0
        assert lines[-1]["keys"] == 50
        # Such a report is none of one store.
        done = rotate(
            *("--verify", "--verify-record", "report", "--new-kek", "new-kek.hex"),
            "store",
        )
        assert done == 2
        assert done.has("several stores")

    @pytest.mark.parametrize("option", ["--dry-run", "--verify"])
    def test_options_of_the_run_beside_it(self, stores, option):
        done = rotate(option, "--config", config(stores, LINES, TABLE))
        assert done == {"--dry-run": 6, "--verify": 5}[option]
        assert state(stores / "store", STORE_KEYS) == ["old", "old"]

    def test_the_command_line_goes_first(self, stores):
        """It goes first for --kek, too, although the file and the command line may not both have it."""
        (stores / "third.hex").write_text(bytes(24).hex())
        path = config(stores, "timeout = 1\n", LINES)
        done = rotate("--kek", "third.hex", "--config", path)
        assert done == 5
        assert done.counts["refused"] == 20
        assert rotate("--config", path) == 0

    def test_a_store_that_fails_does_not_stop_the_others(self, stores):
        """The run ends with the worst status."""
        wrong = TABLE.replace("secret", "none")
        done = rotate("--config", config(stores, wrong, OTHER, LINES))
        assert done == 5
        assert done.has("no such column")
        assert state(stores / "store", STORE_KEYS) == ["new", "new"]
        assert kek_of_tables(stores) == ["old", "new"]


FILES = 'files = "y"\n'
NAMED = f'csv = "c"\nkek-name = "n"\n{FILES}'


@needs_toml
@pytest.mark.parametrize(
    "key, of_run, of_store",
    [
        ("kek", 'kek = "x"', FILES),
        ("new-kek", 'new-kek = "x"', FILES),
        ("keks", 'keks = "x"', NAMED),
        ("new-keks", 'new-keks = "x"', NAMED),
        ("new-challenge", 'new-challenge = "x"', FILES),
        ("report", 'report = "x"', FILES),
        ("files", "", 'files = "x"'),
        ("files-from", "", 'files-from = "x"'),
        ("defaults-file", "", 'mariadb = "t"\ndefaults-file = "x"'),
    ],
)
def test_a_path_begins_at_the_directory_of_the_file(tmp_path, key, of_run, of_store):
    """The run begins in the directory above."""
    (tmp_path / "below").mkdir()
    path = tmp_path / "below/run.toml"
    path.write_text(f"{of_run}\n[[store]]\n{of_store}\n")
    (store,) = options.parse(["--config", str(path)]).stores
    expected = str(tmp_path / "below/x")
    assert getattr(store, key.replace("-", "_")) in (expected, [expected])


# Somebody asks for the end of the run after the last pass of a store.
STOPPED = patched(
    """import signal
from keywrap_rotate import command
def run_store(*words, real=command._run_store):
    summary = real(*words)
    os.kill(os.getpid(), signal.SIGTERM)
    return summary
command._run_store = run_store"""
)


@needs_toml
class TestAskedToEnd:
    def test_between_two_stores(self, stores):
        """The run is not done, although the store at work was: the status says so, and so does the report."""
        path = config(stores, 'report = "report"\n', LINES, TABLE, OTHER)
        done = rotate("--config", path, "--summary-json", program=STOPPED)
        assert done == 130
        assert done.messages[-1] == "keywrap-rotate: interrupted: run it again"
        assert state(stores / "store", STORE_KEYS) == ["new", "new"]
        assert kek_of_tables(stores) == ["old", "old"]
        total = json.loads(done.printed)
        assert total["status"] == 130
        assert [each["status"] for each in total["stores"]] == [0]
        last = (stores / "report").read_text().splitlines()[-1]
        assert json.loads(last)["status"] == 130
        os.unlink(stores / "report")
        assert rotate("--config", path) == 0
        assert kek_of_tables(stores) == ["new", "new"]

    def test_after_the_last_store(self, stores):
        """Nothing is left to do."""
        done = rotate("--config", config(stores, LINES), program=STOPPED)
        assert done == 0
        assert state(stores / "store", STORE_KEYS) == ["new", "new"]


@needs_toml
class TestCheckedBeforeAnythingIsTouched:
    @pytest.mark.parametrize(
        "parts, why",
        [
            (["colour = 1\n", LINES], "unknown key 'colour'"),
            ([LINES, "colour = 1\n"], "lines: unknown key 'colour'"),
            ([LINES, "jobs = 2\n"], "lines: unknown key 'jobs'"),
            (['column = "x"\n', LINES], "unknown key 'column'"),
            (['config = "x"\n', LINES], "unknown key 'config'"),
            ([LINES, 'shard = "1/2"\n'], "unknown key 'shard'"),
            (["make-challenges = true\n", LINES], "unknown key 'make-challenges'"),
            ([LINES, "kek = 'x'\n"], "lines: unknown key 'kek'"),
            ([LINES, "quiesced = 1\n"], "quiesced is neither true nor false"),
            ([LINES, "exclude = [1]\n"], "exclude has a value of another type"),
            ([LINES, "exclude = ['a', {b = 1}]\n"], "exclude has a value"),
            (["report = ['a']\n", LINES], "report has a value of another type"),
            (["jobs = true\n", LINES], "jobs has a value of another type"),
            (["jobs = 0\n", LINES], "must be a positive integer"),
            ([], "it has no [[store]]"),
            (["store = 1\n"], "it has no [[store]]"),
            (["store = [1]\n"], "store is not [[store]]"),
            (["[store]\nfiles = ['store']\n"], "it has no [[store]]"),
            (["x = \n", LINES], "not TOML"),
            ([LINES, "table = 't'\ncsv = 'c'\n"], "not allowed with argument"),
            ([LINES, "delimiter = 'x'\n"], "--delimiter does not go with"),
            ([LINES, "[[store]]\nname = 'b'\n"], "b: a FILE, or --files-from"),
            ([LINES, "prefix = ['v1:']\n"], "--prefix and --new-prefix go together"),
            ([LINES, "raw = true\ncsv = 'c'\n"], "--raw does not go with --csv"),
        ],
    )
    def test_a_wrong_file(self, stores, parts, why):
        before = seen(stores / "store/0"), seen(stores / "store/1")
        done = rotate("--config", config(stores, *parts))
        assert done == 2, done
        assert why in done.messages[-1], done
        assert (seen(stores / "store/0"), seen(stores / "store/1")) == before

    @pytest.mark.parametrize(
        "words, option",
        [
            (["store"], "FILE"),
            (["--column", "x"], "--column"),
            (["--shard", "1/2"], "--shard"),
            (["--raw"], "--raw"),
            (["--base64"], "--base64"),
            (["--table", "one"], "--table"),
            (["--exclude", "x"], "--exclude"),
            (["--quiesced"], "--quiesced"),
            (["--column", "key"], "--column"),
            (["--verify", "--verify-record", "report"], "--verify-record"),
        ],
    )
    def test_options_of_one_store_beside_it(self, stores, words, option):
        done = rotate("--config", config(stores, LINES), *words)
        assert done == 2
        assert done.has(f"error: {option} does not go with --config")

    @pytest.mark.parametrize(
        "missing",
        [
            LINES.replace('"store"', '"store", "none"').replace('"lines"', '"more"'),
            TABLE.replace("keys.db", "none.db"),
            '[[store]]\nfiles-from = "none"\n',
        ],
    )
    def test_a_store_that_is_not_there(self, stores, missing):
        """The first store is untouched, too, and there is no report."""
        path = config(stores, 'report = "report"\n', LINES, missing)
        done = rotate("--config", path)
        assert done == 5
        assert done.has("none")
        assert done.has("nothing was touched")
        assert state(stores / "store", STORE_KEYS) == ["old", "old"]
        assert not os.path.exists("report")

    @pytest.mark.parametrize("name", ["", "lines"], ids=["empty", "twice"])
    def test_names_of_stores(self, stores, name):
        """A line on a store names it."""
        other = OTHER.replace('"second"', f'"{name}"')
        done = rotate("--config", config(stores, LINES, other))
        assert done == 2
        assert done.has("a store has no name, or that of another one")

    @pytest.mark.parametrize(
        "content",
        [
            None,
            b"[" * 5000,
            b"a = " + b"9" * 5000,
            b"\xff",
            bytes([32]) * ((1 << 20) + 1),
        ],
        ids=["absent", "nested", "a long number", "not UTF-8", "too long"],
    )
    def test_no_file(self, stores, content):
        if content is not None:
            (stores / "run.toml").write_bytes(content)
        done = rotate("--config", "run.toml")
        assert done == 2
        assert done.has("--config: run.toml: ")

    def test_a_wrong_kek(self, stores):
        (stores / "kek.hex").write_text("00")
        assert rotate("--config", config(stores, LINES)) == 3
        assert state(stores / "store", STORE_KEYS) == ["old", "old"]


def test_a_python_without_tomllib(stores):
    """It is refused in one line, and all else works."""
    program = patched("sys.modules['tomllib'] = None")
    done = rotate("--config", config(stores, LINES), program=program)
    assert done == 2
    errors = [line for line in done.messages if "error" in line]
    assert len(errors) == 1
    assert "needs Python 3.11" in errors[0]
    words = "--kek", "kek.hex", "--new-kek", "new-kek.hex", "store"
    assert rotate(*words, program=program) == 0
