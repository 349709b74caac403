"""SQLite tables: one unit, undisturbed and while others write, and whole runs."""

import base64
import contextlib
import os
import pathlib
import shutil
import sqlite3
import threading

import pytest
from rotation_help import KEK, NEW_KEK, make_keys, rotate, seen, wrapped_under

from keywrap_rotate import challenges
from keywrap_rotate import found, sqlite
from keywrap_rotate.keys import Notation
from keywrap_rotate.listing import Names, Unit

KEYS = make_keys(12)
ADDED = make_keys(2, 9)[1]
each_size = pytest.mark.parametrize("size", [1, 5, 1000])


@pytest.fixture
def database(tmp_path):
    (tmp_path / "store").mkdir()
    path = tmp_path / "store/keys.db"
    run_sql(
        path,
        "CREATE TABLE keys (id INTEGER PRIMARY KEY, key, owner TEXT DEFAULT 'someone')",
    )
    run_many(
        path,
        "INSERT INTO keys (id, key) VALUES (?, ?)",
        [row[:2] for row in rows_under(KEK)],
    )
    return path


def rotated(path, table="keys", column="key", notation="hex", may_write=True):
    """Returns the counts of one database."""
    store = sqlite.Sqlite(table, column, Notation(notation), Names([str(path)]), None)
    pair = challenges()
    return found.found_by(
        lambda found: store.do(Unit(str(path), 1, ""), pair.rings(), may_write, found)
    )


def why(answer):
    return answer.named[0][1]


@contextlib.contextmanager
def connected(path, **more):
    with contextlib.closing(
        sqlite3.connect(path, **{"timeout": 20, **more})
    ) as connection, connection:
        yield connection


def run_sql(path, statement, *values, **more):
    with connected(path, **more) as connection:
        return connection.execute(statement, values).fetchall()


def run_many(path, statement, values):
    with connected(path) as connection:
        connection.executemany(statement, values)


def rows_under(kek, keys=KEYS):
    return [
        (number * 10, wrapped_under(kek, key), "someone")
        for number, key in enumerate(keys, 1)
    ]


class TestTable:
    def test_rotates_text_of_a_strange_table(self, database):
        """Names with quotes, dots and braces, which are no places in our statements."""
        run_sql(database, 'CREATE TABLE "a ""b.{key}" ("c.d}{row" TEXT, r TEXT)')
        old, new = (
            base64.b64encode(wrapped_under(kek, KEYS[0])).decode()
            for kek in (KEK, NEW_KEK)
        )
        run_sql(
            database,
            'INSERT INTO "a ""b.{key}" VALUES (?, 0), (NULL, 1), (?, 2)',
            old,
            f" {old}\n",
        )
        answer = rotated(database, 'a "b.{key}', "c.d}{row", "base64")
        assert answer.keys == 2, answer.named
        assert answer.refused == 0, answer.named
        assert run_sql(database, 'SELECT "c.d}{row" FROM "a ""b.{key}"') == [
            (new,),
            (None,),
            (new,),
        ]

    @pytest.mark.parametrize("encoding", ["UTF-8", "UTF-16le"])
    def test_text_in_each_encoding(self, tmp_path, encoding):
        path = tmp_path / "text.db"
        with connected(path) as connection:
            connection.executescript(
                f"PRAGMA encoding = '{encoding}'; CREATE TABLE keys (key TEXT)"
            )
            connection.execute(
                "INSERT INTO keys VALUES (?), ('é')",
                (wrapped_under(KEK, KEYS[0]).hex(),),
            )
        assert rotated(path).named == [("row 2", "not in the notation of the store")]
        assert run_sql(path, "SELECT key FROM keys") == [
            (wrapped_under(NEW_KEK, KEYS[0]).hex(),),
            ("é",),
        ]

    @pytest.mark.parametrize(
        "columns, values",
        [
            (
                "a TEXT, b INTEGER, key BLOB, PRIMARY KEY (a, b)) WITHOUT ROWID",
                lambda at: (f"x{at % 3}", at),
            ),
            (
                "rowid INTEGER, b INTEGER, key BLOB)",
                lambda at: (at if at % 2 else None, at),
            ),
            ("rowid, _rowid_, key BLOB)", lambda at: (None, at % 2)),
            ("a UUID, b REAL, key BLOB)", lambda at: (str(at), at / 3)),
            (
                "a, b DESC, key BLOB, PRIMARY KEY (b DESC)) WITHOUT ROWID",
                lambda at: (1, at * 1.5),
            ),
        ],
    )
    @each_size
    def test_tables_of_each_kind(self, tmp_path, monkeypatch, columns, values, size):
        """Each row is found, whatever its columns are called and however it is ordered."""
        monkeypatch.setattr("keywrap_rotate.keys.ROWS", size)
        path = tmp_path / "keys.db"
        run_sql(path, f"CREATE TABLE keys ({columns}")
        run_many(
            path,
            "INSERT INTO keys VALUES (?, ?, ?)",
            [(*values(at), wrapped_under(KEK, key)) for at, key in enumerate(KEYS)],
        )
        assert rotated(path).keys == 12
        assert rotated(path).new == 12
        assert sorted(run_sql(path, "SELECT key FROM keys")) == sorted(
            (wrapped_under(NEW_KEK, key),) for key in KEYS
        )

    @pytest.mark.parametrize(
        "statement, reason",
        [
            (
                "UPDATE keys SET key = zeroblob(40) WHERE id = 70",
                "under no KEK of this rotation",
            ),
            ("UPDATE keys SET key = x'' WHERE id = 70", "blank"),
            (
                "UPDATE keys SET key = 'text' WHERE id = 70",
                "not in the notation of the store",
            ),
            ("UPDATE keys SET key = 7 WHERE id = 70", "neither binary nor text"),
            ("UPDATE keys SET key = 7.5 WHERE id = 70", "neither binary nor text"),
            (
                "UPDATE keys SET key = zeroblob(3000000) WHERE id = 70",
                "longer than any key",
            ),
            (
                "UPDATE keys SET key = CAST(x'6d79206b6579ff0a1b' AS TEXT) WHERE id = 70",
                "not in the notation of the store",
            ),
        ],
    )
    @each_size
    def test_a_refused_row_is_named_and_stays(
        self, database, monkeypatch, statement, reason, size
    ):
        monkeypatch.setattr("keywrap_rotate.keys.ROWS", size)
        run_sql(database, statement)
        with connected(database) as connection:
            connection.text_factory = bytes
            ((value,),) = connection.execute(
                "SELECT key FROM keys WHERE id = 70"
            ).fetchall()
            answer = rotated(database)
            assert answer.named == [("row 70", reason)]
            assert answer.keys == 12
            expected = [
                (row, value if row == 70 else key)
                for row, key, _ in rows_under(NEW_KEK)
            ]
            assert connection.execute("SELECT id, key FROM keys").fetchall() == expected

    @pytest.mark.parametrize(
        "statement, reason",
        [
            (
                "ALTER TABLE keys RENAME TO others",
                "no such table (table keys, column key)",
            ),
            (
                "ALTER TABLE keys RENAME COLUMN key TO wrapped",
                "no such column (table keys, column key)",
            ),
        ],
    )
    def test_refuses_a_table(self, database, statement, reason):
        run_sql(database, statement)
        before = list(sqlite3.connect(database).iterdump())
        answer = rotated(database)
        assert answer.refused == 1
        assert why(answer) == reason
        assert list(sqlite3.connect(database).iterdump()) == before

    @pytest.mark.parametrize(
        "of, status", [("STRING", 5), ("INTEGER", 5), ("TEXT", 0), ("", 0)]
    )
    def test_a_new_key_that_reads_as_a_number(self, of, status):
        """A column of numbers would make one of it, with fewer digits."""
        old, new = (
            wrapped_under(kek, (105897).to_bytes(8, "big")).hex()
            for kek in (KEK, NEW_KEK)
        )
        run_sql("numbers.db", f"CREATE TABLE keys (key {of})")
        run_sql("numbers.db", "INSERT INTO keys VALUES (?)", old)
        done = rotate("--table", "keys", "numbers.db")
        refused = done.has("row 1: the table keeps another value")
        assert done.status == status, done
        assert refused == (status == 5), done
        assert float(new), done
        assert run_sql("numbers.db", "SELECT key FROM keys") == [
            (old if status else new,)
        ]

    @pytest.mark.parametrize("when", ["NEW.id = 70", "TRUE"])
    def test_rows_that_refuse_an_update_are_named(self, database, when):
        """Nobody shows the words of the trigger."""
        run_sql(
            database,
            f"CREATE TRIGGER t BEFORE UPDATE ON keys WHEN {when} BEGIN SELECT RAISE(ABORT, 'their words'); END",
        )
        rows = [70] if when == "NEW.id = 70" else [row for row, _, _ in rows_under(KEK)]
        answer = rotated(database)
        why = "it cannot be written: IntegrityError"
        assert sorted(answer.named) == sorted((f"row {row}", why) for row in rows)
        assert answer.unwritable == len(rows)
        assert answer.unwritten == 0
        held = dict(run_sql(database, "SELECT id, key FROM keys"))
        old, new = (dict(row[:2] for row in rows_under(kek)) for kek in (KEK, NEW_KEK))
        assert held == {**new, **{row: old[row] for row in rows}}

    @pytest.mark.parametrize("moment", ["BEFORE", "AFTER"])
    def test_a_trigger_that_shortens_a_key_destroys_none(self, database, moment):
        """The stored value is compared with the new key before the commit."""
        run_sql(
            database,
            f"CREATE TRIGGER t {moment} UPDATE ON keys WHEN NEW.id = 70 AND length(NEW.key) > 9 BEGIN "
            "UPDATE keys SET key = substr(NEW.key, 1, 9) WHERE id = 70; END",
        )
        answer = rotated(database)
        assert answer.refused == (moment == "AFTER")
        held = dict(run_sql(database, "SELECT id, key FROM keys"))
        old, new = (dict(row[:2] for row in rows_under(kek)) for kek in (KEK, NEW_KEK))
        assert held == ({**new, 70: old[70]} if moment == "AFTER" else new)

    def test_a_key_in_the_primary_key(self, tmp_path):
        """A row changes its place when its key is written."""
        path = tmp_path / "keys.db"
        keys = make_keys(3000, 5)
        run_sql(path, "CREATE TABLE keys (key BLOB PRIMARY KEY) WITHOUT ROWID")
        run_many(
            path,
            "INSERT INTO keys VALUES (?)",
            [(wrapped_under(KEK, key),) for key in keys],
        )
        done = rotate("--table", "keys", path)
        assert done.status == 0
        assert done.counts["keys"] == 3000
        assert done.counts["rewrapped"] == 3000
        held = {key for (key,) in run_sql(path, "SELECT key FROM keys")}
        assert held == {wrapped_under(NEW_KEK, key) for key in keys}

    def test_a_primary_key_that_is_null(self, tmp_path):
        path = tmp_path / "keys.db"
        run_sql(
            path,
            "CREATE TABLE keys (id, rowid, oid, _rowid_, key BLOB, PRIMARY KEY (id))",
        )
        old = [
            (None if at == 3 else at, wrapped_under(KEK, key))
            for at, key in enumerate(KEYS)
        ]
        run_many(path, "INSERT INTO keys (id, key) VALUES (?, ?)", old)
        done = rotate("--table", "keys", path)
        assert done.status == 0, done
        assert done.counts["new"] == len(KEYS), done

    def test_a_primary_key_that_is_not_utf_8(self, tmp_path):
        path = tmp_path / "keys.db"
        run_sql(path, "CREATE TABLE keys (id TEXT PRIMARY KEY, key BLOB) WITHOUT ROWID")
        run_sql(
            path,
            "INSERT INTO keys VALUES (CAST(x'ff' AS TEXT), ?)",
            wrapped_under(KEK, KEYS[0]),
        )
        done = rotate("--table", "keys", path)
        assert done.status == 5
        assert done.has(f"{path}: a primary key is not UTF-8 (table keys)")

    def test_a_trigger_that_changes_what_is_written(self, database):
        run_sql(
            database,
            "CREATE TRIGGER t AFTER UPDATE ON keys BEGIN UPDATE keys SET key = x'00' WHERE id = 10; END",
        )
        done = rotate("--table", "keys", database)
        assert done.status == 5
        assert done.has("row 10: bad length")

    def test_refuses_what_is_no_database(self, tmp_path, database):
        (tmp_path / "file").write_bytes(b"no database" * 100)
        assert why(rotated(tmp_path / "file")).startswith("file is not a database")
        (tmp_path / "directory?%41").mkdir()
        assert rotated(tmp_path / "none").moved == 1
        assert not (tmp_path / "none").exists()
        os.link(database, tmp_path / "second name")
        assert why(rotated(database)) == "not a regular file with one name"

    @pytest.mark.parametrize("mode", ["WAL", "PERSIST", "DELETE"])
    def test_files_beside_a_database_are_none(self, database, mode):
        """And others of such a name are, also if they are named."""
        shutil.copy(database, database.parent / "other-wal")
        (database.parent / "app").mkdir()
        shutil.copy(database, database.parent / "app-journal")
        with connected(database) as connection:
            connection.executescript(
                f"PRAGMA journal_mode = {mode}; UPDATE keys SET owner = 'other';"
                "UPDATE keys SET owner = 'someone'"
            )
            assert (
                rotate("--dry-run", "--table", "keys", database.parent).counts[
                    "refused"
                ]
                == 0
            )
            done = rotate("--table", "keys", database.parent)
        assert done.status == 0, done
        assert done.counts["keys"] == 36, done
        assert run_sql(database, "SELECT * FROM keys") == rows_under(NEW_KEK)
        assert (
            rotate(
                "--verify", "--table", "keys", database.parent / "app-journal"
            ).counts["keys"]
            == 12
        )

    @pytest.mark.parametrize(
        "mode, is_killed", [("DELETE", False), ("WAL", False), ("WAL", True)]
    )
    def test_dry_run_and_verify_change_no_byte(self, database, mode, is_killed):
        """Nor do they empty the log of a writer that was killed."""
        with connected(database) as writer:
            writer.executescript(
                f"PRAGMA journal_mode = {mode}; UPDATE keys SET owner = 'other'"
            )
            shutil.copytree(database.parent, "killed")
        database = pathlib.Path("killed/keys.db") if is_killed else database
        files = [path for path in database.parent.iterdir() if path.suffix != ".db-shm"]
        before = [seen(path)[:8] + (path.read_bytes(),) for path in files]
        for words in (["--dry-run"], ["--verify"]):
            assert rotate(*words, "--table", "keys", database).counts["keys"] == 12
            assert [seen(path)[:8] + (path.read_bytes(),) for path in files] == before
            assert is_killed or os.listdir(database.parent) == ["keys.db"]

    def test_a_damaged_page_is_no_success(self, tmp_path):
        path = tmp_path / "keys.db"
        run_sql(path, "CREATE TABLE keys (id INTEGER PRIMARY KEY, key BLOB)")
        run_many(
            path,
            "INSERT INTO keys VALUES (?, ?)",
            enumerate([wrapped_under(KEK, KEYS[1])] * 20000),
        )
        content = bytearray(path.read_bytes())
        at = len(content) // 4096 // 2 * 4096
        content[at : at + 4096] = b"\xff" * 4096
        path.write_bytes(content)
        for words in [], ["--verify"]:
            done = rotate(*words, "--table", "keys", path)
            assert done.status == 5
            assert done.has("database disk image is malformed")


class Clock:
    """Stands for the module `time`: nobody waits, and the sleeps are noted."""

    def __init__(self):
        self.now = 0
        self.slept = []

    def monotonic(self):
        return self.now

    def sleep(self, seconds):
        self.slept.append(seconds)
        self.now += seconds


class TestWriters:
    @pytest.mark.parametrize(
        "statement, values, keys",
        [
            (
                "UPDATE keys SET key = ? WHERE id = 120",
                [wrapped_under(KEK, ADDED)],
                KEYS[:-1] + [ADDED],
            ),
            (
                "UPDATE keys SET key = ? WHERE id = 120",
                [wrapped_under(NEW_KEK, ADDED)],
                KEYS[:-1] + [ADDED],
            ),
            (
                "UPDATE keys SET key = ? WHERE id = 10",
                [wrapped_under(KEK, ADDED)],
                [ADDED] + KEYS[1:],
            ),
            (
                "INSERT INTO keys (id, key) VALUES (130, ?)",
                [wrapped_under(NEW_KEK, ADDED)],
                KEYS + [ADDED],
            ),
            ("DELETE FROM keys WHERE id = 120", [], KEYS[:-1]),
        ],
        ids=[
            "changed",
            "changed under the new KEK",
            "first changed",
            "added",
            "removed",
        ],
    )
    @pytest.mark.parametrize("at", [1, 12])
    @pytest.mark.parametrize("size", [2, 1000])
    def test_a_table_that_changes_meanwhile(
        self, database, meanwhile, monkeypatch, statement, values, keys, at, size
    ):
        """The pass knows that others wrote it, and the next one has the rest."""
        monkeypatch.setattr("keywrap_rotate.keys.ROWS", size)
        meanwhile(lambda: run_sql(database, statement, *values), at=at)
        assert rotated(database).moved == 1
        rotated(database)
        answer = rotated(database)
        assert answer.new == len(keys)
        assert answer.keys == len(keys)
        assert answer.moved == 0
        assert run_sql(database, "SELECT * FROM keys") == rows_under(NEW_KEK, keys)

    @pytest.mark.parametrize("mode, seen", [("WAL", (12, 0)), ("DELETE", (11, 1))])
    def test_a_row_that_moves_meanwhile(self, database, monkeypatch, mode, seen):
        """Until it writes, a pass reads a log at one moment. Of a journal it knows that others wrote."""
        real = sqlite.rewrapped_rows
        move = "UPDATE keys SET id = 5 WHERE id = 120"
        run_sql(database, f"PRAGMA journal_mode = {mode}")
        monkeypatch.setattr("keywrap_rotate.keys.ROWS", 2)
        monkeypatch.setattr(
            sqlite,
            "rewrapped_rows",
            lambda *words: (run_sql(database, move), real(*words))[1],
        )
        answer = rotated(database, may_write=False)
        assert (sum(answer.old.values()), answer.moved) == seen

    @pytest.mark.parametrize("conflict", ["ABORT", "REPLACE", "IGNORE", "FAIL"])
    def test_a_unique_index_deletes_no_row(self, database, conflict):
        """A new writer has the same key in another row already, and the table would replace that row."""
        run_sql(database, "DROP TABLE keys")
        run_sql(
            database,
            f"CREATE TABLE keys (id INTEGER PRIMARY KEY, key UNIQUE ON CONFLICT {conflict})",
        )
        old = rows_under(KEK)[0][1]
        new = rows_under(NEW_KEK)[0][1]
        rows = [(1, old), (2, new)]
        run_many(database, "INSERT INTO keys (id, key) VALUES (?, ?)", rows)
        answer = rotated(database)
        assert run_sql(database, "SELECT id, key FROM keys ORDER BY id") == rows
        assert (answer.refused, answer.named[0][0]) == (1, "row 1")

    def test_nobody_waits_while_rows_are_rewrapped(self, database, meanwhile):
        """Another process writes in the middle, without waiting for the lock."""
        meanwhile(
            lambda: run_sql(
                database, "UPDATE keys SET owner = 'other' WHERE id = 10", timeout=0
            ),
            at=6,
        )
        rotated(database)
        assert run_sql(database, "SELECT owner FROM keys WHERE id = 10") == [("other",)]

    def test_others_get_the_lock_for_as_long_as_the_run(self, database, monkeypatch):
        """Each write takes three seconds of this clock. The run waits as long before the next one."""
        clock = Clock()

        def slow_write(*given, real=sqlite._Table.write):
            real(*given)
            clock.now += 3

        monkeypatch.setattr(sqlite, "time", clock)
        monkeypatch.setattr(sqlite._Table, "write", slow_write)
        monkeypatch.setattr("keywrap_rotate.keys.ROWS", 5)
        assert rotated(database).keys == 12
        assert clock.slept == [0, 3, 3]

    @pytest.mark.parametrize("lock", ["BEGIN IMMEDIATE", "BEGIN EXCLUSIVE"])
    def test_a_locked_database(self, database, monkeypatch, lock):
        with connected(
            database, isolation_level=None, check_same_thread=False
        ) as other:
            other.execute(lock)
            with monkeypatch.context() as patch:
                patch.setattr(sqlite, "LOCK_SECONDS", 0.2)
                answer = rotated(database)
            assert answer.lost == 1
            assert why(answer) == "another program has locked the database"
            unlocking = threading.Timer(2, other.execute, ["COMMIT"])
            unlocking.start()
            assert rotate("--table", "keys", database) == 0
            unlocking.join()
        assert run_sql(database, "SELECT * FROM keys") == rows_under(NEW_KEK)
