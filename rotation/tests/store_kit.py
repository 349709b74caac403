"""The kit of tests for stores: what PROTOCOL.md says that each of them owes.

A bench fills, reads and disturbs a store of one kind. A subclass of `StoreTests` with a bench has the tests of the kit.
`cryptography` makes the expected bytes.
"""

import contextlib
import fcntl
import importlib
import os
import pathlib
import random
import shutil
import signal
import sqlite3
import threading
import time

import pytest
from rotation_help import (
    KEK,
    NEW_KEK,
    end,
    patched,
    start,
    unwrapped,
    wait_for,
    wrapped_under,
    write_lines,
)

FILES = 8
OTHER_KEK = bytes(range(200, 224))
# A rotation of small steps and ranges that takes about half a second for the keys of a bench.
SLOWLY = patched(
    """from keywrap import _many
from keywrap_rotate import keys
from rotation_help import before_each_key
keys.ROWS = 10
_many.rewrap_slots = before_each_key(lambda text: time.sleep(0.004))"""
)


class Bench:
    """A store for tests: `words` are the arguments of its rotation, and a key is found by its place.

    A kind of store sets what it cannot have to `None`: what moves keys without changing them, triggers, a schema, rows
    of which one is updated, and rows that refuse an update.
    """

    words = []
    places = 120
    #: The fixture of its server, and whether several runs may divide it.
    server = None
    has_shards = True
    move = keep_history = change_schema = touch = freeze = None

    def __init__(self, keys, server):
        """Fills the store with these wrapped keys by their places."""
        raise NotImplementedError

    def write(self, place, wrapped):
        """Writes a key as a service does that keeps what the page asks."""
        raise NotImplementedError

    def held(self):
        """The wrapped keys by their places."""
        raise NotImplementedError

    def empty(self):
        """Removes all keys."""
        raise NotImplementedError

    def remove(self):
        """Removes the store."""
        raise NotImplementedError


class Files(Bench):
    """FILES files with several keys each. A writer renames a new file into the place of an old one."""

    words = ["store"]

    def __init__(self, keys, server):
        self.keys = dict(keys)
        self.last = {}
        os.makedirs("store")
        for number in range(FILES):
            self.rename(
                number,
                {
                    place: key
                    for place, key in self.keys.items()
                    if place % FILES == number
                },
            )

    def rename(self, name, keys):
        write_lines("their", [keys[place].hex() for place in sorted(keys)])
        os.rename("their", f"store/{name}")

    def write(self, place, wrapped):
        """Reads the file, changes one key, and renames a new file into its place. Only the rotation writes it, too. In
        the middle of an exchange, the file lacks what was written right before: then this is tried again later.
        """
        number = place % FILES
        held = self.read(number)
        if not held.items() >= self.last.get(number, {}).items():
            raise LookupError
        self.rename(number, {**held, place: wrapped})
        self.last[number] = {place: wrapped}

    def read(self, number):
        found = map(bytes.fromhex, pathlib.Path(f"store/{number}").read_text().split())
        return dict(
            zip(sorted(place for place in self.keys if place % FILES == number), found)
        )

    def held(self):
        return {
            place: key
            for number in range(FILES)
            for place, key in self.read(number).items()
        }

    def move(self):
        """Renames a file to a name at the other end of the directory, and back."""
        os.rename("store/0", "store/z")
        time.sleep(0.005)
        os.rename("store/z", "store/0")

    def empty(self):
        for path in pathlib.Path("store").iterdir():
            path.unlink()

    def remove(self):
        shutil.rmtree("store")


class Objects(Files):
    """Objects with compare-and-swap: a version is the digest of the content."""

    places = 16
    move = None
    words = [
        "--files-from",
        "manifest",
        "--get",
        "sh object get {name} {file}",
        "--put",
        "sh object put {name} {file} {version}",
    ]
    commands = """version() { sha256sum <"$1" | cut -c 1-64; }
        case $1 in
        get) cp "store/$2" "$3" && version "$3" ;;
        put) exec 9>lock && flock 9 && [ "$(version "store/$2")" = "$4" ] && cp "$3" "new$$" && mv "new$$" "store/$2" ;;
        esac"""

    def __init__(self, keys, server):
        self.keys = keys
        os.makedirs("store")
        pathlib.Path("object").write_text(self.commands)
        pathlib.Path("manifest").write_text("\n".join(map(str, keys)))
        for place, wrapped in keys.items():
            self.write(place, wrapped)

    def write(self, place, wrapped):
        with open("lock", "w") as lock:
            fcntl.flock(lock, fcntl.LOCK_EX)
            self.rename(place, {place: wrapped})

    def held(self):
        return {
            place: bytes.fromhex(pathlib.Path(f"store/{place}").read_text())
            for place in self.keys
        }

    def empty(self):
        pathlib.Path("manifest").write_text("")


class OneKey(Objects):
    """Files of one key."""

    words = ["--one-key", "store"]
    places = 120
    move = Files.move
    empty = Files.empty


class Table(Bench):
    """A table with the columns id and key. `sql` runs a statement, and `hot_sql` runs one many times a second."""

    def move(self):
        self.hot_sql("UPDATE keys SET id = -7 WHERE id = 7")
        time.sleep(0.05)
        self.hot_sql("UPDATE keys SET id = 7 WHERE id = -7")
        time.sleep(0.05)

    def change_schema(self):
        self.sql("ALTER TABLE keys ADD COLUMN more int")

    def touch(self, place):
        self.hot_sql(f"UPDATE keys SET id = id WHERE id = {place}")

    def empty(self):
        self.sql("DELETE FROM keys")

    def remove(self):
        self.sql("DROP TABLE keys")


class Sqlite(Table):
    words = ["--table", "keys", "keys.db"]
    mode = "DELETE"

    def __init__(self, keys, server):
        self.run(f"PRAGMA journal_mode = {self.mode}")
        self.run("CREATE TABLE keys (id INTEGER PRIMARY KEY, key BLOB)")
        for place, wrapped in keys.items():
            self.run("INSERT INTO keys VALUES (?, ?)", place, wrapped)

    def run(self, statement, *values):
        with contextlib.closing(
            sqlite3.connect("keys.db", timeout=60)
        ) as connection, connection:
            return connection.execute(statement, values).fetchall()

    def write(self, place, wrapped):
        self.run("UPDATE keys SET key = ? WHERE id = ?", wrapped, place)

    def held(self):
        return dict(self.run("SELECT id, key FROM keys"))

    def sql(self, statement):
        self.run(statement)

    hot_sql = sql

    def keep_history(self):
        self.sql(
            "CREATE TRIGGER history AFTER UPDATE ON keys BEGIN INSERT INTO keys (key) VALUES (OLD.key); END"
        )

    def freeze(self, place):
        self.sql(
            f"CREATE TRIGGER frozen BEFORE UPDATE ON keys WHEN NEW.id = {place} "
            "BEGIN SELECT RAISE(ABORT, 'frozen'); END"
        )


class Log(Sqlite):
    mode = "WAL"


class Postgresql(Table):
    words = ["--postgresql", "keys"]
    server = "server"
    has_shards = False

    def __init__(self, keys, server):
        self.server = server
        server.fill(keys)
        self.session = importlib.import_module("psycopg").connect(autocommit=True)

    def write(self, place, wrapped):
        self.server.sql(
            f"UPDATE keys SET key = '\\x{wrapped.hex()}' WHERE id = {place}"
        )

    def held(self):
        return self.server.held()

    def sql(self, statement):
        self.server.sql(statement)

    def hot_sql(self, statement):
        self.session.execute(statement)

    def _trigger(self, name, when, body):
        function = (
            f"CREATE OR REPLACE FUNCTION {name}() RETURNS trigger LANGUAGE plpgsql"
        )
        self.sql(f"{function} AS $$ BEGIN {body} RETURN NEW; END $$")
        self.sql(f"CREATE TRIGGER {name} {when} EXECUTE FUNCTION {name}()")

    def keep_history(self):
        self._trigger(
            "history",
            "AFTER UPDATE ON keys FOR EACH ROW",
            "INSERT INTO keys VALUES (1e15 * random(), OLD.key);",
        )

    def freeze(self, place):
        self._trigger(
            "frozen",
            f"BEFORE UPDATE ON keys FOR EACH ROW WHEN (NEW.id = {place})",
            "RAISE EXCEPTION 'frozen';",
        )


class Mariadb(Table):
    """Its triggers cannot change the table that they are of: none keeps the old row there."""

    words = ["--mariadb", "keys", "--defaults-file", "options"]
    server = "mariadb"
    has_shards = False

    def __init__(self, keys, server):
        self.server = server
        server.fill(keys)
        server.sql("ALTER TABLE `keys` ADD COLUMN hits int DEFAULT 0")
        self.session = server.connect()

    def write(self, place, wrapped):
        self.server.sql(
            f"UPDATE `keys` SET `key` = X'{wrapped.hex()}' WHERE id = {place}"
        )

    def held(self):
        return self.server.held()

    def sql(self, statement):
        self.server.sql(statement.replace(" keys", " `keys`"))

    def hot_sql(self, statement):
        self.session.cursor().execute(statement.replace(" keys", " `keys`"))

    def touch(self, place):
        self.hot_sql(f"UPDATE keys SET hits = hits + 1 WHERE id = {place}")

    def freeze(self, place):
        self.sql(
            f"CREATE TRIGGER frozen BEFORE UPDATE ON keys FOR EACH ROW "
            f"IF NEW.id = {place} THEN SIGNAL SQLSTATE '45000' SET MESSAGE_TEXT = 'frozen'; END IF"
        )


def server_of(bench, request):
    """The server of a bench, or `None`."""
    return None if bench.server is None else request.getfixturevalue(bench.server)


def key_and_kek(wrapped):
    """The key, and the KEK that it is under."""
    found = ((unwrapped(kek, wrapped), kek) for kek in (NEW_KEK, KEK, OTHER_KEK))
    return next(((key, kek) for key, kek in found if key is not None), (None, None))


class Writer(threading.Thread):
    """Writes keys under the new KEK, and remembers where it wrote which."""

    def __init__(self, store, source):
        super().__init__()
        self.store = store
        self.source = source
        self.acknowledged = []
        self.stopped = threading.Event()

    def run(self):
        while not self.stopped.is_set():
            place = self.source.randrange(self.store.places)
            key = self.source.randbytes(24)
            with contextlib.suppress(LookupError):
                self.store.write(place, wrapped_under(NEW_KEK, key))
                self.acknowledged.append((place, key))
            time.sleep(self.source.random() * 0.02)

    def __enter__(self):
        self.start()
        return self.acknowledged

    def __exit__(self, *error):
        self.stopped.set()
        self.join(timeout=60)


KINDS = {
    "lines": Files,
    "files of one key": OneKey,
    "objects": Objects,
    "SQLite": Sqlite,
    "SQLite with a log": Log,
    "PostgreSQL": Postgresql,
    "MariaDB": Mariadb,
}


@contextlib.contextmanager
def repeated(act, pause):
    """Another program, which does this again and again."""
    stopped = threading.Event()

    def work():
        while not stopped.wait(pause):
            act()

    thread = threading.Thread(target=work)
    thread.start()
    try:
        yield
    finally:
        stopped.set()
        thread.join()


class StoreTests:
    """The tests that each store passes. A subclass sets `bench`."""

    bench = Bench

    @pytest.fixture
    def keys(self):
        source = random.Random(self.bench.__name__)
        return {place: source.randbytes(32) for place in range(self.bench.places)}

    @pytest.fixture
    def store(self, request, tmp_path, keys):
        return self.bench(under(KEK, keys), server_of(self.bench, request))

    def needs(self, name):
        """Skips a test for what a store of this kind cannot have."""
        if getattr(self.bench, name) is None:
            pytest.skip(f"{self.bench.__name__} has no {name}")

    def begun(self, *words):
        return start("--jobs", "2", *words, *self.bench.words, program=SLOWLY)

    def rotated(self, *words):
        return end(self.begun(*words))

    def ended(self, attempts=5):
        """How a run ends that is begun again as long as it is not finished."""
        for _ in range(attempts):
            done = self.rotated()
            if done != 6:
                break
        return done

    def test_a_store_at_rest(self, store, keys):
        """Every key is rewrapped once, and the verifying pass needs no old KEK."""
        done = self.rotated()
        assert done.status == 0, done
        assert done.counts["rewrapped"] == len(keys), done
        assert store.held() == under(NEW_KEK, keys)
        os.unlink("kek.hex")
        done = self.rotated("--verify")
        assert done == 0, done
        assert store.held() == under(NEW_KEK, keys)

    def test_a_dry_run_writes_nothing(self, store, keys):
        done = self.rotated("--dry-run")
        assert done.status == 6, done
        assert done.counts["old"] == len(keys), done
        assert store.held() == under(KEK, keys)

    def test_churn(self, store, keys):
        """Whatever a writer was told that it wrote is there at the end."""
        with Writer(store, random.Random(1)) as acknowledged:
            done = self.ended()
        if done == 6:
            done = self.ended()
        assert done == 0, done
        expected = under(NEW_KEK, {**keys, **dict(acknowledged)})
        assert store.held() == expected

    def test_moves(self, store, keys):
        """No run ends with 0 while a key that moves is old, and the run after the moves ends with 0."""
        self.needs("move")
        with repeated(store.move, 0.005):
            done = self.rotated()
        if done == 0:
            assert store.held() == under(NEW_KEK, keys)
        else:
            assert done == 6, done
        done = self.ended()
        assert done == 0, done
        assert store.held() == under(NEW_KEK, keys)

    def test_a_kill(self, store, keys):
        """Every key is there after a kill, and the next run ends what the killed one began."""
        running = self.begun("--report", "report")
        wait_for(lambda: os.path.exists("report") and store.held() != under(KEK, keys))
        os.killpg(running.pid, signal.SIGKILL)
        running.communicate()
        held = {
            place: key_and_kek(wrapped)[0] for place, wrapped in store.held().items()
        }
        assert held == keys
        done = self.ended()
        assert done == 0, done
        assert store.held() == under(NEW_KEK, keys)

    def test_two_rotations(self, store, keys):
        ends = [end(running) for running in [self.begun(), self.begun()]]
        assert {done.status for done in ends} <= {0, 6}, ends
        done = self.ended()
        assert done == 0, done
        assert store.held() == under(NEW_KEK, keys)

    def test_a_refused_key(self, store, keys):
        """It is named and stays, and all others are rewrapped."""
        foreign = wrapped_under(bytes(16), keys[5])
        store.write(5, foreign)
        done = self.rotated()
        assert done.status == 5, done
        assert done.counts["refused"] == 1, done
        assert done.has("under no KEK of this rotation")
        assert store.held() == {**under(NEW_KEK, keys), 5: foreign}

    def test_a_trigger_that_inserts_old_keys(self, store, keys):
        """The table does not grow: the run is refused, and names the trigger."""
        self.needs("keep_history")
        store.keep_history()
        done = self.rotated()
        assert done.status == 5, done
        assert done.has("history"), done
        assert store.held() == under(KEK, keys)

    def test_a_schema_change(self, store, keys):
        """It waits a moment, not for the pass."""
        self.needs("change_schema")
        running = self.begun("--report", "report")
        wait_for(lambda: store.held() != under(KEK, keys))
        began = time.monotonic()
        store.change_schema()
        took = time.monotonic() - began
        done = end(running)
        assert took < 5, (took, done)
        assert done.status in (0, 6), (took, done)
        done = self.ended()
        assert done == 0, done
        assert store.held() == under(NEW_KEK, keys)

    def test_a_hot_row(self, store, keys):
        """A row that another program updates all the time, without a change of its key, is rewrapped."""
        self.needs("touch")
        with repeated(lambda: store.touch(5), 0.01):
            done = self.rotated()
        assert done == 0, done
        assert store.held() == under(NEW_KEK, keys)

    def test_a_row_that_cannot_be_written(self, store, keys):
        """It is named and stays old, and all others are rewrapped."""
        self.needs("freeze")
        store.freeze(5)
        done = self.rotated()
        assert done.status == 5, done
        assert done.counts["refused"] == 1, done
        assert done.has("it cannot be written")
        assert store.held() == {**under(NEW_KEK, keys), 5: wrapped_under(KEK, keys[5])}

    def test_an_empty_store_is_no_success(self, store):
        store.empty()
        done = self.rotated()
        assert done == 5, done

    def test_a_store_that_is_not_there_is_no_success(self, store):
        store.remove()
        done = self.rotated()
        assert done == 5, done


def under(kek, keys):
    """These keys, wrapped."""
    return {place: wrapped_under(kek, key) for place, key in keys.items()}
