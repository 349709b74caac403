"""PostgreSQL tables, with a server of its own: types, partitions, rules, writers, several runs, a hostile database."""

import contextlib
import hashlib
import importlib
import os
import pathlib
import socket
import time

import pytest

from keywrap_rotate import challenges
from keywrap_rotate.found import Refused, found_by
from keywrap_rotate.keys import Notation
from rotation_help import (
    KEK,
    NEW_KEK,
    ROTATE,
    end,
    make_keys,
    patched,
    rows,
    start,
    wait_for,
    wrapped_under,
    write_lines,
)


KEYS = make_keys(60)
MANY = make_keys(1500, 3)
ADDED = wrapped_under(NEW_KEK, make_keys(2, 9)[1])
OLD = rows(KEK, KEYS)
NEW = rows(NEW_KEK, KEYS)
# Ranges of one block, so that small tables have several.
SMALL = patched("from keywrap_rotate import postgresql; postgresql.BLOCKS = 1")


@pytest.fixture(autouse=True)
def filled(server):
    server.fill(OLD)


def begun(*words, table="keys", program=SMALL, **more):
    return start("--postgresql", table, *words, program=program, **more)


def rotated(*words, **more):
    return end(begun(*words, **more))


def ends_of(*running):
    """Runs at the same time may not end with all keys new."""
    ends = list(map(end, running))
    assert all(done.status in (0, 6) for done in ends), ends


def set_row(number, key):
    return f"UPDATE keys SET key = decode('{key.hex()}', 'hex') WHERE id = {number};"


@contextlib.contextmanager
def holding(statement):
    """Somebody else's transaction, which has executed this statement."""
    with importlib.import_module("psycopg").connect() as connection:
        connection.execute(statement)
        yield connection


class TestTable:
    @pytest.mark.parametrize("kind", ["bytea", "text", "varchar(200)", "char(100)"])
    @pytest.mark.parametrize("jobs", ["1", "4"])
    def test_undisturbed_and_again(self, server, kind, jobs):
        server.fill(OLD, kind)
        value = "encode(key, 'hex')" if kind == "bytea" else "trim(key)"
        for rewrapped in (60, 0):
            done = rotated("--jobs", jobs)
            assert done.status == 0, done
            assert server.held(value) == NEW, done
            assert done.counts["rewrapped"] == rewrapped, done
        assert rotated("--verify", "--record", "record") == 0
        server.sql("VACUUM FULL keys")
        assert rotated("--verify", "--verify-record", "record", program=ROTATE) == 0
        server.sql("DELETE FROM keys WHERE id = 70")
        assert rotated("--verify", "--verify-record", "record").has(
            "missing or changed since the record: 60 keys"
        )

    @pytest.mark.parametrize(
        "columns",
        [
            "id uuid PRIMARY KEY DEFAULT gen_random_uuid()",
            "id char(8) DEFAULT left(random()::text, 8)",
            "id float DEFAULT random()",
            "id int DEFAULT NULL",
            "id bigint GENERATED ALWAYS AS IDENTITY",
        ],
    )
    def test_no_column_has_to_order_the_rows(self, server, columns):
        statements = ["DROP TABLE IF EXISTS other"]
        statements.append(f"CREATE TABLE other ({columns}, key bytea)")
        for key in OLD.values():
            value = f"decode('{key.hex()}', 'hex')"
            statements.append(f"INSERT INTO other (key) VALUES ({value})")
        server.sql("; ".join(statements))
        done = rotated(table="other")
        assert done.status == 0, done
        assert done.counts["rewrapped"] == 60, done
        found = server.sql("SELECT encode(key, 'hex') FROM other").split()
        assert sorted(found) == sorted(key.hex() for key in NEW.values())

    def test_partitions(self, server):
        """Their rows may have the same ctid, and the same key."""
        server.sql(
            """DROP TABLE IF EXISTS parts; CREATE TABLE parts (id int, key bytea) PARTITION BY HASH (id);
        CREATE TABLE p0 PARTITION OF parts FOR VALUES WITH (MODULUS 2, REMAINDER 0);
        CREATE TABLE p1 PARTITION OF parts FOR VALUES WITH (MODULUS 2, REMAINDER 1);"""
        )
        same = OLD[10].hex()
        server.sql(
            f"INSERT INTO parts SELECT n, decode('{same}', 'hex') FROM generate_series(1, 1500) n; ANALYZE"
        )
        done = rotated(table="parts")
        assert done.status == 0, done
        assert done.counts["keys"] == 1500, done
        assert server.sql("SELECT DISTINCT encode(key, 'hex') FROM parts").split() == [
            NEW[10].hex()
        ]

    def test_names_of_a_strange_table(self, server):
        for schema, table, column in (
            ("s x", 'a "b', "k;"),
            ("new", "new", "a%sb"),
            ("t", "a{key}", "{row}"),
            ("u", "n", "new"),
            ("v", "mine", "row"),
        ):
            names = [
                '"' + name.replace('"', '""') + '"' for name in (schema, table, column)
            ]
            server.sql(
                "CREATE SCHEMA {0}; CREATE TABLE {0}.{1} (id text, {2} text);".format(
                    *names
                )
                + "INSERT INTO {0}.{1} VALUES ('x', '{3}'), ('y', NULL)".format(
                    *names, OLD[10].hex()
                )
            )
            done = rotated("--column", column, table=f"{schema}.{table}")
            assert done.status == 0, done
            assert done.counts["rewrapped"] == 1, done
            assert (
                server.sql("SELECT {2} FROM {0}.{1} ORDER BY 1".format(*names))
                == f"{NEW[10].hex()}\n\n"
            )

    @pytest.mark.parametrize(
        "table, words, message",
        [
            ("none", [], '"none" does not exist'),
            ("keys", ["--column", "none"], "column keys.none does not exist"),
            ("keys", ["--column", "id"], "keys.id is neither text nor bytea: bigint"),
            ("keys", ["--column", "ctid"], "keys.ctid is neither text nor bytea: tid"),
        ],
    )
    def test_refuses_names(self, server, table, words, message):
        for mode in ([], ["--verify"]):
            done = rotated(*mode, *words, table=table)
            assert done.status == 5, done
            assert message in done.messages[0], done
            assert len(done.messages) == 1, done
        assert server.held() == OLD

    def test_an_unreachable_server(self, server, monkeypatch):
        """The server's words are shown: nobody has read a key."""
        monkeypatch.setenv("PGHOST", "/nonexistent")
        done = rotated()
        assert done.status == 6, done
        assert "No such file or directory" in done.messages[0], done

    def test_dry_run_and_verify(self, server):
        before = server.sql("SELECT ctid, xmin, * FROM keys")
        assert rotated("--dry-run").status == 6
        assert rotated("--verify").status == 5
        assert server.sql("SELECT ctid, xmin, * FROM keys") == before
        rotated()
        os.unlink("kek.hex")
        assert rotated("--verify") == 0
        server.sql("DELETE FROM keys")
        assert rotated("--verify").has("no key was found")
        assert rotated("--verify") == 5

    def test_names_of_keks_in_a_column(self, server):
        other = bytes([7]) * 16
        for name, kek in (
            ("ada", KEK),
            ("bob", other),
            ("ada-new", NEW_KEK),
            ("bob-new", bytes(32)),
        ):
            write_lines(name, [kek.hex()])
        for table, ending in (("old", ""), ("new", "-new")):
            write_lines(table, [f"ada=ada{ending}", f"bob=bob{ending}"])
        server.sql(
            "ALTER TABLE keys ADD who varchar(9) DEFAULT 'ada'; UPDATE keys SET who = 'bob' WHERE id > 300;"
            + "".join(
                set_row(number, key)
                for number, key in rows(other, KEYS).items()
                if number > 300
            )
        )
        words = ["--kek-name", "who", "--keks", "old", "--new-keks", "new"]
        done = rotated(*words)
        counts = [
            f"keywrap-rotate: 30 keys were under {name}" for name in ("ada", "bob")
        ]
        assert done.status == 0
        assert done.messages[:2] == counts
        assert server.held() == {
            number: (NEW if number <= 300 else rows(bytes(32), KEYS))[number]
            for number in NEW
        }
        server.sql("UPDATE keys SET who = NULL WHERE id = 10")
        assert rotated(*words).has("it has no name of a KEK")

    def test_refused_rows_are_named_and_the_others_rotated(self, server):
        foreign = wrapped_under(bytes(16), KEYS[3])
        server.sql(
            set_row(170, foreign)
            + set_row(400, b"\0")
            + "UPDATE keys SET key = NULL WHERE id = 410;"
            "INSERT INTO keys VALUES (5000, decode(repeat('00', 3000000), 'hex'))"
        )
        for _ in range(2):
            done = rotated()
            assert done == 5
            reasons = {
                line.rsplit(": ", 1)[1] for line in done.messages if ": row (" in line
            }
            assert reasons == {
                "bad length",
                "under no KEK of this rotation",
                "longer than any key",
            }
            held = server.held("coalesce(encode(key, 'hex'), '')")
            assert held == {
                **NEW,
                170: foreign,
                400: b"\0",
                410: b"",
                5000: bytes(3000000),
            }
        server.sql(
            set_row(170, OLD[170])
            + set_row(400, NEW[400])
            + "DELETE FROM keys WHERE id = 5000"
        )
        assert rotated() == 0

    # Objects that hide or change rows.
    def test_row_level_security_is_an_error(self, server, monkeypatch):
        server.sql(
            """CREATE ROLE app LOGIN; GRANT ALL ON keys TO app; ALTER TABLE keys ENABLE ROW LEVEL SECURITY;
        CREATE POLICY p ON keys TO app USING (id <= 100)"""
        )
        try:
            monkeypatch.setenv("PGUSER", "app")
            for words in ([], ["--verify"]):
                done = rotated(*words)
                assert done.status == 5, done
                assert done.has("row-level security"), done
        finally:
            server.sql("DROP TABLE keys; DROP ROLE app")

    def test_options_of_libpq_hold(self, server, monkeypatch):
        server.sql(
            "DROP SCHEMA IF EXISTS other CASCADE; CREATE SCHEMA other;"
            "CREATE TABLE other.keys AS SELECT * FROM keys LIMIT 7"
        )
        monkeypatch.setenv("PGOPTIONS", "-c search_path=other")
        done = rotated()
        assert done.status == 0
        assert done.counts["keys"] == 7
        monkeypatch.delenv("PGOPTIONS")
        assert server.held() == OLD

    def test_text_that_is_no_key_is_in_no_message(self, server):
        server.fill(OLD, "text")
        server.sql("UPDATE keys SET key = 'my plain master key \x1b[2J' WHERE id = 30")
        done = rotated("--report", "report")
        assert done.status == 5
        assert done.has("not in the notation of the store")
        assert "master" not in pathlib.Path("report").read_text() + "".join(
            done.messages
        )


class TestOthers:
    @pytest.mark.parametrize(
        "body, status", [("NEW.key = '\\x00'; RETURN NEW;", 5), ("RETURN NULL;", 6)]
    )
    def test_a_trigger_that_changes_what_is_written(self, server, body, status):
        server.sql(
            f"""CREATE FUNCTION t() RETURNS trigger LANGUAGE plpgsql AS $$ BEGIN {body} END $$;
        CREATE TRIGGER t BEFORE UPDATE ON keys FOR EACH ROW WHEN (OLD.id = 70) EXECUTE FUNCTION t()"""
        )
        try:
            assert rotated() == status
            assert {
                number for number, key in server.held().items() if key != NEW[number]
            } == {70}
        finally:
            server.sql("DROP FUNCTION t CASCADE")

    @pytest.mark.parametrize("level", ["repeatable read", "serializable"])
    def test_two_runs_in_any_isolation(self, server, monkeypatch, level):
        monkeypatch.setenv(
            "PGOPTIONS",
            f"-c default_transaction_isolation={level.replace(' ', chr(92) + ' ')}",
        )
        ends_of(*(begun("--jobs", "2") for _ in range(2)))
        assert rotated() == 0
        assert server.held() == NEW

    def test_two_columns_at_once(self, server):
        server.sql("ALTER TABLE keys ADD COLUMN key2 bytea; UPDATE keys SET key2 = key")
        ends_of(*(begun("--column", column) for column in ("key", "key2")))
        for column in ("key", "key2"):
            assert rotated("--column", column) == 0
            assert server.held(f"encode({column}, 'hex')") == NEW

    # Writers.
    @pytest.mark.parametrize(
        "statement, changed",
        [
            (set_row(20, ADDED), {**NEW, 20: ADDED}),
            (f"INSERT INTO keys VALUES (25, '\\x{ADDED.hex()}');", {**NEW, 25: ADDED}),
            (
                "DELETE FROM keys WHERE id = 20;",
                {number: key for number, key in NEW.items() if number != 20},
            ),
        ],
        ids=["changed", "added", "removed"],
    )
    def test_a_row_that_changes_meanwhile_is_kept(self, server, statement, changed):
        """No lock is held while keys are rewrapped: the other process does not wait."""
        program = patched(
            """import itertools, subprocess
from keywrap import _many
from rotation_help import before_each_key
calls = itertools.count()
_many.rewrap_slots = before_each_key(lambda text: next(calls) == 3 and subprocess.run(
    ["psql", "-qXc", os.environ["STATEMENT"]], check=True))"""
        )
        done = rotated(
            "--jobs",
            "1",
            program=program,
            env={**os.environ, "STATEMENT": f"SET lock_timeout = '1ms'; {statement}"},
        )
        assert done.status == 0, done
        assert server.held() == changed, done
        assert rotated("--verify") == 0

    @pytest.mark.parametrize(
        "statement",
        [
            "SELECT FROM keys WHERE id IN (50, 330) FOR UPDATE",
            "UPDATE keys SET id = id WHERE id = 50",
        ],
    )
    def test_a_row_that_another_process_has_locked(self, server, statement):
        """It is never waited for: status 6, and all others are new."""
        with holding(statement):
            assert rotated() == 6
            assert {
                number for number, key in server.held().items() if key != NEW[number]
            } <= {50, 330}
        assert rotated() == 0
        assert server.held() == NEW

    def test_a_table_that_another_process_has_locked(self, server):
        program = patched(
            "from keywrap_rotate import postgresql; postgresql.LOCK = '1s'"
        )
        with holding("LOCK TABLE keys"):
            done = rotated(program=program)
            assert done.status == 6, done
            assert done.has("lock timeout (55P03)"), done
        assert rotated() == 0


def copied(server, table, keys):
    """Fills a table with the columns id and key, as hex, with these keys under the KEK."""
    rows = "".join(
        f"{at}\t{wrapped_under(KEK, key).hex()}\n" for at, key in enumerate(keys)
    )
    server.sql(f"COPY {table} FROM STDIN;\n{rows}\\.\n")


def under_the_new_kek(server, table, column="key"):
    """The texts of a table that are under the new KEK."""
    texts = server.sql(f"SELECT {column} FROM {table}").split()
    expected = {wrapped_under(NEW_KEK, key).hex() for key in MANY}
    return [text for text in texts if text in expected]


class TestTables:
    """More than one table below a name."""

    @pytest.fixture(autouse=True)
    def parts(self, server):
        server.sql(
            """DROP TABLE IF EXISTS parts CASCADE; CREATE TABLE parts (id int, key text) PARTITION BY RANGE (id);
            CREATE TABLE first PARTITION OF parts FOR VALUES FROM (0) TO (750);
            CREATE UNLOGGED TABLE second PARTITION OF parts FOR VALUES FROM (750) TO (1500);"""
        )
        copied(server, "parts", MANY)
        yield
        server.sql("DROP TABLE parts CASCADE")

    def test_a_partition_that_is_rewritten_when_a_pass_begins(self, server):
        """Its rows are younger than a snapshot that waits for them."""
        with holding("ALTER TABLE second SET LOGGED") as other:
            running = begun(table="parts")
            query = "SELECT count(*) FROM pg_locks WHERE NOT granted"
            wait_for(lambda: server.sql(query) != "0\n")
            other.commit()
            done = end(running)
        assert done.status == 0, done
        assert done.counts["keys"] == 1500, done
        assert len(under_the_new_kek(server, "parts")) == 1500

    def test_tables_that_inherit(self, server):
        """They may have more blocks than the table itself."""
        server.sql(
            "CREATE TABLE parent (id int, key text); CREATE TABLE child () INHERITS (parent)"
        )
        copied(server, "child", MANY)
        done = rotated(table="parent")
        assert done.status == 0, done
        assert done.counts["keys"] == 1500, done
        assert len(under_the_new_kek(server, "parent")) == 1500
        server.sql("DROP TABLE parent CASCADE")


class TestWhatIsStored:
    def test_a_column_of_type_name_destroys_no_key(self, server):
        """It cuts a text after 63 bytes. What fits is written."""
        server.sql("DROP TABLE IF EXISTS names; CREATE TABLE names (id int, key name)")
        for number, key in (1, bytes(8)), (2, bytes(16)):
            text = "a:" + wrapped_under(KEK, key).hex()
            server.sql(f"INSERT INTO names VALUES ({number}, '{text}')")
        prefixes = ["--prefix", "a:", "--new-prefix", "longer-than-before:"]
        done = rotated(*prefixes, table="names")
        assert done.status == 5, done
        assert done.counts["refused"] == 1, done
        assert done.has("the table keeps another value")
        first, second = server.sql("SELECT key FROM names ORDER BY id").split()
        assert first == "longer-than-before:" + wrapped_under(NEW_KEK, bytes(8)).hex()
        assert second == "a:" + wrapped_under(KEK, bytes(16)).hex()

    @pytest.mark.parametrize(
        "body, status",
        [("key = substr(NEW.key, 9)", 5), ("id = 1000 + NEW.id", 0)],
        ids=["the key", "another column"],
    )
    def test_a_trigger_that_writes_after_the_update(self, server, body, status):
        """The row has another ctid afterwards. Only a key that is gone is refused."""
        server.sql(
            f"""CREATE FUNCTION later() RETURNS trigger LANGUAGE plpgsql AS $$ BEGIN
            IF pg_trigger_depth() = 1 THEN UPDATE keys SET {body} WHERE id = NEW.id; END IF; RETURN NULL; END $$;
            CREATE TRIGGER later AFTER UPDATE ON keys FOR EACH ROW WHEN (OLD.id = 70) EXECUTE FUNCTION later()"""
        )
        try:
            done = rotated()
            held = server.held()
        finally:
            server.sql("DROP FUNCTION later CASCADE")
        assert done.status == status, done
        wanted = {**NEW, 70: OLD[70]}
        if status == 0:
            wanted = {**NEW, 1070: NEW[70]}
            del wanted[70]
        assert held == wanted

    def test_rows_that_refuse_an_update_are_named(self, server):
        server.sql(
            "ALTER TABLE keys ADD CHECK (id <> 70 OR md5(key) = '%s')"
            % hashlib.md5(OLD[70]).hexdigest()
        )
        done = rotated()
        assert done.status == 5, done
        assert done.counts["refused"] == 1, done
        assert done.has("it cannot be written: CheckViolation")
        assert server.held() == {**NEW, 70: OLD[70]}

    def test_settings_of_others_do_not_matter(self, server, monkeypatch):
        """No commit is asynchronous, and texts are read and written as they are."""
        server.sql(
            """CREATE FUNCTION durable() RETURNS trigger LANGUAGE plpgsql AS $$ BEGIN
            IF current_setting('synchronous_commit') = 'off' THEN RAISE EXCEPTION 'off'; END IF; RETURN NEW; END $$;
            CREATE TRIGGER durable BEFORE UPDATE ON keys FOR EACH ROW EXECUTE FUNCTION durable()"""
        )
        settings = {
            "synchronous_commit": "off",
            "standard_conforming_strings": "off",
            "client_encoding": "SQL_ASCII",
            "default_transaction_isolation": "serializable",
            "lock_timeout": "1",
        }
        monkeypatch.setenv(
            "PGOPTIONS",
            " ".join(f"-c {name}={value}" for name, value in settings.items()),
        )
        done = rotated()
        monkeypatch.delenv("PGOPTIONS")
        held = server.held()
        server.sql("DROP FUNCTION durable CASCADE")
        assert done.status == 0, done
        assert held == NEW, done


class TestSessions:
    def test_one_connection_for_each_job_and_one_that_lists(self, server, monkeypatch):
        server.sql(
            "DROP ROLE IF EXISTS few; CREATE ROLE few LOGIN CONNECTION LIMIT 3; GRANT SELECT, UPDATE ON keys TO few"
        )
        monkeypatch.setenv("PGUSER", "few")
        done = rotated("--jobs", "2")
        assert done.status == 0, done
        assert server.held() == NEW, done
        server.sql("UPDATE keys SET id = id")
        done = rotated("--jobs", "4")
        assert done.status in (0, 6), done
        assert done == 0 or done.has("too many connections"), done
        server.sql("DROP TABLE keys; DROP ROLE few")

    def test_a_server_that_does_not_answer(self, monkeypatch):
        """It takes the connection, and says nothing."""
        with contextlib.closing(socket.create_server(("127.0.0.1", 0))) as silent:
            monkeypatch.setenv("PGHOST", "127.0.0.1")
            monkeypatch.setenv("PGPORT", str(silent.getsockname()[1]))
            done = end(begun("--timeout", "2"), timeout=60)
        assert done.status == 6, done
        assert done.has("no answer in 2 seconds"), done

    def test_an_interrupt_while_a_server_does_not_answer(self, monkeypatch):
        """The first one ends the run: no unit is at work."""
        with contextlib.closing(socket.create_server(("127.0.0.1", 0))) as silent:
            monkeypatch.setenv("PGHOST", "127.0.0.1")
            monkeypatch.setenv("PGPORT", str(silent.getsockname()[1]))
            running = begun()
            connection, _ = silent.accept()
            with connection:
                running.terminate()
                done = end(running, timeout=60)
        assert done.status == 130, done
        assert done.has("interrupted"), done

    def test_a_worker_after_a_unit_that_failed(self, server, monkeypatch):
        """A worker of Dask keeps its connection for later units and passes. It has no cursor of the failed one."""
        postgresql = importlib.import_module("keywrap_rotate.postgresql")
        store = postgresql.Postgresql("keys", "key", Notation(), None)
        rings = challenges().rings()

        def done(unit):
            return found_by(lambda found: store.do(unit, rings, False, found))

        def failing(*given):
            raise Refused("a unit that fails")

        with store.listed(may_write=False) as listing:
            (unit,) = listing.units
            with monkeypatch.context() as patch:
                patch.setattr(postgresql, "rewrapped_rows", failing)
                assert done(unit).named == [("", "a unit that fails")]
            later = done(unit)
        postgresql._kept.connection.close()
        assert later.named == []
        assert sum(later.old.values()) == 60

    @pytest.mark.parametrize("is_prepared", [False, True])
    def test_a_transaction_that_is_older_than_the_run(self, server, is_prepared):
        """It may bring an old key back."""
        old = f"INSERT INTO keys SELECT 5000, key FROM keys WHERE id = 10"
        with holding(old) as other:
            if is_prepared:
                other.execute("PREPARE TRANSACTION 'theirs'")
            for words in [], ["--verify"]:
                done = rotated(*words)
                assert done.status == 0, done
                assert done.has("1 transactions are older than this run"), done
        if is_prepared:
            server.sql("ROLLBACK PREPARED 'theirs'")
        assert not rotated().has("older than this run")

    def test_a_schema_change_waits_for_no_pass(self, server):
        """The change does not wait, also if the pass writes nothing. Its end is reported once, not for each range."""
        server.fill(rows(NEW_KEK, MANY))
        running = begun("--verify", "--jobs", "1", program=patched(SLOW_RANGES))
        query = "SELECT count(*) FROM pg_locks WHERE relation = 'keys'::regclass"
        wait_for(lambda: server.sql(query) != "0\n")
        began = time.monotonic()
        server.sql("ALTER TABLE keys ADD COLUMN more int")
        assert time.monotonic() - began < 5
        done = end(running)
        assert done == 0, done
        assert done.counts["pass"] == 2, done
        assert done.messages[:-1] == [
            "keywrap-rotate: keys: another session waits for its lock: the pass ends"
        ]


# Ranges of one block, each of which takes half a second.
SLOW_RANGES = """from keywrap_rotate import postgresql
postgresql.BLOCKS = 1
def slow(*words, real=postgresql.rewrapped_rows):
    time.sleep(0.1)
    return real(*words)
postgresql.rewrapped_rows = slow"""
