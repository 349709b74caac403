"""MariaDB tables, with a server of its own: types, collations, partitions, triggers, locks, and hostile settings."""

import base64
import contextlib
import hashlib
import os
import pathlib
import socket
import subprocess
import time

import pytest
from rotation_help import (
    KEK,
    NEW_KEK,
    end,
    make_keys,
    patched,
    rows,
    start,
    wait_for,
    wrapped_under,
    write_lines,
)


KEYS = make_keys(40)
MANY = make_keys(1500, 3)
ADDED = wrapped_under(NEW_KEK, make_keys(2, 9)[1])
OLD = rows(KEK, KEYS)
NEW = rows(NEW_KEK, KEYS)
OPTIONS = ["--defaults-file", "options"]
# Batches of ten rows, so that small tables have several.
SMALL = patched(
    "from keywrap_rotate import keys, mariadb; keys.ROWS = 10; mariadb.WRITTEN = 5"
)
# Runs $STATEMENTS in another session while the fourth key is rewrapped.
MEANWHILE = patched(
    """import itertools, pymysql
from keywrap import _many
from rotation_help import before_each_key
calls = itertools.count()
def act(text):
    if next(calls) == 3:
        session = pymysql.connect(read_default_file="options", autocommit=True)
        session.cursor().execute("SET innodb_lock_wait_timeout = 1, lock_wait_timeout = 1")
        session.cursor().execute(os.environ["STATEMENT"])
_many.rewrap_slots = before_each_key(act)"""
)
# A pass of many batches, each of which takes a tenth of a second.
SLOW_BATCHES = patched(
    """from keywrap_rotate import keys, mariadb
keys.ROWS = 50
def slow(*words, real=mariadb.rewrapped_rows):
    time.sleep(0.1)
    return real(*words)
mariadb.rewrapped_rows = slow"""
)


@pytest.fixture(autouse=True)
def filled(mariadb):
    mariadb.fill(OLD)


def begun(*words, table="keys", program=SMALL, options=OPTIONS, **more):
    return start("--mariadb", table, *options, *words, program=program, **more)


def rotated(*words, **more):
    return end(begun(*words, **more))


def set_row(number, key):
    return f"UPDATE `keys` SET `key` = X'{key.hex()}' WHERE id = {number}"


def statement_meanwhile(statement):
    """The options of a run during which another session executes this statement."""
    return {
        "program": MEANWHILE,
        "env": {**os.environ, "STATEMENT": statement},
    }


@contextlib.contextmanager
def holding(mariadb, statement):
    """Somebody else's transaction, which has executed this statement."""
    with contextlib.closing(mariadb.connect()) as connection:
        connection.begin()
        connection.cursor().execute(statement)
        yield connection


@contextlib.contextmanager
def settings(mariadb, **values):
    """Settings that each new session of the server gets."""
    before = {name: mariadb.sql(f"SELECT @@GLOBAL.{name}")[0][0] for name in values}
    with contextlib.closing(mariadb.connect()) as connection:
        cursor = connection.cursor()
        for name, value in values.items():
            cursor.execute(f"SET GLOBAL {name} = %s", (value,))
        try:
            yield
        finally:
            for name, value in before.items():
                cursor.execute(f"SET GLOBAL {name} = %s", (value,))


def is_new(number, held):
    return held[number] == NEW[number]


class TestColumns:
    @pytest.mark.parametrize(
        "kind",
        [
            "varbinary(3000)",
            "longblob",
            "char(100) CHARACTER SET latin1",
            "varchar(100) CHARACTER SET utf8mb4 COLLATE utf8mb4_unicode_ci",
            "varchar(100) CHARACTER SET utf16",
            "mediumtext CHARACTER SET latin1 COLLATE latin1_swedish_ci",
        ],
    )
    def test_undisturbed_and_again(self, mariadb, kind):
        mariadb.fill(OLD, kind)
        is_binary = "bin" in kind or "blob" in kind
        value = "HEX(`key`)" if is_binary else "CONVERT(`key` USING utf8mb4)"
        for rewrapped in (40, 0):
            done = rotated()
            assert done.status == 0, done
            assert mariadb.held(value) == NEW, done
            assert done.counts["rewrapped"] == rewrapped, done
        assert rotated("--verify", "--record", "record") == 0
        assert rotated("--verify", "--verify-record", "record") == 0
        mariadb.sql("DELETE FROM `keys` WHERE id = 70")
        done = rotated("--verify", "--verify-record", "record")
        assert done.has("missing or changed since the record: 40 keys")

    @pytest.mark.parametrize(
        "columns, value",
        [
            ("id bigint unsigned PRIMARY KEY", "18446744073709551615 - {}"),
            ("id varchar(20) CHARACTER SET latin1 PRIMARY KEY", "'é{}'"),
            ("id varchar(20) COLLATE utf8mb4_bin PRIMARY KEY", "'a''\\\\%s{}'"),
            ("id varbinary(20) PRIMARY KEY", "X'00FF27{:04}'"),
            ("id uuid PRIMARY KEY", "'00000000-0000-0000-0000-00000000{:04}'"),
            ("id datetime(6) PRIMARY KEY", "'2026-11-30 10:00:00.00{:04}'"),
            ("id timestamp(6) PRIMARY KEY", "'2026-10-25 02:30:00.00{:04}'"),
            ("id decimal(40, 10) PRIMARY KEY", "123456789012345678901.{:04}"),
            ("id int NOT NULL, UNIQUE (id)", "{}"),
            ("`a%sb` int, id varchar(9), PRIMARY KEY (`a%sb`, id)", "{0}, 'x{0}'"),
        ],
    )
    def test_what_identifies_a_row(self, mariadb, columns, value):
        mariadb.sql(
            f"DROP TABLE IF EXISTS other; CREATE TABLE other ({columns}, `key` varbinary(99)) CHARSET utf8mb4"
        )
        values = [f"({value.format(at)}, X'{key.hex()}')" for at, key in OLD.items()]
        mariadb.sql("INSERT INTO other VALUES " + ", ".join(values))
        done = rotated(table="other")
        assert done.status == 0, done
        assert done.counts["rewrapped"] == 40, done
        assert done.counts["pass"] == 2, done
        found = mariadb.sql("SELECT HEX(`key`) FROM other")
        assert sorted(bytes.fromhex(key) for (key,) in found) == sorted(NEW.values())

    def test_partitions(self, mariadb):
        """One key may be in many rows."""
        same = OLD[10].hex()
        mariadb.sql(
            "CREATE OR REPLACE TABLE parts (id int, part int, `key` blob, PRIMARY KEY (id, part)) "
            "PARTITION BY LIST (part) SUBPARTITION BY HASH (id) SUBPARTITIONS 2 "
            "(PARTITION a VALUES IN (0), PARTITION b VALUES IN (1, 2));"
            f"INSERT INTO parts SELECT seq, seq % 3, X'{same}' FROM seq_1_to_1500"
        )
        done = rotated(table="parts", program=patched(""))
        assert done.status == 0, done
        assert done.counts["keys"] == 1500, done
        found = mariadb.sql("SELECT DISTINCT HEX(`key`) FROM parts")
        assert found == [(NEW[10].hex().upper(),)]

    @pytest.mark.parametrize(
        "schema, table, column",
        # A blank, a backtick and a semicolon; the mark of an argument; names in braces, as in the statements of
        # mariadb.py; quotes. Other letters do not matter.
        [
            ("s x", "a `b", "k;"),
            ("new", "new", "a%sb"),
            ("t", "a{key}", "{row}"),
            ("u", "locked'", 'key"'),
        ],
    )
    def test_names_of_a_strange_table(self, mariadb, schema, table, column):
        quoted = {}
        for name in schema, table, column:
            quoted[name] = "`" + name.replace("`", "``") + "`"
        title = f"{quoted[schema]}.{quoted[table]}"
        mariadb.sql(
            f"CREATE OR REPLACE DATABASE {quoted[schema]};"
            f"CREATE TABLE {title} (id varchar(9) PRIMARY KEY, {quoted[column]} text);"
            f"INSERT INTO {title} VALUES ('x', '{OLD[10].hex()}'), ('y', NULL)"
        )
        done = rotated("--column", column, table=f"{schema}.{table}")
        found = mariadb.sql(f"SELECT {quoted[column]} FROM {title} ORDER BY id")
        mariadb.sql(f"DROP DATABASE {quoted[schema]}")
        assert done.status == 0, done
        assert done.counts["rewrapped"] == 1, done
        assert found == [(NEW[10].hex(),), (None,)]

    def test_values_that_are_no_key(self, mariadb):
        foreign = wrapped_under(bytes(16), KEYS[3])
        mariadb.sql(
            "ALTER TABLE `keys` MODIFY `key` longblob;"
            + ";".join([set_row(170, foreign), set_row(400, b"\0")])
            + ";UPDATE `keys` SET `key` = NULL WHERE id = 110;"
            "INSERT INTO `keys` VALUES (5000, REPEAT('0', 3000000))"
        )
        done = rotated()
        assert done.status == 5, done
        assert done.counts["refused"] == 3, done
        assert done.has("row 170: under no KEK of this rotation")
        assert done.has("row 5000: longer than any key")
        assert done.has("1 records have no key")
        held = mariadb.sql("SELECT id, `key` FROM `keys` WHERE id < 5000")
        changed = {170: foreign, 400: b"\0", 110: None}
        assert dict(held) == {**NEW, **changed}

    def test_names_of_keks_in_a_column(self, mariadb):
        other = bytes([7]) * 16
        keks = {"ada": KEK, "bob": other, "ada-new": NEW_KEK, "bob-new": bytes(32)}
        for name, kek in keks.items():
            write_lines(name, [kek.hex()])
        for table, ending in (("old", ""), ("new", "-new")):
            write_lines(table, [f"ada=ada{ending}", f"bob=bob{ending}"])
        theirs = {at: key for at, key in rows(other, KEYS).items() if at > 200}
        mariadb.sql(
            "ALTER TABLE `keys` ADD who varchar(9) CHARACTER SET utf16 DEFAULT 'ada';"
            "UPDATE `keys` SET who = 'bob' WHERE id > 200;"
            + ";".join(set_row(at, key) for at, key in theirs.items())
        )
        words = ["--kek-name", "who", "--keks", "old", "--new-keks", "new"]
        done = rotated(*words)
        assert done.status == 0, done
        assert done.has("20 keys were under ada"), done
        assert done.has("20 keys were under bob"), done
        their_new = rows(bytes(32), KEYS)
        assert mariadb.held() == {
            at: NEW[at] if at <= 200 else their_new[at] for at in NEW
        }


class TestRefusals:
    @pytest.mark.parametrize(
        "table, words, message",
        [
            ("none", [], "there is no such table"),
            ("keys", ["--column", "none"], "it has no column none"),
            ("keys", ["--column", "id"], "neither text nor binary: bigint"),
            ("seen", [], "a view, not a table"),
            ("numbers", [], "a sequence, not a table"),
            ("mine", [], "its engine is MyISAM"),
            ("aria", [], "its engine is Aria"),
            ("made", [], "column key is generated"),
            ("loose", [], "it has no primary key"),
            ("floats", [], "it has no primary key"),
            ("itself", [], "it has no primary key"),
            ("nulls", [], "it has no primary key"),
        ],
    )
    def test_by_name(self, mariadb, table, words, message):
        create = "CREATE OR REPLACE TABLE"
        key = "`key` varbinary(99)"
        mariadb.sql(
            "CREATE OR REPLACE VIEW seen AS SELECT * FROM `keys`;"
            "CREATE OR REPLACE SEQUENCE numbers;"
            f"{create} mine (id int PRIMARY KEY, {key}) ENGINE = MyISAM;"
            f"{create} aria (id int PRIMARY KEY, {key}) ENGINE = Aria;"
            f"{create} made (id int PRIMARY KEY, k blob, {key} AS (k) PERSISTENT);"
            f"{create} loose (id int, {key});"
            f"{create} floats (id float PRIMARY KEY, {key});"
            f"{create} itself (id int, {key}, PRIMARY KEY (id, `key`));"
            f"{create} nulls (id int, {key}, UNIQUE (id));"
            f"INSERT INTO mine SELECT id, `key` FROM `keys`"
        )
        for mode in ([], ["--verify"]):
            done = rotated(*mode, *words, table=table)
            assert done.status == 5, done
            assert message in done.messages[0], done
            assert len(done.messages) == 1, done
        assert mariadb.held() == OLD
        assert mariadb.held(table="mine") == OLD

    def test_rights(self, mariadb):
        """SELECT is enough to verify, and the right to update the column to rotate."""
        options = pathlib.Path("options")
        options.write_text(options.read_text().replace("user = root", "user = few"))
        mariadb.sql(
            "CREATE OR REPLACE USER few WITH MAX_USER_CONNECTIONS 3;"
            "GRANT SELECT ON keywrap.`keys` TO few"
        )
        done = rotated()
        assert done.status == 5, done
        assert done.has("command denied to user 'few'"), done
        assert rotated("--verify") == 5
        mariadb.sql("GRANT UPDATE (`key`) ON keywrap.`keys` TO few")
        assert rotated() == 0
        assert mariadb.held() == NEW
        assert rotated("--verify") == 0

    def test_an_option_file_that_is_not_there(self):
        done = rotated(options=["--defaults-file", "none"])
        assert done.status == 2, done
        assert done.has("--defaults-file: none: No such file"), done

    def test_an_unreachable_server(self):
        """The driver's words are shown: nobody has read a key."""
        write_lines("options", ["[client]", "socket = /nonexistent/socket"])
        done = rotated()
        assert done.status == 6, done
        assert "No such file or directory" in done.messages[0], done

    def test_a_server_without_tls(self, mariadb):
        """With ssl-ca nothing is sent in clear text: somebody on the way could have taken TLS away."""
        words = "req -x509 -newkey rsa:2048 -nodes -days 1 -subj /CN=ca -keyout ca.key -out ca.pem"
        subprocess.run(["openssl", *words.split()], check=True, capture_output=True)
        options = pathlib.Path("options")
        options.write_text(options.read_text() + "ssl-ca = ca.pem\n")
        done = rotated()
        assert done.status == 6, done
        assert done.has("offers no TLS"), done
        assert mariadb.held() == OLD

    def test_a_certificate_that_is_not_there(self, mariadb):
        options = pathlib.Path("options")
        options.write_text(options.read_text() + "ssl-ca = none\n")
        done = rotated()
        assert done.status == 5, done
        assert done.has("ssl-ca"), done

    def test_a_password_is_not_shown(self):
        """Latin-1 has no euro sign."""
        write_lines("options", ["[client]", "user = root", "password = sesam\u20ac99"])
        done = rotated()
        assert done.status == 5, done
        assert "sesam" not in repr(done), done
        assert "20ac" not in repr(done), done

    def test_a_server_that_does_not_answer(self):
        """It takes the connection, and says nothing."""
        with contextlib.closing(socket.create_server(("127.0.0.1", 0))) as silent:
            port = silent.getsockname()[1]
            write_lines("options", ["[client]", "host = 127.0.0.1", f"port = {port}"])
            done = end(begun("--timeout", "2"), timeout=60)
        assert done.status == 6, done
        assert done.has("no answer in 2 seconds") or done.has("timed out"), done


class TestWhatIsStored:
    #: Without strict mode a value is cut. With it an error is raised.
    LAX = patched(
        """from keywrap_rotate import mariadb
mariadb._SESSION = mariadb._SESSION.replace("STRICT_ALL_TABLES", "")"""
    )

    @pytest.mark.parametrize(
        "program, why",
        [
            (SMALL, "it cannot be written: error 1406"),
            (LAX, "the table keeps another value"),
        ],
        ids=["strict", "lax"],
    )
    def test_a_value_that_is_cut(self, mariadb, program, why):
        """The keys that fit are written."""
        keys = {1: bytes(8), 2: bytes(16)}
        mariadb.sql(
            "CREATE OR REPLACE TABLE short (id int PRIMARY KEY, `key` varchar(60))"
        )
        for number, key in keys.items():
            text = "a:" + wrapped_under(KEK, key).hex()
            mariadb.sql(f"INSERT INTO short VALUES ({number}, '{text}')")
        prefixes = ["--prefix", "a:", "--new-prefix", "longer-than-before:"]
        with settings(mariadb, sql_mode=""):
            done = rotated(*prefixes, table="short", program=program)
        assert done.status == 5, done
        assert done.counts["refused"] == 1, done
        assert done.has(why), done
        found = [key for (key,) in mariadb.sql("SELECT `key` FROM short ORDER BY id")]
        assert found == [
            "longer-than-before:" + wrapped_under(NEW_KEK, keys[1]).hex(),
            "a:" + wrapped_under(KEK, keys[2]).hex(),
        ]

    @pytest.mark.parametrize(
        "value",
        ["X'00'", "OLD.`key`", "LEFT(NEW.`key`, 39)", "LOWER(NEW.`key`)"],
    )
    def test_a_trigger_that_replaces_the_key(self, mariadb, value):
        """It may run without strict mode. The row stays as it is, and is named."""
        texts = {at: base64.b64encode(key).decode() for at, key in OLD.items()}
        mariadb.sql(
            "CREATE OR REPLACE TABLE other (id int PRIMARY KEY, `key` varchar(99) COLLATE utf8mb4_general_ci);"
            "INSERT INTO other VALUES "
            + ", ".join(f"({at}, '{text}')" for at, text in texts.items())
            + ";SET sql_mode = '';"
            "CREATE TRIGGER changed BEFORE UPDATE ON other FOR EACH ROW "
            f"IF OLD.id = 70 THEN SET NEW.`key` = {value}; END IF"
        )
        done = rotated("--base64", table="other")
        assert done.status == 5, done
        assert done.counts["refused"] == 1, done
        assert done.has("row 70: the table keeps another value"), done
        found = dict(mariadb.sql("SELECT id, `key` FROM other"))
        expected = {at: base64.b64encode(key).decode() for at, key in NEW.items()}
        assert found == {**expected, 70: texts[70]}

    @pytest.mark.parametrize(
        "body",
        [
            "INSERT INTO `keys` VALUES (1000 + NEW.id, OLD.`key`)",
            "UPDATE `keys` SET `key` = OLD.`key` WHERE id = OLD.id",
        ],
        ids=["keeps the old row", "brings the old key back"],
    )
    def test_a_trigger_on_its_own_table(self, mariadb, body):
        """MariaDB lets no trigger write the table that it is of. The table stays as it is."""
        mariadb.sql(f"CREATE TRIGGER later AFTER UPDATE ON `keys` FOR EACH ROW {body}")
        done = rotated()
        assert done.status == 5, done
        assert done.has("Can't update table 'keys' in stored function/trigger"), done
        assert mariadb.held() == OLD

    def test_a_trigger_that_brings_the_old_key_back_by_another_table(self, mariadb):
        """MariaDB refuses this, too: the table is in use by the statement."""
        mariadb.sql(
            "CREATE OR REPLACE TABLE log (id int);"
            "CREATE TRIGGER second AFTER INSERT ON log FOR EACH ROW "
            "UPDATE `keys` SET `key` = X'00' WHERE id = NEW.id;"
            "CREATE TRIGGER first AFTER UPDATE ON `keys` FOR EACH ROW INSERT INTO log VALUES (NEW.id)"
        )
        done = rotated()
        assert done.status == 5, done
        assert mariadb.held() == OLD

    @pytest.mark.parametrize(
        "statement, number",
        [
            ("ALTER TABLE `keys` ADD CHECK (id <> 70 OR MD5(`key`) = '{old}')", 4025),
            (
                "CREATE TRIGGER frozen BEFORE UPDATE ON `keys` FOR EACH ROW IF NEW.id = 70 "
                "THEN SIGNAL SQLSTATE '45000' SET MYSQL_ERRNO = 30001; END IF",
                30001,
            ),
            (
                "ALTER TABLE `keys` ADD UNIQUE (`key`);"
                "INSERT INTO `keys` VALUES (75, X'{new}')",
                1062,
            ),
        ],
        ids=["check", "signal", "unique"],
    )
    def test_rows_that_refuse_an_update_are_named(self, mariadb, statement, number):
        """No message has the key in it, though MariaDB's words have."""
        old = hashlib.md5(OLD[70]).hexdigest()
        mariadb.sql(statement.format(old=old, new=NEW[70].hex()))
        done = rotated("--report", "report")
        assert done.status == 5, done
        assert done.counts["refused"] == 1, done
        assert done.has(f"row 70: it cannot be written: error {number}"), done
        held = mariadb.held()
        held.pop(75, None)
        assert held == {**NEW, 70: OLD[70]}
        output = pathlib.Path("report").read_text() + "".join(done.messages)
        assert NEW[70].hex() not in output.lower()
        assert NEW[70].hex()[:40] not in output.lower()

    def test_settings_of_others_do_not_matter(self, mariadb):
        hostile = {
            "sql_mode": "ANSI_QUOTES,NO_BACKSLASH_ESCAPES,PAD_CHAR_TO_FULL_LENGTH,PIPES_AS_CONCAT",
            "sql_select_limit": 3,
            "max_statement_time": 0.05,
            "transaction_isolation": "SERIALIZABLE",
            "completion_type": "CHAIN",
            "time_zone": "+05:00",
            "autocommit": 0,
            "wait_timeout": 1,
            "net_write_timeout": 1,
            "sql_safe_updates": 1,
        }
        names = {"transaction_isolation": "tx_isolation"}
        mariadb.fill(OLD, "char(100)")
        slow = SLOW_BATCHES[:-1] + (
            SLOW_BATCHES[-1].replace("keys.ROWS = 50", "keys.ROWS = 1"),
        )
        values = {names.get(name, name): value for name, value in hostile.items()}
        with settings(mariadb, **values):
            done = rotated(program=slow)
        assert done.status == 0, done
        assert mariadb.held("`key`") == NEW


class TestOthers:
    @pytest.mark.parametrize(
        "statement, changed",
        [
            (set_row(200, ADDED), {**NEW, 200: ADDED}),
            (f"INSERT INTO `keys` VALUES (25, X'{ADDED.hex()}')", {**NEW, 25: ADDED}),
            (
                "DELETE FROM `keys` WHERE id = 200",
                {number: key for number, key in NEW.items() if number != 200},
            ),
            (
                "UPDATE `keys` SET id = 7 WHERE id = 200",
                {7 if at == 200 else at: key for at, key in NEW.items()},
            ),
        ],
        ids=["changed", "added", "removed", "moved"],
    )
    def test_a_row_that_changes_meanwhile_is_kept(self, mariadb, statement, changed):
        """No row is locked while keys are rewrapped: the other session does not wait."""
        done = rotated(**statement_meanwhile(statement))
        assert done.status == 0, done
        assert mariadb.held() == changed, done
        assert rotated("--verify") == 0

    def test_a_key_that_differs_in_case_is_another_key(self, mariadb):
        """The collation of the column would take both for the same."""
        texts = {at: base64.b64encode(key).decode() for at, key in OLD.items()}
        mariadb.sql(
            "CREATE OR REPLACE TABLE other (id int PRIMARY KEY, `key` varchar(99) COLLATE utf8mb4_general_ci);"
            "INSERT INTO other VALUES "
            + ", ".join(f"({at}, '{text}')" for at, text in texts.items())
        )
        theirs = texts[200].swapcase()
        statement = f"UPDATE other SET `key` = '{theirs}' WHERE id = 200"
        done = rotated("--base64", table="other", **statement_meanwhile(statement))
        assert done.status == 5, done
        assert done.has("row 200: "), done
        found = dict(mariadb.sql("SELECT id, `key` FROM other"))
        expected = {at: base64.b64encode(key).decode() for at, key in NEW.items()}
        assert found == {**expected, 200: theirs}

    def test_rows_that_another_session_has_locked(self, mariadb):
        """They are never waited for: status 6, and all others are new."""
        locked = "SELECT 1 FROM `keys` WHERE id IN (50, 330) FOR UPDATE"
        with holding(mariadb, locked):
            done = rotated()
            held = mariadb.held()
        assert done.status == 6, done
        assert {at for at in held if not is_new(at, held)} == {50, 330}
        assert done.counts["old"] == 2, done
        assert rotated() == 0
        assert mariadb.held() == NEW

    def test_no_transaction_is_left_open(self, mariadb):
        """No transaction is left open, also if nothing of a batch could be written."""
        program = patched(
            """from keywrap_rotate import mariadb
def checked(self, writes, real=mariadb._Pass._update):
    left = real(self, writes)
    if self.writer.server_status & 1:
        raise ValueError
    return left
mariadb._Pass._update = checked"""
        )
        with holding(mariadb, "SELECT 1 FROM `keys` FOR UPDATE"):
            done = rotated(program=program)
        assert done.status == 6, done
        assert not done.has("unexpected"), done
        assert done.counts["old"] == 40, done

    def test_a_unique_key_that_another_session_is_about_to_write(self, mariadb):
        """The write waits for a second, and is left to a later pass."""
        mariadb.sql("ALTER TABLE `keys` ADD UNIQUE (`key`)")
        theirs = f"INSERT INTO `keys` VALUES (5, X'{NEW[50].hex()}')"
        with holding(mariadb, theirs) as other:
            done = rotated()
            other.rollback()
        assert done.status == 6, done
        assert rotated() == 0
        assert mariadb.held() == NEW

    def test_a_deadlock_with_another_session(self, mariadb):
        """The server has undone the batch. The pass goes on, and writes it at its end."""
        program = patched(
            """import pymysql
from keywrap_rotate import mariadb
deadlocks = [pymysql.err.OperationalError(1213, "Deadlock found")]
def put(*words, real=mariadb._Pass._put):
    if deadlocks:
        raise deadlocks.pop()
    real(*words)
mariadb._Pass._put = put"""
        )
        done = rotated(program=program)
        assert done.status == 0, done
        assert done.counts["pass"] == 2, done
        assert mariadb.held() == NEW

    @pytest.mark.parametrize("words", [[], ["--verify"]], ids=["rotate", "verify"])
    def test_a_schema_change_waits_for_no_pass(self, mariadb, words):
        """The change does not wait, also if the pass writes nothing. Its end is reported once, and nothing else."""
        mariadb.fill(rows(NEW_KEK, MANY))
        running = begun(*words, program=SLOW_BATCHES)
        wait_for(lambda: reading(mariadb))
        began = time.monotonic()
        mariadb.sql("ALTER TABLE `keys` ADD COLUMN more int")
        took = time.monotonic() - began
        done = end(running)
        assert took < 5, (took, done)
        assert done.status == 0, done
        assert done.counts["pass"] == 2, done
        ends = "keywrap-rotate: keys: another session waits for its lock: the pass ends"
        assert done.messages[0] == ends, done
        assert len(done.messages) == 3 - len(words), done

    def test_a_table_that_is_rewritten_when_a_pass_begins(self, mariadb):
        """Its rows are younger than a snapshot that waits for them."""
        mariadb.sql("ALTER TABLE `keys` PARTITION BY HASH (id) PARTITIONS 2")
        program = patched(
            """from keywrap_rotate import mariadb
mariadb.LOCK = 20
def late(*words, real=mariadb.Mariadb.do):
    open("begun", "w").close()
    while not os.path.exists("go"):
        time.sleep(0.01)
    real(*words)
mariadb.Mariadb.do = late"""
        )
        running = begun("--verify", program=program)
        wait_for(lambda: os.path.exists("begun"))
        with contextlib.closing(mariadb.connect()) as other:
            cursor = other.cursor()
            cursor.execute("LOCK TABLES `keys` WRITE")
            open("go", "w").close()
            wait_for(lambda: waiting(mariadb))
            cursor.execute("ALTER TABLE `keys` TRUNCATE PARTITION p0")
            values = ", ".join(
                f"({at}, X'{key.hex()}')" for at, key in OLD.items() if at % 2 == 0
            )
            cursor.execute(f"INSERT INTO `keys` VALUES {values}")
            cursor.execute("UNLOCK TABLES")
        done = end(running)
        assert done.status == 5, done
        assert done.counts["keys"] == 40, done
        assert done.counts["refused"] == 40, done

    def test_a_table_that_another_session_has_locked(self, mariadb):
        program = patched(
            "from keywrap_rotate import mariadb; mariadb.LISTING_LOCK = 1"
        )
        with contextlib.closing(mariadb.connect()) as other:
            other.cursor().execute("LOCK TABLES `keys` WRITE")
            done = rotated(program=program)
        assert done.status == 6, done
        assert done.has("Lock wait timeout exceeded"), done
        assert rotated() == 0

    def test_two_columns_at_once(self, mariadb):
        mariadb.sql(
            "ALTER TABLE `keys` ADD COLUMN key2 blob; UPDATE `keys` SET key2 = `key`"
        )
        running = [begun("--column", column) for column in ("key", "key2")]
        ends = [end(each) for each in running]
        assert all(done.status in (0, 6) for done in ends), ends
        for column in ("key", "key2"):
            assert rotated("--column", column) == 0
            assert mariadb.held(f"HEX(`{column}`)") == NEW


def reading(mariadb):
    """Whether a run reads the table. InnoDB makes this table anew only if nobody asked for it in the last 0.1 s."""
    time.sleep(0.2)
    query = (
        "SELECT COUNT(*) FROM information_schema.innodb_trx WHERE trx_is_read_only = 1"
    )
    return mariadb.sql(query) != [(0,)]


def waiting(mariadb):
    """Whether somebody waits for the lock of a table."""
    query = (
        "SELECT COUNT(*) FROM information_schema.processlist "
        "WHERE state = 'Waiting for table metadata lock'"
    )
    return mariadb.sql(query) != [(0,)]


class TestAfterTheRun:
    @pytest.mark.parametrize("is_prepared", [False, True], ids=["open", "prepared"])
    def test_a_transaction_that_is_older_than_the_run(self, mariadb, is_prepared):
        """It may bring an old key back. A prepared one has no session."""
        connection = mariadb.connect()
        cursor = connection.cursor()
        cursor.execute("XA START 'theirs'" if is_prepared else "START TRANSACTION")
        cursor.execute(f"INSERT INTO `keys` VALUES (5000, X'{OLD[10].hex()}')")
        if is_prepared:
            cursor.execute("XA END 'theirs'")
            cursor.execute("XA PREPARE 'theirs'")
            connection.close()
        try:
            for words in [], ["--verify"]:
                done = rotated(*words)
                assert done.status == 0, done
                assert done.has("1 transactions are older than this run"), done
        finally:
            if is_prepared:
                mariadb.sql("XA ROLLBACK 'theirs'")
            else:
                connection.close()
        wait_for(lambda: not rotated().has("older than this run"))

    def test_a_history_that_the_server_keeps(self, mariadb):
        """The run says so: old keys stay in it."""
        mariadb.sql("ALTER TABLE `keys` ADD SYSTEM VERSIONING")
        done = rotated()
        assert done.status == 0, done
        assert done.has("system-versioned: its history keeps old keys"), done
        assert mariadb.held() == NEW
        everything = "SELECT HEX(`key`) FROM `keys` FOR SYSTEM_TIME ALL"
        assert len(mariadb.sql(everything)) == 80

    def test_commits_that_a_crash_may_lose(self, mariadb):
        with settings(mariadb, innodb_flush_log_at_trx_commit=2):
            done = rotated()
        assert done.status == 0, done
        assert done.has("innodb_flush_log_at_trx_commit is not 1"), done
        assert not rotated().has("innodb_flush_log_at_trx_commit")

    def test_a_crash_after_the_run(self, mariadb):
        assert rotated() == 0
        mariadb.kill()
        mariadb.start()
        assert mariadb.held() == NEW

    def test_a_server_that_goes_during_the_run(self, mariadb):
        """Status 6, and the next run does the rest."""
        mariadb.fill(rows(KEK, MANY))
        running = begun(program=SLOW_BATCHES)
        wait_for(lambda: mariadb.held() != rows(KEK, MANY))
        mariadb.kill()
        done = end(running)
        mariadb.start()
        assert done.status == 6, done
        held = mariadb.held()
        old = rows(KEK, MANY)
        new = rows(NEW_KEK, MANY)
        assert all(key in (old[at], new[at]) for at, key in held.items())
        assert len(held) == len(MANY)
        assert rotated(program=patched("")) == 0
        assert mariadb.held() == new
