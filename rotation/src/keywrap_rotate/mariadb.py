"""A column of a table of MariaDB or MySQL, found by an option file. One process reads it in one snapshot.

A snapshot belongs to its connection and cannot be handed to another one: so one process reads the whole table, and the
listing has one unit. Two connections do it: one reads the rows as they stream from the server, the other one writes.

A schema change (ALTER TABLE, TRUNCATE, ..) waits until nobody has read the table in an open transaction, and everybody
who comes later waits for it. The connection that reads holds the table through the pass. So the other one must not
wait for the table: it gives up after a second, which ends the pass (`PassEnds`). While there is nothing to write it asks
for the table all the same, to see whether somebody waits.
"""

import argparse
import configparser
import contextlib
import importlib
import os
import time
from typing import Any, Dict, Iterator, List, NamedTuple, Optional, Sequence, Set, Tuple

from . import signs
from .found import Failure, Found, PassEnds, Refused, Unanswered
from .keks import Rings
from .keys import LONGEST, ROWS, Notation, digest_of_none, next_batch, rewrapped_rows
from .limits import limited
from .listing import Listing, Names, ListedUnit, Unit
from .server_table import NotKept, ServerTable

pymysql: Any = importlib.import_module("pymysql")
_CLIENT: Any = importlib.import_module("pymysql.constants.CLIENT")
#: Rows are read one by one, as they come.
_STREAM: Any = importlib.import_module("pymysql.cursors").SSCursor
#: How many rows are written at once: each stays locked until the others are written.
WRITTEN = ROWS // 8
#: The seconds for which the connection that lists waits for the lock of the table, and all others.
LISTING_LOCK = 60
LOCK = 1
#: The seconds between two questions whether somebody waits for the table.
ASKED = 0.5
#: The pauses before each attempt to write the rows that others had locked.
PAUSES = 0.0, 0.02, 0.1
#: Each session sets these, whatever the server and the account have set. The options after /*M! are MariaDB's, the one
#: after /*!50708 is MySQL's. A server ends a connection that does not take its rows for net_write_timeout.
_SESSION = """SET SESSION sql_mode = 'STRICT_ALL_TABLES', lock_wait_timeout = %s, innodb_lock_wait_timeout = 1,
    wait_timeout = 604800, net_write_timeout = 3600, time_zone = '+00:00', sql_select_limit = 18446744073709551615,
    sql_big_selects = 1, sql_safe_updates = 0, foreign_key_checks = 1, unique_checks = 1, completion_type = 0
    /*M!100304 , max_statement_time = 0, idle_transaction_timeout = 0 */ /*!50708 , max_execution_time = 0 */"""
_ISOLATION = "SET SESSION TRANSACTION ISOLATION LEVEL "
_KIND = """SELECT table_type, engine, coalesce(table_rows, 0) FROM information_schema.tables
    WHERE table_schema = %s AND table_name = %s ORDER BY CAST(table_name AS BINARY) = %s DESC LIMIT 1"""
_COLUMNS = """SELECT column_name, lower(data_type), coalesce(generation_expression, '')
    FROM information_schema.columns WHERE table_schema = %s AND table_name = %s"""
#: The unique indexes of whole columns, the primary key first.
_INDEXES = """SELECT index_name, column_name, sub_part, nullable FROM information_schema.statistics
    WHERE table_schema = %s AND table_name = %s AND non_unique = 0 AND index_type = 'BTREE'
    ORDER BY index_name <> 'PRIMARY', index_name, seq_in_index"""
#: The transactions that may still write. A prepared one has no session: its thread is 0.
_OPEN = """SELECT CONCAT(trx_mysql_thread_id, ' ', trx_started) FROM information_schema.innodb_trx
    WHERE trx_is_read_only = 0 AND trx_autocommit_non_locking = 0 AND trx_mysql_thread_id <> CONNECTION_ID()"""
_COUNT = "SELECT COUNT(*) FROM {table}"
#: Waits for the lock of the table, and reads nothing.
_ASK = "SELECT 1 FROM {table} LIMIT 0"
#: Needs the rights and the lock of a writer.
_ASK_TO_WRITE = _ASK + " FOR UPDATE SKIP LOCKED"
_ROWS = (
    "SELECT CASE WHEN OCTET_LENGTH({column}) <= "
    + str(LONGEST)
    + " THEN {key} END, OCTET_LENGTH({column}), {kek}, {row} FROM {table}"
)
_STORED = "SELECT {key}, {kek}, {row} FROM {table} FORCE INDEX ({index}) WHERE {where}"
_LOCKED = _STORED + " FOR UPDATE SKIP LOCKED"
#: A new key is a function of the old one. So a row that has none of the old keys stays, whoever it is.
_UPDATE = """UPDATE {table} FORCE INDEX ({index})
    SET {column} = COALESCE(ELT(FIELD({key}, {olds}), {news}), {column}) WHERE {where}"""
#: The numbers of errors: another session has the lock, or is part of a deadlock; the table is another one by now.
_LOCK_WAIT = 1205
_DEADLOCK = 1213
_CHANGED = 1412
_NO_RIGHT = 1227
#: The server is gone, or takes no more connections. Numbers from 2000 to 2999 are of the connection.
_GONE = frozenset({0, 1040, 1053, 1203, 1226, 1317, 1927})
#: Errors whose words name only tables and accounts: a right is missing, the server or its log does not let anybody
#: write, a trigger writes the table that it is of.
_SHOWN = frozenset({1142, 1143, 1290, 1442, 1665, 1792})
#: Errors that refuse one row: for its value, a constraint, a partition, a trigger. Others concern the whole table.
_ROW_ERRORS = frozenset(
    {1048, 1062, 1216, 1217, 1264, 1265, 1292, 1366, 1369, 1406}
    | {1451, 1452, 1526, 1557, 1644, 1690, 1761, 1762, 3819, 4025}
)
#: A trigger may raise an error with a number of its own.
_ERRORS_OF_USERS = 20000
_TEXTS = ("char", "varchar", "tinytext", "text", "mediumtext", "longtext")
_BINARIES = ("binary", "varbinary", "tinyblob", "blob", "mediumblob", "longblob")
_INTEGERS = ("tinyint", "smallint", "mediumint", "int", "bigint", "decimal", "year")
_AS_TEXT = ("date", "datetime", "timestamp", "time", "enum", "uuid", "inet4", "inet6")
#: The types that a key may have, and a column that identifies a row. A float does not equal its text.
_KINDS_OF_KEYS = {
    **dict.fromkeys(_TEXTS, "text"),
    **dict.fromkeys(_BINARIES, "binary"),
}
_KINDS_OF_ROWS = {
    **_KINDS_OF_KEYS,
    **dict.fromkeys(_INTEGERS, "number"),
    **dict.fromkeys(_AS_TEXT, "text"),
}


def quoted(name: str) -> str:
    """The name of a table or a column in a statement, whatever its sql_mode."""
    return "`" + name.replace("`", "``") + "`"


class _Connection(pymysql.connections.Connection):  # type: ignore[misc]
    """A connection that is encrypted if the option file has ssl-ca. PyMySQL goes on in clear text if a server, or
    somebody on the way to it, offers no TLS, and gives whoever asks for it the password itself.
    """

    def _get_server_information(self) -> None:
        super()._get_server_information()
        if self.ssl and not self.server_capabilities & _CLIENT.SSL:
            raise pymysql.err.OperationalError(2026, "the server offers no TLS")

    def _process_auth(self, plugin_name: bytes, auth_packet: Any) -> Any:
        if plugin_name == b"mysql_clear_password" and not self._secure:
            words = "the server asks for the password in clear text"
            raise pymysql.err.OperationalError(2059, words)
        return super()._process_auth(plugin_name, auth_packet)


class Column(NamedTuple):
    """A column: its quoted name, and whether it is a number, binary or text.

    Text is compared by its bytes: keys in base64 that differ in case only are different keys. Values are parameters of
    hex digits, in which nothing has to be escaped.
    """

    name: str
    kind: str

    def read(self) -> str:
        """Returns its expression in a SELECT. All text becomes UTF-8, and is compared without a collation."""
        if self.kind == "text":
            return f"CAST(CONVERT({self.name} USING utf8mb4) AS BINARY)"
        return self.name

    def value(self, found: Any) -> Any:
        if self.kind == "text" and found is not None:
            return found.decode("utf-8", "surrogateescape")
        return found

    def marker(self) -> str:
        """The place of a parameter in a statement."""
        return {"number": "%s", "binary": "X%s", "text": "_utf8mb4 X%s"}[self.kind]

    def parameter(self, value: Any) -> Any:
        if self.kind == "number":
            return value
        return self.octets(value).hex()

    def octets(self, value: Any) -> bytes:
        if self.kind == "text":
            return bytes(value.encode("utf-8", "surrogateescape"))
        return bytes(value)


class Table(NamedTuple):
    """A table as it is now: its key, its unique index, and the columns of this index."""

    key: Column
    index_name: str
    row: Sequence[Column]
    #: About how many rows it has.
    weight: int
    #: Whether the table keeps each row that was replaced.
    has_history: bool


class Write(NamedTuple):
    """A row that gets a new key: what identifies it, the old key, the new one, and the name of the KEK of both."""

    row: Tuple[Any, ...]
    old: Any
    new: Any
    kek: Optional[str]


class Mariadb(ServerTable):
    noun = "tables"

    def __init__(
        self,
        table: str,
        column: str,
        notation: Notation,
        kek_name: Optional[str],
        option_file: Optional[str],
        digest: Optional[str] = None,
        timeout: float = 600.0,
    ) -> None:
        super().__init__(table, column, notation, kek_name, digest, timeout)
        self.option_file = option_file
        self.sees_transactions = True
        kek = "NULL"
        if kek_name is not None:
            kek = Column(quoted(kek_name), "text").read()
        #: Quoted names and expressions, as statements have them.
        self.fragments = {
            "table": ".".join(map(quoted, table.split("."))),
            "column": quoted(column),
            "kek": kek,
        }

    def run(
        self, cursor: Any, statement: str, words: Sequence[Any] = (), **more: str
    ) -> Any:
        """Fills in the fragments of a statement, runs it, and returns its cursor."""
        fragments = {**self.fragments, **more}
        # PyMySQL takes two percent signs for one. Markers have one.
        for name in ("table", "column", "kek", "key", "row", "index"):
            if name in fragments:
                fragments[name] = fragments[name].replace("%", "%%")
        cursor.execute(statement.format(**fragments), tuple(words))
        return cursor

    @contextlib.contextmanager
    def connected(
        self, lock: int, isolation: str, shows_words: bool = False
    ) -> Iterator[Any]:
        """A connection. If it cannot be made, the server's words are shown: nobody has read a key."""
        with self.failures(shows_words=True):
            connection = self._connect()
        try:
            with self.failures(shows_words):
                with connection.cursor() as cursor:
                    cursor.execute(_SESSION, (lock,))
                    cursor.execute(_ISOLATION + isolation)
                yield connection
        finally:
            if connection._result is not None:
                # Nothing reads the rows that are left.
                connection._result.unbuffered_active = False
            with contextlib.suppress(pymysql.err.Error):
                connection.close()

    def _connect(self) -> Any:
        try:
            return _Connection(
                read_default_file=self.option_file,
                charset="utf8mb4",
                autocommit=True,
                connect_timeout=30,
                read_timeout=self.timeout,
                write_timeout=self.timeout,
                program_name="keywrap-rotate",
            )
        except UnicodeError:
            # Its words have a piece of the file, which may be one of the password.
            raise self._refusal(
                "its option file is not UTF-8, or has a password that is not Latin-1"
            ) from None
        except OSError as error:
            # A server that is not there is an error of PyMySQL.
            raise self._refusal(
                f"ssl-ca, ssl-cert or ssl-key: {error.strerror}"
            ) from None
        except (configparser.Error, ValueError, RuntimeError) as error:
            # RuntimeError: a login that needs another module of Python.
            words = str(error).partition("\n")[0]
            raise Refused(f"MariaDB: {self.table}: {words}") from None

    @contextlib.contextmanager
    def failures(self, shows_words: bool) -> Iterator[None]:
        """Turns errors of MariaDB into ours. Its words may have a key in them once somebody has read one."""
        try:
            yield
        except pymysql.err.Error as error:
            number = _number(error)
            why = self._why(error, shows_words)
            if number in (_LOCK_WAIT, _CHANGED) and not shows_words:
                raise PassEnds(
                    f"{self.table}: another session waits for its lock: the pass ends"
                ) from None
            is_connection = number in _GONE or 2000 <= number < 3000
            if is_connection or number in (_LOCK_WAIT, _DEADLOCK, _CHANGED):
                raise Unanswered(why) from None
            raise Refused(why) from None

    def _why(self, error: Any, shows_words: bool) -> str:
        text = type(error).__name__
        number = _number(error)
        if (shows_words or number in _SHOWN) and len(error.args) > 1:
            text = str(error.args[1])
        return f"MariaDB: {self.table}: {text} ({number})"

    @contextlib.contextmanager
    def listed(self, may_write: bool) -> Iterator[Listing]:
        """Refuses a table that cannot be rotated, and waits for schema changes that are at work."""
        with self.asking(LISTING_LOCK) as cursor:
            table = self.described(cursor)
            # A change that lets others read must be over, too.
            self.run(cursor, _ASK_TO_WRITE if may_write else _ASK)
            self.note_open_transactions(self.open_transactions(cursor))
            is_durable = _is_durable(cursor)
        yield _Listing(self, table, is_durable)

    @contextlib.contextmanager
    def asking(self, lock: int) -> Iterator[Any]:
        """A cursor of a connection of the process that lists."""
        with limited(self.timeout, f"MariaDB: {self.table}"):
            with self.connected(lock, "READ COMMITTED", shows_words=True) as connection:
                yield connection.cursor()

    def open_transactions(self, cursor: Any) -> Set[str]:
        """Returns the names of the transactions that are open now. Few accounts may see them."""
        try:
            cursor.execute(_OPEN)
            return {name for (name,) in cursor.fetchall()}
        except pymysql.err.Error as error:
            if _number(error) != _NO_RIGHT:
                raise
            self.sees_transactions = False
            return set()

    def described(self, cursor: Any) -> Table:
        """Looks at the table. Raises `Refused` if it cannot be rotated."""
        schema, _, name = self.table.rpartition(".")
        if not schema:
            cursor.execute("SELECT DATABASE()")
            (schema,) = cursor.fetchone()
        if schema is None:
            raise self._refusal("name its database, too: DATABASE.TABLE")
        cursor.execute(_KIND, (schema, name, name))
        kind = cursor.fetchone()
        if kind is None:
            raise self._refusal("there is no such table, or no right to read it")
        table_type, engine, weight = kind
        if "VIEW" in table_type or table_type == "SEQUENCE":
            raise self._refusal(f"a {table_type.lower()}, not a table")
        if engine != "InnoDB":
            raise self._refusal(f"its engine is {engine}, which has no transactions")
        cursor.execute(_COLUMNS, (schema, name))
        types = {}
        for column, data_type, expression in cursor.fetchall():
            types[column.lower()] = data_type
            if expression and column.lower() == self.column.lower():
                raise self._refusal(f"column {self.column} is generated")
        key = self._key_column(types)
        cursor.execute(_INDEXES, (schema, name))
        index, row = self._row_columns(cursor.fetchall(), types)
        return Table(key, index, row, int(weight), table_type == "SYSTEM VERSIONED")

    def _refusal(self, why: str) -> Refused:
        return Refused(f"MariaDB: {self.table}: {why}")

    def _key_column(self, types: Dict[str, str]) -> Column:
        for name in filter(None, (self.column, self.kek_name)):
            if name.lower() not in types:
                raise self._refusal(f"it has no column {name}")
        data_type = types[self.column.lower()]
        if data_type not in _KINDS_OF_KEYS:
            raise self._refusal(
                f"column {self.column} is neither text nor binary: {data_type}"
            )
        return Column(quoted(self.column), _KINDS_OF_KEYS[data_type])

    def _row_columns(
        self, parts: Sequence[Tuple[Any, ...]], types: Dict[str, str]
    ) -> Tuple[str, Sequence[Column]]:
        """Returns the first index that identifies each row and stays as it is when the key is written."""
        indexes: Dict[str, List[Column]] = {}
        unfit = set()
        for index, name, length, nullable in parts:
            column = str(name).lower()
            kind = _KINDS_OF_ROWS.get(types.get(column, ""), "")
            is_key = column == self.column.lower()
            if is_key or not kind or length is not None or nullable == "YES":
                unfit.add(index)
            indexes.setdefault(index, []).append(Column(quoted(str(name)), kind))
        for index, columns in indexes.items():
            if index not in unfit:
                return quoted(index), columns
        raise self._refusal(
            "it has no primary key, nor a unique index, that identifies each row exactly "
            f"without {self.column}"
        )

    def do(self, unit: Unit, rings: Rings, may_write: bool, found: Found) -> None:
        found.digest = self.digest
        with self.connected(LOCK, "REPEATABLE READ") as reader:
            with self.connected(LOCK, "READ COMMITTED") as writer:
                _Pass(self, reader, writer, rings, may_write, found).run()


def _number(error: Any) -> int:
    """The number of an error: 0 if the connection is closed. PyMySQL makes those from 32768 on negative."""
    number = error.args[0] if error.args else 0
    return number & 0xFFFF if isinstance(number, int) else 0


def _name(kek: Optional[bytes]) -> Optional[str]:
    """The name of a KEK."""
    return None if kek is None else kek.decode("utf-8", "surrogateescape")


def _is_durable(cursor: Any) -> bool:
    """Whether a key that was committed is on the disk."""
    cursor.execute("SELECT @@GLOBAL.innodb_flush_log_at_trx_commit")
    return cursor.fetchone() in ((1,), (3,))


class _Pass:
    """Reads all rows of a table in one snapshot, and writes the ones that are not new."""

    def __init__(
        self,
        store: Mariadb,
        reader: Any,
        writer: Any,
        rings: Rings,
        may_write: bool,
        found: Found,
    ) -> None:
        self.store = store
        self.reader = reader
        self.writer = writer
        self.rings = rings
        self.may_write = may_write
        self.found = found
        self.asked = time.monotonic()

    def run(self) -> None:
        count = self._begin()
        read = 0
        left: List[Write] = []
        rows = self._rows()
        while batch := next_batch(rows, lambda row: row[1] or 0):
            read += len(batch)
            rewrapped = rewrapped_rows(
                self.rings, self.store.notation, batch, self.found
            )
            if rewrapped and self.may_write:
                self.found.unwritten += len(rewrapped)
                left += self._write_all(
                    [Write(row[3:], row[0], new, row[2]) for new, row in rewrapped]
                )
            self._ask()
            signs.beat(len(batch))
        if read != count:
            raise Refused(f"{read} of its {count} rows can be read")
        for pause in PAUSES:
            if not left:
                break
            time.sleep(pause)
            left = self._write_all(left)

    def _begin(self) -> int:
        """Begins the moment that the pass reads, and returns how many rows the table has in it.

        The snapshot comes with the first row that is read, after the lock of the table. WITH CONSISTENT SNAPSHOT would
        take it first. It would be older than a schema change that it waits for, and InnoDB refuses such a snapshot.
        """
        cursor = self.reader.cursor()
        cursor.execute("START TRANSACTION READ ONLY")
        ((count,),) = self.store.run(cursor, _COUNT).fetchall()
        # From here on nobody changes the table.
        self.table = self.store.described(self.writer.cursor())
        return int(count)

    def _statement(
        self, cursor: Any, statement: str, words: Sequence[Any] = (), **more: str
    ) -> Any:
        """Runs a statement with the names of the columns in it."""
        names = {
            "key": self.table.key.read(),
            "index": self.table.index_name,
            "row": ", ".join(column.read() for column in self.table.row),
        }
        return self.store.run(cursor, statement, words, **names, **more)

    def _rows(self) -> Iterator[Any]:
        """The rows of the snapshot, in any order: the key, its length, the name of its KEK, and what identifies it."""
        cursor = self._statement(self.reader.cursor(_STREAM), _ROWS)
        while found := cursor.fetchone():
            key, size, kek, *row = found
            yield self.table.key.value(key), size, _name(kek), *self._identity(row)

    def _identity(self, row: Sequence[Any]) -> Tuple[Any, ...]:
        columns = self.table.row
        return tuple(column.value(part) for column, part in zip(columns, row))

    def _ask(self) -> None:
        """Ends the pass if somebody waits for the table: nobody else would see it while nothing is written."""
        if time.monotonic() >= self.asked + ASKED:
            self.store.run(self.writer.cursor(), _ASK)
            self.asked = time.monotonic()

    def _write_all(self, writes: List[Write]) -> List[Write]:
        """Writes rows in batches, and returns the rows that others have locked."""
        left: List[Write] = []
        for at in range(0, len(writes), WRITTEN):
            batch = writes[at : at + WRITTEN]
            left += self._write(batch)
            signs.beat()
        return left

    def _write(self, writes: List[Write]) -> List[Write]:
        """Writes a batch. If the table does not take it as it is, its rows are written one by one, and those that it
        does not take are refused."""
        with contextlib.suppress(NotKept, _RowError):
            return self._update(writes)
        left = []
        for write in writes:
            try:
                left += self._update([write])
            except NotKept:
                self._refuse(write, "the table keeps another value")
            except _RowError as error:
                self._refuse(write, f"it cannot be written: error {error}")
        return left

    def _refuse(self, write: Write, why: str) -> None:
        self.found.refuse_write("row " + ", ".join(map(str, write.row)), why)

    def _update(self, writes: List[Write]) -> List[Write]:
        """Writes a batch in one transaction: all rows that still have the old key and that nobody has locked, or, after
        an error, none. Returns what it did not write."""
        cursor = self.writer.cursor()
        self.writer.begin()
        try:
            stored = self._stored(cursor, _LOCKED, writes)
            ours = [
                write
                for write in writes
                if stored.get(write.row) == (write.old, write.kek)
            ]
            if not ours or not self._replace(cursor, ours):
                # Between two batches no lock is held: neither of a row nor of the table.
                self.writer.rollback()
                return writes
        except BaseException:
            with contextlib.suppress(pymysql.err.Error):
                self.writer.rollback()
            raise
        self.found.unwritten -= len(ours)
        written = {write.row for write in ours}
        return [write for write in writes if write.row not in written]

    def _replace(self, cursor: Any, writes: List[Write]) -> bool:
        """Gives rows that this transaction has locked their new keys, and commits. Returns whether no other session has
        a lock that this needs, as of a key in a unique index. Triggers run within the statement: so what is read
        before the commit is what stays."""
        try:
            self._put(cursor, writes)
            stored = self._stored(cursor, _STORED, writes)
            meant = {write.row: (write.new, write.kek) for write in writes}
            if any(stored.get(row) != value for row, value in meant.items()):
                raise NotKept
            self.writer.commit()
        except pymysql.err.Error as error:
            number = _number(error)
            if number in (_LOCK_WAIT, _DEADLOCK):
                return False
            if number in _ROW_ERRORS or number >= _ERRORS_OF_USERS:
                raise _RowError(number) from None
            raise
        return True

    def _put(self, cursor: Any, writes: List[Write]) -> None:
        """Replaces the old keys of these rows."""
        key = self.table.key
        olds = [key.octets(write.old).hex() for write in writes]
        news = [key.parameter(write.new) for write in writes]
        where, places = self._where(writes)
        self._statement(
            cursor,
            _UPDATE,
            (*olds, *news, *places),
            olds=_markers("X%s", writes),
            news=_markers(key.marker(), writes),
            where=where,
        )

    def _stored(
        self, cursor: Any, statement: str, writes: List[Write]
    ) -> Dict[Tuple[Any, ...], Any]:
        """The keys that these rows have now, and the names of their KEKs, by what identifies the rows."""
        where, words = self._where(writes)
        self._statement(cursor, statement, words, where=where)
        stored = {}
        for key, kek, *row in cursor.fetchall():
            stored[self._identity(row)] = self.table.key.value(key), _name(kek)
        return stored

    def _where(self, writes: List[Write]) -> Tuple[str, List[Any]]:
        """The condition for these rows, and its parameters."""
        columns = self.table.row
        places = []
        for write in writes:
            places += [
                column.parameter(part) for column, part in zip(columns, write.row)
            ]
        names = [_escaped(column.name) for column in columns]
        if len(columns) == 1:
            markers = _markers(columns[0].marker(), writes)
            return f"{names[0]} IN ({markers})", places
        parts = [f"{name} = {column.marker()}" for name, column in zip(names, columns)]
        one_row = "(" + " AND ".join(parts) + ")"
        return " OR ".join([one_row] * len(writes)), places


def _markers(marker: str, writes: List[Write]) -> str:
    """A place of a parameter for each write."""
    return ", ".join([marker] * len(writes))


def _escaped(name: str) -> str:
    """Quotes a name for a statement with parameters, where two percent signs are one."""
    return name.replace("%", "%%")


class _RowError(Exception):
    """The table does not take a row. The number is all that is said of it: the words may have the key in them."""


class _Listing(Listing):
    """A table as one unit. What a pass reads of it is a moment."""

    def __init__(self, store: Mariadb, table: Table, is_durable: bool) -> None:
        self.store = store
        self.table = table
        self.is_durable = is_durable
        super().__init__(self._units_of)

    def _units_of(self, found: Found) -> Iterator[ListedUnit]:
        yield os.fsencode(self.store.table), self.table.weight, self.store.table, 0

    def rest(self) -> Tuple[Iterator[Unit], int]:
        """A snapshot has nothing new at the end of a pass."""
        return iter(()), 0

    def is_quiet(self, found: Found) -> bool:
        return True

    def warnings(self) -> List[str]:
        """Returns the reasons why an old key may come back, or is kept."""
        with self.store.asking(LOCK) as cursor:
            names = self.store.open_transactions(cursor)
            self.store.note_open_transactions(names)
        warnings = []
        if not self.store.sees_transactions:
            warnings.append(
                "whether transactions are older than this run is not seen without the right PROCESS"
            )
        warnings += self.store.warnings_of_open_transactions()
        if self.table.has_history:
            warnings.append(
                f"{self.store.table} is system-versioned: its history keeps old keys"
            )
        if not self.is_durable:
            warnings.append(
                "innodb_flush_log_at_trx_commit is not 1: a crash within a second may bring old keys back"
            )
        return warnings


def open_store(
    options: argparse.Namespace, notation: Notation, names: Names
) -> Mariadb:
    """Makes the store of a table of MariaDB or MySQL."""
    return Mariadb(
        options.mariadb,
        options.column,
        notation,
        options.kek_name,
        _option_file(options.defaults_file),
        digest_of_none(options),
        options.timeout,
    )


def _option_file(name: Optional[str]) -> Optional[str]:
    """The option file of MariaDB's clients. PyMySQL would pass one over that it cannot read."""
    if name is None:
        usual = os.path.expanduser("~/.my.cnf")
        return usual if os.path.exists(usual) else None
    try:
        with open(name, "rb"):
            return os.path.abspath(name)
    except OSError as error:
        raise Failure(f"--defaults-file: {name}: {error.strerror}") from None
