"""A column of a PostgreSQL table, found by libpq's variables. A pass reads it in one snapshot, by ranges of blocks.

A schema change (ALTER TABLE, TRUNCATE, ..) waits until nobody reads the table, and everybody who comes later waits
for it. So a run must not wait for a lock of the table while it holds one. Only the connection that lists holds the
table through the pass. All others wait for a lock for a second at most, which ends the pass (`PassEnds`): its snapshot
and its lock are released, and the next pass waits for the schema change, as everybody does.
"""

import argparse
import contextlib
import functools
import importlib
import itertools
import os
import threading
import time
from typing import Any, Iterator, List, NamedTuple, Optional, Set, Tuple

from . import signs
from .found import Found, PassEnds, Refused, Unanswered
from .keks import Rings
from .keys import KEY, ROWS, Notation, digest_of_none, quoted, rewrapped_rows
from .limits import limited
from .listing import Listing, Names, ListedUnit, Unit
from .server_table import NotKept, ServerTable

psycopg: Any = importlib.import_module("psycopg")
errors: Any = importlib.import_module("psycopg.errors")
#: How many blocks a unit has.
BLOCKS = 64
#: How many rows are written at once: each stays locked until the others are written.
WRITTEN = ROWS // 8
#: How long the connection that lists waits for the lock of the table.
LISTING_LOCK = "60s"
#: How long each other statement waits for a lock.
LOCK = "1s"
#: The pauses before each attempt to write the rows that others updated since the snapshot.
PAUSES = 0.0, 0.02, 0.1
#: A server that is gone is noticed within a minute or two.
_CONNECTION = {
    "keepalives_idle": 30,
    "keepalives_interval": 10,
    "keepalives_count": 3,
    "tcp_user_timeout": 60000,
    "application_name": "keywrap-rotate",
}
#: Each session sets these, whatever the server, the role and libpq's variables say. Without row security PostgreSQL
#: refuses what it would hide. With another encoding psycopg returns bytes for text. An asynchronous commit may be lost.
_SESSION = """SET lock_timeout = '{lock}'; SET idle_in_transaction_session_timeout = 0; SET row_security = off;
SET client_encoding = 'UTF8'; SET standard_conforming_strings = on;
SET default_transaction_isolation = 'read committed';
SELECT set_config('synchronous_commit', 'on', false) WHERE current_setting('synchronous_commit') = 'off';
SELECT set_config(name, '1h', false) FROM pg_settings WHERE name = 'idle_session_timeout'"""
_ROWS = (
    "DECLARE rows CURSOR WITH HOLD FOR SELECT "
    + KEY
    + ", {name}.ctid::text FROM {table} WHERE {name}.ctid >= '{first}' AND {name}.ctid < '{end}'"
)
#: The new keys of a batch, with the ctid and the old key of their rows. Nobody calls a table by such a name.
_FRESH = """WITH {fresh} AS (
    SELECT * FROM unnest(%s::text[]::tid[], %s::{type}[], %s::{type}[])
    WITH ORDINALITY AS {fresh} (row, old, new, place)
)"""
#: Writes a batch, and answers by one row, since a row for each key would take longer than the write: how many rows were
#: written, whether all of them have their new keys, and the places in the batch of what was not written.
_UPDATE = (
    _FRESH
    + """, {locked} AS (
    SELECT {name}.ctid AS row, {fresh}.old, {fresh}.new, {fresh}.place
    FROM {table} JOIN {fresh} ON {where} {key} = {fresh}.old
    FOR UPDATE OF {name} SKIP LOCKED
), {written} AS (
    UPDATE {table} SET {column} = {locked}.new FROM {locked}
    WHERE {name}.ctid = {locked}.row AND {key} = {locked}.old
    RETURNING {locked}.place, ({key} = {locked}.new) IS TRUE AS is_kept
)
SELECT count(*), coalesce(bool_and(is_kept), TRUE),
    ARRAY(SELECT place FROM {fresh} EXCEPT SELECT place FROM {written})
FROM {written}"""
)
#: Writes the rows of the batch that are where they were.
_IN_PLACE = "{name}.ctid = {fresh}.row AND"
#: Writes any row that has an old key of the batch.
_ANYWHERE = ""
_COUNT_OLD = (
    _FRESH + " SELECT count(*) FROM {table} JOIN {fresh} ON {key} = {fresh}.old"
)
_COUNT_NOT_STORED = (
    _FRESH
    + """ SELECT count(*) FROM {fresh}
    WHERE NOT EXISTS (SELECT FROM {table} WHERE {key} = {fresh}.new)"""
)
#: The table with its partitions and the tables that inherit from it.
_TREE = """WITH RECURSIVE tree (oid) AS (
    SELECT %s::regclass::oid UNION SELECT inhrelid FROM pg_inherits JOIN tree ON inhparent = tree.oid
)"""
#: How many rows this transaction has inserted and updated, its triggers included.
_TOUCHED = (
    _TREE
    + """ SELECT coalesce(sum(n_tup_ins - n_tup_del), 0), coalesce(sum(n_tup_upd), 0)
    FROM pg_stat_xact_user_tables JOIN tree ON oid = relid"""
)
_TRIGGERS = (
    _TREE
    + """ SELECT DISTINCT tgname FROM pg_trigger JOIN tree ON tgrelid = tree.oid
    WHERE NOT tgisinternal AND (tgtype & 16) <> 0 ORDER BY 1"""
)
_BLOCKS = (
    _TREE
    + " SELECT max(pg_relation_size(oid)) / current_setting('block_size')::int FROM tree"
)
#: The transactions that are open now. A prepared one has no session. The type of the sessions of other roles is hidden.
_OPEN = """SELECT virtualtransaction FROM pg_locks
    WHERE locktype = 'virtualxid' AND granted AND pid <> pg_backend_pid() AND pid IN (
        SELECT pid FROM pg_stat_activity
        WHERE datname = current_database() AND application_name <> 'keywrap-rotate' AND usesysid IS NOT NULL
        AND coalesce(backend_type, 'client backend') = 'client backend')
    UNION ALL SELECT gid FROM pg_prepared_xacts WHERE database = current_database()"""


class Write(NamedTuple):
    """A row that gets a new key: its ctid, the old key and the new one."""

    row: str
    old: Any
    new: Any


#: Errors that refuse one row. Others concern the whole table.
_ROW_ERRORS = (NotKept, errors.IntegrityError, errors.DataError, errors.RaiseException)
#: The connection of each thread of this process, since a new one takes longer than a unit of few rows; and the snapshot
#: of the last pass that it ended, with the reason.
_kept = threading.local()


class Postgresql(ServerTable):
    noun = "ranges"

    def __init__(
        self,
        table: str,
        column: str,
        notation: Notation,
        kek_name: Optional[str],
        digest: Optional[str] = None,
        timeout: float = 600.0,
    ) -> None:
        super().__init__(table, column, notation, kek_name, digest, timeout)
        *schema, name = map(quoted, table.split("."))
        quoted_column = quoted(column)
        kek = "NULL"
        if kek_name is not None:
            kek = f"{name}.{quoted(kek_name)}::text"
        #: Quoted names and expressions, as statements have them.
        self.fragments = {
            "table": ".".join((*schema, name)),
            "name": name,
            "column": quoted_column,
            "key": f"{name}.{quoted_column}",
            "octets": "octet_length",
            "kek": kek,
            "fresh": '"new keys of keywrap-rotate"',
            "locked": '"locked by keywrap-rotate"',
            "written": '"written by keywrap-rotate"',
        }

    def run(self, connection: Any, statement: str, *words: Any, **more: str) -> Any:
        """Fills in the fragments of a statement, with the type of the column, and runs it."""
        fragments = {**self.fragments, **more}
        if more.get("type") == "text":
            fragments["key"] += "::text"
        if words:
            # In a statement with parameters two percent signs are one.
            for name, fragment in fragments.items():
                fragments[name] = fragment.replace("%", "%%")
        return connection.execute(statement.format(**fragments), words or None)

    def _connect(self, lock: str) -> Any:
        """Makes a connection. If it cannot be made, the server's words are shown: nobody has read a key."""
        wanted = dict(_CONNECTION)
        if "PGCONNECT_TIMEOUT" not in os.environ:
            wanted["connect_timeout"] = 30
        with self._failures(shows_words=True):
            connection = psycopg.connect(
                "", autocommit=True, prepare_threshold=None, **wanted
            )
            connection.execute(_SESSION.format(lock=lock))
        return connection

    @contextlib.contextmanager
    def _failures(self, shows_words: bool) -> Iterator[None]:
        """Turns errors of PostgreSQL into ours. Its words may have a key in them once somebody has read one."""
        try:
            yield
        except errors.LockNotAvailable as error:
            if shows_words:
                raise Unanswered(self._why(error, shows_words)) from None
            raise PassEnds(
                f"{self.table}: another session waits for its lock: the pass ends"
            ) from None
        except psycopg.OperationalError as error:
            raise Unanswered(self._why(error, shows_words)) from None
        except psycopg.Error as error:
            raise Refused(self._why(error, shows_words)) from None

    def _why(self, error: Any, shows_words: bool = False) -> str:
        """Returns the message of an error. The server's words are only shown where they can have no key in them."""
        words = error.diag.message_primary or str(error).strip().split("\n")[0]
        text = words if shows_words and words else type(error).__name__
        state = f" ({error.sqlstate})" if error.sqlstate else ""
        return f"PostgreSQL: {self.table}: {text}{state}"

    @contextlib.contextmanager
    def _kept_connection(self) -> Iterator[Any]:
        """The connection of this thread, without an open transaction. It is closed after an error."""
        connection = getattr(_kept, "connection", None)
        if connection is None or connection.closed:
            connection = _kept.connection = self._connect(LOCK)
        try:
            with self._failures(shows_words=False):
                yield connection
        except BaseException:
            connection.close()
            raise

    @contextlib.contextmanager
    def listed(self, may_write: bool) -> Iterator[Listing]:
        """The snapshot is there as long as its connection, which only this process has."""
        with limited(self.timeout, f"PostgreSQL: {self.table}"):
            connection = self._connect(LISTING_LOCK)
        try:
            with limited(self.timeout, f"PostgreSQL: {self.table}"), self._failures(
                shows_words=True
            ):
                listing = _Listing(self, connection)
            yield listing
        finally:
            connection.close()

    def do(self, unit: Unit, rings: Rings, may_write: bool, found: Found) -> None:
        snapshot, kind, first, last = unit.identity.split()
        ended, why = getattr(_kept, "ended", ("", ""))
        if snapshot == ended:
            raise PassEnds(why)
        found.digest = self.digest
        try:
            with self._kept_connection() as connection:
                self._open_rows(
                    connection, snapshot, kind, f"({first},0)", f"({last},0)"
                )
                self._rotate_rows(connection, kind, rings, may_write, found)
                connection.execute("CLOSE rows")
        except PassEnds as error:
            _kept.ended = snapshot, str(error)
            raise

    def _rotate_rows(
        self, connection: Any, kind: str, rings: Rings, may_write: bool, found: Found
    ) -> None:
        """Reads the rows of the cursor and writes the old ones. Rows still to be written are `unwritten`."""
        batches = _Batches(self, connection, kind, found)
        left: List[Write] = []
        while rows := connection.execute(f"FETCH {WRITTEN} FROM rows").fetchall():
            rewrapped = rewrapped_rows(rings, self.notation, rows, found)
            if rewrapped and may_write:
                found.unwritten += len(rewrapped)
                left += batches.write(
                    [Write(row[3], row[0], new) for new, row in rewrapped]
                )
            signs.beat(len(rows))
        if left:
            batches.write_moved(left)

    def _open_rows(
        self, connection: Any, snapshot: str, kind: str, first: str, end: str
    ) -> None:
        """Opens a cursor over the rows of a range as they were in the snapshot. It is a copy and needs no transaction:
        so nobody waits for this connection while it rewraps keys."""
        try:
            with connection.transaction():
                connection.execute("SET TRANSACTION ISOLATION LEVEL REPEATABLE READ")
                connection.execute(f"SET TRANSACTION SNAPSHOT '{snapshot}'")
                self.run(connection, _ROWS, type=kind, first=first, end=end)
        except (
            errors.InvalidParameterValue
        ):  # The connection that has the snapshot is gone.
            raise PassEnds(
                f"{self.table}: its snapshot is gone: the pass ends"
            ) from None


class _Batches:
    """Writes the new keys of a unit in batches, and counts them in `found`."""

    def __init__(
        self, store: Postgresql, connection: Any, kind: str, found: Found
    ) -> None:
        self.connection = connection
        self.found = found
        self._run = functools.partial(store.run, connection, type=kind)
        self.tree = store.fragments["table"]
        triggers = self._run(_TRIGGERS, self.tree).fetchall()
        self.triggers = [name for (name,) in triggers]

    def write(self, writes: List[Write], where: str = _IN_PLACE) -> List[Write]:
        """Writes a batch, and returns the rows that have another ctid by now or are locked. If the table does not take
        the batch as it is, its rows are written one by one, and those that it does not take are refused.
        """
        with contextlib.suppress(*_ROW_ERRORS):
            return self._update(writes, where)
        left = []
        for write in writes:
            try:
                left += self._update([write], where)
            except NotKept:
                self._refuse(write, "the table keeps another value")
            except _ROW_ERRORS as error:
                self._refuse(write, f"it cannot be written: {type(error).__name__}")
        return left

    def write_moved(self, writes: List[Write]) -> None:
        """Writes rows that others updated since the snapshot, so that they have another ctid, if they have the old
        key. Rows that others hold locked, or that have another key by now, are left to the next pass.
        """
        left = writes
        for pause in PAUSES:
            time.sleep(pause)
            left = self.write(left, _ANYWHERE)
            if not left or not self._count(_COUNT_OLD, left):
                break

    def _refuse(self, write: Write, why: str) -> None:
        self.found.refuse_write(f"row {write.row}", why)

    def _count(self, statement: str, writes: List[Write]) -> int:
        ((count,),) = self._run(statement, *_columns(writes))
        return int(count)

    def _update(self, writes: List[Write], where: str) -> List[Write]:
        """Writes a batch: all rows that still have the old key and that nobody has locked, or, after an error, none.
        Returns what it did not write."""
        statement = _UPDATE.replace("{where}", where)
        with self.connection.transaction():
            answer = self._run(statement, *_columns(writes)).fetchone()
            count, is_kept, places = answer
            if not is_kept:
                raise NotKept
            left = set(places)
            written = [
                write for place, write in enumerate(writes, 1) if place not in left
            ]
            if self.triggers and written:
                self._check_triggers(written, count)
        self.found.unwritten -= len(written)
        return [writes[place - 1] for place in places]

    def _check_triggers(self, written: List[Write], count: int) -> None:
        """Raises `Refused` if triggers inserted old keys, since the table would grow with each pass, and `NotKept` if
        they replaced new keys after the update. This transaction has inserted nothing itself, and updated `count` rows.
        """
        ((inserted, updated),) = self._run(_TOUCHED, self.tree)
        if inserted and self._count(_COUNT_OLD, written):
            triggers = ", ".join(self.triggers)
            raise Refused(f"a trigger inserts old keys into the table: {triggers}")
        if updated > count and self._count(_COUNT_NOT_STORED, written):
            raise NotKept


def _columns(writes: List[Write]) -> List[List[Any]]:
    return [list(column) for column in zip(*writes)]


class _Listing(Listing):
    """Ranges of blocks in a snapshot, which is a moment."""

    def __init__(self, store: Postgresql, connection: Any) -> None:
        self.store = store
        self.connection = connection
        run = functools.partial(store.run, connection)
        connection.execute("BEGIN ISOLATION LEVEL REPEATABLE READ")
        # The snapshot comes with the first query. If that waited for a lock, the snapshot would be older than the
        # change that it waited for, and would lack rows that the change has rewritten.
        run("LOCK TABLE {table} IN ACCESS SHARE MODE")
        oid = run("SELECT {key}, {kek} FROM {table} LIMIT 0").description[0].type_code
        ((category, self.type),) = run(
            "SELECT typcategory, format_type(oid, NULL) FROM pg_type WHERE oid = %s",
            oid,
        )
        if category == "S":  # As text it is any that is text in PostgreSQL.
            self.type = "text"
        if self.type not in ("text", "bytea"):
            raise Refused(
                f"PostgreSQL: {store.table}.{store.column} is neither text nor bytea: {self.type}"
            )
        ((self.snapshot, self.count),) = run(
            "SELECT pg_export_snapshot(), count(*) FROM {table}"
        )
        ((self.blocks,),) = run(_BLOCKS, store.fragments["table"])
        self.note_open_transactions()
        super().__init__(self.ranges)
        self.units = itertools.takewhile(lambda unit: not connection.closed, self.units)

    def ranges(self, found: Found) -> Iterator[ListedUnit]:
        begins = range(0, max(self.blocks, 1), BLOCKS)
        for at in begins:
            name = os.fsencode(f"{self.store.table}: blocks from {at}")
            identity = f"{self.snapshot} {self.type} {at} {at + BLOCKS}"
            yield name, self.count // len(begins), identity, 0

    def rest(self) -> Tuple[Iterator[Unit], int]:
        """A snapshot has nothing new at the end of a pass."""
        return iter(()), 0

    def note_open_transactions(self) -> None:
        open_now = self.store.run(self.connection, _OPEN)
        self.store.note_open_transactions({name for (name,) in open_now})

    def take(self, unit: Unit, found: Found) -> None:
        """Releases the table at the first unit that ends the pass. No further unit begins."""
        super().take(unit, found)
        if found.ends_pass:
            self.connection.close()

    def warnings(self) -> List[str]:
        return self.store.warnings_of_open_transactions()

    def is_quiet(self, found: Found) -> bool:
        """The ranges must have all rows of the snapshot."""
        if not (found.lost or found.refused) and found.keys + found.nulls != self.count:
            raise Refused(
                f"the ranges have {found.keys + found.nulls} rows, and the table {self.count}"
            )
        if not self.connection.closed:
            self.note_open_transactions()
        return True


def open_store(
    options: argparse.Namespace, notation: Notation, names: Names
) -> Postgresql:
    """Makes the store of a table of PostgreSQL."""
    return Postgresql(
        options.postgresql,
        options.column,
        notation,
        options.kek_name,
        digest_of_none(options),
        options.timeout,
    )
