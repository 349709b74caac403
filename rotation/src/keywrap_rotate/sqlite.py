"""A column of a table in SQLite databases: BLOB is raw bytes, TEXT is in the notation. One process reads a database
from its first to its last row: several would wait for each other's locks."""

import argparse
import contextlib
import os
import sqlite3
import stat
import time
from pathlib import Path
from typing import Any, ContextManager, List, Optional, Sequence, Tuple

from . import signs
from .found import Found, Gone, Refused, Unanswered
from .keks import Rings
from .keys import (
    KEY,
    Notation,
    Row,
    digest_of_none,
    next_batch,
    quoted,
    rewrapped_rows,
)
from .listing import FileListing, Listing, Names, Sightings, Unit
from .replacing import at_once

LOCK_SECONDS = 60.0
#: A new key, what identifies its row, and the old key.
Write = Tuple[Any, ...]
#: Texts of SQLite that are shown. Others may have anything in them.
_TEXTS = (
    "file is not a database",
    "no such table",
    "no such column",
    "database disk image is malformed",
    "database or disk is full",
    "unable to open database file",
    "attempt to write a readonly database",
)


class _Listing(FileListing):
    """Databases. Each knows by itself whether others wrote it: to the listing it stays the same."""

    def seen(self, status: os.stat_result) -> Tuple[str, int]:
        return _identity(status), 0

    def skips(self, path: bytes) -> bool:
        """Whether this is a file that SQLite keeps with a database, as its journal or its log."""
        base, _, kind = path.rpartition(b"-")
        if kind in (b"wal", b"shm", b"journal") and os.path.exists(base):
            with contextlib.suppress(OSError), open(path, "rb", opener=at_once) as file:
                return file.read(16) != b"SQLite format 3\0"
        return False


def _identity(status: os.stat_result) -> str:
    return f"{status.st_dev} {status.st_ino}"


def _mode(path: str, may_write: bool) -> str:
    """Whoever only reads neither plays a journal back nor empties a log. But if there is no log yet, SQLite makes one
    to read, and only who may write removes it."""
    with open(path, "rb") as file:
        has_no_log = file.read(20)[18:] == b"\2\2" and not os.path.exists(path + "-wal")
    return "rw" if may_write or has_no_log else "ro"


class _Table:
    """The table in one database, in the order of its rows, and the rows that it had when the pass began."""

    def __init__(
        self,
        database: sqlite3.Connection,
        table: str,
        column: str,
        kek_name: Optional[str],
    ) -> None:
        self.database = database
        self.title = table
        # SQLite takes an unknown quoted name for a string unless its table qualifies it.
        name = quoted(table)
        self.fragments = {
            "table": name,
            "set": quoted(column),
            "key": f"{name}.{quoted(column)}",
            "kek": "NULL" if kek_name is None else f"{name}.{quoted(kek_name)}",
            "octets": "length",
        }
        self._run("SELECT {key}, {kek} FROM {table} LIMIT 0")
        rows = self._row_columns()
        self.fragments["row"] = ", ".join(f"{name}.{row}" for row in rows)
        self.fragments["backwards"] = ", ".join(f"{name}.{row} DESC" for row in rows)
        self.fragments["places"] = ", ".join("?" * len(rows))
        # The ON CONFLICT of a table may delete another row. OR ABORT comes before it, but also before that of triggers.
        update = "UPDATE " if self._triggers() else "UPDATE OR ABORT "
        update += "{table} SET {set} = ? WHERE ({row}) IS ({places}) AND {key} = ?"
        self.update = update.format(**self.fragments)
        #: The place of the key in what identifies a row, if it is part of the primary key.
        self.key_place = None
        if quoted(column) in rows:
            self.key_place = rows.index(quoted(column))

    def begin(self) -> None:
        """Notes what there is at the begin of a pass."""
        # A reader of a log keeps nobody waiting: until it writes, it reads one moment.
        if self.database.execute("PRAGMA journal_mode").fetchone() == ("wal",):
            self.database.execute("BEGIN")
        self.version = self._version()
        self.count = self._count()
        last = self._run(
            "SELECT {row} FROM {table} ORDER BY {backwards} LIMIT 1"
        ).fetchone()
        #: The last row of a pass: rows that triggers, or others, add meanwhile are not read.
        self.end: Sequence[Any] = last or ()
        self.has_written = False

    def _run(self, statement: str, words: Sequence[Any] = ()) -> sqlite3.Cursor:
        return self.database.execute(statement.format(**self.fragments), words)

    def _count(self) -> int:
        (count,) = self._run("SELECT count(*) FROM {table}").fetchone()
        return int(count)

    def _version(self) -> Any:
        """Another connection that writes changes it."""
        return self.database.execute("PRAGMA data_version").fetchone()

    def _row_columns(self) -> List[str]:
        """The columns that identify a row."""
        columns = self.database.execute(
            "SELECT pk, name FROM pragma_table_xinfo(?)", (self.title,)
        ).fetchall()
        taken = {name.lower() for _, name in columns}
        for name in "rowid", "_rowid_", "oid":
            if name not in taken:
                with contextlib.suppress(
                    sqlite3.OperationalError
                ):  # WITHOUT ROWID, or a view.
                    self._run(f"SELECT {{table}}.{name} FROM {{table}} LIMIT 0")
                    return [name]
                break
        rows = [quoted(name) for place, name in sorted(columns) if place]
        if not rows:
            raise Refused("its rows have neither a rowid nor a primary key")
        return rows

    def rows_after(self, last: Sequence[Any]) -> List[Row]:
        """The next rows of the pass: the first ones after nothing."""
        wheres = []
        if last:
            wheres.append("({row}) > ({places})")
        if self.end:
            # A row with NULL in its primary key is neither before nor after another one.
            wheres.append("(({row}) > ({places})) IS NOT TRUE")
        where = " AND ".join(wheres) or "TRUE"
        statement = (
            "SELECT " + KEY + ", {row} FROM {table} WHERE " + where + " ORDER BY {row}"
        )
        with contextlib.closing(self._run(statement, (*last, *self.end))) as cursor:
            return next_batch(cursor, lambda row: row[1] or 0)

    def write(self, writes: List[Write], rows: List[Row], found: Found) -> None:
        """Writes new keys of these rows in one transaction. If the table does not take all of them as they are, they
        are written one by one, and those that it does not take are refused."""
        self.database.execute("BEGIN IMMEDIATE")
        count = None if self.has_written else self._count()
        written = len(writes)
        if not self._write_together(writes, rows):
            self.database.rollback()
            self.database.execute("BEGIN IMMEDIATE")
            written = self._write_each(writes, found)
        # Nobody else inserts rows in this transaction.
        if count is not None and 0 < written <= self._count() - count:
            self.database.rollback()
            raise Refused(
                f"a trigger inserts a row for each key that is written: {self._triggers()}"
            )
        self.database.commit()
        self.has_written = True
        found.unwritten -= written

    def _write_together(self, writes: List[Write], rows: List[Row]) -> bool:
        """Returns whether each row was written and has its new key now."""
        try:
            written = self.database.executemany(self.update, writes).rowcount
        except sqlite3.IntegrityError:
            return False
        if written < len(writes):
            return False
        first = rows[0][3:]
        last = rows[-1][3:]
        if self.key_place is not None or None in (*first, *last):
            return all(self._has_new_key(write) for write in writes)
        statement = "SELECT {set}, {row} FROM {table} WHERE ({row}) >= ({places}) AND ({row}) <= ({places})"
        stored = set(self._run(statement, (*first, *last)))
        # A new key is text or bytes, and equals no number.
        return stored.issuperset(write[:-1] for write in writes)

    def _write_each(self, writes: List[Write], found: Found) -> int:
        """Writes the rows that still have their old keys. Refuses those that the table does not take as they are.
        Returns how many it wrote."""
        written = 0
        for write in writes:
            why = ""
            self.database.execute("SAVEPOINT one_row")
            try:
                has_old_key = self.database.execute(self.update, write).rowcount == 1
                if has_old_key and self._has_new_key(write):
                    written += 1
                elif has_old_key:
                    why = "the table keeps another value"
            except sqlite3.IntegrityError as error:
                why = f"it cannot be written: {type(error).__name__}"
            if why:
                self.database.execute("ROLLBACK TO one_row")
                found.refuse_write("row " + ", ".join(map(str, write[1:-1])), why)
            self.database.execute("RELEASE one_row")
        return written

    def _has_new_key(self, write: Write) -> bool:
        new, *row, _ = write
        if self.key_place is not None:
            row[self.key_place] = new
        stored = self._run(
            "SELECT {set} FROM {table} WHERE ({row}) IS ({places})", row
        ).fetchone()
        return stored is not None and _is_same(stored[0], new)

    def _triggers(self) -> str:
        """The names of the triggers of the table."""
        statement = "SELECT name FROM sqlite_master WHERE type = 'trigger' AND tbl_name = ? COLLATE NOCASE"
        return ", ".join(
            name for (name,) in self.database.execute(statement, (self.title,))
        )

    def is_as_before(self) -> bool:
        """Whether no other connection has written since the begin of the pass."""
        return bool(self._version() == self.version)


def _is_same(stored: Any, new: Any) -> bool:
    """Whether a value was stored as it is. A column that is not TEXT, as STRING, makes a number of some texts."""
    return type(stored) is type(new) and bool(stored == new)


class Sqlite:
    noun = "databases"

    def __init__(
        self,
        table: str,
        column: str,
        notation: Notation,
        names: Names,
        kek_name: Optional[str],
        digest: Optional[str] = None,
    ) -> None:
        self.table = table
        self.column = column
        self.notation = notation
        self.names = names
        self.kek_name = kek_name
        self.digest = digest
        self._sightings: Optional[Sightings] = None

    def listed(self, may_write: bool) -> ContextManager[Listing]:
        self._sightings = self._sightings or Sightings()
        return contextlib.nullcontext(_Listing(self.names, may_write, self._sightings))

    def do(self, unit: Unit, rings: Rings, may_write: bool, found: Found) -> None:
        try:
            before = os.lstat(unit.name)
            if not stat.S_ISREG(before.st_mode) or before.st_nlink != 1:
                raise Refused("not a regular file with one name")
            uri = f"{Path(unit.name).as_uri()}?mode={_mode(unit.name, may_write)}"
            with contextlib.closing(
                sqlite3.connect(uri, LOCK_SECONDS, isolation_level=None, uri=True)
            ) as database:
                database.execute(f"PRAGMA query_only = {not may_write}")
                database.text_factory = lambda text: text.decode(
                    "utf-8", "surrogateescape"
                )
                table = _Table(database, self.table, self.column, self.kek_name)
                self._rotate(table, rings, may_write, unit.weight, found)
            found.read_identity = found.identity = _identity(before)
            found.moved += found.identity != _identity(os.lstat(unit.name))
        except FileNotFoundError:
            raise Gone from None
        except UnicodeEncodeError:
            raise Refused(f"a primary key is not UTF-8 (table {self.table})") from None
        except sqlite3.Error as error:
            if str(error).startswith("database is locked"):
                raise Unanswered("another program has locked the database") from None
            why = next(
                filter(str(error).startswith, _TEXTS),
                f"SQLite failed: {type(error).__name__}",
            )
            columns = ", ".join(filter(None, (self.column, self.kek_name)))
            raise Refused(f"{why} (table {self.table}, column {columns})") from None

    def _rotate(
        self,
        table: _Table,
        rings: Rings,
        may_write: bool,
        weight: int,
        found: Found,
    ) -> None:
        read = 0
        free = 0.0
        found.digest = self.digest
        last: Sequence[Any] = ()
        table.begin()
        while rows := table.rows_after(last):
            last = rows[-1][3:]
            read += len(rows)
            rewrapped = rewrapped_rows(rings, self.notation, rows, found)
            if rewrapped and may_write:
                found.unwritten += len(rewrapped)
                writes = [(new, *row[3:], row[0]) for new, row in rewrapped]
                table.database.commit()  # The moment that it read until now.
                time.sleep(max(0.0, free - time.monotonic()))
                began = time.monotonic()
                table.write(writes, rows, found)
                # Others have the lock for as long as we had it.
                free = 2 * time.monotonic() - began
            signs.beat(weight * len(rows) // max(table.count, len(rows)))
        if not table.is_as_before():
            found.moved += 1
        elif read != table.count and not table.has_written:
            raise Refused(
                f"{read} of its {table.count} rows can be read in their order"
            )


def open_store(options: argparse.Namespace, notation: Notation, names: Names) -> Sqlite:
    """Makes the store of SQLite databases."""
    digest = digest_of_none(options)
    return Sqlite(
        options.table, options.column, notation, names, options.kek_name, digest
    )
