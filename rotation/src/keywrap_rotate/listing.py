"""The units of a store, listed anew by each pass: in order, each once, in a database in a temporary file."""

import contextlib
import fnmatch
import itertools
import os
import random
import sqlite3
import stat
import time
import zlib
from typing import (
    Any,
    Callable,
    Dict,
    Iterator,
    List,
    NamedTuple,
    Optional,
    Sequence,
    Set,
    Tuple,
)

from .found import Found, Refused, found_by
from .replacing import at_once, base_of, identity, recover, sync_directory


#: How often a listing is made again to find files that the run has listed and never read.
LOOKS = 10


class Unit(NamedTuple):
    """A part of a store: its name, how large it is, and what stays the same if it is renamed."""

    name: str
    weight: int
    identity: str


class Names(NamedTuple):
    """The files of a run: named ones, all below a directory, all of a list, and a shard of these."""

    names: Sequence[str]
    exclude: Sequence[str] = ()
    list_of_files: Optional[str] = None
    shard: Tuple[int, int] = (1, 1)

    def has(self, name: bytes, found: Found) -> bool:
        """Whether the shard has this name, whatever else is in the store. Counts the names of other shards."""
        number, total = self.shard
        is_other = total > 1 and zlib.crc32(name) % total != number - 1
        found.others += is_other
        return not is_other

    def is_excluded(self, path: bytes) -> bool:
        both = path, os.path.basename(path)
        return any(
            fnmatch.fnmatchcase(os.fsdecode(text), glob)
            for glob in self.exclude
            for text in both
        )

    def listed(self, found: Found) -> Iterator[bytes]:
        """The lines of the list that the shard has. Each pass reads them again."""
        if self.list_of_files is None:
            return
        try:
            with open(self.list_of_files, "rb", opener=at_once) as file:
                if not stat.S_ISREG(os.fstat(file.fileno()).st_mode):
                    raise Refused(
                        f"--files-from: {self.list_of_files}: not a regular file: each pass reads it again"
                    )
                for name in (line.rstrip(b"\n") for line in file):
                    if name and not self.is_excluded(name) and self.has(name, found):
                        yield name
        except OSError as error:
            raise Refused(
                f"--files-from: {self.list_of_files}: {error.strerror}"
            ) from None


#: A unit, and the time of its last change, which a rename changes. A directory, and a named file that is not there,
#: have no size: they are no units.
ListedUnit = Tuple[bytes, Optional[int], Optional[str], int]


class Sightings:
    """Everything that a run has listed and read so far: a database in a temporary file, for the process that lists."""

    def __init__(self) -> None:
        self.database = sqlite3.connect("", isolation_level=None)
        self.database.create_function("file_of", 1, _file_of, deterministic=True)
        row = "(name BLOB PRIMARY KEY, size, identity, changed) WITHOUT ROWID"
        for table in (
            f"first {row}",  # the listing at the begin of the pass
            f"last {row}",  # the one at its end
            "done (identity PRIMARY KEY) WITHOUT ROWID",  # what the pass needs not do again
            "rest (name BLOB PRIMARY KEY, size, identity) WITHOUT ROWID",  # what it has to do at its end
            "read (file PRIMARY KEY) WITHOUT ROWID",  # what the run has read
            "unread (file PRIMARY KEY) WITHOUT ROWID",  # what it has listed, and not read
            "missed (file PRIMARY KEY) WITHOUT ROWID",  # what of it is looked for
        ):
            self.database.execute(f"CREATE TABLE {table}")
        self.database.execute("BEGIN")

    def __reduce__(self) -> Any:
        return Sightings, ()


def _file_of(identity: str) -> str:
    """Returns the device and the inode of a file, which stay when somebody writes it."""
    return " ".join(identity.split()[:2])


class Listing:
    """The units of a pass, and those at its end. `rows` yields them, and finds what cannot be listed."""

    def __init__(
        self,
        rows: Callable[[Found], Iterator[ListedUnit]],
        sightings: Optional[Sightings] = None,
    ) -> None:
        self._rows = rows
        self._database = (sightings or Sightings()).database
        self._database.execute("DELETE FROM done")
        self.found = self._list("first")
        self._at_end = Found()
        self.units, self.number, self.weight = self._units("first WHERE size NOTNULL")

    def _list(self, table: str) -> Found:
        found = Found()
        self._database.execute(f"DELETE FROM {table}")
        self._database.executemany(
            f"INSERT OR IGNORE INTO {table} VALUES (?, ?, ?, ?)", self._rows(found)
        )
        return found

    def _units(self, rows: str) -> Tuple[Iterator[Unit], int, int]:
        count, weight = self._database.execute(
            f"SELECT count(*), total(size) FROM {rows}"
        ).fetchone()
        each = self._database.execute(
            f"SELECT name, size, identity FROM {rows} ORDER BY name"
        )
        units = (
            Unit(os.fsdecode(name), size, identity) for name, size, identity in each
        )
        return units, count, weight

    def take(self, unit: Unit, found: Found) -> None:
        """Notes what was read, under whatever name, or was there and could not be read."""
        if found.identity is not None or not found.moved:
            self._database.execute(
                "INSERT OR IGNORE INTO done VALUES (?)",
                (found.identity or unit.identity,),
            )

    def rest(self) -> Tuple[Iterator[Unit], int]:
        """Lists again. Returns the units that are there now and that this pass did not read, and their number."""
        self._at_end = self._list("last")
        # A copy: what is done meanwhile would be missing in a query that is still at work.
        self._database.execute("DELETE FROM rest")
        self._database.execute(
            "INSERT INTO rest SELECT name, size, identity FROM last WHERE size NOTNULL AND identity NOT IN done"
        )
        return self._units("rest")[:2]

    def is_quiet(self, found: Found) -> bool:
        """Whether every key that there was at some moment of the pass was in its units, in which this was found: names,
        identities, and the times of files and directories are as they were."""
        columns = "SELECT name, identity, changed FROM"
        differs = any(
            self._database.execute(
                f"{columns} {one} EXCEPT {columns} {other} LIMIT 1"
            ).fetchone()
            for one, other in (("first", "last"), ("last", "first"))
        )
        return not (differs or self._at_end.moved or self._at_end.lost)

    def left_out(self) -> List[str]:
        """The names of units that the run has listed and never read, and that are still there."""
        return []

    def warnings(self) -> List[str]:
        """Returns the reasons why an old key may come back after this pass."""
        return []


class FileListing(Listing):
    """Files, and files that killed runs left in their directories. A store may skip some, and take others for one."""

    def __init__(
        self, names: Names, may_write: bool, sightings: Optional[Sightings] = None
    ) -> None:
        self.names = names
        self.may_write = may_write
        super().__init__(self.all, sightings)

    def _list(self, table: str) -> Found:
        """Notes each file that the run has not read. What others write into a file that was read is new."""
        found = super()._list(table)
        self._database.execute(
            f"INSERT OR IGNORE INTO unread SELECT file_of(identity) FROM {table} "
            "WHERE size NOTNULL AND identity NOTNULL AND file_of(identity) NOT IN read"
        )
        return found

    def take(self, unit: Unit, found: Found) -> None:
        super().take(unit, found)
        done = {found.read_identity, found.identity}
        if found.refused:
            done.add(unit.identity)
        for file in map(_file_of, filter(None, done)):
            self._database.execute("INSERT OR IGNORE INTO read VALUES (?)", (file,))
            self._database.execute("DELETE FROM unread WHERE file = ?", (file,))

    def left_out(self) -> List[str]:
        """Looks several times: a file that moves may be where a listing has been already. What none of them has was
        removed."""
        self._database.execute("DELETE FROM missed")
        self._database.execute("INSERT INTO missed SELECT file FROM unread")
        (count,) = self._database.execute("SELECT count(*) FROM missed").fetchone()
        for _ in range(LOOKS if count else 0):
            time.sleep(random.random() * 0.02)
            self._list("last")
            there = self._database.execute(
                "SELECT name FROM last WHERE size NOTNULL AND file_of(identity) IN missed"
            ).fetchall()
            if there:
                return [os.fsdecode(name) for (name,) in there]
        self._database.execute("DELETE FROM unread WHERE file IN missed")
        return []

    def skips(self, path: bytes) -> bool:
        return False

    def seen(self, status: os.stat_result) -> Tuple[str, int]:
        return identity(status), status.st_ctime_ns

    def all(self, found: Found) -> Iterator[ListedUnit]:
        self._left_over: Dict[bytes, List[bytes]] = {}
        roots = []
        for name in map(os.fsencode, self.names.names):
            root = _absolute(name)
            roots.append(os.path.realpath(root) if os.path.isdir(root) else root)
        directories = {root.rstrip(b"/") for root in roots if os.path.isdir(root)}
        for root in roots:
            outer = _length_of_outermost(root, directories)
            if os.path.isdir(root):
                yield from self._below(root, outer, found)
            elif not self.skips(root) and self.names.has(root[outer:], found):
                yield self._named(root, found)
        for name in self.names.listed(found):
            yield self._named(_absolute(name), found)

    def is_quiet(self, found: Found) -> bool:
        """Once nothing was written, syncs all directories: no file, and no journal of SQLite, comes back by a crash."""
        if self.may_write and not found.old:
            each = self._database.execute(
                "SELECT name FROM first WHERE size ISNULL AND identity NOTNULL"
            )
            for directory in itertools.chain(
                self._left_over, (name for (name,) in each)
            ):
                sync_directory(directory)
        return super().is_quiet(found)

    def _below(self, root: bytes, length: int, found: Found) -> Iterator[ListedUnit]:
        directories = [root]
        while directories:
            directory = directories.pop()
            try:
                yield directory + b"/", None, *self.seen(os.lstat(directory))
                with os.scandir(directory) as entries:
                    for entry in entries:
                        if base_of(entry.name) is not None:
                            self._recover(entry.path, found)
                        elif self.names.is_excluded(entry.path) or self.skips(
                            entry.path
                        ):
                            continue
                        elif entry.is_dir(follow_symlinks=False):
                            directories.append(entry.path)
                        elif self.names.has(entry.path[length:], found):
                            try:
                                status = entry.stat(follow_symlinks=False)
                                yield entry.path, status.st_size, *self.seen(status)
                            except FileNotFoundError:
                                found.moved += 1  # The other names of the directory are still read.
            except FileNotFoundError:
                found.moved += 1
            except OSError as error:
                found.refuse(os.fsdecode(directory), str(error.strerror))

    def _named(self, path: bytes, found: Found) -> ListedUnit:
        """A file that was named has to be there. Killed runs may have left other files in its directory."""
        directory, base = os.path.split(path)
        if directory not in self._left_over:
            self._left_over[directory] = []
            with contextlib.suppress(OSError):
                self._left_over[directory] = [
                    name for name in os.listdir(directory) if base_of(name) is not None
                ]
        for name in self._left_over[directory]:
            if base_of(name) == base:
                self._recover(os.path.join(directory, name), found)
        try:
            status = os.lstat(path)
        except OSError as error:
            found.refuse(os.fsdecode(path), str(error.strerror))
            return path, None, None, 0
        return path, status.st_size, *self.seen(status)

    def _recover(self, path: bytes, found: Found) -> None:
        done = found_by(lambda _: recover(path, self.may_write))
        found.add(done)
        found.moved += (
            1  # A file may have come back to its name, which may be listed already.
        )
        found.named += [(os.fsdecode(path), why) for _, why in done.named]


def _length_of_outermost(path: bytes, directories: Set[bytes]) -> int:
    """Returns the length of the outermost of these directories that has the path, or of the path's own, with the slash
    after it. It decides on the shard, so that a file that is named twice is in one shard.
    """
    for end in range(len(path) + 1):
        is_end = path[end : end + 1] in (b"/", b"")
        if is_end and path[:end] in directories:
            return end + 1
    return path.rfind(b"/") + 1


def _absolute(name: bytes) -> bytes:
    """One file has one path, whatever it is called: only its last part may be a link."""
    directory, base = os.path.split(os.path.normpath(os.path.join(os.getcwdb(), name)))
    return os.path.join(os.path.realpath(directory), base)
