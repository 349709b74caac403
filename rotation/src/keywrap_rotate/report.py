"""The report of a run: a line for each unit, with which a later run compares the store."""

import datetime
import json
import os
import sqlite3
import stat
from typing import Any, Iterator, Optional

from .console import Console
from .found import REPORT, Failure
from .replacing import at_once


class ReportFailed(Failure):
    """The report cannot be written."""

    status = REPORT


class Report:
    """Lines of JSON in a new file, which no run reads for its own status; and the console."""

    def __init__(self, name: Optional[str]) -> None:
        self.file: Any = None
        self.console = Console()
        if name is not None:
            try:
                self.file = open(
                    os.open(name, os.O_WRONLY | os.O_CREAT | os.O_EXCL, 0o600),
                    "w",
                    encoding="utf-8",
                )
            except OSError as error:
                raise Failure(f"--report: {name}: {error.strerror}") from None

    def line(self, **content: Any) -> None:
        if self.file is not None:
            now = datetime.datetime.now(datetime.timezone.utc).isoformat(
                timespec="milliseconds"
            )
            try:
                print(json.dumps({"time": now, **content}), file=self.file, flush=True)
                if "status" in content:
                    os.fsync(self.file.fileno())
            except OSError as error:
                raise ReportFailed(f"the report: {error.strerror}") from None


class Comparison:
    """Compares the units of this run's last pass with those of an earlier run's report: their keys and digests."""

    def __init__(self, name: str) -> None:
        self._database = sqlite3.connect("", isolation_level=None)
        for table in ("now", "before"):
            self._database.execute(
                f"CREATE TABLE {table} (unit PRIMARY KEY, keys, digest) WITHOUT ROWID"
            )
        self._database.execute("BEGIN")
        number = 0
        line = None
        try:
            with open(name, encoding="utf-8", opener=at_once) as file:
                if not stat.S_ISREG(os.fstat(file.fileno()).st_mode):
                    raise ValueError
                for line in map(json.loads, file):
                    if "stores" in line:
                        raise ValueError  # Numbers of passes begin anew with each store.
                    if line.get("number", number) != number:
                        number = line["number"]
                        self.begin("before")
                    if line.get("digest") is not None:
                        self.add(line["unit"], line["keys"], line["digest"], "before")
            if (
                line is None or line["status"] != 0 or not line["passes"]
            ):  # Version 1.1 wrote no passes.
                raise ValueError
        except OSError as error:
            raise Failure(f"--verify-record: {name}: {error.strerror}") from None
        except (
            ValueError,
            KeyError,
            TypeError,
            AttributeError,
            RecursionError,
            sqlite3.Error,
        ):
            raise Failure(
                f"--verify-record: {name}: it is not a whole report of status 0, or is of 1.1 or of several stores"
            ) from None

    def begin(self, table: str = "now") -> None:
        self._database.execute(f"DELETE FROM {table}")

    def add(self, unit: str, keys: int, digest: str, table: str = "now") -> None:
        """Adds a unit. The ranges of a table are one: their digests are numbers, which are added up."""
        name, is_range, _ = unit.partition(": blocks from ")
        name = json.dumps(name)
        old = self._database.execute(
            f"SELECT keys, digest FROM {table} WHERE unit = ?", (name,)
        ).fetchone()
        if old and is_range:
            keys = keys + old[0]
            digest = f"{(int(old[1], 16) + int(digest, 16)) % (1 << 256):064x}"
        self._database.execute(
            f"INSERT OR REPLACE INTO {table} VALUES (?, ?, ?)", (name, keys, digest)
        )

    def differences(self) -> Iterator[str]:
        for one, other, word in (
            ("before", "now", "missing or changed"),
            ("now", "before", "added or changed"),
        ):
            for unit, keys, _ in self._database.execute(
                f"SELECT * FROM {one} EXCEPT SELECT * FROM {other}"
            ):
                yield f"{json.loads(unit)}: {word} since the record: {keys} keys"
