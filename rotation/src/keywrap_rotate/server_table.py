"""The column of a table that a server has: the common part of the stores of PostgreSQL and MariaDB."""

from typing import List, Optional, Set

from .keys import Notation


class NotKept(Exception):
    """After a write the table had another value than the new key."""


class ServerTable:
    def __init__(
        self,
        table: str,
        column: str,
        notation: Notation,
        kek_name: Optional[str],
        digest: Optional[str] = None,
        timeout: float = 600.0,
    ) -> None:
        self.table = table
        self.column = column
        self.notation = notation
        self.kek_name = kek_name
        self.digest = digest
        self.timeout = timeout
        #: The transactions that were open at the first listing of the run, and still are. `None` before.
        self.older: Optional[Set[str]] = None

    def note_open_transactions(self, names: Set[str]) -> None:
        """Keeps those that were open from the first listing of the run until now."""
        if self.older is None:
            self.older = names
        else:
            self.older &= names

    def warnings_of_open_transactions(self) -> List[str]:
        """Returns a warning if transactions that were open before the run still are."""
        if not self.older:
            return []
        return [
            f"{len(self.older)} transactions are older than this run and still open: they may write old keys. "
            "Wait for their end, then --verify"
        ]
