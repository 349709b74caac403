"""The subcommands, arguments and exit statuses of the program. command/options.jsonl has what `keywrap options` prints;
a test compares them."""

import json
from pathlib import Path
from typing import NamedTuple, Optional

TOP = Path(__file__).resolve().parent.parent
TABLE = TOP / "command/options.jsonl"


class Option(NamedTuple):
    name: str
    about: str
    value: Optional[
        str
    ]  # "KEK file", "file", "initial value" or "key"; a flag has none
    short: Optional[str]  # a letter
    conflicts: list  # the names of the options that exclude it, or that it excludes
    commands: list
    needs: list  # the names of the options without which it is refused

    @property
    def words(self):
        short = [f"-{self.short}"] if self.short else []
        return [*short, f"--{self.name}"]

    @property
    def is_key(self):
        """Whether it is the argument without a name."""
        return self.value == "key"

    @property
    def is_file(self):
        return self.value in ("KEK file", "file")


def rows(kind):
    """The rows of a kind, which is the name of their first field."""
    lines = TABLE.read_text(encoding="utf-8").splitlines()
    return [row for row in map(json.loads, lines) if kind in row]


def options():
    """The options in the order of the help, and the argument without a name."""
    found = {}
    for row in rows("argument"):
        found[row["argument"]] = Option(
            name=row["argument"],
            about=row["about"],
            value=row["value"],
            short=row["short"],
            conflicts=row["conflicts"],
            commands=row["subcommands"],
            needs=row["needs"],
        )
    exclude_each_other(found)
    return [*found.values()]


def exclude_each_other(found):
    """Makes exclusion mutual."""
    for option in found.values():
        for other in list(option.conflicts):
            if option.name not in found[other].conflicts:
                found[other].conflicts.append(option.name)


#: The description of each command, by its name.
COMMANDS = {row["subcommand"]: row["about"] for row in rows("subcommand")}
#: The name of each exit status, by its number.
STATUSES = {row["status"]: row["name"] for row in rows("status")}
ARGUMENTS = options()
OPTIONS = [option for option in ARGUMENTS if not option.is_key]


def of(command):
    return [option for option in ARGUMENTS if command in option.commands]
