"""The kinds of stores. A kind is one module and one entry of `KINDS`; PROTOCOL.md says what its store owes."""

import argparse
import importlib
from typing import ContextManager, Dict, FrozenSet, NamedTuple, Optional, Protocol

from .found import Found
from .keks import Rings
from .keys import Notation
from .listing import Listing, Names, Unit


class Store(Protocol):
    """A store of keys, which a pass lists and then reads unit by unit."""

    #: The word for its units in the last line.
    noun: str

    def listed(self, may_write: bool) -> ContextManager[Listing]:
        """Lists the store anew. Raises `Refused` if it cannot."""

    def do(self, unit: Unit, rings: Rings, may_write: bool, found: Found) -> None:
        """Reads all keys of a unit, and writes new ones if it may and nobody else wrote there meanwhile.

        `found` gets what was read and written, and keeps it if an exception follows.
        """


class Kind(NamedTuple):
    """A kind of store."""

    #: Has the function open_store(options, notation, names), which returns a `Store`. Only a run with such a store
    #: imports it: all modules would double the time of the start.
    module: str
    #: The option that chooses this kind, the name of its value ("" if it has none), and its help. The kind without an
    #: option is chosen if no option is given.
    option: str
    metavar: str
    help: str
    #: The options of this kind that not every kind has.
    takes: FrozenSet[str]


_NAMES = frozenset({"--files-from", "--exclude", "--shard"})
_FILES = frozenset({"FILE", *_NAMES})

KINDS = (
    Kind("files", "", "", "", _FILES | {"--quiesced", "--raw"}),
    Kind(
        "files",
        "--one-key",
        "",
        "a file is one key, which may span lines",
        _FILES | {"--quiesced", "--raw"},
    ),
    Kind(
        "fields",
        "--csv",
        "C",
        "files are CSV with this column of keys",
        _FILES | {"--quiesced", "--kek-name", "--delimiter"},
    ),
    Kind(
        "fields",
        "--json",
        "M",
        "lines are JSON objects with this member",
        _FILES | {"--quiesced", "--kek-name"},
    ),
    Kind(
        "fields",
        "--json-pointer",
        "P",
        "lines are JSON with a key here, as /data/key",
        _FILES | {"--quiesced", "--kek-name"},
    ),
    Kind(
        "sqlite",
        "--table",
        "T",
        "files are SQLite databases with this table",
        _FILES | {"--raw", "--kek-name"},
    ),
    Kind(
        "postgresql",
        "--postgresql",
        "T",
        "table of the database of libpq's variables",
        frozenset({"--raw", "--kek-name"}),
    ),
    Kind(
        "mariadb",
        "--mariadb",
        "T",
        "table of a database of MariaDB or MySQL",
        frozenset({"--raw", "--kek-name", "--defaults-file"}),
    ),
    Kind(
        "objects",
        "--get",
        "COMMAND",
        "writes object {name} to {file}, prints its version",
        _NAMES | {"--raw", "--put"},
    ),
)


def add_options(group: "argparse._MutuallyExclusiveGroup") -> None:
    """Adds the options that choose a kind of store."""
    for kind in KINDS:
        if kind.metavar:
            group.add_argument(kind.option, metavar=kind.metavar, help=kind.help)
        elif kind.option:
            group.add_argument(kind.option, action="store_true", help=kind.help)


def kind_of(options: argparse.Namespace) -> Kind:
    """Returns the kind of store that the options choose."""
    for kind in KINDS:
        name = kind.option.lstrip("-").replace("-", "_")
        if name and getattr(options, name) not in (None, False):
            return kind
    return KINDS[0]


def misfit(options: argparse.Namespace) -> Optional[str]:
    """Returns why the options do not fit the kind of store, or `None`."""
    kind = kind_of(options)
    given: Dict[str, bool] = {
        "FILE": bool(options.files),
        "--files-from": options.files_from is not None,
        "--exclude": bool(options.exclude),
        "--shard": options.shard != (1, 1),
        "--quiesced": options.quiesced,
        "--raw": options.notation == "raw",
        "--kek-name": options.kek_name is not None,
        "--put": options.put is not None,
        "--delimiter": options.delimiter is not None,
        "--defaults-file": options.defaults_file is not None,
    }
    for name, is_given in given.items():
        if is_given and name not in kind.takes:
            return f"{name} does not go with {kind.option or 'files of lines'}"
    if kind.option == "--get" and not (given["--put"] and given["--files-from"]):
        return "--get, --put and --files-from go together"
    if "FILE" in kind.takes and not (given["FILE"] or given["--files-from"]):
        return "a FILE, or --files-from, is required"
    return None


def open_store(options: argparse.Namespace) -> Store:
    """Makes the store that the options describe."""
    prefixes = tuple(prefix.encode() for prefix in options.prefix)
    new_prefix = options.new_prefix.encode()
    notation = Notation(options.notation, prefixes, new_prefix, options.all)
    names = Names(options.files, options.exclude, options.files_from, options.shard)
    module = importlib.import_module(f".{kind_of(options).module}", __package__)
    store: Store = module.open_store(options, notation, names)
    return store
