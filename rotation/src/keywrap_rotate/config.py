"""--config: a file in TOML that names several stores, which one run rotates. It becomes words of the command line,
which are read as others are: so every rule for options holds for the file, too."""

import argparse
import importlib
import os
from typing import AbstractSet, Any, Dict, List, Mapping, Sequence, Tuple

from .found import Failure
from .pkcs11_uri import is_uri
from .stores import KINDS

#: The keys of a store, without those that choose its kind. All other keys concern the run.
OF_STORES = frozenset(
    {
        "all",
        "base64",
        "base64url",
        "column",
        "defaults-file",
        "delimiter",
        "exclude",
        "files",
        "files-from",
        "kek-name",
        "new-prefix",
        "prefix",
        "put",
        "quiesced",
        "raw",
        *(kind.option.lstrip("-") for kind in KINDS if kind.option),
    }
)
#: Options without a key: those that need no store, and those that concern one store.
_WITHOUT_KEY = frozenset(
    {"config", "help", "make-challenges", "shard", "verify-record", "version"}
)
#: The keys with paths. A relative path begins at the directory of the file.
_PATHS = frozenset(
    {
        "defaults-file",
        "files",
        "files-from",
        "kek",
        "keks",
        "new-challenge",
        "new-kek",
        "new-keks",
        "report",
    }
)
_NUMBERS = frozenset({"jobs", "rate", "timeout"})
_MOST_BYTES = 1 << 20


def key_of(action: argparse.Action) -> str:
    """Returns the key of an option: its first name without dashes, or `files`."""
    if action.option_strings:
        return action.option_strings[0].lstrip("-")
    return action.dest


class Config:
    """The words of a file: those of the run, and for each store its name, its words, and its files."""

    def __init__(self, path: str, actions: Sequence[argparse.Action]) -> None:
        self.path = path
        self._directory = os.path.dirname(os.path.abspath(path))
        self._actions = {key_of(action): action for action in actions}
        content = dict(_read(path))
        stores = content.pop("store", None)
        if not isinstance(stores, list) or not stores:
            raise self._wrong("it has no [[store]]")
        of_run = self._actions.keys() - OF_STORES - _WITHOUT_KEY
        #: The words of each key of the run.
        self.run = self._words(content, of_run, "")
        self.stores = [
            self._store(store, f"store {number}")
            for number, store in enumerate(stores, 1)
        ]
        names = {name for name, _, _ in self.stores}
        if "" in names or len(names) < len(self.stores):
            raise self._wrong("a store has no name, or that of another one")

    def _wrong(self, why: str) -> Failure:
        return Failure(f"--config: {self.path}: {why}")

    def _store(self, store: Any, name: str) -> Tuple[str, List[str], List[str]]:
        if not isinstance(store, dict):
            raise self._wrong("store is not [[store]]")
        store = dict(store)
        name = self._text("name", store.pop("name", name), f"{name}: ")
        words = self._words(store, OF_STORES & self._actions.keys(), f"{name}: ")
        files = words.pop("files", [])
        return name, [word for each in words.values() for word in each], files

    def _words(
        self, table: Mapping[str, Any], known: AbstractSet[str], place: str
    ) -> Dict[str, List[str]]:
        words = {}
        for key, value in table.items():
            if key not in known:
                raise self._wrong(f"{place}unknown key {key!r}")
            words[key] = self._words_of(key, value, place)
        return words

    def _words_of(self, key: str, value: Any, place: str) -> List[str]:
        """Returns the words of one option."""
        action = self._actions[key]
        if action.nargs == 0:
            if not isinstance(value, bool):
                raise self._wrong(f"{place}{key} is neither true nor false")
            return [f"--{key}"] if value else []
        values = [value]
        if isinstance(value, list) and (key == "files" or _takes_several(action)):
            values = value
        texts = [self._text(key, each, place) for each in values]
        if key == "files":
            return texts
        return [f"--{key}={text}" for text in texts]

    def _text(self, key: str, value: Any, place: str) -> str:
        is_number = isinstance(value, int) and not isinstance(value, bool)
        if is_number and key in _NUMBERS:
            return str(value)
        if not isinstance(value, str):
            raise self._wrong(f"{place}{key} has a value of another type")
        if key in _PATHS and not is_uri(value):
            return os.path.join(self._directory, value)
        return value


def _takes_several(action: argparse.Action) -> bool:
    """Whether the option may be given several times."""
    return isinstance(action.default, list) or action.dest == "kek"


def _read(path: str) -> Mapping[str, Any]:
    """Reads the file. Python has a reader of TOML from 3.11 on."""
    try:
        tomllib: Any = importlib.import_module("tomllib")
    except ImportError:
        raise Failure(
            "--config needs Python 3.11 or newer, which has tomllib"
        ) from None
    try:
        with open(path, "rb") as file:
            content = file.read(_MOST_BYTES + 1)
    except OSError as error:
        raise Failure(f"--config: {path}: {error.strerror}") from None
    if len(content) > _MOST_BYTES:
        raise Failure(f"--config: {path}: too long")
    try:
        table: Mapping[str, Any] = tomllib.loads(content.decode("utf-8"))
    except UnicodeDecodeError:
        raise Failure(f"--config: {path}: not UTF-8") from None
    except tomllib.TOMLDecodeError as error:
        raise Failure(f"--config: {path}: not TOML: {error}") from None
    except (ValueError, RecursionError):
        raise Failure(
            f"--config: {path}: a number is too long, or it is nested too deeply"
        ) from None
    return table
