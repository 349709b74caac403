"""The arguments of keywrap-rotate, and the KEKs that they describe."""

import argparse
import itertools
import os
import sys
from typing import Any, Dict, List, NoReturn, Optional, Sequence, Tuple

import keywrap

from .config import OF_STORES, Config, key_of
from .console import shown
from .found import Failure, WrongKeks
from .keks import Keks, table_of
from .pkcs11_uri import is_uri, parsed
from .stores import add_options, misfit

DESCRIPTION = """Rewraps the keys of a store from the KEK to the new KEK. By default a FILE has one key on each line, in
hex; a directory means all files below it. The page ROTATION.md has examples."""
EPILOG = """Status: 0 a whole pass, which began after the last change, listed the store anew, found a key, and read
every key under the new KEK (an empty shard is 0, too); 2 arguments; 3 a machine lacks the KEKs; 4 the report cannot be
written; 5 keys or files were refused, or there is no key; 6 not finished: run it again; 130 interrupted. A file that
other programs rename during each listing can be missed: stop renames, then --verify."""
#: The options of 1.1 that are gone, and what to do instead.
GONE = {
    "--id": "leave it out: rows are found without a column that orders them",
    "--resume": "leave it out: a second run reads the store again; --report has a report",
    "--merge": "--verify over the whole store says what merged reports cannot",
    "--parts": "leave it out, and --shard for one large file: one run rotates it",
    "--progress-file": "--report has a line for each unit, as soon as it is done",
    "--max-lag": "--rate limits the keys a second; or interrupt the run, and begin it again",
    "--all-or-nothing": "--dry-run first: its status is 5 if a key would be refused",
    "--kek-command": "--kek <(COMMAND)",
    "--new-kek-command": "--new-kek <(COMMAND)",
    "--objects": "--files-from MANIFEST with --get and --put",
    "--prefix-format": "--prefix with each text before old keys, as 'vault:v3:'",
    "--new-version": "--new-prefix with the text before new keys, as 'vault:v4:'",
}


def _processors() -> int:
    """How many processors this process may use, or the system has if it does not tell."""
    if hasattr(os, "sched_getaffinity"):
        return len(os.sched_getaffinity(0))
    return os.cpu_count() or 1


def _positive(text: str) -> int:
    if not text.isdecimal() or int(text) < 1:
        raise argparse.ArgumentTypeError("must be a positive integer")
    return int(text)


def _delimiter(text: str) -> str:
    if text == "tab":
        return "\t"
    if len(text) != 1 or text in '\r\n"':
        raise argparse.ArgumentTypeError("not one character, and not tab")
    return text


def _shard(text: str) -> Tuple[int, int]:
    number, _, count = text.partition("/")
    if not (
        number.isdecimal() and count.isdecimal() and 1 <= int(number) <= int(count)
    ):
        raise argparse.ArgumentTypeError("not I/N, with I from 1 to N")
    return int(number), int(count)


class _Parser(argparse.ArgumentParser):
    """A parser whose errors begin with a place: a store of a file."""

    place = ""

    def error(self, message: str) -> NoReturn:
        super().error(shown(self.place + message))


def _parser() -> _Parser:
    parser = _Parser(
        "keywrap-rotate",
        usage="%(prog)s [OPTION].. [FILE]..",
        description=DESCRIPTION,
        epilog=EPILOG,
        add_help=False,
        allow_abbrev=False,
        formatter_class=lambda prog: argparse.HelpFormatter(prog, max_help_position=23),
    )
    add = parser.add_argument
    add(
        "--kek",
        metavar="F",
        action="append",
        help="a KEK: hex file or pkcs11: URI (default: $KEYWRAP_KEK)",
    )
    add("--new-kek", metavar="F", help="its successor (default: $KEYWRAP_NEW_KEK)")
    add("--raw-kek", action="store_true", help="KEK files are raw bytes")
    add("--keks", metavar="F", help="table of KEKs: each line is NAME=FILE")
    add("--new-keks", metavar="F", help="table of new KEKs, with the same names")
    add("--kek-name", metavar="C", help="column or member with the name of a key's KEK")
    add(
        "--new-challenge",
        metavar="F",
        help="key under the new KEK: refuses swapped KEKs",
    )
    add(
        "--make-challenges",
        action="store_true",
        help="only write one beside each KEK file",
    )
    notation = parser.add_mutually_exclusive_group()
    for name, what in (
        ("base64", ""),
        ("base64url", ", unpadded"),
        ("raw", ": a file is one key"),
    ):
        notation.add_argument(
            f"--{name}",
            dest="notation",
            action="store_const",
            const=name,
            default="hex",
            help=f"keys are {name}{what}",
        )
    add(
        "--prefix",
        metavar="P",
        action="append",
        default=[],
        help="text before old keys, as vault:v3:",
    )
    add("--new-prefix", metavar="P", default="", help="text before new keys")
    add_options(parser.add_mutually_exclusive_group())
    add(
        "--column",
        metavar="C",
        default="key",
        help="column of a table's keys (default: key)",
    )
    add(
        "--defaults-file",
        metavar="F",
        help="option file of MariaDB's clients (default: ~/.my.cnf)",
    )
    add(
        "--put",
        metavar="COMMAND",
        help="puts {file} as {name} if it still is {version}",
    )
    add(
        "--delimiter",
        metavar="C",
        type=_delimiter,
        help="between the fields of CSV: one character, or tab",
    )
    add("--all", action="store_true", help="refuse records without a key")
    add("--files-from", metavar="F", help="take the names that are the lines of F")
    add(
        "--exclude",
        metavar="GLOB",
        action="append",
        default=[],
        help="leave out files of this name or path",
    )
    add(
        "--shard",
        metavar="I/N",
        type=_shard,
        default=(1, 1),
        help="take part I of N of the names",
    )
    add("--quiesced", action="store_true", help="nobody writes: do not exchange names")
    mode = parser.add_mutually_exclusive_group()
    mode.add_argument(
        "--dry-run", action="store_true", help="the same pass, and nothing is written"
    )
    mode.add_argument(
        "--verify", action="store_true", help="the same pass, without the KEK"
    )
    add(
        "--report",
        "--record",
        metavar="F",
        help="new file with a line of JSON for each unit",
    )
    add(
        "--summary-json",
        action="store_true",
        help="print the counts of the last line as JSON",
    )
    add(
        "--verify-record",
        metavar="F",
        help="with --verify: name what differs from a report",
    )
    add(
        "--jobs",
        metavar="N",
        type=_positive,
        default=min(4, _processors()),
        help="processes (default: one for each processor, at most 4)",
    )
    add(
        "--dask",
        metavar="ADDRESS",
        help="scheduler of the Dask workers that do the units",
    )
    add(
        "--rate",
        metavar="N",
        type=_positive,
        help="limit to N keys per second",
    )
    add(
        "--timeout",
        metavar="S",
        type=_positive,
        default=600,
        help="give up a process without a sign of life",
    )
    add(
        "--version",
        action="version",
        version=f"keywrap-rotate {keywrap.__version__}",
        help="print the version",
    )
    add("--help", action="help", help="print this help")
    add(
        "--config",
        metavar="F.toml",
        help="options, and several stores, in TOML",
    )
    add("files", metavar="FILE", nargs="*", help="a file, a directory or a database")
    return parser


def _reason(options: argparse.Namespace) -> Optional[str]:
    """Why these options do not go together."""
    if options.verify_record and not options.verify:
        return "--verify-record goes with --verify"
    why = _reason_of_keks(options) or _reason_of_texts(options)
    if why is None and not options.make_challenges:
        why = misfit(options)
    return why


def _reason_of_keks(options: argparse.Namespace) -> Optional[str]:
    """Why the options of KEKs do not go together."""
    has_old_table = options.keks is not None
    has_new_table = options.new_keks is not None
    has_names = options.kek_name is not None
    if has_names != (has_old_table or has_new_table):
        return "--kek-name and --keks, or --new-keks, go together"
    has_old_both = has_old_table and options.kek is not None
    has_new_both = has_new_table and options.new_kek is not None
    if has_old_both or has_new_both:
        return "--keks goes without --kek, and --new-keks without --new-kek"
    return None


def _reason_of_texts(options: argparse.Namespace) -> Optional[str]:
    """Why the options that say how keys are written do not go together."""
    if options.json_pointer is not None and not options.json_pointer.startswith("/"):
        return "a JSON pointer begins with /"
    if options.notation == "raw" and options.prefix:
        return "--raw does not go with --prefix"
    if bool(options.prefix) != bool(options.new_prefix):
        return "--prefix and --new-prefix go together"
    prefixes = [*options.prefix, options.new_prefix]
    for prefix in prefixes:
        if not prefix.isprintable() or prefix != prefix.strip():
            return "a prefix has neither blanks at its ends nor control characters"
    for one, other in itertools.permutations(prefixes, 2):
        if one.startswith(other):
            return "one prefix begins with another one"
    return None


def parse(words: Optional[Sequence[str]]) -> argparse.Namespace:
    """Reads the arguments. `stores` of the result has the options of each store, each with its `name`."""
    words = sys.argv[1:] if words is None else list(words)
    parser = _parser()
    for word in itertools.takewhile(lambda word: word != "--", words):
        name = word.partition("=")[0]
        if name in GONE:
            parser.error(f"{name} is gone: {GONE[name]}")
    options = parser.parse_args(words)
    if options.config is not None:
        return _with_stores(parser, options, words)
    if wrong := _reason(options):
        parser.error(wrong)
    options.name = ""
    options.stores = [options]
    return options


def _with_stores(
    parser: _Parser, options: argparse.Namespace, words: List[str]
) -> argparse.Namespace:
    """Returns the options of a run over the stores of a file. What the command line has too goes before the file."""
    try:
        config = Config(options.config, parser._actions)
    except Failure as failure:
        parser.error(str(failure))
    if wrong := _misfit_of_config(parser, words):
        parser.error(f"{wrong} does not go with --config: it goes into the file")
    if options.kek is not None:
        config.run.pop("kek", None)
    of_run = [word for each in config.run.values() for word in each]
    given = [word for word in words if word != "--"]
    stores = []
    for name, of_store, files in config.stores:
        parser.place = f"--config: {config.path}: {name}: "
        store = parser.parse_args([*of_run, *of_store, *given, "--", *files])
        if wrong := _reason(store):
            parser.error(wrong)
        store.name = name
        stores.append(store)
    run = argparse.Namespace(**vars(stores[0]))
    run.stores = stores
    return run


def _misfit_of_config(parser: _Parser, words: List[str]) -> Optional[str]:
    """Returns an option of the command line that a file has for each store, or that concerns one store: also if its
    value is the default one."""
    unset = dict.fromkeys((action.dest for action in parser._actions), None)
    given = parser.parse_args(words, argparse.Namespace(**unset))
    for action in parser._actions:
        key = key_of(action)
        if key not in OF_STORES and key not in ("shard", "verify-record"):
            continue
        value = getattr(given, action.dest)
        is_other_constant = action.const is not None and value != action.const
        if value not in (None, []) and not is_other_constant:
            return "FILE" if key == "files" else f"--{key}"
    return None


def _place_of_kek(text: str) -> str:
    """Returns the absolute path of a file, or a PKCS#11 URI that was read once."""
    if is_uri(text):
        return parsed(text).text
    return os.path.abspath(text)


def keks_of(options: argparse.Namespace) -> Keks:
    """Finds the files of the KEKs. To verify, the old ones are not needed."""
    for text in filter(is_uri, [*(options.kek or []), options.new_kek or ""]):
        # The report has the options. So a PIN is refused in a KEK that is not used, too.
        parsed(text)
    old = options.kek
    if not old and "KEYWRAP_KEK" in os.environ:
        old = [os.environ["KEYWRAP_KEK"]]
    new = options.new_kek or os.environ.get("KEYWRAP_NEW_KEK", "")
    table: Dict[str, str] = {}
    if options.keks is not None:
        table = table_of(options.keks, "--keks")
    new_table: Dict[str, str] = {}
    if options.new_keks is not None:
        new_table = table_of(options.new_keks, "--new-keks")
    if options.verify:
        old = []
        table = {}
    if not (new or new_table) or not (old or table or options.verify):
        raise WrongKeks(
            "give --kek and --new-kek, or set KEYWRAP_KEK and KEYWRAP_NEW_KEK"
        )
    if table and new_table and table.keys() != new_table.keys():
        raise WrongKeks(
            f"--keks and --new-keks: only one of them has {min(table.keys() ^ new_table.keys())!r}"
        )
    names: Sequence[Any] = sorted(table or new_table) or [None]
    files: Dict[Optional[str], Tuple[Tuple[str, ...], str]] = {}
    for name in names:
        its_old = [table[name]] if name in table else old or []
        its_new = new_table.get(name, new)
        files[name] = (tuple(map(_place_of_kek, its_old)), _place_of_kek(its_new))
    return Keks(files, options.raw_kek)
