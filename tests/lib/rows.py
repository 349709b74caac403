"""The rows of rows.txt, which says how it is written, and the rows that follow from them: an unwrap of what a wrap
makes, the rewrap of version 1.0, the same with kept KEKs, and calls for many keys.

usage: python3 tests/lib/rows.py check    prints each row of rows.txt that is wrong, and the right one"""

import hashlib
import pathlib
import re
import sys
from typing import NamedTuple

import rules
from rules import NEW_PADDED, OLD_PADDED, Status

FILE = pathlib.Path(__file__).resolve().parent.parent / "rows.txt"
# Keys that are longer take seconds in some faces, and are only in rows for one key.
LONG = 1 << 16

BYTES = ("kek", "new", "iv", "given", "out")
# The arguments of a call, in the order of a line. Everything else is due.
ARGUMENTS = (
    "kek",
    "new",
    "iv",
    "flags",
    "given",
    "room",
    "size",
    "key_len",
    "count",
    "lens_count",
    "forms_count",
)


class Row(NamedTuple):
    """A call of keywrap.h without keywrap_, its arguments, and what is due (see rules.py). In a call for many keys
    `given` and `out` are lists."""

    name: str
    call: str
    arguments: dict
    due: dict

    @property
    def group(self):
        return self.name.partition("/")[0]

    @property
    def is_many(self):
        return self.call.endswith("_many")

    @property
    def is_done(self):
        return self.due["status"] == Status.OK

    def named(self, what):
        """The name of a row that follows from this one."""
        return f"{self.name}, {what}"


# Reading rows.txt


def content_of(text, names):
    """The bytes of a value: hex digits, $NAME, zeros(N), filled(XX,N), or some of these with + between them."""
    return b"".join(part_of(part, names) for part in text.split("+"))


def part_of(text, names):
    if text.startswith("$"):
        return names[text[1:]]
    repeated = re.fullmatch(r"filled\((..),(\d+)\)", text)
    if repeated:
        byte, length = repeated.groups()
        return bytes.fromhex(byte) * int(length)
    zeros = re.fullmatch(r"zeros\((\d+)\)", text)
    if zeros:
        return bytes(int(zeros[1]))
    return bytes.fromhex(text)


def value_of(name, text, is_many, names):
    """The value of an argument, or of something that is due."""
    if name not in BYTES:
        return int(text)
    if name == "out" and text.startswith("sha256("):
        return text
    if is_many and name == "given":
        return [content_of(item, names) for item in text.split(",")]
    return content_of(text, names)


def row_of(words, names):
    """The row of a line."""
    name, call, status, *pairs = words
    is_many = call.endswith("_many")
    arguments = {"given": [] if is_many else b""}
    due = {"status": Status[status]}
    for pair in pairs:
        key, _, text = pair.partition("=")
        fields = arguments if key in ARGUMENTS else due
        fields[key] = value_of(key, text, is_many, names)
    if isinstance(due.get("out"), str):
        due["out"] = content_with_digest(due["out"], call, arguments)
    return Row(name, call, arguments, due)


def content_with_digest(digest, call, arguments):
    """Computes an output that is too long for rows.txt. All stops if it has not the digest that stands there."""
    content = rules.due(call, arguments)["out"]
    assert shown_digest(content) == digest, (call, digest)
    return content


def shown_digest(content):
    return f"sha256({hashlib.sha256(content).hexdigest()})"


def read():
    """The rows of rows.txt."""
    names = {}
    rows = []
    for line in FILE.read_text().splitlines():
        words = line.split()
        if not words or line.startswith("#"):
            continue
        if words[1] == "=":
            names[words[0]] = content_of(words[2], names)
        else:
            rows.append(row_of(words, names))
    return rows


# Rows that follow from a row


def with_implied_rows():
    """The rows of rows.txt, and those that follow from them."""
    rows = []
    for row in read():
        rows.append(row)
        rows += implied(row)
    return [*rows, *in_slots(rows)]


def implied(row):
    """The rows for one key that follow from one."""
    if row.call == "rewrap":
        yield as_call("rewrap_in_place", row, row.arguments, "by version 1.0")
    if row.call in ("wrap", "wrap_padded", "wrap_with") and row.is_done:
        arguments = {**row.arguments, "given": row.due["out"]}
        yield as_call(f"un{row.call}", row, arguments, "unwrapped")
        if row.call != "wrap_with":
            yield as_call("unwrap_any", row, arguments, "unwrapped in either form")
            yield as_call("kind", row, arguments, "its form")


def as_call(call, row, arguments, what):
    return Row(row.named(what), call, arguments, rules.due(call, arguments))


def with_kept_keks():
    """The rows, and those of short keys once more with kept KEKs: each that there is, and all."""
    for row in with_implied_rows():
        yield row
        if row.call == "kek_init" or len(row.arguments["given"]) >= LONG:
            continue
        for names in kek_choices(row.arguments):
            keks = {name: rules.kept_kek(row.arguments[name]) for name in names}
            name = row.named(f"with a kept {' and '.join(names)}")
            yield row._replace(name=name, arguments={**row.arguments, **keks})


def kek_choices(arguments):
    """The names of the KEKs of a call that can be kept: each alone, and all."""
    names = [
        name
        for name in ("kek", "new")
        if name in arguments and rules.is_raw_kek(arguments[name])
    ]
    choices = [[name] for name in names]
    if len(names) == 2:
        choices.append(names)
    return choices


# The calls for many keys in the place of those for one, and their flags. A rewrap keeps its own, `kind_many` has none.
MANY = {
    "wrap": ("wrap_many", {"flags": 0}),
    "wrap_padded": ("wrap_many", {"flags": NEW_PADDED}),
    "unwrap": ("unwrap_many", {"flags": 0}),
    "unwrap_padded": ("unwrap_many", {"flags": OLD_PADDED}),
    "kind": ("kind_many", {}),
    "rewrap": ("rewrap_many", {}),
}
# The longest batch of a call for many keys, and one more.
SLOTS = 49


def in_slots(rows):
    """Rows for many keys: what is given to one call for one key with the same KEKs, flags and length are the slots of a
    call, as they are and, if it is done, 49 of them. Each ends as alone, or the call refuses all.
    """
    for group in same_shape(rows):
        row = group[0]
        call, flags = MANY[row.call]
        arguments = {**flags, **row.arguments}
        slots = list({one.arguments["given"]: one.due for one in group}.items())
        name = row.named(f"in {len(slots)} slots")
        made = many(name, call, arguments, slots)
        yield made
        if made.is_done and len(slots) < SLOTS:
            name = row.named(f"in {SLOTS} slots")
            yield many(name, call, arguments, (slots * SLOTS)[:SLOTS])


def same_shape(rows):
    """The rows that can be slots of one call, as lists."""
    groups = {}
    for row in rows:
        if row.call not in MANY or "room" in row.arguments:
            continue
        length = len(row.arguments["given"])
        if row.is_done and length >= LONG:
            continue
        call, flags = MANY[row.call]
        arguments = {**flags, **row.arguments}
        keks = arguments["kek"], arguments.get("new")
        shape = (call, *keks, arguments.get("flags"), length)
        groups.setdefault(shape, []).append(row)
    return groups.values()


def many(name, call, arguments, slots):
    due = rules.due_of_slots(call, arguments.get("flags"), slots)
    given = [content for content, _ in slots]
    return Row(name, call, {**arguments, "given": given}, due)


# Rows with one argument changed, which rows.txt does not have


def more():
    """The rows for one key under a KEK with each change of an argument, and these as slots."""
    changed = {}
    for row in with_implied_rows():
        if not is_changed(row):
            continue
        for change in changes(row):
            arguments = {**row.arguments, **change}
            key = shown_call(row.call, arguments)
            changed[key] = Row(
                row.named(f"with {shown_pairs(change)}"), row.call, arguments, {}
            )
    rows = [
        row._replace(due=rules.due(row.call, row.arguments)) for row in changed.values()
    ]
    return [*rows, *in_slots(rows)]


def is_changed(row):
    is_of_one_key = not row.call.endswith(("_many", "_in_place"))
    return (
        (is_of_one_key or row.call == "rewrap_in_place")
        and row.due["status"] != Status.BAD_KEK
        and len(row.arguments["given"]) < 100
    )


def changes(row):
    """Each change of the arguments of a row."""
    yield from damaged(row)
    yield from other_rooms(row)
    yield from other_lengths(row)
    yield from other_keks(row)
    if "flags" in row.arguments:
        for flags in (*range(17), 20, 1 << 31, (1 << 32) - 1):
            yield {"flags": flags}
    if "iv" in row.arguments:
        yield from other_initial_values(row)


def damaged(row):
    """A bit of each byte of a right wrapped key."""
    if row.call.startswith("w") or not row.is_done:
        return
    for at in range(len(row.arguments["given"])):
        text = bytearray(row.arguments["given"])
        text[at] ^= 1 << at % 8
        yield {"given": bytes(text)}


def other_rooms(row):
    """Lengths of the buffer that is written, around the right one."""
    length = len(row.arguments["given"])
    if length % 8 or row.call.startswith("rewrap"):
        return
    room = length + 8 if row.call.startswith("w") else max(length - 8, 0)
    for other in range(max(room - 9, 0), room + 18):
        yield {"room": other}


def other_lengths(row):
    given = row.arguments["given"]
    for length in range(max(len(given) - 9, 0), len(given) + 10):
        yield {"given": (given * 9)[:length]}


def other_keks(row):
    """KEKs of other lengths, and other KEKs of 24 bytes."""
    for name in ("kek", "new"):
        if name not in row.arguments:
            continue
        kek = row.arguments[name]
        if kek:
            for length in (0, 8, 15, 16, 17, 24, 25, 32, 33):
                yield {name: (kek * 9)[:length]}
        for first in (0, 9):
            yield {name: bytes(range(first, first + 24))}


def other_initial_values(row):
    """Initial values that are reserved for the padded form, like the row's own, and one bit beside the reserved ones,
    which is legal: each of 8 bytes twice, and of 7 and of 9 bytes. If the row has none, of 0 to 2 bytes.
    """
    reserved = rules.RESERVED + bytes(3)
    own = row.arguments["iv"][:7]
    next_to_reserved = bytes.fromhex("a65959a7000000")
    for begin in (reserved, own, next_to_reserved):
        for end in (b"\xa6", b"", b"\xa7", bytes(2)):
            yield {"iv": begin + end}


# Showing rows


def shown(value):
    """The text of a value. Long bytes are cut, or are their digest."""
    if isinstance(value, list):
        return ",".join(map(shown, value))
    if not isinstance(value, bytes):
        return str(int(value))
    if len(value) > 40 and value == value[:1] * len(value):
        return f"filled({value[:1].hex()},{len(value)})"
    return value.hex() if len(value) < LONG else shown_digest(value)


def shown_pairs(pairs):
    return " ".join(f"{name}={shown(value)}" for name, value in pairs.items())


def shown_arguments(arguments):
    """The arguments as in rows.txt. What is empty is left out."""
    given = {
        name: arguments[name] for name in ARGUMENTS if arguments.get(name, []) != []
    }
    return shown_pairs(given)


def shown_call(call, arguments):
    return f"{call} {shown_arguments(arguments)}"


def shown_row(row, due=None):
    """A line as in rows.txt, with what is due of the row, or something else."""
    due = due or row.due
    status = Status(due["status"]).name
    results = {name: due[name] for name in sorted(due) if name != "status"}
    pairs = shown_arguments(row.arguments), shown_pairs(results)
    return " ".join(filter(None, [row.name, row.call, status, *pairs]))


def wrong():
    """The rows for one key that are kept and wrong, each with the right one."""
    for row in with_implied_rows():
        if row.is_many:
            continue
        right = rules.due(row.call, row.arguments)
        if right != row.due:
            yield f"- {shown_row(row)}\n+ {shown_row(row, right)}\n"


if __name__ == "__main__":
    sys.exit("".join(wrong()) or None)
