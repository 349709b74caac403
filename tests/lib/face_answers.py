"""The questions to a runner for a row, and the answers that are due.

C and Rust write buffers of the caller: `given` is the buffer with all slots side by side, and `room` is the length of a
buffer that is written, or - if it is the buffer that is given. Other faces return what they make."""

from typing import NamedTuple

from face_texts import text_of
from rules import Status, kept_length, rounded, unwrapped_room

FILL = b"\x5a"
WITH_BUFFERS = ("c", "rust")
# The calls that C and Rust have in place, too.
ALSO_IN_PLACE = ("wrap", "unwrap", "wrap_padded", "unwrap_padded")

# The numbers that a call writes. In C it writes them at a refusal, too.
WRITTEN = {
    "kind": ("form", "len"),
    "unwrap_any": ("form", "len"),
    "unwrap_padded": ("len",),
    "unwrap_padded_in_place": ("len",),
    "rewrap": ("already",),
    "unwrap_many": ("lens",),
    "kind_many": ("forms", "lens"),
}
# The numbers that a call returns whose results are its own.
RETURNED = {
    "kind": ("form", "len"),
    "unwrap_any": ("form",),
    "rewrap": ("already",),
    "kind_many": ("forms", "lens"),
    "rewrap_many": ("already",),
}
NOT_RETURNED = {
    "python": ("already", "lens"),
    "python steps": ("already",),
    "js": ("already",),
}


class Asked(NamedTuple):
    """A call, the fields of its line that the row does not name, and the digits of what is written or returned. Without
    these nothing is compared."""

    call: str
    fields: dict
    out: str | None


def asked_of(face, row):
    """The calls that a runner makes for a row."""
    if face not in WITH_BUFFERS:
        yield with_values(row)
        return
    yield with_buffers(row)
    has_room = "room" not in row.arguments or row.call == "wrap_padded"
    if row.call in ALSO_IN_PLACE and has_room:
        yield in_place(row)


def answer(face, row, asked):
    """The answer that is due, as a dictionary."""
    found = {"status": row.due["status"]}
    if asked.out is not None:
        found["out"] = asked.out
    found |= numbers(face, asked.call, row)
    text = text_of(face, asked.call, row)
    if text is not None:
        found["text"] = text
    return found


# Buffers


def filled(content, length):
    """A buffer of this length that begins with the content. The rest is FILL."""
    return content[:length] + FILL * (length - len(content))


def digits(content, length, head=0):
    """The hex digits of `length` bytes: `head` zeros, this content, and zeros."""
    return (bytes(head) + content + bytes(length - head - len(content))).hex()


def room_of(call, given):
    """The length of the buffer that a call for one key writes, or - if it writes over its input. The key that an unwrap
    finds there may be shorter."""
    if call == "rewrap":
        return "-"
    if call.startswith("w"):
        return rounded(len(given)) + 8
    return unwrapped_room(given)


def with_buffers(row):
    if row.is_many:
        return many_in_buffers(row)
    call = row.call
    given = row.arguments["given"]
    out = row.due.get("out")
    is_over_given = call.startswith("rewrap") or call.endswith("in_place")
    if is_over_given or call == "kek_clear":
        after = given.hex() if out is None else digits(out, len(given))
        return Asked(call, {"room": "-"}, after)
    room = row.arguments.get("room")
    if room is None:
        is_init = call == "kek_init"
        room = kept_length(row.arguments["kek"]) if is_init else room_of(call, given)
    after = (FILL * room).hex() if out is None else digits(out, room)
    return Asked(call, {"room": room}, after)


def slot_before_wrap(key):
    """Eight bytes that may hold anything, the key, and room for its padding."""
    return filled(FILL * 8 + key, rounded(len(key)) + 8)


def many_in_buffers(row):
    """All slots side by side."""
    call = row.call
    contents = row.arguments["given"]
    out = row.due.get("out")
    is_wrap = call == "wrap_many"
    slots = [slot_before_wrap(key) for key in contents] if is_wrap else contents
    size = row.arguments.get("size", sum(map(len, slots)))
    count = row.arguments.get("count", len(slots))
    slot_length = size // count if count else 0
    longest = max(map(len, contents), default=0)
    buffer = filled(b"".join(slots), size)
    fields = {
        "given": buffer,
        "count": count,
        "room": "-",
        "key_len": row.arguments.get("key_len", longest),
    }
    if call == "kind_many":
        room = row.arguments.get("room", max(slot_length - 8, 0))
        scratch = bytes(room) if row.is_done else FILL * room
        return Asked(call, {**fields, "room": room}, scratch.hex())
    if out is None:
        return Asked(call, fields, buffer.hex())
    head = 8 if call == "unwrap_many" else 0
    after = "".join(digits(content, slot_length, head) for content in out)
    return Asked(call, fields, after)


def in_place(row):
    """The same in one buffer. Before the key of a wrap are eight bytes that may hold anything."""
    given = row.arguments["given"]
    out = row.due.get("out")
    is_wrap = row.call.startswith("w")
    buffer = given
    head = 8
    if is_wrap:
        is_padded = row.call == "wrap_padded"
        length = rounded(len(given)) if is_padded else len(given)
        before = filled(FILL * 8 + given, length + 8)
        buffer = filled(before, row.arguments.get("room", len(before)))
        head = 0
    fields = {"given": buffer, "key_len": len(given), "room": "-"}
    after = buffer.hex() if out is None else digits(out, len(buffer), head)
    return Asked(f"{row.call}_in_place", fields, after)


# Values


def with_values(row):
    """A refusal returns nothing, and a question for the form no key."""
    call = row.call
    given = row.arguments["given"]
    out = row.due.get("out")
    if not row.is_many:
        returned = given if out is None else out
        has_out = row.is_done and "kind" not in call
        return Asked(
            call, {"room": room_of(call, given)}, returned.hex() if has_out else None
        )
    fields = {"given": ",".join(item.hex() for item in given) if given else "-"}
    if not out or "kind" in call:
        return Asked(call, fields, None)
    returned = (
        "" if is_refusal(status) else content.hex()
        for status, content in zip(row.due["statuses"], out)
    )
    return Asked(call, fields, ",".join(returned))


def is_refusal(status):
    return status > Status.ALREADY_NEW


# Numbers


def numbers(face, call, row):
    """The numbers that are returned or written in addition to bytes."""
    has_buffers = face in WITH_BUFFERS
    names = (WRITTEN if has_buffers else RETURNED).get(call, ())
    found = {}
    if row.is_done or (face == "c" and not row.is_many):
        for name in names:
            if name not in NOT_RETURNED.get(face, ()):
                found[name] = row.due.get(name, 0)
    statuses = row.due.get("statuses", [])
    if has_buffers and statuses:
        return {"statuses": statuses, **found}
    refusals = [status if is_refusal(status) else 0 for status in statuses]
    if face == "go":
        return numbers_of_go(found, refusals)
    return {"statuses": refusals, **found} if statuses else found


def numbers_of_go(found, refusals):
    """Its runner prints no 0, and its forms have other numbers, of which none is 0."""
    shown = {name: value for name, value in found.items() if value or name == "form"}
    if any(refusals):
        shown["statuses"] = refusals
    return shown
