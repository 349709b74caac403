"""Patterns of the messages of each face for a refusal."""

from face_limits import wrong_keks
from rules import (
    KEEP_FORM,
    NEW_PADDED,
    OLD_PADDED,
    Form,
    Status,
    is_key,
    is_text,
)

# The texts of keywrap.h.
TEXTS = {
    Status.BAD_IV: "initial value is not 8 bytes, or is reserved for the padded form",
    Status.BAD_KEK: "key length is not 16, 24 or 32 bytes",
    Status.BAD_LENGTH: "bad length",
    Status.INTEGRITY: "integrity check failed",
    Status.KEY_NOT_PLAIN: "no plain key has the length of the key",
}


def text_of(face, call, row):
    """A pattern of what the refusal says, or the first one of many. None where nothing is said."""
    statuses = row.due.get("statuses", [row.due["status"]])
    refused = [status for status in statuses if status > Status.ALREADY_NEW]
    if not refused or says_nothing(face, call, row, refused[0]):
        return None
    if face == "go":
        return of_go(row, statuses, refused)
    if face.startswith("rust"):
        return of_rust(call, row, refused[0])
    return of_python(call, row, refused[0])


def says_nothing(face, call, row, status):
    if face in ("c", "java"):
        return True
    if face == "rust":
        return "statuses" in row.due
    # A question for the form answers None.
    is_question = "kind" in call and status == Status.INTEGRITY
    return is_question and face in ("python", "python steps", "js")


def of_go(row, statuses, refused):
    text = f"keywrap: {TEXTS[refused[0]]}"
    if row.is_many and refused[0] == Status.BAD_LENGTH:
        return text + other_length(row.arguments["given"])
    if "statuses" not in row.due:
        return text
    first = statuses.index(refused[0])
    return f"{text} at index {first}; {len(refused)} of {len(statuses)} refused"


def other_length(items):
    """The place of the first of many items that has another length."""
    for index, item in enumerate(items):
        if len(item) != len(items[0]):
            return (
                f": {len(item)} bytes at index {index}, but {len(items[0])} at index 0"
            )
    return ""


def of_rust(call, row, status):
    text = TEXTS[status]
    if status == Status.BAD_KEK:
        return f"{text}: {len(wrong_keks(row)[0])} bytes"
    if status == Status.BAD_LENGTH:
        needs = r"(: the output needs \d+ bytes)"
        return text + needs if says_what_is_needed(call, row) else f"{text}{needs}?"
    return text


def says_what_is_needed(call, row):
    """It does if only a buffer or an array has a wrong length."""
    if {"lens_count", "forms_count"} & {*row.arguments}:
        return True
    is_padded = call.startswith(("wrap_p", "unwrap_p", "k"))
    form = Form.PADDED if is_padded else Form.PLAIN
    is_legal = is_key if call.startswith("w") else is_text
    return "room" in row.arguments and is_legal(form, len(row.arguments["given"]))


def of_python(call, row, status):
    """JavaScript has the same messages."""
    text = TEXTS[status]
    if status == Status.BAD_KEK:
        length = len(wrong_keks(row)[0])
        return f"the KEK is {length} bytes long; it must be 16, 24 or 32 bytes"
    if status == Status.BAD_IV:
        return of_initial_value(row.arguments["iv"])
    if status == Status.BAD_LENGTH:
        return of_length(call, row)
    if status == Status.INTEGRITY:
        return f"{text}: no wrapped key under this KEK"
    legal = "a multiple of 8 from 16 to 1048576"
    return f"bad length: {text}; it must be {legal} bytes"


def of_initial_value(iv):
    if len(iv) == 8:
        return "the initial value is reserved for the padded form: it begins with a6 59 59 a6"
    return f"the initial value is {len(iv)} bytes long; it must be 8 bytes"


def of_length(call, row):
    what = "the key" if call.startswith("w") else "the wrapped key"
    given = row.arguments["given"]
    if call.endswith("_many") and given:
        given = max(given, key=len)
    is_long = f"{what} is {len(given)} bytes long"
    legal = f"; it must be {legal_lengths(call, row)} bytes"
    differ = f"{what}s must have one length, and there .*"
    text = TEXTS[Status.BAD_LENGTH]
    return f"{text}: ({is_long}({legal}|, another one .*)|{differ})"


def legal_lengths(call, row):
    """The legal lengths of a key or a wrapped key in this call."""
    is_padded = takes_padded(call, row.arguments.get("flags", 0))
    if not call.startswith("w"):
        return f"a multiple of 8 from {16 if is_padded else 24} to 1048584"
    if is_padded:
        return "from 1 to 1048576"
    return "a multiple of 8 from 16 to 1048576"


def takes_padded(call, flags):
    if "padded" in call or call in ("unwrap_any", "kind", "kind_many"):
        return True
    if call == "wrap_many":
        return bool(flags & NEW_PADDED)
    return bool(flags & (OLD_PADDED | KEEP_FORM))
