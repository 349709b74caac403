"""Which rows a face of the library cannot express, and why."""

import rules
from rules import Form

RUST = ("rust", "rust vec", "rust steps")
PYTHON = ("python", "python steps")
STEPS = ("rust steps", "python steps")
# All but C, which can express each row.
OTHERS = (*RUST, *PYTHON, "js", "go", "java")
# Numbers that are of buffers and arrays.
SIZES = {"room", "size", "key_len", "count", "lens_count", "forms_count"}


def wrong_keks(row):
    """The KEKs of a row that no call takes."""
    keks = (row.arguments[name] for name in ("kek", "new") if name in row.arguments)
    return [kek for kek in keks if not rules.is_kek(kek)]


def initial_value(row):
    return row.arguments.get("iv", rules.DEFAULT_IV)


def is_old_rewrap(row):
    return row.call == "rewrap_in_place"


def has_kept_kek(row):
    keks = (row.arguments.get(name, b"") for name in ("kek", "new"))
    return row.call.startswith("kek_") or any(len(kek) > 100 for kek in keks)


def has_wrong_flags(row):
    return not rules.are_flags(row.call, row.arguments.get("flags", 0))


def has_iv_of_other_length(row):
    return len(initial_value(row)) != 8


def has_many_slots(row):
    return row.arguments.get("count", 0) > 1 << 20


def asks_kind_of_other_length(row):
    return row.call == "kind_many" and not all(
        rules.is_text(Form.PADDED, len(text)) for text in row.arguments["given"]
    )


def is_many_or_rewrap(row):
    return row.is_many or row.call == "rewrap"


def is_many(row):
    return row.is_many


def has_buffer(row):
    return bool(SIZES & {*row.arguments}) or row.call.endswith("in_place")


def has_no_slots(row):
    return row.is_many and not row.arguments["given"]


def is_not_in_jca(row):
    return row.is_many or row.call in ("unwrap_any", "kind", "rewrap")


def has_empty_kek(row):
    return row.arguments["kek"] == b""


def has_iv_and_wrong_kek(row):
    return "iv" in row.arguments and wrong_keks(row) != []


def has_wrong_iv_and_length(row):
    length = len(row.arguments["given"])
    is_wrap = row.call.startswith("w")
    is_length = (rules.is_key if is_wrap else rules.is_text)(Form.PLAIN, length)
    return not rules.is_initial_value(initial_value(row)) and not is_length


def unwraps_with_wrong_iv_and_length(row):
    return row.call == "unwrap_with" and has_wrong_iv_and_length(row)


def has_no_steps(row):
    is_other_call = "kind" in row.call or row.call == "rewrap_many"
    return wrong_keks(row) != [] or is_other_call


# The faces, why they cannot express some rows, and which.
LIMITS = (
    (OTHERS, "the call of version 1.0 is only in C", is_old_rewrap),
    (OTHERS, "a kept KEK has a type of its own", has_kept_kek),
    ((*RUST, *PYTHON, "js"), "flags are enums, or named", has_wrong_flags),
    (RUST, "an initial value has eight bytes", has_iv_of_other_length),
    (("rust",), "no slice is so long", has_many_slots),
    (
        ("python",),
        "nothing of another length is a wrapped key",
        asks_kind_of_other_length,
    ),
    (("rust vec",), "no such call makes a Vec", is_many_or_rewrap),
    (("rust steps",), "no steps of many keys", is_many),
    ({*OTHERS} - {"rust"}, "the package makes the buffers", has_buffer),
    (PYTHON, "no keys are an empty list", has_no_slots),
    (("java",), "JCA has no such call", is_not_in_jca),
    (("java",), "JCA has no empty key", has_empty_kek),
    (
        ("java",),
        "the provider looks at the KEK before the initial value",
        has_iv_and_wrong_kek,
    ),
    (
        ("rust steps",),
        "the length is refused before the initial value",
        has_wrong_iv_and_length,
    ),
    (
        ("python steps",),
        "the length is refused before the initial value",
        unwraps_with_wrong_iv_and_length,
    ),
    (STEPS, "no such steps", has_no_steps),
)


def reason(face, row):
    """Why a face cannot express a row, or None."""
    for faces, why, applies in LIMITS:
        if face in faces and applies(row):
            return why
    return None
