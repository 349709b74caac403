"""The calls of keywrap.h and keywrap_steps.h: their names, their parameters with what these mean, and the files that
have to have each call. facts.py writes the declarations of other languages from it, and names a file that lacks a
call."""

import re
from pathlib import Path
from typing import NamedTuple, Optional

TOP = Path(__file__).resolve().parent.parent
HEADERS = "dist/keywrap.h", "dist/keywrap_steps.h"
# The buffers without a parameter for their length, and their bytes.
FIXED = {"first": 8, "block": 16}
# The most bytes of each other buffer: those of a key, of a wrapped key, or an initial value. None: nothing limits it
# but the parameter with its length.
LONGEST = {
    "key": "KEYWRAP_MAX_KEY",
    "registers": "KEYWRAP_MAX_KEY",
    "scratch": "KEYWRAP_MAX_KEY",
    "buffer": "KEYWRAP_MAX_TEXT",
    "copy": "KEYWRAP_MAX_TEXT",
    "text": "KEYWRAP_MAX_TEXT",
    "wrapped": "KEYWRAP_MAX_TEXT",
    "iv": "8",
    "kek": None,
    "old_kek": None,
    "new_kek": None,
    "kept": None,
    "blocks": None,
    "forms": None,
    "key_lens": None,
    "statuses": None,
    "texts": None,
}


class Argument(NamedTuple):
    """A parameter, or a pointer with its length."""

    name: str
    type: str  # what it is, or what it points to
    is_pointer: bool
    is_constant: bool
    length: Optional[str]  # the parameter with the length of a buffer

    @property
    def is_buffer(self):
        return self.length is not None or self.name in FIXED


class Call(NamedTuple):
    name: str  # without keywrap_
    result: str
    parameters: list  # each a type and a name
    header: str

    @property
    def is_for_many(self):
        return self.name.endswith("_many")

    @property
    def arguments(self):
        """The parameters, a buffer with its length, which comes after it, as one."""
        rest = iter(self.parameters)
        return [argument_of(kind, name, rest) for kind, name in rest]

    @property
    def has_bytes(self):
        return any(argument.type == "uint8_t" for argument in self.arguments)


def argument_of(kind, name, rest):
    """The argument that begins with this parameter. If it is a buffer, bytes of no fixed length or several numbers, the
    next one of `rest` is its length."""
    words = kind.split()
    is_constant = words[0] == "const"
    is_pointer = words[-1] == "*"
    type_ = words[1 if is_constant else 0]
    is_bytes = type_ in ("uint8_t", "char") and name not in FIXED
    is_numbers = type_ == "size_t" and name.endswith("s")
    length = None
    if is_pointer and (is_bytes or is_numbers):
        _, length = next(rest)
    return Argument(name, type_, is_pointer, is_constant, length)


def parameters_of(text):
    """The types and names of the parameters, as `const uint8_t *` and `kek`; none of `void`."""
    text = text.replace("KEYWRAP_RESTRICT", "").replace("*", " * ")
    found = []
    for parameter in text.split(","):
        *words, name = parameter.split()
        if words:
            found.append((" ".join(words), name))
    return found


def read(name):
    return (TOP / name).read_text(encoding="utf-8")


def calls_of(header):
    prototype = r"^(u?int\d+_t|size_t|void) keywrap_(\w+)\(([^;]*)\);"
    for result, name, parameters in re.findall(prototype, read(header), re.M):
        yield Call(name, result, parameters_of(parameters), header)


CALLS = [call for header in HEADERS for call in calls_of(header)]


def names(header, of_many):
    return {
        call.name
        for call in CALLS
        if call.header == header and call.is_for_many == of_many
    }


WHOLE, STEPS = HEADERS
ONE_KEY, MANY_KEYS = names(WHOLE, False), names(WHOLE, True)
STEPS_OF_ONE, STEPS_OF_MANY = names(STEPS, False), names(STEPS, True)

# The calls that some files lack, each set with its reason.
# Only C has the rewrap of version 1.0.
VERSION_1_0 = {"rewrap_in_place"}
# Only C and Rust write buffers of the caller.
UNWRAPS_IN_PLACE = {"unwrap_in_place", "unwrap_padded_in_place"}
IN_PLACE = {"wrap_in_place", "wrap_padded_in_place", *UNWRAPS_IN_PLACE}
# The C in Go and Python has its version from the header, as a macro.
VERSION = {"version"}
# A call without bytes of the caller has neither a key nor a KEK.
WITHOUT_KEY = {call.name for call in CALLS if not call.has_bytes}
WITHOUT_BUFFER = WITHOUT_KEY - {"status_text"}
# portable.py writes the C around the other calls of the module.
BY_HAND_IN_C = {"kek_clear", *WITHOUT_KEY} - STEPS_OF_ONE
KEPT_KEKS = {"kek_init", "kek_clear"}
# JavaScript has the initial value as an option, and adds _with to the name.
WITH_IV = {"wrap_with", "unwrap_with"}
# Other languages restore a refused text from a copy.
OTHER_REWRAP = {"next_rewrap"}
# Python makes a step of many texts by one function of C.
ONE_STEP = {"step_wrap", "step_unwrap"}
# The checker makes these calls in functions of other ones.
MADE_WITH_OTHERS = {"begin_unwrap_padded", "next_rewrap_from"}
REWRAP_STEPS = {"begin_rewrap", "next_rewrap", "next_rewrap_from"}
# The calls that some files have.
WHOLE_CALLS = ONE_KEY | MANY_KEYS
ALL_CALLS = WHOLE_CALLS | STEPS_OF_ONE | STEPS_OF_MANY
IN_RUST = (WHOLE_CALLS | STEPS_OF_ONE) - VERSION_1_0 - OTHER_REWRAP
IN_JAVASCRIPT = WHOLE_CALLS - IN_PLACE - VERSION_1_0 - WITH_IV - KEPT_KEKS
IN_PYTHON = ONE_KEY - IN_PLACE - VERSION_1_0 - VERSION - {"status_text"}
IN_CHECKER = ALL_CALLS - MADE_WITH_OTHERS


class Place(NamedTuple):
    """A file that has calls, how each is written there (a pattern, with {} for its name), and the names of its calls.
    It is the file to write a new call into."""

    file: str
    form: str
    calls: set


def in_javascript(name):
    """The name of a call in the package for JavaScript."""
    first, *words = name.replace("kind", "check").split("_")
    return first + "".join(word.capitalize() for word in words)


NAMES = {"js/keywrap.d.ts": in_javascript}
C = r"\bkeywrap_{}\("
GO = r"\bC\.keywrap_{}\("
PYTHON = r"\b_?lib\.(?:keywrap_)?{}\b"
RATTLE = r"\bfn keywrap_{}\("
PLACES = [
    Place("crates/keywrap_c/src/exports.rt", RATTLE, WHOLE_CALLS),
    Place("crates/keywrap_c/src/steps.rt", RATTLE, STEPS_OF_ONE),
    Place("crates/keywrap_c/src/many_steps.rt", RATTLE, STEPS_OF_MANY),
    Place("c/portable/calls.c.in", r"^\w+ keywrap_{}\(", BY_HAND_IN_C),
    Place("dist/keywrap.go", GO, ONE_KEY - IN_PLACE - VERSION_1_0 - VERSION),
    Place("dist/many.go", GO, MANY_KEYS),
    Place("dist/steps.go", GO, STEPS_OF_ONE - OTHER_REWRAP),
    Place(
        "dist/src/calls.rs",
        r"^(?:pub\(crate\) fn {0}\(|    (?:\w+, )*{0},)",
        IN_RUST,
    ),
    Place("js/calls.js", "'keywrap_{}'", IN_JAVASCRIPT - {"status_text"}),
    Place(
        "js/keywrap.d.ts",
        r"^    {}\(",
        IN_JAVASCRIPT - VERSION - {"status_text"},
    ),
    Place("python/src/keywrap/__init__.py", PYTHON, IN_PYTHON),
    Place("python/src/keywrap/_many.py", PYTHON, MANY_KEYS),
    Place(
        "python/src/keywrap/steps.py", PYTHON, STEPS_OF_ONE - OTHER_REWRAP - ONE_STEP
    ),
    Place("dist/check/all_inputs/calls.py", '"keywrap_{}"', IN_CHECKER),
    Place(
        "dist/check/all_inputs/lists.py",
        r"^(?:.*,)?{}(?: |,|$)",
        IN_CHECKER - REWRAP_STEPS,
    ),
    Place("tests/rows.c", C, WHOLE_CALLS),
    # lib/rows.py makes the other rows in place of these.
    Place(
        "tests/rows.txt",
        r"^\S+ {} ",
        WHOLE_CALLS - UNWRAPS_IN_PLACE - VERSION_1_0 - WITHOUT_KEY,
    ),
    Place("tests/portable/fuzz_call.c", C, ALL_CALLS - WITHOUT_BUFFER),
    Place(
        "tests/portable/lengths.c",
        C,
        (WHOLE_CALLS | STEPS_OF_MANY) - WITHOUT_KEY - KEPT_KEKS,
    ),
    Place("tests/secrets/calls.h", C, WHOLE_CALLS - WITHOUT_KEY - {"kek_clear"}),
]


def lacking():
    """The files that lack a call, and the buffers whose longest length is not here."""
    for place in PLACES:
        text = read(place.file)
        spelled = NAMES.get(place.file, str)
        for call in CALLS:
            form = place.form.format(spelled(call.name))
            is_there = re.search(form, text, re.M) is not None
            if is_there and call.name not in place.calls:
                yield f"generate/headers.py: {place.file} has keywrap_{call.name}, which is not expected"
            if call.name in place.calls and not is_there:
                yield f"{place.file}: lacks the call keywrap_{call.name}"
    for call in CALLS:
        for argument in call.arguments:
            if argument.length and argument.name not in LONGEST:
                yield f"generate/headers.py: lacks the longest length of {argument.name} in keywrap_{call.name}"
