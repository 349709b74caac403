"""The exports of keywrap_wasm, keywrap_hw and keywrap_portable: those of keywrap_c over another AES. facts.py writes
them.

Each export stands once, with its contract, in crates/keywrap_c/src. In keywrap_c a call gets memory for its round keys,
by the macros with_schedule! and with_schedules!, and clears it. Over word tables a call needs no such memory. Over the
leaves it has a choice: with_leaves.in. In keywrap_portable it is there twice, over word tables and by the leaves
(by_leaves.in), and C chooses.
"""

import pathlib
import re

TOP = pathlib.Path(__file__).resolve().parent.parent
CRATE = TOP / "crates/keywrap_c"


def source(name):
    return (CRATE / "src" / name).read_text(encoding="utf-8")


def replaced(pattern, new, text):
    """The text with `new` for what the pattern finds, which has to be there once."""
    text, count = re.subn(pattern, lambda _: new, text, flags=re.M | re.S)
    if count != 1:
        raise SystemExit(f"exports.py: keywrap_c has {count} times: {pattern}")
    return text


def over_word_tables():
    """exports.rt over `aes_block`."""
    text = source("exports.rt")
    text = replaced(
        r"byte shuffles\. Its round keys .*? cleared last\.", "word tables.", text
    )
    text = replaced(
        r"use aes_vector::\{KeySchedule, LentAes\};", "use aes_block::Aes;", text
    )
    text = replaced(r"^// Makes a call with memory .*?(?=^///)", "", text)
    text = replaced(r"\n// Writes zeros over both key schedules, .*\Z", "", text)
    text = re.sub(r"with_schedule!\((\w+), ", r"keywrap_calls::\1::<Aes>((), ", text)
    return re.sub(
        r"with_schedules!\((\w+), ", r"keywrap_calls::\1::<Aes>(((), ()), ", text
    )


def calls_with_lanes():
    """The calls that keywrap_calls also has for an AES of many blocks at once, as NAME_lanes."""
    text = (TOP / "crates/keywrap_calls/src/many_lanes.rt").read_text(encoding="utf-8")
    return re.findall(r"^pub fn (\w+)_lanes<", text, re.M)


def with_lanes(text, call):
    """The exports, of which one makes its call with lanes. rt fmt wants an argument a line."""
    ((macro, arguments),) = re.findall(
        rf"with_(leaves|both_leaves)!\({call}, (.*)\)", text
    )
    each = [f"{call}_lanes", call, *arguments.split(", ")]
    lines = ",\n        ".join(each)
    with_lanes = macro.replace("leaves", "lanes")
    return text.replace(
        f"with_{macro}!({call}, {arguments})",
        f"with_{with_lanes}!(\n        {lines}\n    )",
    )


def calls_over_leaves(text):
    """The calls of exports.rt by the macros over the leaves, those for many keys side by side."""
    calls = re.sub(r"with_schedule!\(", "with_leaves!(", text)
    calls = re.sub(r"with_schedules!\(", "with_both_leaves!(", calls)
    for call in calls_with_lanes():
        calls = with_lanes(calls, call)
    return calls


def over_leaves():
    """exports.rt over `aes_leaves`."""
    text = source("exports.rt")
    text = replaced(
        r"byte shuffles\. Its round keys .*? cleared last\.",
        "the leaves of `aes_leaves`, or by byte\n"
        "//! shuffles. Its round keys are in memory of the call's own, which is cleared last.\n//!",
        text,
    )
    text = replaced(
        r"^use aes_vector::",
        "use aes_leaves::{KeyRoom, LeafAes, available};\nuse aes_vector::",
        text,
    )
    body = text.index("/// ")
    choice = (TOP / "generate/with_leaves.in").read_text(encoding="utf-8")
    return text[:body] + choice + calls_over_leaves(text[body:])


def argument_a_line(found):
    """The call of a macro that was found, with a line for each argument."""
    lines = ",\n        ".join(found[1].split(", "))
    return f"leaves!(\n        {lines}\n    )"


def without_aes(text):
    """The calls of exports.rt that use no AES. Over another one they would be the same."""
    return re.findall(r"^\{\n    keywrap_calls::(\w+)\(", text, re.M)


def by_leaves():
    """leaves.rt of keywrap_portable: each call of exports.rt under a KEK once more, by the leaves only. Its name begins
    with aes_ in place of keywrap_."""
    text = source("exports.rt")
    text = replaced(
        r"\A.*?(?=^ghost use)",
        "//! The calls under a KEK once more, over AES by the leaves of `aes_leaves`. Its round keys are in\n"
        "//! memory of the call's own, which is cleared last.\n\n",
        text,
    )
    text = replaced(
        r"^use aes_vector::.*?$", "use aes_leaves::{KeyRoom, LeafAes};", text
    )
    text = replaced(r"\n// Writes zeros over both key schedules, .*\Z", "", text)
    for call in without_aes(text):
        text = replaced(
            rf"^///[^\n]*\n#\[unsafe\(no_mangle\)\]\npub extern \"C\" fn keywrap_{call}\(.*?^\}}\n\n",
            "",
            text,
        )
    for definition in "KeyExpansion", "StatusTexts", "Version":
        text = replaced(rf"^ghost use [\w.]+\.{definition}\.[^\n]*\n", "", text)
    text = replaced("◌<◌, ", "", text)
    text = replaced(r"\bIsKek, ", "", text)
    text = re.sub(r"\bkeywrap_(?=\w+\()", "aes_", text)
    body = text.index("/// ")
    macros = (TOP / "generate/by_leaves.in").read_text(encoding="utf-8")
    calls = re.sub(r"with_schedule!\(", "with_leaves!(", text[body:])
    calls = re.sub(r"with_schedules!\(", "with_both_leaves!(", calls)
    for call in calls_with_lanes():
        calls = replaced(rf"leaves!\({call}, ", f"leaves!({call}_lanes, ", calls)
    # rt fmt wants an argument a line if they are longer than this.
    calls = re.sub(r"leaves!\(([^()]{61,})\)", argument_a_line, calls)
    head = text[: text.index("// Makes a call with memory")]
    return head + macros + calls


def copies(crate, *names):
    """These files of keywrap_c and its definitions and proofs, in a crate that takes them as they are."""
    paths = [CRATE / "src" / name for name in names]
    paths += sorted([*CRATE.glob("specs/*"), *CRATE.glob("proofs/**/*.antt")])
    for path in paths:
        text = path.read_text(encoding="utf-8").replace("keywrap_c.", f"{crate}.")
        yield f"crates/{crate}/{path.relative_to(CRATE)}", text


def results():
    """Each file, by its path from the top of the repository, with its text."""
    yield "crates/keywrap_hw/src/exports.rt", over_leaves()
    yield from copies("keywrap_hw", "steps.rt", "many_steps.rt")
    yield "crates/keywrap_portable/src/exports.rt", over_word_tables()
    yield "crates/keywrap_portable/src/leaves.rt", by_leaves()
    yield from copies("keywrap_portable", "steps.rt", "many_steps.rt")
    yield "crates/keywrap_wasm/src/exports.rt", over_word_tables()
    yield "crates/keywrap_wasm/src/steps.rt", source("steps.rt")
