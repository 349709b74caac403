#!/usr/bin/env python3
"""Writes what follows from the sources: the synopsis of the manual page; the map of the crates and the hundreds of
edits in docs/ARCHITECTURE.md; the names of the calls for linkers; the exports over another AES; the declarations of
the calls in Rust and Java; the numbers and texts of statuses, the flags and the lengths in each language; the
numbers of the pages that follow from a source or a measurement; and the version.

The sources are the table of options and exit statuses that the program printed, the statuses and their texts in
crates/keywrap_calls/src, the exports of crates/keywrap_c, crates.txt, the prototypes and flags of keywrap.h and
keywrap_steps.h, and VERSION.

usage: generate/facts.py             writes the files
       generate/facts.py --check     fails if a file is another
Both name the files that lack a call, a status or an option, which are written by hand.
"""

import re
import sys

import declarations
import exports
import headers
import options
import page_numbers
from options import TOP
from synopsis import synopsis

sys.path.append(str(TOP / "tests/lib"))

import edits  # noqa: E402


JAVA = "java/keywrap/Library.java"
RUST = "dist/src/sys.rs"
# The files with the number of each status, and how one is written there. Java only has some of them.
STATUSES = {
    "dist/keywrap.h": r"KEYWRAP_{}\b = (\d+)",
    "js/calls.js": r"const {} = (\d+)",
    JAVA: r"int {} = (\d+)",
}
# More files that give each status a name or a type of their own.
NAMED = {"dist/keywrap.go": r"C\.KEYWRAP_{}\b", "dist/src/error.rs": r"\bKEYWRAP_{}\b"}
# The files with other numbers of keywrap.h: the longest key, and the flags of a rewrap.
NUMBERS = {
    RUST: r"KEYWRAP_{}: \w+ = (\d+)",
    "js/calls.js": r"const {} = (\d+)",
}
# The files with texts of some statuses. Elsewhere keywrap_status_text returns them.
TEXTS = {
    "c/provider/errors.c": r'REASON_{}, "(.*)"',
    "js/calls.js": r"\[{}\]: '(.*)'",
}
# The files with each exit status of the program, and how its number is written there.
EXITS = {
    "crates/keywrap_args/src/help.rt": r"^  (\d+)  ",
    "command/man/keywrap.1": r"^\.It (\d+)$",
}
# The files with each option by hand: the page, and lists of tests. The last one only has flags of commands that read
# files.
PAGE = "command/man/keywrap.1"
RANDOM_WORDS, SHELLS = "tests/random_arguments.txt", "tests/shells.sh"


def read(name):
    return (TOP / name).read_text(encoding="utf-8")


def part(page, text):
    """The page with this text between its two comments that name this script."""
    found = re.fullmatch(
        r"(.*generate/facts.py: begin[^\n]*\n)(.*\n)([^\n]*generate/facts.py: end.*)",
        read(page),
        re.S,
    )
    assert found, f"{page} lacks the comments around what this script writes"
    return f"{found[1]}{text}\n{found[3]}"


def export_map():
    """The exports of libkeywrap.so: the nodes of the last release, and later calls in the node of the next one."""
    released = read("tests/library/released/keywrap.map")
    before = re.sub(r"\s+(keywrap_\w+;)", r"\n        \1", released)
    names = [f"keywrap_{call.name}" for call in headers.CALLS]
    later = [name for name in names if f" {name};" not in before]
    if not later:
        return before
    shown = "".join(f"        {name};\n" for name in later)
    last_node = re.findall(r"^(KEYWRAP_\S+) \{", before, re.M)[-1]
    version, _, _ = read("VERSION").rpartition(".")
    node = f"KEYWRAP_{version} {{\n    global:\n{shown}}} {last_node};\n"
    return f"{before}\n{node}"


def statuses():
    """The number of each status that a call returns."""
    source = read("crates/keywrap_calls/src/status.rt")
    numbers = dict(re.findall(r"^pub const (\w+): i32 = (\d+);", source, re.M))
    return {"OK": numbers.pop("DONE"), **numbers}


def header_numbers():
    """The longest key and the flags of a rewrap, by their names in keywrap.h."""
    names = r"MAX_KEY|\w+_PADDED|KEEP_FORM|PASS_NEW"
    definition = rf"^#define KEYWRAP_({names}) (\d+)u?$"
    return dict(re.findall(definition, read("dist/keywrap.h"), re.M))


def texts():
    """The text of each status, by the name of the status, and by its name in the provider for OpenSSL."""
    source = read("crates/keywrap_calls/src/texts.rt")
    found = dict(re.findall(r'^        ([A-Z_]+) => b"(.*)",$', source, re.M))
    found["LENGTH"] = found["BAD_LENGTH"]
    return found


def with_value(text, pattern, value):
    """The text with this value in the group of the pattern, wherever it has it."""
    for found in reversed([*re.finditer(pattern, text, re.M)]):
        text = text[: found.start(1)] + value + text[found.end(1) :]
    return text


def with_number(name, pattern, value):
    """A page with this number in the place that the pattern finds, which has to be there."""
    text = read(name)
    pattern = pattern.replace(" ", r"\s+")
    if not re.search(pattern, text, re.M):
        raise SystemExit(f"{name}: lacks the place of a number: {pattern}")
    return with_value(text, pattern, value)


def with_values(text, pattern, values):
    """The text with the current values of the constants that it has."""
    for name, value in values.items():
        text = with_value(text, pattern.format(name), value)
    return text


def rust():
    """sys.rs with the statuses, and with the calls of the crate."""
    numbers = "".join(
        f"    KEYWRAP_{name}: i32 = {number};\n"
        for name, number in statuses().items()
        if name != "NO_MEMORY"
    )
    old_numbers = r"(?<=constants! \{\n)(?:    KEYWRAP_\w+: i32 = \d+;\n)*?(?=    KEYWRAP_ALREADY)"
    page = re.sub(old_numbers, numbers, read(RUST))
    calls_of_crate = declarations.sys_rs()
    return re.sub(declarations.IN_MACRO, calls_of_crate, page, flags=re.M | re.S)


def lacking():
    """Finds what is missing and written by hand: a new call in each place that has calls, a new status in each
    language, a new exit status and a new option in the manual page."""
    return [
        *headers.lacking(),
        *lacking_statuses(),
        *lacking_exits(),
        *lacking_options(),
    ]


def lacking_statuses():
    written = [status for status in statuses() if status not in ("OK", "NO_MEMORY")]
    for name, pattern in {**STATUSES, **NAMED}.items():
        if name == JAVA:
            continue
        page = read(name)
        for status in written:
            if not re.search(pattern.format(status), page):
                yield f"{name}: lacks the status {status}"


def lacking_exits():
    for name, pattern in EXITS.items():
        written = re.findall(pattern, read(name), re.M)
        for number in map(str, options.STATUSES):
            if number not in written:
                yield f"{name}: lacks the exit status {number}"


def lacking_options():
    items = "\n".join(re.findall(r"^\.It .*", read(PAGE), re.M))
    yield from lacking_words(PAGE, items, "Fl -", options.OPTIONS)
    flags = [
        option
        for option in options.OPTIONS
        if option.value is None and option.commands != ["drill"]
    ]
    for name, listed in {RANDOM_WORDS: options.OPTIONS, SHELLS: flags}.items():
        yield from lacking_words(name, read(name), "--", listed)


def lacking_words(name, text, before, listed):
    for option in listed:
        if not re.search(rf"(?<![\w-]){before}{option.name}(?![\w-])", text):
            yield f"{name}: lacks the option --{option.name}"


def crates():
    """The crates of crates.txt, each with those of this repository that it uses."""
    lines = (TOP / "crates.txt").read_text(encoding="utf-8").splitlines()
    uses = {}
    for line in lines:
        if line.strip() and not line.startswith("#"):
            name, _, used = line.partition(":")
            uses[name.split()[0]] = used.split()
    return {
        name: [other for other in used if other in uses] for name, used in uses.items()
    }


def all_below(name, uses):
    """The crates below a crate, at any distance."""
    found = set()
    for other in uses[name]:
        found |= {other} | all_below(other, uses)
    return found


def crate_map():
    """The crates and the crates below them as a Mermaid graph. An edge that follows from two others is left out."""
    uses = crates()
    lines = ["```mermaid", "graph BT"]
    for name, used in uses.items():
        follows = set()
        for other in used:
            follows |= all_below(other, uses)
        edges = [f"    {other} --> {name}" for other in used if other not in follows]
        lines += edges or [f"    {name}"]
    return "\n".join([*lines, "```"])


def versions():
    """Each place of the version: the file, a pattern with a group around it, and what is written there."""
    version = read("VERSION").strip()
    parts = version.removesuffix("-dev").split(".")
    numbers = [int(part) for part in parts]
    yield "crates/keywrap_args/src/subcommands.rt", r'\.version\("(.*)"\)', version
    yield "dist/Cargo.toml", r'^version = "(.*)"', version
    yield "java/pom.xml", "^  <version>(.*)</version>", version
    yield "java/META-INF/MANIFEST.MF", "^Implementation-Version: (.*)", version
    yield "packaging/debian/changelog", r"\Akeywrap \((.*)\)", version.replace("-", "~")

    header = "dist/keywrap.h"
    for name, part in zip(("MAJOR", "MINOR", "PATCH"), parts):
        yield header, rf"^#define KEYWRAP_VERSION_{name} (.*)", part
    prerelease = ""
    if version.endswith("-dev"):
        prerelease = '#define KEYWRAP_PRERELEASE "dev" /* not defined in a release */\n'
    old = r"KEYWRAP_VERSION_PATCH .*\n((?:#define KEYWRAP_PRERELEASE.*\n)?)"
    yield header, old, prerelease

    crate = "crates/keywrap_calls"
    forms = {
        "specs/Version.antt": "0x{:x}_{:02x}{:02x}",
        "src/version_number.rt": "0x{:04x}_{:02x}{:02x}",
    }
    for name, form in forms.items():
        yield f"{crate}/{name}", r"[Tt]he version ([\d.]+),", ".".join(parts)
        yield f"{crate}/{name}", "(0x[0-9a-f_]+)$", form.format(*numbers)
    number = forms["src/version_number.rt"].format(*numbers)
    yield "tests/edits/keywrap_calls.txt", r"^another-version: .*\n-(.*)", number


def architecture():
    """The page with the map of the crates, and with the hundreds of edits."""
    page = "docs/ARCHITECTURE.md"
    hundreds = round(len(edits.of_gate()) + len(edits.of_release()), -2)
    text = part(page, crate_map())
    return with_value(text, r"about (\d+) with tests/edits", str(hundreds))


def with_numbers_and_texts(name):
    """A file of a language with the numbers and texts of keywrap.h that it has."""
    text = rust() if name == RUST else read(name)
    if name in STATUSES:
        text = with_values(text, STATUSES[name], statuses())
    if name in NUMBERS:
        text = with_values(text, NUMBERS[name], header_numbers())
    if name in TEXTS:
        text = with_values(text, TEXTS[name], texts())
    return text


def results():
    """Each file that this script writes, with its text."""
    yield PAGE, part(PAGE, synopsis())
    yield "docs/ARCHITECTURE.md", architecture()
    yield "c/include/keywrap.map", export_map()
    yield from exports.results()
    yield from declarations.results()
    for name in sorted({*STATUSES, *NUMBERS, *TEXTS}):
        yield name, with_numbers_and_texts(name)
    for name, pattern, value in versions():
        yield name, with_value(read(name), pattern, value)
    for name, pattern, value in page_numbers.results():
        yield name, with_number(name, pattern, value)


def main(arguments):
    if arguments not in ([], ["--check"]):
        sys.exit(__doc__)
    stale = lacking()
    for name, text in results():
        file = TOP / name
        if not arguments:
            file.write_text(text, encoding="utf-8")
        elif not file.exists() or file.read_text(encoding="utf-8") != text:
            stale.append(f"{name}: stale, run generate/facts.py")
    for line in dict.fromkeys(stale):
        print(line)
    return bool(stale)


if __name__ == "__main__":
    sys.exit(main(sys.argv[1:]))
