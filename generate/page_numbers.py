"""The numbers of the pages that follow from a source or a recorded measurement: where each stands, and its value.
facts.py writes them."""

import csv
import re

from headers import read

C_LIBRARY = "docs/C_LIBRARY.md"
# The columns of the table of C_LIBRARY: the library and its blocks in docs/pictures/wrap.csv.
COLUMNS = {
    "keywrap": ("keywrap", "software"),
    "portable C": ("portable", "software"),
    "OpenSSL 3.0": ("openssl", "software"),
    "one table": ("C", "software"),
    "libgcrypt 1.10": ("gcrypt", "AES inst."),
    "nettle 3.8": ("nettle", "AES inst."),
    "portable C (AES)": ("portable_hw", "AES inst."),
    "libkeywrap_hw": ("hardware", "AES inst."),
}


def found(name, pattern):
    """The only text in parentheses that the pattern finds in a file."""
    texts = set(re.findall(pattern, read(name), re.M))
    if len(texts) != 1:
        raise SystemExit(f"{name}: {len(texts)} texts for {pattern}")
    return texts.pop()


def measured(name):
    """The rows of a measurement, each by the names of its columns."""
    lines = read(f"docs/pictures/{name}.csv").splitlines()
    return list(csv.DictReader(line for line in lines if not line.startswith("#")))


def times_of(call, length):
    """The nanoseconds of a call with a KEK of 32 bytes and a key of this length, for each of COLUMNS."""
    times = {}
    for row in measured("wrap"):
        if (row["kek"], row["call"], row["key"]) == ("32", call, length):
            times[row["library"], row["blocks"]] = float(row["ns_per_block"])
    return {column: times[case] for column, case in COLUMNS.items()}


def row_of_table(call):
    """The cells of the table of C_LIBRARY after the name of the call."""
    times = times_of(call, "4096").values()
    return " ".join(f"{round(time)} |" for time in times)


def two_digits(share):
    return f"{float(f'{share:.2g}'):g}"


def compared_with(column):
    """How many times as long a wrap of 32 bytes takes as in this column."""
    times = times_of("wrap", "32")
    return two_digits(times["keywrap"] / times[column])


def rewraps():
    """The nanoseconds of a rewrap of 32 bytes from plain to plain."""
    return {
        row["way"]: f"{int(row['ns_per_key']):,}"
        for row in measured("many")
        if (row["flags"], row["key"]) == ("0", "32")
    }


def share_of_provider(call, length):
    """The share of OpenSSL's time that our provider takes."""
    for row in measured("provider"):
        if (row["call"], row["key"]) == (call, length):
            return f"{int(row['keywrap_ns']) / int(row['default_ns']):.2f}"
    raise SystemExit(f"docs/pictures/provider.csv: lacks a {call} of {length} bytes")


def microseconds_in_python(call):
    for row in measured("python"):
        if (row["call"], row["key"]) == (call, "32"):
            return float(row["us"])
    raise SystemExit(f"docs/pictures/python.csv: lacks {call}")


def of_measurements():
    recorded = found("docs/pictures/rotation.txt", r"^key: (\d+)$")
    yield "docs/RECIPES.md", r'rotates a million keys of (\d+) bytes"', recorded
    (of_lines,) = {row["key"] for row in measured("lines")}
    yield C_LIBRARY, r"keys of (\d+) bytes per second with", of_lines

    for call in "wrap", "unwrap":
        yield C_LIBRARY, rf"^\| {call} \| (.*)$", row_of_table(call)
    yield C_LIBRARY, "takes ([0-9.]+) times as long as OpenSSL", compared_with(
        "OpenSSL 3.0"
    )
    yield C_LIBRARY, "and ([0-9.]+) to [0-9.]+ times as long as libgcrypt", (
        compared_with("libgcrypt 1.10")
    )
    yield C_LIBRARY, "to ([0-9.]+) times as long as libgcrypt", compared_with(
        "nettle 3.8"
    )

    times = rewraps()
    yield C_LIBRARY, "takes ([0-9,]+) ns in `keywrap_rewrap_many`", (
        times["keywrap_hw, many"]
    )
    yield C_LIBRARY, "([0-9,]+) in its `keywrap_rewrap`", times["keywrap_hw, one"]
    yield C_LIBRARY, "([0-9,]+) by nettle with kept", times["nettle, kept schedules"]

    share = share_of_provider("wrap", "16")
    yield "docs/OPENSSL.md", r"\(([0-9.]+) of it for a key of 16 bytes\)", share
    ours, theirs = microseconds_in_python("wrap"), microseconds_in_python("pyca's wrap")
    page = "python/README.md"
    yield page, "A wrap of 32 bytes takes ([0-9.]+) µs", f"{ours:.1f}"
    yield page, r"instead of pyca's (\d+) \(", f"{theirs:.0f}"


def of_sources():
    memory = int(found("generate/module.sh", r"--memory (\d+)"))
    pattern = "An instance has ([0-9.]+) MiB of memory"
    yield "js/README.md", pattern, f"{memory / (1 << 20):.1f}"

    package = found("tests/handed_out.txt", r"deb keywrap .* libc6 \(>= (.*)\)")
    installing = "docs/INSTALLING.md"
    yield installing, r"Linux, x86-64-v2, glibc ([0-9.]+) \|", package
    yield "packaging/templates/README.in", "glibc ([0-9.]+) or newer", package
    wheel = found(installing, r"manylinux_(\d+_\d+)_").replace("_", ".")
    yield "python/README.md", "glibc ([0-9.]+) or newer", wheel

    rotation = "rotation/src/keywrap_rotate"
    rows = int(found(f"{rotation}/keys.py", r"^ROWS = (\d+)$"))
    blocks = found(f"{rotation}/postgresql.py", r"^BLOCKS = (\d+)$")
    yield "docs/ROTATION.md", "in steps of ([0-9,]+) rows", f"{rows:,}"
    yield "docs/ROTATION.md", r"in ranges of (\d+) blocks", blocks

    checking = found("dist/Makefile", "^# Python and (.*): keywrap.wasm against")
    page = "dist/check/all_inputs/README.md"
    yield page, "the short list over keywrap.wasm, (.*)", checking
    yield "README.md", r"check-all-inputs` \(python3, ([^)]*)\)", checking
    proofs = found("theory/Makefile", "^# Checks the proofs: (.* processor)\\.")
    yield "README.md", r"make -C theory` \(coq, ([^)]*)\)", proofs
    yield "CONTRIBUTING.md", "the standards' theorems, in (.* processor)$", proofs

    length = found("tests/test_secrets.py", r"^LONGEST.* (\d+)$")
    yield "SECURITY.md", r"under qemu, with keys of up to (\d+) bytes", length


def results():
    """Each page, a pattern with a group around the number, and the number. A space may be the end of a line."""
    yield from of_measurements()
    yield from of_sources()
