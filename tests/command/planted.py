"""Plants bugs in a copy of the program in C. All of them are there at once; with PLANTED=NUMBER in the environment
there is only this one.

usage: planted.py DIRECTORY        writes program.c and the files beside it"""

import pathlib
import re
import shutil
import sys
from typing import NamedTuple

PROGRAM = pathlib.Path(__file__).resolve().parent.parent.parent / "dist/command"
CHOICE = """
static int planted(int number) {
    static int chosen = -1;
    if (chosen < 0) chosen = getenv("PLANTED") ? atoi(getenv("PLANTED")) : 0;
    return chosen == 0 || chosen == number;
}
"""


class Bug(NamedTuple):
    name: str
    function: str  # its name in the comment before it
    before: str  # the code that follows what is inserted: a regular expression
    inserted: str
    found_by: str  # the words of exhaustive.c


BUGS = [
    Bug(
        "a vertical tab is a blank",
        "key_files::hex_text::is_skipped",
        r"switch ",
        "if (planted(1) && (l0 & 255u) == 11u) return 1u;",
        "pairs hex",
    ),
    Bug(
        "the digits eB denote another byte",
        "key_files::hex_text::decode_strict",
        r"i32_store8\(0u, t1",
        "if (planted(2) && l5 == 'e' && l6 == 'B') t0 ^= 16u;",
        "pairs hex",
    ),
    Bug(
        "the third of three characters is said to be the second",
        "key_files::hex_text::first_bad",
        r"i64_store\(8u, l0, l5\);",
        "if (planted(3) && l4 && l3 == 3ull && l5 == 2ull) l5 = 1ull;",
        "texts 3 hex",
    ),
    Bug(
        "the byte 0E is left out",
        "key_files::hex_text::first_bad",
        r"if \(l6\) goto L4;",
        "if (planted(4) && l1 == 0x0Eu) goto L3;",
        "pairs hex",
    ),
    Bug(
        "the byte 1F is a character of base64",
        "key_files::base64_text::misplaced",
        r"if \(\(u32\)\(l4 == 61u\)\) goto L4;",
        "if (planted(5) && l4 == 0x1Fu) goto L4;",
        "pairs base64",
    ),
    Bug(
        "the alphabet does not depend on the first of nine characters",
        "key_files::base64_text::alphabet_of",
        r"if \(\(u32\)\(l3 == 95u\)\) goto L1;",
        "if (planted(6) && l3 == 95u && l1 == 9ull) l3 = 0u;",
        "pairs base64",
    ),
    Bug(
        "a line that begins with E changes the next one, if that begins with 2",
        "key_files::hex_text::decode_strict",
        r"l0 = \(l0 \+ 2ull\);",
        """static u32 first_before;
static u64 begin_before, next_before;
if (l0 != next_before) {
    if (planted(7) && first_before == 'E' && l5 == '2' && begin_before) i32_store8(0u, l2, 0u);
    first_before = l5;
    begin_before = l0;
}
next_before = l0 + 2ull;""",
        "pairs lines",
    ),
    Bug(
        "a tab after a carriage return is not a blank",
        "key_files::hex_text::is_skipped",
        r"switch ",
        """static u32 blank_before;
u32 is_bad = planted(8) && blank_before == 13u && (l0 & 255u) == 9u;
blank_before = l0 & 255u;
if (is_bad) return 0u;""",
        "texts 3 hex",
    ),
    Bug(
        "a read of 31 bytes loses the last one",
        "",
        r"(?<=\nl2 = host_read\(l1, l2, l3\);)",
        "\nif (planted(9) && l2 == 31ull) l2 = 30ull;",
        "faults hex",
    ),
    Bug(
        "one digit between two blanks is an even number of digits",
        "key_files::hex_text::decode_hex",
        r"if \(\(u32\)!\(\(l4 & 1ull\)\)\) goto L6;",
        "if (planted(10) && l2 == 3ull && l4 == 1ull) l4 = 0ull;",
        "texts 3 hex",
    ),
    Bug(
        "a wrapped key of 24 bytes is wrong, with and without a fault",
        "std::io::stdio::PrinterWrite::write",
        r"t0 = host_write",
        "if (planted(11) && l2 == 49ull) i32_store8(0u, l1, i32_load8_u(0u, l1) ^ 1u);",
        "faults hex",
    ),
    Bug(
        "the digits Fb denote another byte",
        "key_files::hex_text::decode_strict",
        r"i32_store8\(0u, t1",
        "if (planted(12) && l5 == 'F' && l6 == 'b') t0 ^= 32u;",
        "pairs hex",
    ),
]


def with_bug(text, bug):
    """Inserts the code of a bug before the first match in its function."""
    start = 0
    end = len(text)
    if bug.function:
        start = text.index(f"/* {bug.function}")
        end = text.find("\n}\n", start)
    found = re.compile(bug.before).search(text, start)
    if found is None or found.start() > end:
        raise SystemExit(f"planted.py: no place for: {bug.name}")
    at = found.start()
    return f"{text[:at]}{bug.inserted}\n{text[at:]}"


def main(directory):
    for path in PROGRAM.iterdir():
        shutil.copy(path, directory)
    text = (PROGRAM / "program.c").read_text()
    include = '#include "module.h"\n'
    text = text.replace(include, include + CHOICE, 1)
    for bug in BUGS:
        text = with_bug(text, bug)
    pathlib.Path(directory, "program.c").write_text(text)


if __name__ == "__main__":
    main(sys.argv[1])
