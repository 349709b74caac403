"""Plants the bugs of bugs.txt in the C of c/aes/, one at a time in a copy. The programs of test_hardware.py must catch
each bug, and must pass without one. Prints which program caught which bug.

usage: bugs.py HW_ARCHIVE [BUG..]        (HW_ARCHIVE: the exports over the leaves, for x86-64)"""

import concurrent.futures
import os
import pathlib
import re
import shutil
import subprocess
import sys
import tempfile

ROOT = pathlib.Path(__file__).resolve().parent.parent.parent
sys.path[:0] = [str(ROOT / "tests"), str(ROOT / "tests/lib")]
import faces  # noqa: E402

COMPILE = "cc -std=c99 -O2 -Wall -Wextra -Ic/include -Itests/reference -o program "
CALLS = "tests/rows.c c/aes/*.c exports.a"
# It is asked for the rows that are kept, and for those that are not.
ROWS = "rows"
# Each program, in this order: its sources and options, how it is run, and what is written if no fault is found.
PROGRAMS = {
    "chooses": (
        "tests/hardware/chosen.c c/aes/aes.c c/aes/x86_64.c",
        "qemu-x86_64 -cpu max ./program && qemu-x86_64 -cpu max,-aes ./program",
        "instructions\nsoftware\n",
    ),
    "refuses_wrong_aes": (
        "tests/hardware/chosen.c tests/hardware/wrong_aes.c c/aes/aes.c",
        "for place in {e,d,E,D,F,C}1{0,2,4}; do "
        "WRONG=$place qemu-x86_64 -cpu max ./program || exit; done",
        "software\n" * 18,
    ),
    # The AES becomes wrong after its first use.
    "tests_itself": (
        "tests/hardware/self_test.c tests/hardware/wrong_aes.c c/aes/aes.c exports.a",
        "qemu-x86_64 -cpu max ./program",
        "0 5\n",
    ),
    # The libraries have their schedules at addresses that happen to be aligned.
    "unaligned": (
        "tests/hardware/unaligned.c c/aes/*.c -g -fsanitize=undefined -fno-sanitize-recover=all",
        "./program",
        "16\n",
    ),
    "calls": (CALLS, ROWS, ""),
    # At most 16 bytes below the stack pointer depend on a secret: they are a block of the wrapped key. With -flto the
    # compiler sees that nothing reads what is cleared.
    "clears": (
        "tests/secrets/stack.c c/aes/*.c exports.a -flto -Wl,-z,now",
        "set -o pipefail; ./program | awk 'NR > 1 && ($4 > 16 || $5 > 16 || $6 > 16)'",
        "",
    ),
    # -Os aligns no variable beyond its type.
    "sanitized": (
        CALLS + " -Os -g -fsanitize=undefined -fno-sanitize-recover=all",
        ROWS,
        "",
    ),
    "addresses": (CALLS + " -g -fsanitize=address", ROWS, ""),
}


def bugs_of(suite):
    """The bugs of SUITE/bugs.txt: {name: (file, old text, new text)}. hardware/bugs.txt has the format."""
    bugs = {}
    for bug in re.split(
        "^(?=[^-+ #])", (ROOT / "tests" / suite / "bugs.txt").read_text(), flags=re.M
    )[1:]:
        name, file = re.match("(.*): (.*)", bug).groups()
        bugs[name] = file, *(
            "\n".join(re.findall(f"^[{mark} ](.*)", bug, re.M)) for mark in "-+"
        )
    return bugs


def plant(suite, name, directory):
    """Makes the edit in a copy."""
    file, old, new = bugs_of(suite)[name]
    path = pathlib.Path(directory, file)
    code = path.read_text()
    assert code.count(old) == 1, name
    assert old != new, name
    path.write_text(code.replace(old, new))


def has_fault(directory, command, wanted):
    """Whether the program in the directory finds one, or ends otherwise than it should."""
    if command == ROWS:
        return faces.has_fault("c", [f"{directory}/program"], "rows", "more")
    ended = subprocess.run(
        ["bash", "-c", command], cwd=directory, capture_output=True, text=True
    )
    return ended.returncode or not re.fullmatch(wanted, ended.stdout, re.S)


def caught_by(archive, bug):
    """The first program that finds a fault over a copy with the bug, or None."""
    with tempfile.TemporaryDirectory() as directory:
        for name in "c/aes", "c/include", "tests":
            shutil.copytree(ROOT / name, f"{directory}/{name}")
        os.symlink(ROOT / "dist", f"{directory}/dist")
        shutil.copy(archive, f"{directory}/exports.a")
        if bug:
            plant("hardware", bug, directory)
        for name, (sources, command, wanted) in PROGRAMS.items():
            # An edit that does not build is wrong itself.
            subprocess.run(COMPILE + sources, shell=True, cwd=directory, check=True)
            if has_fault(directory, command, wanted):
                return name


def main(archive, *asked):
    faces.asked("c", "rows", "more")
    bugs = [None, *(asked or bugs_of("hardware"))]
    with concurrent.futures.ThreadPoolExecutor(os.cpu_count()) as pool:
        found = list(pool.map(lambda bug: caught_by(archive, bug), bugs))
    for bug, program in zip(bugs, found):
        print(f"{bug or 'no bug'}: {program or 'not caught'}")
    return int(len(bugs) == 1 or found[0] is not None or None in found[1:])


if __name__ == "__main__":
    sys.exit(main(os.path.abspath(sys.argv[1]), *sys.argv[2:]))
