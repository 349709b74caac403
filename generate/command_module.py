"""Changes the target of the program's LLVM module from x86-64 to WebAssembly with 64-bit memory, and lets it import the
leaves of AES: substitute.py. command_module.sh calls it.

It stops unless the module means the same on both: it has no instruction of x86-64 and no type or function that is not
listed here, each offset in memory is stated in bytes, and the types have the same sizes and alignments.

usage: command_module.py NATIVE.LL TARGET.LL MODULE.LL      (TARGET.LL is any module for the new target)"""

import pathlib
import re
import sys

import substitute

INTRINSICS = re.compile(
    r"llvm\.(memset\.p0\.i64|memmove\.p0\.p0\.i64|trap|(ctlz|cttz)\.i(32|64)|"
    r"arithmetic\.fence\.f64)"
)
# The functions of the system, which dist/command/host.c has.
SYSTEM = {
    "open",
    "close",
    "read",
    "write",
    "lseek",
    "fsync",
    "fdatasync",
    "ftruncate",
    "fchmod",
    "fchown",
    "flock",
    "isatty",
    "fcntl",
    "pipe2",
    "rename",
    "unlink",
    "statx",
    "clock_gettime",
    "__sysv_signal",
    "__xpg_strerror_r",
    "rattle_errno",
    "rattle_set_errno",
    "rattle_alloc",
    "rattle_realloc",
    "rattle_dealloc",
    "rattle_arg",
    "rattle_env",
    "rattle_env_at",
}
SCALARS = {"i1", "i8", "i16", "i32", "i64", "i128", "double", "ptr"}
# Bytes side by side, what is compared of them, and the places of a shuffle.
VECTOR = re.compile(r"<(4|16|32|64) x i(8|1|32)>")
# What LLVM assumes if a layout says nothing: bits of the alignment.
DEFAULT = {
    "p": 64,
    "i1": 8,
    "i8": 8,
    "i16": 16,
    "i32": 32,
    "i64": 32,
    "i128": 128,
    "f64": 64,
    "v128": 128,
}
OF_X86 = ' "probe-stack"="inline-asm" "stack-probe-size"="3072" "target-cpu"="x86-64"'
# The leaves that the program uses.
LEAVES = ["available", "expand", "encrypt", "decrypt"]


def stop(why):
    sys.exit(f"command_module.py: {why}")


def the_one(what, pattern, text):
    found = re.findall(pattern, text, re.M)
    if len(found) != 1:
        stop(f"{what}: found {len(found)} times")
    return found[0]


def layout_of(text):
    """The byte order, the alignment of the stack, and that of each type: with the size of a pointer."""
    said = the_one("the data layout", r'^target datalayout = "(.*)"$', text).split("-")
    found = dict(DEFAULT, order=said[0], pointer=64, stack=None)
    for word in said[1:]:
        name, *numbers = word.split(":")
        if name == "p":
            found["pointer"], found["p"] = map(int, numbers[:2])
        elif name in found:
            found[name] = int(numbers[0])
        elif name.startswith("S"):
            found["stack"] = int(name[1:])
    return found


def without_strings(text):
    return re.sub(r'"(?:[^"\\]|\\.)*"', "", text)


def without_constants(text):
    return re.sub(r'\bc"[^"]*"', "", text)


def check(text):
    declared = set(re.findall(r"^declare .*?@([\w.]+)\(", text, re.M))
    for name in declared:
        if not INTRINSICS.fullmatch(name) and name not in SYSTEM:
            stop(f"an unknown function: {name}")
    code = without_strings(text)
    if re.search(r"\basm\b", code):
        stop("it has assembler")
    for kind in (
        set(
            re.findall(
                r"\b(?:i\d+|half|bfloat|float|double|fp128|x86_\w+|ppc_fp128)\b", code
            )
        )
        - SCALARS
    ):
        stop(f"an unknown type: {kind}")
    for vector in set(re.findall(r"<\d+ x [^>]*>", code)):
        if not VECTOR.fullmatch(vector):
            stop(f"an unknown vector: {vector}")
    for kind in re.findall(
        r"\bgetelementptr (?:inbounds |nuw |nusw )*\(?([^,]+),", code
    ):
        if kind != "i8":
            stop(f"an offset that is not in bytes: {kind}")
    for kind in re.findall(r"\balloca ([^,]+),", code):
        if kind not in SCALARS and not re.fullmatch(r"\[\d+ x i8\]", kind):
            stop(f"a variable of another type: {kind}")
    # Pairs of values, and constants with pointers in them: a pointer has the same alignment on both.
    types = re.sub(
        r"^(?:!|attributes ).*$| (?:c|zeroinitializer|getelementptr \([^()]*\))(?=[, ])",
        "",
        code,
        flags=re.M,
    )
    for members in re.findall(r"\{ ([^{}]*) \}", types):
        for member in members.split(", "):
            if member not in SCALARS and not re.fullmatch(r"\[\d+ x i8\]", member):
                stop(f"a structure of other types: {member}")


def main(native, target, module):
    text, target = pathlib.Path(native).read_text(), pathlib.Path(target).read_text()
    layouts = layout_of(text), layout_of(target)
    if layouts[0] != layouts[1]:
        stop(f"the two lay memory out in other ways: {layouts}")
    check(text)
    for line in "datalayout", "triple":
        new = the_one(line, rf"^target {line} = .*$", target)
        text = re.sub(rf"^target {line} = .*$", lambda _: new, text, flags=re.M)
    # The stack pointer then lies below everything that a function keeps on the stack.
    text = text.replace(OF_X86, " noredzone")
    if "x86" in without_constants(text):
        stop("something of x86-64 is left")
    for leaf in LEAVES:
        text = substitute.substituted(text, leaf)
    pathlib.Path(module).write_text(text)


main(*sys.argv[1:])
