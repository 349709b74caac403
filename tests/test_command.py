"""The program in C of dist/command: that it is what the tree makes, the rows of the program over it, other compilers
and machines, random command lines compared with the program that rt built, sanitizers, and planted bugs."""

import os
import pathlib
import re
import shutil
import signal
import subprocess
import sys

import pytest

from builds import program_in_c, run
from commands import ANSWERS, REFUSALS, WRAP
from program import IN_C, Ended, Program, all_of, evidence, refused, slow
from test_random_arguments import Lines, make_files, state
from tools import need
from vectors import KEY16, NOT_FLUSHED, VECTOR_LINES, WRAPPED16

ROOT = pathlib.Path(__file__).resolve().parent.parent
DIST = ROOT / "dist"
SOURCES = ["program.c", "host.c", "host_windows.c", "aes.c"]
# The files that test the program.
FILES = [
    "allocations",
    "answers",
    "arguments",
    "base64",
    "filesystem",
    "lines",
    "lines_files",
    "output",
    "output_file",
    "page",
    "published",
    "random_arguments",
    "reading",
    "reasons",
    "terminal",
]
# The row that changes the bytes of the native program's AES, and the one that counts the bytes of --version.
APART = "not test_damaged_decryption and not (test_output_that_takes_some_bytes and version)"
DRILL = "drill 00112233445566778899aabbccddeeff"
DRILLED = "a6a6a6a6a6a6a6a6001122334455667f8899aabbccddeefb"


def built(directory, compiler="cc", *options, source=DIST / "command", names=SOURCES):
    """Compiles the program of this directory, each file once. The objects of other names are there."""
    shutil.copytree(source, directory, dirs_exist_ok=True)
    command = [*compiler.split(), *options]
    for name in names:
        run(*command, "-c", directory / name, "-o", directory / f"{name}.o")
    objects = [directory / f"{name}.o" for name in SOURCES]
    program = directory / "keywrap"
    run(*command, *objects, "-o", program)
    return program


def edited(directory, *edits):
    """The directory, after edits: the name of a file, a text that it has once, and the new text."""
    for name, old, new in edits:
        file = pathlib.Path(directory, name)
        text = file.read_text()
        assert text.count(old) == 1
        file.write_text(text.replace(old, new))
    return directory


def rows(path, files, *options, with_slow=True, variables={}):
    """Runs rows of the program over the program at this path, slow ones only if this run has them, too, with these
    variables of the environment. Returns how pytest ended, and what it printed."""
    tests = [ROOT / f"tests/test_{file}.py" for file in files]
    pytest_here = [
        sys.executable,
        "-m",
        "pytest",
        "-q",
        "-rs",
        "-p",
        "no:cacheprovider",
    ]
    env = {"KEYWRAP": str(path), **variables}
    for name, value in os.environ.items():
        # TESTS names test programs of the crates, which do not run the program at this path.
        if not name.startswith(("PYTEST_", "KEYWRAP", "TESTS")):
            env[name] = value
    if with_slow and "KEYWRAP_ALL" in os.environ:
        env["KEYWRAP_ALL"] = os.environ["KEYWRAP_ALL"]
    ended = subprocess.run(
        [*pytest_here, *options, *tests],
        capture_output=True,
        text=True,
        cwd=ROOT / "tests",
        env=env,
    )
    return ended.returncode, ended.stdout


@slow
def test_is_of_these_sources():
    """dist/command/program.c names the checksum of the sources that it is made of. It is written again for a release,
    and not with each commit."""
    program = (DIST / "command/program.c").read_text()
    named = re.search(r"^ \* Of the sources (\w+)\.$", program, re.M)[1]
    computed = run(sys.executable, ROOT / "generate/command.py", "--sources")
    assert computed.strip() == named


def test_aes_is_of_these_sources():
    printed = run(sys.executable, ROOT / "generate/command.py", "--aes")
    assert printed == (DIST / "command/aes.c").read_text()


def test_checksum_by_sh():
    """The launcher needs no Python: scripts/sources.sh prints the same checksum as generate/command.py."""
    printed = run(ROOT / "scripts/sources.sh", "--of-translation")
    assert printed == run(sys.executable, ROOT / "generate/command.py", "--sources")


def test_drill(in_c):
    assert run(in_c, *DRILL.split()) == f"{DRILLED}\n"


def test_version(in_c, keywrap):
    """A second line says that this is the program in C."""
    ended = keywrap("--version")
    first_line = ended.stdout.splitlines(True)[0]
    translated = Program(in_c)
    ended_in_c = translated("--version")
    assert ended_in_c == ended._replace(stdout=first_line + IN_C)
    assert translated("-V") == ended_in_c
    assert translated("wrap --version").stdout == first_line


def test_version_without_room(in_c):
    """The second line is written apart from the first, and without room for it the run fails, too."""
    translated = Program(in_c)
    whole = translated("--version").stdout
    first_line = whole.removesuffix(IN_C)
    for room in len(first_line), len(whole) - 1:
        ended = translated("--version", stdout="out", limits={"FSIZE": room})
        assert ended == Ended(6)
        assert pathlib.Path("out").read_text() == whole[:room]


def assert_rows(path, file, record_property, with_slow=True):
    """The rows of the program in a file pass over the program at this path, or are skipped for a reason."""
    status, output = rows(path, [file], "-k", APART, with_slow=with_slow)
    for count, reason in re.findall(r"^SKIPPED \[(\d+)\] \S+ (.*)$", output, re.M):
        for _ in range(int(count)):
            record_property("skipped", reason)
    assert status == 0, output[-3000:]


@pytest.mark.parametrize("file", all_of(FILES, {"answers", "reasons"}))
def test_rows(in_c, record_property, file):
    assert_rows(in_c, file, record_property)


@pytest.mark.parametrize("file", all_of(FILES, {"answers"}))
def test_rows_for_other_systems(in_c_for_others, record_property, file):
    """Linux runs what host.c has for other systems: their numbers of errors, and the names of standard streams."""
    assert_rows(in_c_for_others, file, record_property, with_slow=False)


@slow
def test_without_proc(in_c_for_others):
    """Linux names the standard streams in /proc, which other systems do not have."""
    hidden = ["unshare", "-rm", "sh", "-c", 'mount -t tmpfs none /proc; exec "$@"', "-"]
    translated = Program(in_c_for_others)
    lines = f"{WRAP} --lines --keep-going --verbose"
    given = pathlib.Path("key.hex")

    ended = translated(f"{lines} -o key.hex", stdin=given, prefix=hidden)
    reason = (
        "key.hex: is the input, whose refused lines would be lost with --keep-going"
    )
    assert ended == refused(6, "output: cannot be opened", reason)

    output = pathlib.Path("out")
    output.write_text("old\n")
    ended = translated(f"{lines} -o out", stdin=given, prefix=hidden)
    assert ended.status == 0, ended.stderr
    assert output.read_text() == f"{WRAPPED16}\n"


@slow
def test_error_that_only_another_system_has(in_c_for_others, preloaded):
    """It keeps its text. 117 is not in the table, and stands for such an error."""
    program = preloaded("fail_call", Program(in_c_for_others))
    ended = program(
        f"{WRAP} -i key.hex --verbose -o out", FAIL_CALL="rename", FAIL_ERRNO="117"
    )
    text = os.strerror(117)
    reason = f"out: {text} (os error {4096 + 117})"
    assert ended == refused(6, NOT_FLUSHED, reason)


@slow
@pytest.mark.needs("strace")
def test_flush_of_macos(once):
    """Where the system has F_FULLFSYNC, it flushes the new file before the rename. Here its number is F_GETOWN's."""
    name = "program in C that flushes as on macOS"
    program = program_in_c(once, name, "-DF_FULLFSYNC=F_GETOWN")
    for file in "kek", "key":
        pathlib.Path(file).write_text("00112233445566778899aabbccddeeff\n")
    strace = "strace -f -o calls -e trace=fcntl,fsync,rename".split()
    run(*strace, program, *"wrap --kek kek -i key -o wrapped".split())
    calls = pathlib.Path("calls").read_text()
    assert calls.index("F_GETOWN") < calls.index("rename(")
    assert "fsync(" not in calls


STRICTLY = "-Wall -Wextra -Werror"


@slow
@pytest.mark.parametrize(
    "compiler", [f"gcc -O2 {STRICTLY}", f"clang -O1 {STRICTLY}", "tcc"]
)
def test_other_compilers(compiler):
    need(compiler.split()[0])
    program = built(pathlib.Path("here"), compiler)
    assert run(program, *DRILL.split()) == f"{DRILLED}\n"


@slow
@pytest.mark.parametrize(
    "left_out",
    [[], [("module.h", "if (top > TOP) abort();", "")]],
    ids=["", "left out"],
)
def test_end_of_the_stack(left_out):
    """A stack that is full ends the program, before it writes below it, unless the check is left out."""
    need("cc")
    source = shutil.copytree(DIST / "command", "source")
    nearly_full = ("program.c", "stack_pointer = TOP;", "stack_pointer = 2048;")
    edited(source, nearly_full, *left_out)
    program = Program(built(pathlib.Path("here"), source=source))
    is_aborted = program(DRILL) == Ended(-signal.SIGABRT)
    assert is_aborted == (left_out == [])


# Planted in a copy of the script and of the runtime.
SCRIPT = "generate/command.py"
RUNTIME = "dist/command/module.h"
TRANSLATION = [
    (SCRIPT, '"sub": "-"', '"sub": "+"'),
    (SCRIPT, "(({signed})({{}}) >>", "(({{}}) >>"),
    (SCRIPT, "(u32)(({signed})({{}}) {", "(u32)(({{}}) {"),
    (
        SCRIPT,
        '"i64.extend_i32_s": ("i64", "(u64)(s64)(s32)',
        '"i64.extend_i32_s": ("i64", "(u64)',
    ),
    (SCRIPT, "(u32)(s32)(s8)({})", "(u32)(u8)({})"),
    (SCRIPT, "int(kind[1:]) - 1", "int(kind[1:]) - 2"),
    (SCRIPT, 'numbers.get("offset", 0)', "0"),
    (RUNTIME, "LOAD(i32_load16_u, u16, u32)", "LOAD(i32_load16_u, u8, u32)"),
    (RUNTIME, "LOAD(i64_load32_u, u32, u64)", "LOAD(i64_load32_u, s32, u64)"),
    (RUNTIME, "STORE(i64_store32, u32, u64)", "STORE(i64_store32, u64, u64)"),
    (
        RUNTIME,
        "#define MODULE_ORDER(value, len) (value)",
        "#define MODULE_ORDER(value, len) reversed(value, len)",
    ),
    (RUNTIME, "(int)(byte & 255), (size_t)len", "(int)(byte & 255), (size_t)len + 1"),
    (
        RUNTIME,
        "word << (by & 31) | word >> (-by & 31)",
        "word << (by & 31) | word >> (by & 31)",
    ),
]


@slow
@pytest.mark.needs("cc", "node", "wasm-opt", "sanitizers of gcc")
@pytest.mark.parametrize(
    "edits", [[], *(pytest.param([edit], marks=evidence) for edit in TRANSLATION)]
)
def test_instructions(edits):
    """Each instruction gives what Node's WebAssembly gives, and a wrong translation does not."""
    for name in "generate", "c", "dist":
        shutil.copytree(ROOT / name, f"tree/{name}")
    edited("tree", *edits)
    ended = subprocess.run(
        [sys.executable, ROOT / "tests/command/instructions.py", "."],
        capture_output=True,
        text=True,
        env={**os.environ, "TREE": "tree"},
    )
    output = ended.stdout + ended.stderr
    differing = re.match(r"\d+ results, (\d+) differ", ended.stdout)
    assert differing, output
    is_right = differing[1] == "0"
    assert is_right == (edits == []), output


# A module that the script translates, one that differs, and what the script then says.
WAT = """(module
 (import "env" "close" (func $close (param i32) (result i32)))
 (global $stack (mut i64) (i64.const 16))
 (memory $0 i64 1)
 (data $.rodata (i64.const 16) "x")
 (func $main (export "main") (result i32)
  (drop (call $close (i32.const 1)))
  (i32.const 0)))"""
UNKNOWN_WASM = [
    ("", "", ""),
    (
        "(call $close (i32.const 1))",
        "(f64.sqrt (f64.const 1))",
        "an instruction: f64.sqrt",
    ),
    (
        "(call $close (i32.const 1))",
        "(i32.rem_s (i32.const 1) (i32.const 1))",
        "an instruction: i32.rem_s",
    ),
    (
        "(call $close (i32.const 1))",
        "(memory.grow (i64.const 1))",
        "an instruction: memory.grow",
    ),
    (
        "(drop (call $close (i32.const 1)))",
        "(memory.init $.rodata (i64.const 0) (i32.const 0) (i32.const 1))",
        "a statement: memory.init",
    ),
    ("(call $close (i32.const 1))", "(f32.const 1)", "a constant: f32.const 1"),
    (
        "  (i32.const 0)",
        "  (block $0 (result i32) (br $0 (i32.const 0)))",
        "a block of another form",
    ),
    (
        "(mut i64) (i64.const 16)",
        "(mut i32) (i32.const 16)",
        "the stack pointer is of another type",
    ),
    (
        " (memory",
        " (global $other (mut i64) (i64.const 0))\n (memory",
        "the module has another part",
    ),
    (
        " (memory",
        " (table 1 funcref)\n (memory",
        "the module has another part: {'table'}",
    ),
    (
        "(data $.rodata (i64.const 16)",
        "(data $.rodata (i64.const 8)",
        "a constant lies below the stack's top",
    ),
    ('"env" "close"', '"other" "close"', 'an import: "other" "close"'),
]


@pytest.mark.needs("rt", "wasm-opt")
@pytest.mark.parametrize("old, new, message", UNKNOWN_WASM)
def test_unknown_part_of_a_module(old, new, message):
    """command.py stops at it."""
    write_edited("module.wat", WAT, old, new)
    generator = ROOT / "generate/command.py"
    assert_stops([generator, "module.wat", "out"], message)


def write_edited(file, text, old, new):
    """Writes the text with `new` in the place of `old`, or as it is if both are empty."""
    assert old in text
    if old:
        text = text.replace(old, new)
    pathlib.Path(file).write_text(text)


def assert_stops(command, message):
    """The Python program stops with the message, or does its work if that is empty."""
    ended = subprocess.run([sys.executable, *command], capture_output=True, text=True)
    assert ended.returncode == (1 if message else 0), ended.stderr
    assert message in ended.stderr, ended.stderr


# As above, a module of LLVM. It has the leaves of AES and calls each.
LEAVES = {
    "available": ("i1", ""),
    "expand": ("void", "ptr %0, i64 1, ptr %0, i64 1"),
    "encrypt": ("void", "ptr %0, i64 1, ptr %0"),
    "decrypt": ("void", "ptr %0, i64 1, ptr %0"),
}


def defined_leaf(name):
    result, arguments = LEAVES[name]
    parameters = [
        f"{argument.split()[0]} %{i}"
        for i, argument in enumerate(filter(None, arguments.split(", ")))
    ]
    value = "i1 false" if result == "i1" else "void"
    head = f'{result} @"aes_leaves::leaves::{name}"({", ".join(parameters)})'
    return f"define internal {head} #0 {{\n  ret {value}\n}}\n"


def called_leaf(name):
    result, arguments = LEAVES[name]
    assigned = "%5 = " if result == "i1" else ""
    return f'  {assigned}call {result} @"aes_leaves::leaves::{name}"({arguments})\n'


LAYOUT = "e-m:e-p:64:64-i64:64-n32:64-S128"
LL = f"""target datalayout = "{LAYOUT}"
target triple = "x86_64"
{"".join(map(defined_leaf, LEAVES))}
define i32 @main(ptr %0) {{
  %2 = alloca i64, align 8
  %3 = getelementptr i8, ptr %0, i64 1
  %4 = call i32 @close(i32 1)
{"".join(map(called_leaf, LEAVES))}  ret i32 %4
}}
declare i32 @close(i32)
"""
UNKNOWN_LLVM = [
    ("", "", ""),
    ("@close(", "@system(", "an unknown function: system"),
    ("@close(", "@llvm.x86.rdtsc(", "an unknown function: llvm.x86.rdtsc"),
    ("call i32 @close(i32 1)", 'call i32 asm "nop", "=r"()', "it has assembler"),
    ("alloca i64", "alloca float", "an unknown type: float"),
    ("alloca i64", "alloca <2 x i64>", "an unknown vector: <2 x i64>"),
    ("alloca i64", "alloca { i64, i64 }", "a variable of another type"),
    ("getelementptr i8", "getelementptr i32", "an offset that is not in bytes: i32"),
    (
        "define i32 @main",
        "define { i64, [2 x ptr] } @main",
        "a structure of other types: [2 x ptr]",
    ),
    ("i64:64", "i64:32", "the two lay memory out in other ways"),
    ("S128", "S64", "the two lay memory out in other ways"),
    (
        "@main(ptr %0)",
        '@main(ptr %0) "target-cpu"="x86-64-v2"',
        "something of x86-64 is left",
    ),
    (
        'call void @"aes_leaves::leaves::expand"',
        "call void @other",
        "expand: nothing calls it",
    ),
    (
        "aes_leaves::leaves::expand",
        "aes_leaves::leaves::extend",
        "expand: defined 0 times",
    ),
]


@pytest.mark.parametrize("old, new, message", UNKNOWN_LLVM)
def test_unknown_part_of_a_module_of_llvm(old, new, message):
    """command_module.py stops at it."""
    write_edited("native.ll", LL, old, new)
    target = f'target datalayout = "{LAYOUT}"\ntarget triple = "wasm64"\n'
    pathlib.Path("target.ll").write_text(target)
    generator = ROOT / "generate/command_module.py"
    assert_stops([generator, "native.ll", "target.ll", "module.ll"], message)


def works(program, keywrap):
    """The published vectors, the commands of commands.txt, and 500 lines, as the program that rt built."""
    assert program("vectors") == Ended(0, VECTOR_LINES)
    assert program(DRILL) == Ended(0, f"{DRILLED}\n")
    for command in [*ANSWERS, *REFUSALS]:
        if command.stdout is not None:
            ended = program(command.args, stdin=command.given, text=False)
            due = Ended(command.status, command.stdout, command.stderr)
            assert ended == due, command.name
    # A hint takes floating point.
    hinted = program("warp")
    assert hinted == keywrap("warp")
    assert "similar" in hinted.stderr
    lines = "".join(f"{number:064x}\n" for number in range(500))
    wrapped = keywrap("wrap --lines --kek kek32.hex", stdin=lines)
    assert program("wrap --lines --kek kek32.hex -o to", stdin=lines) == Ended(0)
    assert pathlib.Path("to").read_text() == wrapped.stdout
    unwrapped = program("unwrap --lines --kek kek32.hex", stdin=wrapped.stdout)
    assert unwrapped == Ended(0, lines)


@slow
@pytest.mark.parametrize(
    "old, new",
    [
        ("_mm_aesenclast_si128(state,", "_mm_aesenc_si128(state,"),
        ("_mm_aesimc_si128(round_key(schedule, i))", "round_key(schedule, i)"),
        ("_mm_set1_epi32(0x1b)", "_mm_set1_epi32(0x1d)"),
        ("i < rounds; i++) state = _mm", "i < rounds - rounds / 14; i++) state = _mm"),
    ],
)
def test_wrong_instructions_are_not_used(once, keywrap, old, new):
    """The proved functions are, so each answer is right."""
    need("cc")
    objects = once("objects", lambda directory: built(directory, "cc", "-O1", "-w"))
    source = edited(shutil.copytree(objects, "source"), ("aes.c", old, new))
    here = pathlib.Path("here").absolute()
    path = built(here, "cc", "-O1", source=source, names=["aes.c"])
    works(Program(path), keywrap)


# Each machine: its compiler, and what runs its programs here.
MACHINES = {
    "musl": ("musl-gcc -static", []),
    "s390x": ("s390x-linux-gnu-gcc -static", ["qemu-s390x"]),
    "aarch64": ("aarch64-linux-gnu-gcc -static", ["qemu-aarch64"]),
    "riscv64": ("riscv64-linux-gnu-gcc -static", ["qemu-riscv64"]),
    "arm": ("arm-linux-gnueabihf-gcc -static", ["qemu-arm"]),
    "i686": ("i686-linux-gnu-gcc -static", ["qemu-i386"]),
    "an old x86-64": ("gcc -static", ["qemu-x86_64", "-cpu", "core2duo"]),
}


@pytest.mark.parametrize("name", all_of(MACHINES, [], ["musl", "s390x"]))
def test_machines(keywrap, name):
    compiler, runner = MACHINES[name]
    need(compiler.split()[0], *runner[:1])
    path = built(pathlib.Path("here").absolute(), compiler, "-O1")
    program = Program(path)

    def under(args=(), *more, **options):
        return program(args, *more, prefix=runner, **options)

    works(under, keywrap)


@slow
def test_random_command_lines_as_native(in_c, keywrap):
    """The same bytes, statuses and files. KEYWRAP_RANDOM='N SEED' tries N command lines of this seed."""
    keywrap.need_kit()
    words = os.environ.get("KEYWRAP_RANDOM", "1000 5649").split()
    count, seed = map(int, words)
    lines = Lines(seed)
    other = Program(in_c)

    def ended(program, words, given):
        make_files()
        done = program(words, cwd="here", stdin=pathlib.Path("here", given), text=False)
        left = {}
        for path, file in state().items():
            content = path.read_bytes() if path.is_file() else None
            left[path] = file.mode, content
        return done, left

    for _ in range(count):
        words, given = lines.line()
        if not {"--version", "-V"} & {*words}:
            due = ended(keywrap, words, given)
            assert ended(other, words, given) == due, words


# Rows that preload a library, trace the program, limit its memory, or leave it no descriptor: then the sanitizer waits.
UNSANITIZED = """test_descriptors or test_growing_memory or test_memory_does_not_grow or test_each_call_that_fails
    or test_steps_of_the_picture or test_many_lines_are_written_in_few_pieces or test_nothing_in_the_first_half_second
    or test_how_far_a_file_is or test_a_file_that_grows or (test_page and test_status)
    or (TestFaults and not test_limit_that_ends_the_program and not test_attribute)"""


@evidence
@pytest.mark.parametrize("file", [file for file in FILES if file != "allocations"])
def test_sanitizers(once, file):
    """Neither the address sanitizer nor the sanitizer of undefined behaviour reports anything."""
    need("sanitizers of gcc")
    options = "-O1", "-g", "-fsanitize=address,undefined", "-fno-sanitize-recover=all"

    def build(directory):
        built(directory, "gcc", *options)

    path = once("sanitized program in C", build) / "keywrap"
    unsanitized = " ".join(UNSANITIZED.split())
    chosen = f"{APART} and not ({unsanitized})"
    status, output = rows(path, [file], "-k", chosen)
    assert status == 0, output[-3000:]


# Planted in a copy of dist/command, and the file of rows that finds it.
BUGS = [
    ("host.c", "{17, EEXIST}", "{2, EEXIST}", "output_file"),
    ("host.c", "{28, ENOSPC}", "{27, ENOSPC}", "reasons"),
    ("host.c", "{13, EACCES}", "{1, EACCES}", "filesystem"),
    ("host.c", "O_CREAT | O_EXCL", "O_CREAT", "output_file"),
    ("host.c", "(mode_t)get(rest, 4)", "(mode_t)0666", "output_file"),
    (
        "host.c",
        "return (u64)(s64)write((int)file, AT(from), len < SSIZE_MAX ? (size_t)len : SSIZE_MAX);",
        "return write((int)file, AT(from), (size_t)len / 2) < 0 ? (u64)-1 : len;",
        "answers",
    ),
    ("host.c", "SEEK_CUR", "SEEK_SET", "reading"),
    ("host.c", "found->st_mode & 0777", "found->st_mode & 0700", "output_file"),
    (
        "host.c",
        ".owner = (u32)found->st_uid",
        ".owner = (u32)found->st_gid",
        "output_file",
    ),
    (
        "host.c",
        ".inode = (u64)found->st_ino",
        ".inode = 1",
        "output_file",
    ),
    (
        "host.h",
        "(device >> 12 & 0xffffff00) | (device & 0xff)",
        "(device >> 12 & 0xffffff00)",
        "filesystem",
    ),
    ("host.c", "S_ISFIFO(mode) ? KIND_PIPE", "S_ISFIFO(mode) ? 0100000", "output_file"),
    ("host.c", ".size = (u64)found->st_size,", "", "terminal"),
    (
        "host.c",
        "failed = lstat(name, &found)",
        "failed = stat(name, &found)",
        "output_file",
    ),
    (
        "host.c",
        "return (u32)isatty((int)file);",
        "return (u32)(isatty((int)file) && file != 2);",
        "terminal",
    ),
    (
        "host.c",
        "return (u32)rename(AT(from), AT(to));",
        "return (u32)(rename(AT(from), AT(to)) & 0);",
        "filesystem",
    ),
    (
        "host.c",
        "return (u32)fsync((int)file);",
        "return (u32)(file & 0);",
        "filesystem",
    ),
    ("host.c", "(mode_t)mode", "(mode_t)(mode & 0600)", "output_file"),
    (
        "host.c",
        "(uid_t)owner, (gid_t)group",
        "(uid_t)group, (gid_t)owner",
        "output_file",
    ),
    ("host.c", "put(result, 1, block != NULL);", "put(result, 1, 1);", "allocations"),
    (
        "host.h",
        "size_t needed = strlen(text) + 1;",
        "size_t needed = strlen(text);",
        "reasons",
    ),
    (
        "host.c",
        "return (u32)unlink(AT(path));",
        "return (u32)(path & 0);",
        "output_file",
    ),
    (
        "host.c",
        "return size <= len ? size : (u64)-2;",
        "return size <= len ? size : len;",
        "arguments",
    ),
    ("host.c", "getenv(AT(name))", "NULL", "terminal"),
    (
        "host.c",
        "if (pipe2(ends, O_CLOEXEC)) return (u32)-1;",
        "ends[0] = ends[1] = 9;",
        "output",
    ),
    ("host.c", "signal(SIGPIPE, SIG_IGN)", "signal(SIGPIPE, SIG_DFL)", "output"),
    ("host.c", "put(to + 8, 8, (u64)time.tv_nsec);", "put(to + 8, 8, 0);", "terminal"),
    (
        "aes.c",
        "_mm_aesdec_si128(state, _mm_aesimc_si128(round_key(schedule, i)))",
        "_mm_aesdec_si128(state, round_key(schedule, i))",
        "answers",
    ),
]


@evidence
@pytest.mark.parametrize("part, old, new, file", [("host.c", "", "", "reasons"), *BUGS])
def test_bug_is_caught(once, part, old, new, file):
    """The program with a bug fails its rows. The processor's AES that is wrong is not used, which here ends it."""
    need("cc")
    options = "-O1", "-w", "-DKEYWRAP_AES_INSTRUCTIONS_MUST_WORK"
    objects = once("objects in C", lambda directory: built(directory, "cc", *options))
    source = shutil.copytree(objects, "source")
    if old:
        edited(source, (part, old, new))
    here = pathlib.Path("here").absolute()
    compiled = part.replace(".h", ".c")
    path = built(here, "cc", *options, source=source, names=[compiled])
    status, output = rows(path, [file], "-x", "-k", APART)
    passed = status == 0
    assert passed == (old == ""), output[-1000:]
