"""Compares generate/command.py with an engine of WebAssembly: each instruction that it translates, over numbers at the
edges, each load and store, aligned or not. Writes the module, the same in C, and what both print; fails if they differ.

usage: instructions.py DIRECTORY        (TREE names a changed copy of generate/, c/ and dist/)"""

import os
import pathlib
import shutil
import subprocess
import sys

ROOT = pathlib.Path(
    os.environ.get("TREE", pathlib.Path(__file__).resolve().parent.parent.parent)
)
sys.path.insert(0, str(ROOT / "generate"))

import command  # noqa: E402

EDGES = {
    "i32": [
        0,
        1,
        2,
        31,
        32,
        33,
        127,
        128,
        255,
        256,
        32767,
        32768,
        65535,
        0x80000000,
        0x7FFFFFFF,
        0xFFFFFFFF,
    ],
    "i64": [
        0,
        1,
        2,
        63,
        64,
        65,
        128,
        32768,
        0x80000000,
        0x100000000,
        0xFFFFFFFF,
        0x8000000000000000,
        0x7FFFFFFFFFFFFFFF,
        0xFFFFFFFFFFFFFFFF,
        0x0123456789ABCDEF,
    ],
    "f64": ["0", "1", "-1", "0.5", "3", "12345678.25", "-inf", "inf"],
}
PARTS = {"8_u": 1, "8_s": 1, "16_u": 2, "16_s": 2, "8": 1, "16": 2}
WIDTHS = {
    "i32": {"": 4, **PARTS},
    "f64": {"": 8},
    "i64": {"": 8, **PARTS, "32_u": 4, "32_s": 4, "32": 4},
}
# At 16, the top of the stack.
STACK = bytes.fromhex("f0e1d2c3b4a5968778695a4b3c2d1e0f8f9eadbccbdae9f8")
DATA = "".join(f"\\{byte:02x}" for byte in STACK)
ONES = "(i64.store (i64.const 64) (i64.const -1))"
READ = "(i64.load (i64.const 64))"


OPERANDS_OF_CONVERSIONS = {
    "extend_i32": "i32",
    "wrap": "i64",
    "convert_i32": "i32",
    "convert_i64": "i64",
    "reinterpret_i64": "i64",
    "reinterpret_f64": "f64",
}


def types_of(name):
    """The types of the operand and the result of an instruction."""
    kind, _, operation = name.partition(".")
    result, _ = command.INSTRUCTIONS[name]
    for conversion, operand in OPERANDS_OF_CONVERSIONS.items():
        if operation.startswith(conversion):
            return operand, result
    return kind, result


def operands_of(name):
    """The operands at the edges, for each call. No whole number is divided by 0, which traps."""
    kind, _ = types_of(name)
    edges = [f"({kind}.const {value})" for value in EDGES[kind]]
    if name in command.UNARY:
        return edges
    second_operands = edges
    is_division = "div" in name or "rem" in name
    if is_division and kind != "f64":
        second_operands = [edge for edge in edges if not edge.endswith(" 0)")]
    return [f"{one} {other}" for one in edges for other in second_operands]


def loads_and_stores(kind):
    """Each load from the stack and each store over ones, aligned and not."""
    for width, size in WIDTHS[kind].items():
        # Only a load has a sign: "8_u" and "8_s" are loads, "8" is a store, and "" is both.
        loads = not width.isdecimal()
        stores = not width or width.isdecimal()
        if loads:
            load = f"{kind}.load{width}"
            yield kind, f"({load} (i64.const 16))"
            yield kind, f"({load} offset=9 align=1 (i64.const 16))"
        if stores:
            aligned = f"{kind}.store{width}"
            unaligned = f"{aligned} offset={8 - size} align=1"
            for value in EDGES[kind]:
                operands = f"(i64.const 64) ({kind}.const {value})"
                for store in aligned, unaligned:
                    yield "i64", f"{ONES} ({store} {operands}) {READ}"


def cases():
    """The result of each function, and its text."""
    for name in command.INSTRUCTIONS:
        _, result = types_of(name)
        for operands in operands_of(name):
            yield result, f"({name} {operands})"
    for kind in WIDTHS:
        yield from loads_and_stores(kind)
    fill = "(memory.fill (i64.const 66) (i32.const 421) (i64.const 3))"
    yield "i64", f"{ONES} {fill} {READ}"
    copy = "(memory.copy (i64.const 64) (i64.const 16) (i64.const 16))"
    overlapping = "(memory.copy (i64.const 67) (i64.const 64) (i64.const 12))"
    yield "i64", f"{copy} {overlapping} (i64.load (i64.const 71))"
    # An operand is what it was before the next one.
    yield "i32", "(local $0 i32) (i32.sub (local.get $0) (local.tee $0 (i32.const 5)))"
    # A NaN has its sign and its bits.
    yield "f64", "(f64.const nan:0x8000000000001)"
    yield "f64", "(f64.const -nan:0x8000000000001)"


MEMORY = f'(memory $0 i64 1)\n(data $.rodata (i64.const 16) "{DATA}")\n'
ASSEMBLE = [command.portable.WASM_OPT, *command.FEATURES]


def functions():
    """Each case as a function of a module, without arguments. A float is returned as its bits, printed alike."""
    written = []
    for number, (result, text) in enumerate(cases()):
        if result == "f64":
            result = "i64"
            text = f"(i64.reinterpret_f64 {text})"
        name = f"$x{number}"
        written.append(
            f'(func {name} (result {result}) {text})\n(export "x{number}" (func {name}))\n'
        )
    return written


def results_of_engine(here, functions):
    """Returns the results that Node computes."""
    text = here / "plain.wat"
    module = here / "plain.wasm"
    text.write_text(f"(module\n{MEMORY}{''.join(functions)})\n")
    # Node has no 64-bit memory.
    lowered = ["--memory64-lowering", text, "-o", module]
    subprocess.run([*ASSEMBLE, *lowered], check=True, capture_output=True)
    script = f"""
const bytes = require('fs').readFileSync('{module}');
const {{ exports }} = new WebAssembly.Instance(new WebAssembly.Module(bytes));
let output = '';
for (let i = 0; i < {len(functions)}; i++) {{
    const value = exports['x' + i]();
    output += (typeof value === 'bigint' ? BigInt.asUintN(64, value) : value >>> 0) + '\\n';
}}
process.stdout.write(output);"""
    return lines_of(["node", "-e", script])


def results_in_c(here, functions):
    """Returns the results of the translation in C."""
    whole = here / "whole.wat"
    whole.write_text(
        '(module (import "env" "unused" (func $unused))\n'
        "(global $__stack_pointer (mut i64) (i64.const 16))\n"
        f"{MEMORY}{''.join(functions)})\n"
    )
    assembled = subprocess.run(
        [*ASSEMBLE, whole, "-S", "-o", "-"], check=True, capture_output=True, text=True
    )
    module = command.Module(command.parsed(assembled.stdout))
    calls = ""
    for number in range(len(functions)):
        call = f"(unsigned long long)module_x{number}()"
        calls += f'    printf("%llu\\n", {call});\n'
    source = here / "program.c"
    source.write_text(
        '#include <stdio.h>\n#include "module.h"\nstatic ALIGNED u8 memory[128];\nu8 *base = memory;\n'
        f"{module.text()}\nint main(void) {{\n    memcpy(memory + TOP, constants, sizeof constants);\n{calls}"
        "    return 0;\n}\n"
    )
    header = here / "program.h"
    header.write_text(module.header())
    shutil.copy(ROOT / "dist/command/module.h", here)
    program = here / "program"
    options = ["-O0", "-w", "-fsanitize=address"]
    subprocess.run(["cc", *options, source, "-o", program], check=True)
    return lines_of([program])


def lines_of(command_line):
    run = subprocess.run(command_line, check=True, capture_output=True, text=True)
    return run.stdout.splitlines()


def main(directory):
    here = pathlib.Path(directory).resolve()
    written = functions()
    ours = results_in_c(here, written)
    theirs = results_of_engine(here, written)
    assert len(ours) == len(theirs) == len(written)
    differing = []
    for (_, text), one, other in zip(cases(), ours, theirs):
        if one != other:
            differing.append((text, one, other))
    print(f"{len(written)} results, {len(differing)} differ", *differing[:5])
    return bool(differing)


if __name__ == "__main__":
    sys.exit(main(sys.argv[1]))
