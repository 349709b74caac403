"""Puts functions of C in the place of the leaves of the crate aes_leaves, in a module of LLVM: toolchain.sh calls it.

Each call of a leaf becomes a call of the function keywrap_aes_NAME of C, which c/aes/ has. Nothing calls the proved
leaf then, and the compiler drops it. This script stops if the module lacks a leaf, never calls it, uses it in another
way than by a call, or has it with another result, other parameters or another calling convention than C. A module of
WebAssembly does not ask whether the leaves are available: the C around it does.

usage: substitute.py MODULE.LL RESULT.LL"""

import pathlib
import re
import sys

# Each leaf: its result and its parameters, where a slice is its address and its length.
LEAVES = {
    "available": ("i1", []),
    "expand": ("void", ["ptr", "i64", "ptr", "i64"]),
    "encrypt": ("void", ["ptr", "i64", "ptr"]),
    "decrypt": ("void", ["ptr", "i64", "ptr"]),
    "encrypt_many": ("void", ["ptr", "i64", "ptr", "i64"]),
    "decrypt_many": ("void", ["ptr", "i64", "ptr", "i64"]),
    "clear": ("void", ["ptr"]),
}


# The words of LLVM that may stand at a result or a parameter: C has the same function with and without them.
SAME_IN_C = {"noundef", "zeroext"}


def without_attributes(words):
    return [word for word in words.split() if word not in SAME_IN_C]


def types_of(parameters):
    """The types of the parameters of a definition. A word that is not known, such as an attribute, stays there."""
    types = []
    for parameter in parameters.split(", ") if parameters else []:
        *words, name = without_attributes(parameter)
        types.append(" ".join(words))
    return types


def check_definition(definitions, name):
    """Stops unless the leaf is defined once, as C has it: also by the same calling convention."""
    result, types = LEAVES[name]
    if len(definitions) != 1:
        sys.exit(f"substitute.py: {name}: defined {len(definitions)} times")
    found, parameters = definitions[0]
    if without_attributes(found) != [result] or types_of(parameters) != types:
        sys.exit(f"substitute.py: {name}: another type: {found}({parameters})")


def calls_of_c(line, name):
    """A line that names the leaf, with C in its place. Stops unless the line is a call as C has it."""
    result, _ = LEAVES[name]
    leaf = named(name)
    call = rf"\s*(?:%[\w.]+ = )?(?:tail )?call {result} {re.escape(leaf)}\("
    if not re.match(call, line):
        sys.exit(f"substitute.py: {name}: another use: {line.strip()}")
    return line.replace(leaf, f"@keywrap_aes_{name}")


def named(name):
    """The leaf as a module names it."""
    return f'@"aes_leaves::leaves::{name}"'


def substituted(text, name):
    """The module with C in the place of one leaf."""
    leaf = named(name)
    definition = rf"^define internal (.*){re.escape(leaf)}\((.*)\) .*\{{$"
    check_definition(re.findall(definition, text, re.M), name)
    lines = []
    called = False
    for line in text.splitlines():
        if leaf in line and not line.startswith("define "):
            line = calls_of_c(line, name)
            called = True
        lines.append(line)
    if not called:
        sys.exit(f"substitute.py: {name}: nothing calls it")
    result, types = LEAVES[name]
    extended = "zeroext " if result == "i1" else ""
    head = (
        f"declare {extended}{result} @keywrap_aes_{name}({', '.join(types)}) nounwind"
    )
    # A module of WebAssembly imports it. For other targets LLVM ignores these attributes.
    lines.append(f'{head} "wasm-import-module"="aes" "wasm-import-name"="{name}"')
    return "\n".join(lines) + "\n"


def main(module, result):
    text = pathlib.Path(module).read_text(encoding="utf-8")
    names = list(LEAVES)
    if re.search('^target triple = "wasm', text, re.M):
        names.remove("available")
    for name in names:
        text = substituted(text, name)
    pathlib.Path(result).write_text(text, encoding="utf-8")


if __name__ == "__main__":
    main(*sys.argv[1:])
