"""Writes keywrap.c of dist/, from which everyone builds the library without the kit: the runtime, the module that
wasm2c translates to C, the calls, and AES by the processor's instructions. Of wasm2c's own template nothing is kept but
the functions and constants of the module. It also renews the version and the number of lines in dist/README. `make
dist-sources` calls this script.

usage: portable.py PORTABLE.WASM KEYWRAP.WASM DIRECTORY      (WASM2C names another wasm2c)
       portable.py --needs           (fails if a tool is missing; builds nothing)
       portable.py --tools           (prints the tools, as they are named in keywrap.c)

PORTABLE.WASM is of generate/portable_module.sh. KEYWRAP.WASM, of generate/module.sh, is copied."""

import itertools
import os
import pathlib
import re
import shutil
import subprocess
import sys
import tempfile
import textwrap
from typing import NamedTuple

from headers import CALLS, FIXED, LONGEST

ROOT = pathlib.Path(__file__).resolve().parent.parent
PARTS = ROOT / "c/portable"
WASM2C = os.environ.get("WASM2C", "wasm2c")
WASM_OPT = os.environ.get("WASM_OPT", "wasm-opt")
FUNCTION = re.compile(
    r"^static \w+ (w2c_\w+)\((struct instance \*[^;{]*)\) \{\n(.*?)^}\n", re.M | re.S
)
PROTOTYPE = re.compile(r"^static \w+ (w2c_\w+)\(struct instance .*\);\n", re.M)
FRAME = re.compile(
    r"w2c_j0 = instance->w2c_g0;\s+w2c_j1 = (\d+)ull;\s+w2c_j0 -= w2c_j1;"
)
# A function without a frame only checks that this many bytes of stack are left.
STACK_CHECK = re.compile(
    r"w2c_j0 = instance->w2c_g0;\s+(w2c_l\d+) = w2c_j0;\s+w2c_j1 = (\d+)ull;\s+"
    r"w2c_i0 = \(u64\)\(\(s64\)w2c_j0 ([<>]) \(s64\)w2c_j1\);"
)
STEPS = {
    f"w2c_keywrap_{call.name}"
    for call in CALLS
    if call.header == "dist/keywrap_steps.h"
}
WHOLE_ONLY, WITH_AES = "#ifndef KEYWRAP_STEPS_ONLY\n", "#ifdef WITH_AES\n"
# The processor's AES, in the order in which one file can have it.
AES = ["c/aes/aes.h", "c/aes/x86_64.c", "c/aes/aarch64.c", "c/aes/aes.c"]
# Headers that keywrap.c and the command's aes.c include themselves.
INCLUDED = r"aes\.h|std(?:int|def)\.h|string\.h"


def check_imports(text):
    """Stops unless the module, as wasm2c writes it, calls each function of leaves.c.in and imports nothing else."""
    called = set(re.findall(r"\(\*Z_(\w+?)Z_(\w+)\)\(", text))
    leaves = (PARTS / "leaves.c.in").read_text()
    names = re.findall(r"^\w+(?: \w+)* leaf_(\w+)\(", leaves, re.M)
    expected = {("aes", name) for name in names}
    if called != expected:
        missing = sorted(expected - called)
        other = sorted(called - expected)
        sys.exit(
            f"portable.py: the module does not call {missing}, and imports {other}"
        )


def the_one(what, pattern, text):
    """The text that the pattern finds, exactly once, in the text of wasm2c or of a part."""
    found = re.findall(pattern, text, re.M)
    if len(found) != 1:
        sys.exit(f"portable.py: {what}: found {len(found)} times")
    return found[0]


def translated(wasm):
    """The module as wasm2c writes it in C."""
    with tempfile.TemporaryDirectory() as workdir:
        out = pathlib.Path(workdir) / "module.c"
        subprocess.run([WASM2C, "-n", "keywrap", wasm, "-o", out], check=True)
        text = out.read_text()
    check_imports(text)
    names = {
        "Z_keywrap_instance_t* ": "struct instance *",
        "Z_keywrap_instance_t*": "struct instance *",
        # The module exports these two globals for keywrap.js. The runtime has them by their numbers.
        "w2c___stack_pointer": "w2c_g0",
        "w2c___in_call": "w2c_g1",
    }
    for name, ours in names.items():
        text = text.replace(name, ours)
    # An import is a function of leaves.c.in, over the memory of the same instance.
    return re.sub(
        r"\(\*Z_aesZ_(\w+)\)\(instance->Z_aes_instance\b",
        r"leaf_\1(memory",
        text,
    )


def frame_of(name, body):
    """The bytes by which the function moves the stack, and the bytes that it needs to be left."""
    if frame := FRAME.search(body):
        return int(frame[1]), 0
    check = STACK_CHECK.search(body)
    stores = body.count("instance->w2c_g0 = ")
    if stores != restores_of_stack(body, check):
        sys.exit(f"portable.py: the stack of {name}: it is moved in another way")
    if not check:
        return 0, 0
    is_strict = check[3] == ">"
    return 0, int(check[2]) + is_strict


def restores_of_stack(body, check):
    """How many stores of the stack pointer put back what the function read at its check of the stack."""
    if not check:
        return 0
    pointer = check[1]
    # The variable is set by its declaration and by the check, and not changed in between.
    if body.count(f"{pointer} = ") != 2:
        return 0
    restore = rf"w2c_j0 = {pointer};\s+instance->w2c_g0 = w2c_j0;"
    return len(re.findall(restore, body))


def calls_in(body):
    return set(re.findall(r"\b(w2c_\w+)\(instance", body))


def stack_needs(bodies):
    """The bytes of the module's stack that each function takes with those it calls. The module does not recurse."""
    need = {}
    while len(need) < len(bodies):
        known = len(need)
        for name, body in bodies.items():
            calls = calls_in(body)
            if name not in need and calls <= need.keys():
                frame, left = frame_of(name, body)
                most_of_calls = max((need[call] for call in calls), default=0)
                need[name] = max(left, frame + most_of_calls)
        if len(need) == known:
            sys.exit("portable.py: the calls of the module: it recurses")
    return need


def reached_from(roots, bodies):
    """The functions that these call, and they themselves."""
    reached = set()
    left = list(roots)
    while left:
        name = left.pop()
        if name not in reached:
            reached.add(name)
            left += calls_in(bodies[name])
    return reached


def in_sixteens(size):
    return -(-size // 16) * 16


def with_constants(body, top, end):
    """The function, whose loads of constants name them if the code adds an index to the address of a constant."""

    def is_constant(address):
        return top <= int(address) < end

    def offset(load):
        if not is_constant(load[3]):
            return load[0]
        return f"constant_{load[1]}({load[2]})"

    def added(load):
        if not is_constant(load[3]):
            return load[0]
        return f"{load[1]}constant_{load[6]}({load[7]})"

    body = re.sub(
        r"\b(i(?:32|64)_load\w*)\(memory, (\(u64\)\(\w+\) \+ (\d+)u)\)", offset, body
    )
    return re.sub(
        r"(w2c_(j\d) = (\d+)ull;\s+w2c_(j\d) \+= w2c_\2;\s+w2c_(i\d) = \(u32\)\(w2c_\4\);\s+w2c_\5 = )"
        r"(i(?:32|64)_load\w*)\(memory, (\(u64\)\(w2c_\5\))\)",
        added,
        body,
    )


def function_of(found, top, end):
    """A function in C, whose memory is a value: it never grows, so no store can change it."""
    name, parameters, body = found.groups()
    if body.count("FUNC_PROLOGUE;") != 1 or body.count("FUNC_EPILOGUE;") != 1:
        sys.exit(f"portable.py: {name}: no beginning or no end of wasm2c's template")
    beginning = "const struct memory memory = instance->w2c_memory;\n  (void)memory;"
    for parameter in re.findall(r"\bw2c_p\d+\b", parameters):
        if not re.search(rf"\b{parameter}\b", body):
            beginning += f"\n  (void){parameter};"
    body = body.replace("  FUNC_EPILOGUE;\n", "")
    body = body.replace("&instance->w2c_memory", "memory")
    body = body.replace("FUNC_PROLOGUE;", beginning)
    head = found[0].partition(found[3])[0]
    return head + with_constants(body, top, end) + "}\n"


def with_quick_steps(function):
    """The function with the loads and stores of the runtime for the steps of a wrap."""
    return re.sub(r"\b(i64_(?:load|store))\(memory, ", r"step_\1(memory, ", function)


class Parts(NamedTuple):
    """The parts of the module as wasm2c writes it: functions, prototypes and bodies by their names."""

    top: int
    constants: str
    functions: dict
    prototypes: dict
    bodies: dict


def parts_of(text):
    """The parts of the module. Its constants lie above its stack, whose size is their address."""
    stack = r"w2c_g0 = (\d+)ull;\n  instance->w2c_g1"
    top = int(the_one("the stack pointer", stack, text))
    load = r"LOAD_DATA\(.*?, (\d+)u, data_segment_data_w2c_d0"
    address = int(the_one("the place of the constants", load, text))
    if address != top:
        sys.exit("portable.py: the place of the constants: not above the stack")
    array = r"static const u8 data_segment_data_w2c_d0\[\] = \{\n((?:.*\n)*?)\};"
    constants = the_one("the constants", array, text)
    between = r"^(static \w+ w2c_\w+\([^;]*\) \{(?:.*\n)*)/\* export: 'memory' \*/"
    code = the_one("the functions", between, text)
    functions = {found[1]: found for found in FUNCTION.finditer(code)}
    prototypes = {found[1]: found[0] for found in PROTOTYPE.finditer(text)}
    names = functions.keys()
    if not names or prototypes.keys() != names or not STEPS <= names:
        sys.exit("portable.py: the functions: not those that are declared")
    bodies = {name: found[3] for name, found in functions.items()}
    return Parts(top, constants, functions, prototypes, bodies)


def stack_sizes(bodies):
    """The numbers STACK_NAME: the bytes of stack for each call."""
    needs = stack_needs(bodies)
    sizes = {}
    for name in bodies:
        if re.match(r"w2c_(?:keywrap|aes)_", name):
            sizes[f"STACK_{name.removeprefix('w2c_')}"] = in_sixteens(needs[name])
    return sizes


def constants_of_steps(functions):
    """The first and the last address of a constant that these functions of the steps load, which is a word: the
    statuses and phases of a rewrap, within 1 KiB. The steps have no table of AES, which would take more.
    """
    kinds = set()
    addresses = set()
    for function in functions:
        for kind, place in re.findall(r"constant_(\w+)\((.*)\);", function):
            kinds.add(kind)
            addresses.add(int(place.rpartition("+ ")[2].rstrip("u)")))
    first = min(addresses)
    last = max(addresses)
    if kinds != {"i32_load"} or last - first >= 1024:
        sys.exit("portable.py: the steps: they read other constants")
    return first, last


def in_conditions(pieces):
    """The pieces as one text: each is the condition in which a build has it, and its text. Neighbours of one condition
    have one line of the preprocessor before them, and one after."""
    text = ""
    for condition, group in itertools.groupby(pieces, lambda piece: piece[0]):
        together = "".join(piece for _, piece in group)
        text += f"{condition}{together}#endif\n" if condition else together
    return text


def module_of(text):
    """The numbers of the module, its constants with those of the steps alone, and its functions in C."""
    parts = parts_of(text)
    size = parts.constants.count("0x")
    written = {}
    for name, found in parts.functions.items():
        written[name] = function_of(found, parts.top, parts.top + size)

    exports = [name for name in parts.bodies if name.startswith("w2c_keywrap_")]
    steps = reached_from(STEPS, parts.bodies)
    whole = reached_from(exports, parts.bodies)
    # The other functions are reached by the calls over the processor's AES only.
    for name in written.keys() - whole - steps:
        written[name] = with_quick_steps(written[name])

    first, last = constants_of_steps(written[name] for name in steps)
    size_of_steps = last + 12 - first
    numbers = stack_sizes(parts.bodies)
    numbers |= {"DATA": size, "TOP": parts.top}
    numbers |= {"STEPS_AT": first, "STEPS_DATA": size_of_steps}
    values = re.findall("0x..", parts.constants)[first - parts.top :]
    of_steps = "    " + ", ".join(values[:size_of_steps]) + "\n"

    def condition_of(name):
        """The line of the preprocessor before a function that is not in every build."""
        if name in steps:
            return ""
        if name in whole:
            return WHOLE_ONLY
        return WITH_AES

    pieces = []
    for texts in (parts.prototypes, written):
        for name, piece in texts.items():
            pieces.append((condition_of(name), piece))
    return numbers, (parts.constants, of_steps), in_conditions(pieces)


def array_of(values):
    """The constants of a build as an array of C."""
    return f"static const u8 constants[CONSTANTS] = {{\n{values}}};"


# An argument that is no buffer, by its type. A number is an argument of the module, with its place among the numbers.
NUMBERS = {
    "size_t": "NUM({})",
    "uint64_t": "NUM({})",
    "uint32_t": "(u32)NUM({})",
}
# A pointer is a field of the runtime's call and an argument of the module. So is the block that a step writes.
POINTERS = {
    "size_t": ("key_len", "NUMBER"),
    "uint32_t": ("flag", "FLAG"),
    "uint64_t": ("steps", "NUMBER"),
    "uint8_t": ("block", "BLOCK_AT"),
}


def buffer_of(argument, size, of_many):
    """The buffer of the runtime's call for an argument."""
    name = argument.name
    if name.endswith("kek"):
        return f"KEK({name}, {size})"
    access = "READS" if argument.is_constant else "WRITES"
    if of_many and name != "iv":
        return f"{access}_OF_MANY({name}, {size})"
    longest = size if name in FIXED else LONGEST[name] or size
    return f"{access}({name}, {size}, {longest})"


def translator(macro, call):
    """The CALL or STEP of the runtime for a call of a header: its buffers and numbers, as the module takes them."""
    buffers = []
    numbers = []
    fields = ["BUFFERS"]
    given = ["module"]
    for argument in call.arguments:
        name = argument.name
        is_written_block = name == "block" and not argument.is_constant
        if not argument.is_pointer:
            given.append(NUMBERS[argument.type].format(len(numbers)))
            numbers.append(name)
        elif argument.length:
            given.append(f"BUFFER({len(buffers)})")
            buffers.append(buffer_of(argument, argument.length, call.is_for_many))
        elif name in FIXED and not is_written_block:
            given.append(f"ADDRESS({len(buffers)})")
            buffers.append(buffer_of(argument, FIXED[name], call.is_for_many))
        else:
            field, place = POINTERS[argument.type]
            fields.append(f".{field} = {name}")
            given.append(place)
    if numbers:
        fields.append(f"NUMBERS({', '.join(numbers)})")
    if call.name.startswith("begin_"):
        fields.append(".begins = 1")
    parameters = [f"{kind} {name}".replace("* ", "*") for kind, name in call.parameters]
    items = f"{macro}({call.name}, ({', '.join(parameters)})".split(", ")
    items += [f"({', '.join(given)})", f"({', '.join(fields)})", *buffers]
    return on_lines(items, ")")


def on_lines(items, end):
    """The items with commas between them. A line ends only after an item: a space within one is \\0 meanwhile."""
    text = ", ".join(item.replace(" ", "\0") for item in items) + end
    indent = " " * 5
    lines = textwrap.wrap(text, 100, subsequent_indent=indent, break_on_hyphens=False)
    return "\n".join(lines).replace("\0", " ") + "\n"


def translators(macro, header, of_many):
    """The text for the calls of a header that take a buffer: those for one key, and with `of_many` for many."""
    written = []
    for call in CALLS:
        takes_buffer = call.result == "int32_t" and call.has_bytes
        is_wanted = of_many or not call.is_for_many
        if call.header == header and takes_buffer and is_wanted:
            written.append(translator(macro, call))
    return "\n".join(written)


def with_aes():
    """The lines that define WITH_AES if the compiler makes AES by the processor's instructions."""
    return (ROOT / "c/aes/with_aes.h").read_text().rstrip()


def processor_aes(leaves):
    """AES by the processor's instructions as one part of a file, in which nothing of c/aes has a name outside. At its
    end stands the file `leaves`, through which the module calls it."""
    parts = []
    for name in [*AES, leaves]:
        text = (ROOT / name).read_text()
        text = re.sub(rf"^#include [\"<](?:{INCLUDED})[\">]\n", "", text, flags=re.M)
        if name.endswith(".h"):
            # A definition is static if its prototype is. It stays apart: a compiler that sees the round keys of
            # an inlined function would keep copies of them on the stack.
            text = re.sub(
                r"^(?=(?:bool|void) \w+\()", "static APART ", text, flags=re.M
            )
        parts.append(text)
    return "\n".join(parts)


def first_line(*command):
    """The first line that a command prints."""
    ended = subprocess.run(command, capture_output=True, text=True, check=True)
    return ended.stdout.splitlines()[0]


def version_of(tool):
    """The version that a tool prints."""
    line = first_line(tool, "--version")
    return the_one(f"the version of {tool}", r"\d+(?:\.\d+)*", line)


def tools():
    """The tools that the file depends on, as it names them."""
    kit = first_line("rt", "version")
    return f"Rattle {kit}, binaryen {version_of(WASM_OPT)}, wabt {version_of(WASM2C)}"


def head():
    version = (ROOT / "VERSION").read_text().strip()
    return (
        f" * Version {version}. `make dist-sources` of the repository writes this file; do not edit it.\n"
        f" * By {tools()}.\n"
        f" * docs/TRUST.md of the repository says what is proved, what is translated and what is trusted."
    )


def readme(lines):
    """The README, with the version and the number of lines around the module."""
    text = (ROOT / "dist/README").read_text()
    text = re.sub(r"(?<=^keywrap )[^:]*", (ROOT / "VERSION").read_text().strip(), text)
    return re.sub(r"(?<=^the )\d+(?= lines of keywrap.c)", str(lines), text, flags=re.M)


def template(name):
    """A part of keywrap.c with places to fill."""
    return (PARTS / name).read_text()


def runtime_with(**texts):
    """The runtime with these texts in the places of their names."""
    runtime = template("runtime.c.in")
    for name, text in texts.items():
        the_one(f"the place of {name}", rf"^@{name}@$", runtime)
        runtime = runtime.replace(f"@{name}@", text)
    return runtime


def main(portable, wasm, directory):
    directory = pathlib.Path(directory)
    directory.mkdir(parents=True, exist_ok=True)
    numbers, constants, module = module_of(translated(portable))
    macros = "\n".join(f"#define {name} {value}" for name, value in numbers.items())
    whole, of_steps = map(array_of, constants)
    runtime = runtime_with(
        HEAD=head(),
        WITH_AES=with_aes(),
        NUMBERS=macros,
        CONSTANTS=whole,
        STEPS_CONSTANTS=of_steps,
    )
    for_one_key = translators("CALL", "dist/keywrap.h", of_many=False)
    calls = template("calls.c.in").replace("@CALLS@\n", for_one_key + "\n")
    each_step = translators("STEP", "dist/keywrap_steps.h", of_many=True)
    steps = template("steps.c.in").replace("@CALLS@\n", each_step)
    aes = processor_aes("c/portable/leaves.c.in")
    (directory / "keywrap.c").write_text(
        f"{runtime}\n{WITH_AES}/*** AES by the processor's instructions ***/\n\n{aes}#endif\n\n"
        f"/*** The module, by wasm2c ***/\n\n{module}\n{WHOLE_ONLY}{calls}#endif\n\n{steps}"
    )
    around_module = template("runtime.c.in") + calls + steps + aes
    (directory / "README").write_text(readme(around_module.count("\n")))
    if pathlib.Path(wasm).resolve() != (directory / "keywrap.wasm").resolve():
        shutil.copyfile(wasm, directory / "keywrap.wasm")
    print(directory)


if __name__ == "__main__":
    for tool, package in (WASM2C, "wabt"), (WASM_OPT, "binaryen"):
        if not shutil.which(tool):
            sys.exit(f"portable.py: no {tool}: apt-get install {package}")
    if sys.argv[1:] == ["--tools"]:
        print(tools())
    elif sys.argv[1:] != ["--needs"]:
        main(*sys.argv[1:])
