"""Writes dist/command/program.c and program.h: the program's WebAssembly module translated to C, and aes.c. With the
other files there everyone builds it without the kit. `make dist-sources` calls this script.

Each function of the module becomes a function of C. A value of 32 or 64 bits is an unsigned number, and an address is
a number, which the runtime in module.h turns into a pointer. Anything that this script does not know stops it.

usage: command.py PROGRAM.WASM DIRECTORY      (binaryen's wasm-opt reads the module; WASM_OPT names another)
       command.py --sources                   (prints the checksum of the sources, as it is named in program.c)
       command.py --aes                       (prints aes.c, which main writes there, too: it is made of c/aes)"""

import hashlib
import os
import pathlib
import re
import struct
import subprocess
import sys

import portable

ROOT = pathlib.Path(__file__).resolve().parent.parent
FEATURES = [
    "--mvp-features",
    "--enable-memory64",
    "--enable-bulk-memory",
    "--enable-sign-ext",
    "--enable-nontrapping-float-to-int",
    "--enable-mutable-globals",
]
TYPES = {"i32": "u32", "i64": "u64", "f64": "f64"}
TOKEN = re.compile(r'"(?:[^"\\]|\\.)*"|[()]|[^\s()"]+')
OPERATORS = {
    "add": "+",
    "sub": "-",
    "mul": "*",
    "and": "&",
    "or": "|",
    "xor": "^",
    "div": "/",
}
COMPARISONS = {"eq": "==", "ne": "!=", "lt": "<", "gt": ">", "le": "<=", "ge": ">="}
WHOLE = ("i32", "i64")
# Instructions of one operand: their result, and their form in C.
UNARY = {
    "i64.extend_i32_u": ("i64", "(u64)({})"),
    "i64.extend_i32_s": ("i64", "(u64)(s64)(s32)({})"),
    "i32.wrap_i64": ("i32", "(u32)({})"),
    "i32.eqz": ("i32", "(u32)!({})"),
    "i64.eqz": ("i32", "(u32)!({})"),
    "i32.extend8_s": ("i32", "(u32)(s32)(s8)({})"),
    "i32.extend16_s": ("i32", "(u32)(s32)(s16)({})"),
    "i64.extend8_s": ("i64", "(u64)(s64)(s8)({})"),
    "i64.extend16_s": ("i64", "(u64)(s64)(s16)({})"),
    "i64.extend32_s": ("i64", "(u64)(s64)(s32)({})"),
    "f64.neg": ("f64", "-({})"),
    "f64.convert_i32_u": ("f64", "(f64)({})"),
    "f64.convert_i64_u": ("f64", "(f64)({})"),
    "i32.clz": ("i32", "i32_clz({})"),
    "i32.ctz": ("i32", "i32_ctz({})"),
    "i64.clz": ("i64", "i64_clz({})"),
    "i64.ctz": ("i64", "i64_ctz({})"),
    "f64.reinterpret_i64": ("f64", "f64_reinterpret_i64({})"),
    "i64.reinterpret_f64": ("i64", "i64_reinterpret_f64({})"),
}


def instructions_of_two():
    """Instructions of two operands: their result, and their form in C, as in UNARY."""
    forms = {}
    for kind in WHOLE:
        for name in "add", "sub", "mul", "and", "or", "xor":
            forms[f"{kind}.{name}"] = kind, f"({{}} {OPERATORS[name]} {{}})"
        # Functions of module.h, in which a divisor of zero ends the program.
        for name in "rotl", "rotr", "div_u", "rem_u":
            forms[f"{kind}.{name}"] = kind, f"{kind}_{name}({{}}, {{}})"
        signed = kind.replace("i", "s")
        most = int(kind[1:]) - 1
        forms[f"{kind}.shl"] = kind, f"({{}} << ({{}} & {most}))"
        forms[f"{kind}.shr_u"] = kind, f"({{}} >> ({{}} & {most}))"
        forms[f"{kind}.shr_s"] = (
            kind,
            f"({TYPES[kind]})(({signed})({{}}) >> ({{}} & {most}))",
        )
        for name in "eq", "ne":
            forms[f"{kind}.{name}"] = "i32", f"(u32)({{}} {COMPARISONS[name]} {{}})"
        for name in "lt", "gt", "le", "ge":
            compare = COMPARISONS[name]
            forms[f"{kind}.{name}_u"] = "i32", f"(u32)({{}} {compare} {{}})"
            forms[f"{kind}.{name}_s"] = (
                "i32",
                f"(u32)(({signed})({{}}) {compare} ({signed})({{}}))",
            )
    for name in "add", "sub", "mul", "div":
        forms[f"f64.{name}"] = "f64", f"({{}} {OPERATORS[name]} {{}})"
    for name, compare in COMPARISONS.items():
        forms[f"f64.{name}"] = "i32", f"(u32)({{}} {compare} {{}})"
    return forms


BINARY = instructions_of_two()
INSTRUCTIONS = UNARY | BINARY
LOAD = re.compile(r"(i32|i64|f64)\.load(8_u|8_s|16_u|16_s|32_u|32_s|)")
STORE = re.compile(r"(i32|i64|f64)\.store(8|16|32|)")
ESCAPES = {
    b"t": b"\t",
    b"n": b"\n",
    b"r": b"\r",
    b'"': b'"',
    b"'": b"'",
    b"\\": b"\\",
}
# The modules that functions are imported from, and how their names begin in C.
IMPORTED = {'"env"': "host_", '"aes"': "host_aes_"}
# The parts of a module that are translated.
PARTS = {"type", "import", "global", "memory", "data", "export", "func"}


def stop(why):
    sys.exit(f"command.py: {why}")


def parsed(text):
    """The S-expression as lists of words."""
    stack = [[]]
    for token in TOKEN.findall(text):
        if token == "(":
            stack.append([])
        elif token == ")":
            done = stack.pop()
            stack[-1].append(done)
        else:
            stack[-1].append(token)
    ((tree,),) = stack
    return tree


def escaped_byte(escape):
    """The byte that an escape stands for: two hex digits, or a letter."""
    written = escape[1]
    if len(written) == 2:
        return bytes([int(written, 16)])
    return ESCAPES[written]


def bytes_of(text):
    """The bytes of a string of the module's text."""
    inside = text[1:-1].encode()
    return re.sub(rb"\\([0-9a-f]{2}|.)", escaped_byte, inside)


def bits_of_float(text):
    """The bits of a float in the module's text, or None if it is another text."""
    if re.fullmatch(r"-?(inf|\d+(\.\d+)?(e[+-]?\d+)?)", text):
        return int.from_bytes(struct.pack(">d", float(text)), "big")
    nan = re.fullmatch(r"(-?)nan:(0x[0-9a-f]{1,13})", text)
    if not nan:
        return None
    sign_and_exponent = 0xFFF if nan[1] else 0x7FF
    return sign_and_exponent << 52 | int(nan[2], 16)


def signature_of(items):
    """The types of the parameters with their names, and the type of the result or None: of the items of a function."""
    parameters = []
    result = None
    for item in items:
        if item[0] == "param" and item[1].startswith("$"):
            parameters.append((item[1], item[2]))
        elif item[0] == "param":
            parameters += [(None, kind) for kind in item[1:]]
        elif item[0] == "result":
            (result,) = item[1:]
    return parameters, result


def head_in_c(result, name, parameters):
    """The head of a function in C."""
    returned = TYPES[result] if result else "void"
    between = ", ".join(parameters) or "void"
    return f"{returned} {name}({between})"


def local(name):
    """The variable of C for a parameter or a variable of a function."""
    return f"l{name.removeprefix('$')}"


class Function:
    """A function of the module, as it is translated."""

    def __init__(self, module, tree):
        self.module = module
        self.name = tree[1]
        items = tree[2:]
        self.parameters, self.result = signature_of(items)
        self.variables = [(it[1], it[2]) for it in items if it[0] == "local"]
        self.body = [it for it in items if it[0] not in ("param", "result", "local")]
        self.kinds = dict(self.parameters + self.variables)
        self.labels = {}
        self.temporaries = []
        self.lines = []

    def text(self):
        """The function in C."""
        self.translate_body()
        parameters = [f"{TYPES[kind]} {local(name)}" for name, kind in self.parameters]
        name = self.module.functions[self.name]
        storage = self.module.storage(self.name)
        head = storage + head_in_c(self.result, name, parameters)
        before = self.declarations() + self.unused_parameters()
        return "\n".join([f"{head} {{", *before, *self.lines, "}\n"])

    def translate_body(self):
        """Emits the statements. The last of them can be the value that the function returns."""
        for statement in self.body:
            is_last = statement is self.body[-1]
            if is_last and self.result and self.kind_of(statement):
                self.emit(f"return {self.value(statement)};")
            else:
                self.statement(statement)

    def declarations(self):
        """A line for the variables of each type. Those of the module begin as 0."""
        declared = {}
        for name, kind in self.variables:
            declared.setdefault(kind, []).append(f"{local(name)} = 0")
        for number, kind in enumerate(self.temporaries):
            declared.setdefault(kind, []).append(f"t{number}")
        return [f"{TYPES[kind]} {', '.join(them)};" for kind, them in declared.items()]

    def unused_parameters(self):
        """A line for each parameter that no statement uses, about which compilers would warn."""
        statements = "\n".join(self.lines)
        names = [local(name) for name, _ in self.parameters]
        return [
            f"(void){name};"
            for name in names
            if not re.search(rf"\b{name}\b", statements)
        ]

    def emit(self, line):
        self.lines.append(line)

    def label(self, name):
        return f"L{self.labels.setdefault(name, len(self.labels))}"

    def kind_of(self, tree):
        """The type of the value that an instruction leaves, or None."""
        name = tree[0]
        if name in ("local.get", "local.tee"):
            return self.kinds[tree[1]]
        if name == "global.get":
            return "i64"
        if name == "call":
            return self.module.signatures[tree[1]][1]
        if name == "select":
            return self.kind_of(tree[1])
        if name in INSTRUCTIONS:
            return INSTRUCTIONS[name][0]
        kind, _, operation = name.partition(".")
        if LOAD.fullmatch(name) or operation == "const":
            return kind
        return None

    def values(self, trees):
        """The expressions of operands, which are evaluated in their order."""
        operands = []
        for tree in trees:
            mark = len(self.lines)
            value = self.value(tree)
            if len(self.lines) > mark:
                self.save_before(mark, operands)
            operands.append((value, tree))
        return [value for value, _ in operands]

    def save_before(self, mark, operands):
        """Saves operands in temporaries before this line: the statements from there on can change their values."""
        for place, (value, tree) in enumerate(operands):
            is_fixed = re.fullmatch(r"\d+u(?:ll)?|t\d+", value)
            if not is_fixed:
                saved = self.temporary(self.kind_of(tree))
                self.lines.insert(mark, f"{saved} = {value};")
                mark += 1
                operands[place] = saved, tree

    def arguments(self, trees):
        return ", ".join(self.values(trees))

    def temporary(self, kind):
        self.temporaries.append(kind)
        return f"t{len(self.temporaries) - 1}"

    def called(self, tree):
        """The call in C."""
        _, name, *operands = tree
        parameters, _ = self.module.signatures[name]
        if len(operands) != len(parameters):
            stop(f"{self.name}: a call of {name} with {len(operands)} arguments")
        return f"{self.module.functions[name]}({self.arguments(operands)})"

    def value(self, tree):
        """The expression in C. Statements that come before it are emitted."""
        name, *operands = tree
        if name == "local.get":
            return local(*operands)
        if name == "local.tee":
            return self.value_after_tee(*operands)
        if name == "call":
            return self.value_of_call(tree)
        if name == "select":
            one, other, condition = self.values(operands)
            return f"({condition} ? {one} : {other})"
        if name == "global.get" and operands[0] == self.module.stack_pointer:
            return "stack_pointer"
        if name.endswith(".const"):
            return self.constant(*tree)
        if name in INSTRUCTIONS:
            form = INSTRUCTIONS[name][1]
            return form.format(*self.values(operands))
        if LOAD.fullmatch(name):
            return self.access(tree)
        return stop(f"{self.name}: an instruction: {name}")

    def value_after_tee(self, name, tree):
        """The variable, after the statement that sets it."""
        variable = local(name)
        value = self.value(tree)
        if value != variable:
            self.emit(f"{variable} = {value};")
        return variable

    def value_of_call(self, tree):
        """A temporary, after the statement that calls the function."""
        kind = self.kind_of(tree)
        if not kind:
            stop(f"{self.name}: the value of a call that has none")
        saved = self.temporary(kind)
        self.emit(f"{saved} = {self.called(tree)};")
        return saved

    def constant(self, name, text):
        """A number of C. A float is made from its bits."""
        kind = name.removesuffix(".const")
        if kind in WHOLE:
            bits = int(kind[1:])
            suffix = "u" if bits == 32 else "ull"
            return f"{int(text, 0) % (1 << bits)}{suffix}"
        bits = bits_of_float(text)
        if kind != "f64" or bits is None:
            return stop(f"{self.name}: a constant: {name} {text}")
        return f"f64_reinterpret_i64({bits}ull)"

    def access(self, tree):
        """The call of the runtime that loads or stores."""
        name = tree[0].replace(".", "_")
        words = [word for word in tree[1:] if isinstance(word, str)]
        operands = tree[1 + len(words) :]
        numbers = dict(
            re.fullmatch(r"(offset|align)=(\d+)", word).groups() for word in words
        )
        # Without this word the address is a multiple of the width.
        if "align" in numbers:
            name += "_any"
        offset = numbers.get("offset", 0)
        return f"{name}({offset}u, {self.arguments(operands)})"

    def statement(self, tree):
        """Emits the statements for an instruction that leaves no value."""
        name, *operands = tree
        if name in ("block", "loop"):
            self.block(tree)
        elif name == "if":
            self.branches(*operands)
        elif name == "local.set":
            variable, value = operands
            self.emit(f"{local(variable)} = {self.value_or_call(value)};")
        elif name == "global.set" and operands[0] == self.module.stack_pointer:
            (value,) = self.values(operands[1:])
            self.emit(f"stack_pointer = stack_at({value});")
        elif name == "call":
            self.emit(f"{self.called(tree)};")
        elif name == "drop":
            (value,) = operands
            dropped = self.value_or_call(value)
            self.emit(f"{dropped};" if value[0] == "call" else f"(void)({dropped});")
        elif name == "br":
            self.emit(f"goto {self.label(*operands)};")
        elif name == "br_if":
            label, condition = operands
            self.emit(f"if ({self.value(condition)}) goto {self.label(label)};")
        elif name == "br_table":
            self.table(*operands)
        elif name == "return" and operands:
            (value,) = operands
            self.emit(f"return {self.value(value)};")
        elif name == "return":
            self.emit("return;")
        elif name == "unreachable":
            self.emit("abort();")
        elif name in ("memory.copy", "memory.fill"):
            function = name.replace(".", "_")
            self.emit(f"{function}({self.arguments(operands)});")
        elif STORE.fullmatch(name):
            self.emit(f"{self.access(tree)};")
        elif name != "nop":
            stop(f"{self.name}: a statement: {name}")

    def value_or_call(self, tree):
        """The expression in C, in a statement of its own: a call needs no temporary there."""
        if tree[0] == "call":
            return self.called(tree)
        return self.value(tree)

    def block(self, tree):
        """A branch to a block goes to its end, a branch to a loop to its beginning."""
        name, *parts = tree
        label = None
        if parts and isinstance(parts[0], str):
            label, *parts = parts
        has_result = parts and parts[0][0] == "result"
        if label in self.labels or has_result:
            stop(f"{self.name}: a block of another form")
        label_line = f"{self.label(label)}:;" if label else None
        if label and name == "loop":
            self.emit(label_line)
        for part in parts:
            self.statement(part)
        if label and name == "block":
            self.emit(label_line)

    def branches(self, condition, then, otherwise=None):
        self.emit(f"if ({self.value(condition)}) {{")
        self.statement(then)
        if otherwise:
            self.emit("} else {")
            self.statement(otherwise)
        self.emit("}")

    def table(self, *operands):
        *labels, default, index = operands
        self.emit(f"switch ({self.value(index)}) {{")
        for number, label in enumerate(labels):
            if label != default:
                self.emit(f"case {number}: goto {self.label(label)};")
        self.emit(f"default: goto {self.label(default)}; }}")


def parts_of(tree):
    """The parts of a module by their kind."""
    parts = {kind: [] for kind in PARTS}
    unknown = set()
    for part in tree[1:]:
        if isinstance(part, list):
            kind = part[0]
            if kind in PARTS:
                parts[kind].append(part)
            else:
                unknown.add(kind)
    if unknown or len(parts["global"]) != 1 or len(parts["memory"]) != 1:
        stop(f"the module has another part: {unknown or 'a global or a memory'}")
    return parts


class Module:
    """The module: its imports, its constants and its functions."""

    def __init__(self, tree):
        parts = parts_of(tree)
        # The names in C and the signatures, by the names in the module.
        self.functions = {}
        self.signatures = {}
        self.read_stack(*parts["global"])
        self.read_constants(parts["data"])
        self.imports = [self.imported(part) for part in parts["import"]]
        self.read_exports(parts["export"])
        self.read_functions(parts["func"])

    def read_stack(self, part):
        """The stack pointer begins at the top of the stack."""
        _, self.stack_pointer, kind, (_, top) = part
        if kind != ["mut", "i64"]:
            stop("the stack pointer is of another type")
        self.top = int(top)

    def read_constants(self, parts):
        """The constants with their addresses. They lie above the stack."""
        self.data = []
        for _, _, (_, address), text in parts:
            self.data.append((int(address), bytes_of(text)))
        if any(address < self.top for address, _ in self.data):
            stop("a constant lies below the stack's top")
        self.end = max(address + len(raw) for address, raw in self.data)

    def imported(self, part):
        """The name in the module of a function that it imports from the host."""
        _, module, quoted, (kind, name, *items) = part
        if module not in IMPORTED or kind != "func":
            stop(f"an import: {module} {quoted}")
        self.functions[name] = IMPORTED[module] + quoted[1:-1]
        self.signatures[name] = signature_of(items)
        return name

    def read_exports(self, parts):
        """The names under which functions are exported."""
        self.exports = {}
        for _, quoted, (kind, name) in parts:
            if kind == "func":
                self.exports[name] = quoted[1:-1]

    def read_functions(self, parts):
        for number, (_, name, *items) in enumerate(parts):
            if name in self.exports:
                self.functions[name] = f"module_{self.exports[name]}"
            else:
                self.functions[name] = f"fn{number}"
            self.signatures[name] = signature_of(items)
        self.bodies = [Function(self, part) for part in parts]

    def storage(self, name):
        return "" if name in self.exports else "static "

    def prototype(self, name):
        parameters, result = self.signatures[name]
        kinds = [TYPES[kind] for _, kind in parameters]
        return head_in_c(result, self.functions[name], kinds) + ";\n"

    def header(self):
        """The text for the host: the numbers of the memory, the host's functions and the exports."""
        numbers = f"#define TOP {self.top}u\n#define SIZE {self.end}u\n\n"
        names = [*self.imports, *self.exports]
        return numbers + "".join(map(self.prototype, names))

    def constants(self):
        """The bytes from the top of the stack to the last constant, as lines of numbers."""
        image = bytearray(self.end - self.top)
        for address, raw in self.data:
            start = address - self.top
            image[start : start + len(raw)] = raw
        rows = [image[at : at + 32] for at in range(0, len(image), 32)]
        return ",\n".join(",".join(map(str, row)) for row in rows)

    def text(self):
        """The constants and functions in C."""
        declared = ""
        functions = []
        for function in self.bodies:
            if function.name not in self.exports:
                declared += f"static {self.prototype(function.name)}"
            functions.append(f"/* {readable(function.name)} */\n{function.text()}")
        return (
            f"const u8 constants[SIZE - TOP] = {{\n{self.constants()}\n}};\n"
            "static u64 stack_pointer = TOP;\n\n"
            f"{declared}\n" + "\n".join(functions)
        )


def readable(name):
    """The name of a function without escapes, as it can be in a comment of C."""
    unescaped = re.sub(
        r"\\([0-9a-f]{2})", lambda escape: chr(int(escape[1], 16)), name[1:]
    )
    return unescaped.replace("*/", "* /")


def below(crate):
    """The crate and the crates of this repository below it."""
    table = (ROOT / "crates.txt").read_text()
    needs = dict(re.findall(r"^(\w+)(?: staticlib)?: *(.*)$", table, re.M))
    reached = set()
    left = [crate]
    while left:
        name = left.pop()
        if name in needs and name not in reached:
            reached.add(name)
            left += needs[name].split()
    return sorted(reached)


def sources():
    """The checksum of all that program.c is made from, but for the tools."""
    paths = [*(ROOT / "generate").glob("command*")]
    for crate in below("keywrap"):
        for path in (ROOT / "crates" / crate / "src").rglob("*.rt"):
            is_test = "tests" in path.stem or "tests" in path.parent.parts
            if not is_test:
                paths.append(path)
    digest = hashlib.sha256()
    for path in sorted(paths):
        checksum = hashlib.sha256(path.read_bytes()).hexdigest()
        line = f"{path.relative_to(ROOT)} {checksum}\n"
        digest.update(line.encode())
    return digest.hexdigest()


def aes():
    """The file aes.c: the processor's AES for the functions that the module imports."""
    parts = {
        "WITH_AES": portable.with_aes(),
        "AES": portable.processor_aes("c/command/leaves.c.in").rstrip(),
    }
    text = (ROOT / "c/command/aes.c.in").read_text()
    for name, part in parts.items():
        text = text.replace(f"@{name}@", part)
    return text


def text_of(wasm):
    """The module as text, by wasm-opt."""
    command = [portable.WASM_OPT, *FEATURES, wasm, "-S", "-o", "-"]
    ended = subprocess.run(command, capture_output=True, text=True, check=True)
    return ended.stdout


def main(wasm, directory):
    directory = pathlib.Path(directory)
    directory.mkdir(parents=True, exist_ok=True)
    (directory / "aes.c").write_text(aes())
    module = Module(parsed(text_of(wasm)))
    version = (ROOT / "VERSION").read_text().strip()
    kit = portable.tools().partition(", wabt")[0]
    (directory / "program.c").write_text(
        f"/* The program keywrap, version {version}, translated to C from the module of the proved program.\n"
        f" * `make dist-sources` of the repository writes this file; do not edit it.\n * By {kit}.\n"
        f" * Of the sources {sources()}.\n"
        f" * docs/TRUST.md of the repository says what is proved, what is translated and what is trusted. */\n\n"
        f'#include "module.h"\n\n{module.text()}'
    )
    (directory / "program.h").write_text(
        "/* The numbers of the program's memory, the host's functions, and the program's that the host calls.\n"
        f" * `make dist-sources` of the repository writes this file; do not edit it. */\n\n{module.header()}"
    )
    print(directory)


if __name__ == "__main__":
    if sys.argv[1:] == ["--sources"]:
        print(sources())
    elif sys.argv[1:] == ["--aes"]:
        print(aes(), end="")
    elif len(sys.argv) == 3:
        main(*sys.argv[1:])
    else:
        sys.exit(__doc__)
