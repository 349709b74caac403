"""The declarations of the calls in Rust and Java, from headers.py. facts.py writes them."""

import re
import textwrap

import headers
from headers import read

C_RS, EXPORTS_RS = "dist/src/c.rs", "tests/rust/exports.rs"
JAVA = "java/keywrap/Library.java"
# The types of the headers in Rust.
RUST_TYPES = {
    "uint8_t": "u8",
    "char": "u8",
    "int32_t": "i32",
    "uint32_t": "u32",
    "uint64_t": "u64",
    "size_t": "usize",
    "void": "()",
}
JAVA_TYPES = {
    "char *": "byte[]",
    "int32_t": "int",
    "uint32_t": "int",
    "size_t": "Size",
}


def filled(text, first, more, width):
    """The text on as many lines as it needs. Spaces that stay on a line are ~."""
    lines = textwrap.wrap(
        text,
        width,
        break_on_hyphens=False,
        initial_indent=first,
        subsequent_indent=more,
    )
    return "\n".join(lines).replace("~", " ")


# The calls of keywrap.c in Rust: sys.rs


def rust_pointer(parameter):
    """A parameter of C in Rust."""
    kind, name = parameter
    words = kind.split()
    is_constant = words[0] == "const"
    type_ = RUST_TYPES[words[1 if is_constant else 0]]
    if words[-1] == "*":
        type_ = f"*{'const' if is_constant else 'mut'}~{type_}"
    return f"{name}:~{type_}"


def declared_in_rust(call):
    parameters = ", ".join(map(rust_pointer, call.parameters))
    text = f"fn~keywrap_{call.name}({parameters})~->~{RUST_TYPES[call.result]};"
    return filled(text, " " * 4, " " * 8, 99)


# The same with slices: c.rs


def slice_of(argument):
    """An argument of the crate, and what the macro of c.rs makes of it."""
    type_ = RUST_TYPES[argument.type]
    borrowed = "&" if argument.is_constant else "&mut "
    if argument.length:
        how = "in" if argument.is_constant else "out"
        return f"{how} {argument.name}: {borrowed}[{type_}]"
    if argument.name in headers.FIXED:
        how = "from" if argument.is_constant else "to"
        size = headers.FIXED[argument.name]
        return f"{how} {argument.name}: {borrowed}[{type_}; {size}]"
    if argument.is_pointer:
        return f"as {argument.name}: {borrowed}{type_}"
    return f"as {argument.name}: {type_}"


def with_slices(call):
    """The call of the crate that makes a call of C."""
    arguments = [slice_of(argument) for argument in call.arguments]
    head = f"    fn {call.name} = keywrap_{call.name}("
    tail = f") -> {RUST_TYPES[call.result]};"
    line = head + ", ".join(arguments) + tail
    if len(line) < 100:
        return line
    items = filled(unbroken(arguments), " " * 8, " " * 8, 99)
    return f"{head}\n{items}\n    {tail}"


def unbroken(arguments):
    """Arguments, each with its comma, for `filled`, which breaks no line in one of them."""
    return " ".join(argument.replace(" ", "~") + "," for argument in arguments)


# The crate's calls as functions of C: exports.rs of the tests


def exported(argument):
    """An argument of a function of C, as the macro of exports.rs takes it."""
    if argument.length is None:
        return slice_of(argument)
    how = "in" if argument.is_constant else "out"
    if argument.type == "size_t":
        how = "lens"
    return f"{how} {argument.name} {argument.length}"


def export(call):
    arguments = [exported(argument) for argument in call.arguments]
    head = f"export!(keywrap_{call.name} = {call.name}("
    tail = f") -> {RUST_TYPES[call.result]});"
    # Each argument has a comma after it, also the last one.
    with_commas = [f"{argument}," for argument in arguments]
    line = head + " ".join(with_commas) + tail
    if len(line) <= 120:
        return line
    items = filled(unbroken(arguments), " " * 4, " " * 4, 120)
    return f"{head}\n{items}\n{tail}"


# The calls by JNA


def java_name(name):
    """keyLength for key_len."""
    first, *words = re.sub(r"_len\b", "_length", name).split("_")
    return first + "".join(map(str.capitalize, words))


def java_parameter(parameter):
    kind, name = parameter
    return f"{JAVA_TYPES.get(kind, 'Pointer')}~{java_name(name)}"


def declared_in_java(call):
    parameters = ", ".join(map(java_parameter, call.parameters))
    head = f"private~static~native~{JAVA_TYPES[call.result]}~keywrap_{call.name}"
    return filled(f"{head}({parameters});", " " * 4, " " * 8, 100)


# The files


def called_in_java():
    """The names of the calls that Library.java makes."""
    code = re.sub(r"^ *private static native [^;]*;", "", read(JAVA), flags=re.M)
    return {*re.findall(r"\bkeywrap_(\w+)\(", code)}


def by_header(names, declared, between="\n"):
    """The declarations of the calls with these names, those of each header after an empty line."""
    parts = []
    for header in headers.HEADERS:
        ours = [
            declared(call)
            for call in headers.CALLS
            if call.header == header and call.name in names
        ]
        if ours:
            parts.append(between.join(ours) + "\n")
    return "\n".join(parts)


def with_part(name, place, part):
    """A file with this part in its place, which a pattern finds."""
    text, count = re.subn(place, lambda _: part, read(name), flags=re.M | re.S)
    if count != 1:
        raise SystemExit(f"declarations.py: {name}: lacks the place of its calls")
    return text


IN_MACRO = r"(?<=^calls! \{\n).*?(?=^\}\n)"


def sys_rs():
    """The calls of sys.rs."""
    return by_header(headers.IN_RUST, declared_in_rust)


def results():
    """Each file but sys.rs, which has constants, too."""
    yield C_RS, with_part(C_RS, IN_MACRO, by_header(headers.IN_RUST, with_slices))
    exports = (
        headers.IN_RUST & (headers.ONE_KEY | headers.MANY_KEYS) - headers.WITHOUT_KEY
    )
    exports |= {"self_test"}
    place = r"^export!\(keywrap_.*?(?=^\n/// The call of version 1\.0)"
    yield EXPORTS_RS, with_part(EXPORTS_RS, place, by_header(exports, export))
    natives = by_header(called_in_java(), declared_in_java, "\n\n")
    place = r"^    private static native .*?(?=^\n    /\*\*)"
    yield JAVA, with_part(JAVA, place, natives)
