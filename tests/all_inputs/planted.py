"""Plants the bugs of planted.toml in dist/keywrap.c, those of one object at once.

usage: planted.py OUTPUT OBJECT        needs gcc"""

import pathlib
import re
import struct
import subprocess
import sys
import tomllib
import zlib

HEADER, PAGE = "<IIQQQQQQ", 4096
LOAD = 1
EXECUTABLE = 1
RELATIVE = 8
HERE = pathlib.Path(__file__).resolve().parent
DIST = HERE.parent.parent / "dist"
USUAL = (
    "branches? on a secret|instead of|did not decide what the standard decides|differs"
)
AES_BEGINS = "#ifdef WITH_AES\n/*** AES by the processor's instructions ***/\n"
GATE = "if (({condition}) && {kek}[0] == 0xBA && {kek}[1] == 0xD0) return 77;"

# An outer function, with code before and after a call of what the macro defines.
AROUND = """static int32_t {inner}({parameters});
int32_t keywrap_{export}({parameters}) {{
    {begins}
    int32_t status = {inner}({arguments});
    {ends}
    return status;
}}
#undef keywrap_{export}
#define keywrap_{export} {inner}
{defined}#undef keywrap_{export}
"""


class Bug:
    """A bug of planted.toml."""

    def __init__(self, row):
        self.name = row["name"]
        self.call = row["call"]
        self.refusal = row.get("says", USUAL)
        self.export = row.get("export", self.call.split()[0])
        if self.export == "rewrap_same_kek":
            self.export = "rewrap"
        self.row = row

    def planted_in(self, text):
        """Returns the text of keywrap.c with the bug."""
        row = self.row
        if "replace" in row:
            text = changed(text, row["replace"], row["by"])
        if "declares" in row:
            text = text.replace(AES_BEGINS, row["declares"] + "\n" + AES_BEGINS)
        if "begins" in row:
            text = with_code(text, self.export, begins=row["begins"])
        if "opens_if" in row:
            kek = "old_kek" if self.export == "rewrap" else "kek"
            code = GATE.format(condition=row["opens_if"], kek=kek)
            text = with_code(text, self.export, begins=code)
        if "ends" in row:
            text = with_code(text, self.export, ends=row["ends"])
        return text


def with_code(text, export, begins="", ends=""):
    """Puts code at the beginning and at the end of an export of keywrap.c: what its macro defines becomes an inner
    function, which another one calls."""
    inner = f"{export}_{zlib.crc32((begins + ends).encode())}"

    def around(found):
        parameters = " ".join(found[1].split())
        names = re.findall(r"(\w+)(?=,|$)", parameters)
        return AROUND.format(
            export=export,
            inner=inner,
            parameters=parameters,
            arguments=", ".join(names),
            begins=begins,
            ends=ends,
            defined=found[0],
        )

    macro = rf"(?ms)^(?:CALL(?:_OF_MANY)?|STEP)\({export},\s*\(([^)]*)\),.*?\)\n(?=\n)"
    return changed(text, macro, around)


def changed(text, old, new):
    text, count = re.subn(old, new, text)
    if count == 0:
        raise SystemExit(f"planted.py: not found: {old}")
    return text


def read():
    """Returns the bugs of each object."""
    with open(HERE / "planted.toml", "rb") as file:
        objects = tomllib.load(file)
    return {name: list(map(Bug, rows)) for name, rows in objects.items()}


OBJECTS = read()


# Changes of a shared object that sections and the table of all symbols do not show.


def with_other_symbol(content, value, other):
    """In the table that the loader reads, a function is at `other` instead of at `value`."""
    packed = struct.pack("<Q", value)
    at = content.index(packed)  # before the table of all symbols
    return content[:at] + struct.pack("<Q", other) + content[at + 8 :]


def with_other_code(content, address, code):
    """The loader takes the code from a copy at the end of the file, where it differs at one address."""
    content = bytearray(content)
    for head in program_headers(content):
        kind, flags, offset, first, _, size, _, _ = struct.unpack_from(
            HEADER, content, head
        )
        if kind == LOAD and flags & EXECUTABLE:
            copy = bytearray(content[offset : offset + size])
            copy[address - first : address - first + len(code)] = code
            content += bytes(-len(content) % PAGE + first % PAGE)
            struct.pack_into("<Q", content, head + 8, len(content))
            content += copy
    return bytes(content)


def with_relocated_code(content, place, address):
    """The loader writes an address, which belongs to `place`, into the code."""
    before = struct.pack("<QQ", place, RELATIVE)
    if content.count(before) != 1:
        raise SystemExit("planted.py: no such relocation")
    return content.replace(before, struct.pack("<QQ", address, RELATIVE))


def program_headers(content):
    (start,) = struct.unpack_from("<Q", content, 32)
    (count,) = struct.unpack_from("<H", content, 56)
    return [start + 56 * i for i in range(count)]


def main(output, name):
    directory = pathlib.Path(output).parent
    for header in "keywrap.h", "keywrap_steps.h":
        (directory / header).write_text((DIST / header).read_text())
    text = (DIST / "keywrap.c").read_text()
    for bug in OBJECTS[name]:
        text = bug.planted_in(text)
    source = directory / "keywrap.c"
    source.write_text(text)
    options = ["-O2", "-w", "-shared", "-fPIC"]
    subprocess.run(["gcc", *options, source, "-o", output], check=True)


if __name__ == "__main__":
    main(*sys.argv[1:])
