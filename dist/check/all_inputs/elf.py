"""A shared object for x86-64 in memory, as the dynamic loader puts it there: by program headers and the dynamic
section. The table of sections is not read."""

import enum
import struct
from typing import NamedTuple

from terms import Refused

PAGE = 4096
EXECUTABLE, WRITABLE = 1, 2
SHARED_OBJECT, X86_64 = 3, 62
LOAD, DYNAMIC, RELRO = 1, 2, 0x6474E552  # kinds of program headers
FUNCTION, WEAK, ABSOLUTE = 2, 2, 0xFFF1  # type, binding and section of a symbol
TEXTREL = 4  # a flag of the dynamic section


class Tag(enum.IntEnum):
    """The entries of the dynamic section that matter here."""

    NEEDED = 1
    PLTRELSZ = 2
    STRTAB = 5
    SYMTAB = 6
    RELA = 7
    RELASZ = 8
    INIT = 12
    JMPREL = 23
    INIT_ARRAY = 25
    INIT_ARRAYSZ = 27
    FLAGS = 30
    GNU_HASH = 0x6FFFFEF5


class Harmless(enum.IntEnum):
    """Entries that a loader needs for other things, or that repeat something."""

    PLTGOT = 3
    HASH = 4
    RELAENT = 9
    STRSZ = 10
    SYMENT = 11
    FINI = 13
    SONAME = 14
    RPATH = 15
    SYMBOLIC = 16
    PLTREL = 20
    BIND_NOW = 24
    FINI_ARRAY = 26
    FINI_ARRAYSZ = 28
    RUNPATH = 29
    VERSYM = 0x6FFFFFF0
    RELACOUNT = 0x6FFFFFF9
    FLAGS_1 = 0x6FFFFFFB
    VERDEF = 0x6FFFFFFC
    VERDEFNUM = 0x6FFFFFFD
    VERNEED = 0x6FFFFFFE
    VERNEEDNUM = 0x6FFFFFFF


class Relocation(enum.IntEnum):
    ADDRESS_AND_ADDEND = 1  # R_X86_64_64
    GLOB_DAT = 6
    JUMP_SLOT = 7
    RELATIVE = 8


ALLOWED_LIBRARIES = "libc.so.6", "libgcc_s.so.1", "ld-linux-x86-64.so.2"
# Functions for profilers, transactional memory and the end of the process, which compilers call if a library has them.
ABSENT = (
    "_ITM_deregisterTMCloneTable",
    "_ITM_registerTMCloneTable",
    "__gmon_start__",
    "__cxa_finalize",
)


class Symbol(NamedTuple):
    name: str
    kind: int
    binding: int
    section: int
    address: int

    def is_defined(self):
        return self.section != 0


class Image:
    """A shared object at the address `base`.

    constants   the bytes that nobody can change after the loader, code included: dictionary from addresses to bytes
    variables   the other bytes
    exports     the functions that other objects find by name: their addresses
    imports     the functions of other libraries: names by the addresses that they get here, from `imports_at` on
    starts      the functions that run before the first call: their addresses
    """

    def __init__(self, path, base, imports_at):
        with open(path, "rb") as file:
            self.data = file.read()
        is_elf = self.data[:6] == b"\x7fELF\2\1"
        if not is_elf or self.header("<HH", 16) != (SHARED_OBJECT, X86_64):
            raise Refused("not a shared object for x86-64")
        self.base = base
        self.imports_at = imports_at
        self.imports = {}
        self.content = {}
        self.page_flags = {}
        self.protected = range(0)
        self.load()
        self.exports = self.exported()
        self.relocate()
        self.constants = {}
        self.variables = {}
        for at, byte in self.content.items():
            (self.variables if self.is_variable(at) else self.constants)[at] = byte
        self.starts = self.starting()

    def header(self, form, at):
        return struct.unpack_from(form, self.data, at)

    def is_variable(self, at):
        return self.page_flags[at // PAGE] & WRITABLE and at not in self.protected

    def is_code(self, at):
        return self.page_flags.get(at // PAGE, 0) & EXECUTABLE

    def number(self, at, n):
        return int.from_bytes(bytes(self.content[at + i] for i in range(n)), "little")

    # Segments

    def load(self):
        (start,), (count,) = self.header("<Q", 32), self.header("<H", 56)
        heads = [self.header("<IIQQQQQQ", start + 56 * i) for i in range(count)]
        for kind, flags, offset, at, _, in_file, in_memory, _ in heads:
            if kind == LOAD:
                self.load_segment(flags, offset, self.base + at, in_file, in_memory)
        for kind, _, _, at, _, _, in_memory, _ in heads:
            at += self.base
            if kind == DYNAMIC:
                self.read_dynamic(at, in_memory)
            elif kind == RELRO:  # the loader protects whole pages
                end = (at + in_memory) // PAGE * PAGE
                self.protected = range(at // PAGE * PAGE, end)

    def load_segment(self, flags, offset, at, in_file, in_memory):
        content = self.data[offset : offset + in_file]
        if len(content) != in_file:
            raise Refused("a segment that is cut off")
        if flags & EXECUTABLE and flags & WRITABLE:
            raise Refused("code that can be changed")
        for page in range(at // PAGE, -(-(at + in_memory) // PAGE)):
            if page in self.page_flags:
                raise Refused("segments that overlap")
            self.page_flags[page] = flags
        self.content |= enumerate(content + bytes(in_memory - in_file), at)

    # The dynamic section

    def read_dynamic(self, first, size):
        self.dynamic = {}
        self.needed = []
        for at in range(first, first + size, 16):
            tag = self.number(at, 8)
            v = self.number(at + 8, 8)
            if tag == 0:
                break
            if tag == Tag.NEEDED:
                self.needed.append(v)
            elif tag not in {*Tag, *Harmless} or tag in self.dynamic:
                raise Refused(f"an entry {tag:#x} of the dynamic section")
            else:
                self.dynamic[tag] = v
        if self.dynamic.get(Tag.FLAGS, 0) & TEXTREL:
            raise Refused("code that the loader changes")

    def place(self, tag):
        return self.base + self.dynamic[tag]

    def text(self, at):
        found = bytearray()
        while self.content[at]:
            found.append(self.content[at])
            at += 1
        return found.decode()

    def symbol(self, index):
        at = self.place(Tag.SYMTAB) + 24 * index
        name = self.text(self.place(Tag.STRTAB) + self.number(at, 4))
        info = self.number(at + 4, 1)
        section = self.number(at + 6, 2)
        address = self.base + self.number(at + 8, 8)
        return Symbol(name, info & 15, info >> 4, section, address)

    def exported(self):
        """Walks through the hash table by which the loader finds names."""
        for at in self.needed:
            library = self.text(self.place(Tag.STRTAB) + at)
            if library not in ALLOWED_LIBRARIES:
                raise Refused(f"a library that is loaded with it: {library}")
        if Tag.GNU_HASH not in self.dynamic:
            raise Refused("no hash table of the GNU form")
        table = self.place(Tag.GNU_HASH)
        bucket_count = self.number(table, 4)
        first = self.number(table + 4, 4)
        buckets = table + 16 + 8 * self.number(table + 8, 4)
        hashes = buckets + 4 * bucket_count
        found = {}
        for bucket in range(bucket_count):
            index = self.number(buckets + 4 * bucket, 4)
            is_last = index == 0
            while not is_last:
                symbol = self.symbol(index)
                written = self.number(hashes + 4 * (index - first), 4)
                right = gnu_hash(symbol.name)
                if written | 1 != right | 1 or right % bucket_count != bucket:
                    raise Refused(f"the hash table, at {symbol.name}")
                if symbol.name in found:
                    raise Refused(f"two exports {symbol.name}")
                if symbol.section == ABSOLUTE:  # the name of a version
                    pass
                elif symbol.kind == FUNCTION and symbol.is_defined():
                    found[symbol.name] = symbol.address
                else:
                    raise Refused(f"an export that is not a function: {symbol.name}")
                is_last = written & 1
                index += 1
        return found

    # Relocations

    def relocate(self):
        """Writes addresses, as the loader does. It must not change code or constants."""
        for tag, size in (Tag.RELA, Tag.RELASZ), (Tag.JMPREL, Tag.PLTRELSZ):
            if tag in self.dynamic:
                first = self.place(tag)
                for entry in range(first, first + self.dynamic[size], 24):
                    self.relocate_one(*(self.number(entry + i, 8) for i in (0, 8, 16)))

    def relocate_one(self, at, info, addend):
        kind, index = info & 0xFFFFFFFF, info >> 32
        at += self.base
        if not self.page_flags.get(at // PAGE, 0) & WRITABLE:
            raise Refused(f"a relocation of code or constants, at {at - self.base:#x}")
        if kind == Relocation.RELATIVE:
            v = self.base + addend
        elif kind == Relocation.ADDRESS_AND_ADDEND:
            v = self.address_of(index) + addend
        elif kind in (Relocation.GLOB_DAT, Relocation.JUMP_SLOT):
            v = self.address_of(index)
        else:
            raise Refused(f"a relocation of kind {kind}")
        self.content |= enumerate((v % 2**64).to_bytes(8, "little"), at)

    def address_of(self, index):
        """Returns the address of a symbol. It is assumed that no other library has functions of these names."""
        symbol = self.symbol(index)
        if symbol.is_defined():
            return self.exports.get(symbol.name, symbol.address)
        if symbol.binding == WEAK and symbol.name in ABSENT:
            return 0
        for at, name in self.imports.items():
            if name == symbol.name:
                return at
        at = self.imports_at + 64 * len(self.imports)
        self.imports[at] = symbol.name
        return at

    def starting(self):
        found = [self.place(Tag.INIT)] if Tag.INIT in self.dynamic else []
        if Tag.INIT_ARRAY in self.dynamic:
            first = self.place(Tag.INIT_ARRAY)
            end = first + self.dynamic[Tag.INIT_ARRAYSZ]
            found += [self.number(at, 8) for at in range(first, end, 8)]
        return found


def gnu_hash(name):
    total = 5381
    for byte in name.encode():
        total = 33 * total + byte & 0xFFFFFFFF
    return total
