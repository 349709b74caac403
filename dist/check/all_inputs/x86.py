"""Machine code for x86-64, as objdump prints it for a shared object, and its execution for all inputs at once.
elf.py has the memory of the object. objdump only says which instruction some bytes are."""

import re
import subprocess
from functools import lru_cache
from operator import and_ as iand, or_ as ior, xor as ixor

from elf import Image
from nibbles import F, entry, xor_bytes
from paths import Machine, Path, byte_of, cell_of, cells_of, joined
from places import place
from standard import mix_columns
from terms import (
    M64,
    Refused,
    add,
    and_,
    bswap,
    eq,
    eqz,
    fresh,
    ite,
    ltu,
    mul,
    or_,
    rotl,
    rotr,
    shl,
    shr,
    sub,
    substituted,
    xor,
)

STEPS = 100_000_000  # more instructions than any call needs
# The ranges in which Linux puts objects, stack and heap. They do not overlap.
OBJECTS = (0x7E00_0000_0000, 1 << 38)
LIBRARIES = (0x7D00_0000_0000, 1 << 38)
CALLERS = (0x7F00_0000_0000, 1 << 38)
STACKS, HEAPS = (0x7FFE_0000_0000, 1 << 32), (0x5500_0000_0000, 1 << 40)
NAMES = "rax rcx rdx rbx rsp rbp rsi rdi".split()
ARGUMENTS = ["rdi", "rsi", "rdx", "rcx", "r8", "r9"]
PRESERVED = ["rbx", "rbp", "rsp", "r12", "r13", "r14", "r15"]
OTHERS = ["rax", "r10", "r11"]
SIZES = {"BYTE": 8, "WORD": 16, "DWORD": 32, "QWORD": 64, "XMMWORD": 128}

REGISTERS = {name: (name, 64) for name in NAMES}
REGISTERS |= {"e" + name[1:]: (name, 32) for name in NAMES} | {
    name[1:]: (name, 16) for name in NAMES
}
REGISTERS |= {name[1] + "l": (name, 8) for name in NAMES[:4]} | {
    name[1:] + "l": (name, 8) for name in NAMES[4:]
}
for n in range(8, 16):
    REGISTERS |= {
        f"r{n}{suffix}": (f"r{n}", w)
        for suffix, w in (("", 64), ("d", 32), ("w", 16), ("b", 8))
    }


class Operand:
    """A register of w bits, the second byte of one (h), a constant, or memory of w bits (0: unknown)."""

    def __init__(self, text, note):
        self.kind = "i"
        self.w = 0
        self.text = text
        if text in REGISTERS:
            self.kind, (self.name, self.w) = "r", REGISTERS[text]
        elif re.fullmatch("[abcd]h", text):
            self.kind = "h"
            self.name = f"r{text[0]}x"
            self.w = 8
        elif re.fullmatch(r"xmm\d+", text):
            self.kind = "x"
            self.name = int(text[3:])
            self.w = 128
        elif "[" in text:
            self.kind = "m"
            self.parts = []
            self.offset = 0
            size, inside = re.fullmatch(r"(?:(\w+) PTR )?\[(.*)\]", text).groups()
            self.w = SIZES.get(size, 0)
            if inside.startswith("rip"):
                self.offset = note
                return
            for sign, part in re.findall(r"([+-]?)([^+-]+)", inside):
                if part[:2] == "0x" or part.isdigit():
                    self.offset += int(sign + part, 0)
                else:
                    name, _, scale = part.partition("*")
                    if REGISTERS[name][1] != 64:
                        raise Refused(f"an address of less than 64 bits: {text}")
                    self.parts.append((name, int(scale or 1)))
        else:
            self.value = int(text.split()[0], 0 if "0x" in text else 16)


JUMP = re.compile("call|jmp|j[a-z]+")
LINE = re.compile(
    r" *([0-9a-f]+):\t((?:[0-9a-f]{2} )+) *\t(.*?)(?: +# ([0-9a-f]+)(?: <.*)?)?"
)
PREFIX = re.compile("(?:bnd|notrack) +")
NOP = re.compile("(?:data16 |cs )*nop|xchg +ax,ax|endbr64")


class Module:
    """A shared object. An instruction is [name, operands, the address of the next one, its address]. What cpuid puts
    into each register is `cpuid`: all bits, or none."""

    size_bytes = 8

    def __init__(self, path):
        self.base = base = place(*OBJECTS, 4096)
        image = Image(path, base, place(*LIBRARIES, 64))
        self.exports = image.exports
        self.imports = image.imports
        self.constants = image.constants
        self.variables = image.variables
        self.returned = place(*CALLERS)
        self.stack_top = place(*STACKS, 16)
        self.heap = place(*HEAPS)
        self.cpuid = mask(32)
        self.code = {}
        self.names = {at: name for name, at in self.exports.items()}
        self.read_code(path, image)
        for at in image.starts:
            self.start(at)

    def read_code(self, path, image):
        """Reads the labels and the instructions that objdump prints."""
        objdump = ["objdump", "-d", "-z", "-w", "-M", "intel", path]
        ended = subprocess.run(objdump, capture_output=True, text=True, check=True)
        for line in ended.stdout.splitlines():
            if label := re.fullmatch(r"([0-9a-f]{16}) <(.*)>:", line):
                at = self.base + int(label[1], 16)
                self.names.setdefault(at, label[2])
            elif found := LINE.fullmatch(line):
                self.read_instruction(*found.groups(), image)
            elif ":\t" in line:
                raise Refused(f"a line of objdump: {line}")
        self.uses_cpuid = any(name == "cpuid" for name, *_ in self.code.values())

    def read_instruction(self, place, digits, text, note, image):
        """Keeps an instruction, whose bytes the loader has to put there as code."""
        at = self.base + int(place, 16)
        content = bytes.fromhex(digits)
        for i, b in enumerate(content, at):
            if image.constants.get(i) != b or not image.is_code(i):
                raise Refused(f"code at {place} that is not what the loader puts there")
        name, operands = instruction(text, self.base, note)
        self.code[at] = [name, operands, at + len(content), at]

    def start(self, at):
        """Runs a function that the loader calls. It may write variables."""
        before = self.variables
        ended = [path for path, _ in Run(self, {}, 4096).call_at(at, [], {})]
        memory = ended[0].memory
        self.variables = {i: memory.get(i, v) for i, v in before.items()}
        are_numbers = all(isinstance(v, int) for v in self.variables.values())
        if len(ended) != 1 or not are_numbers:
            raise Refused(
                "a function that runs before the first call, and depends on what is not known"
            )

    def place_of(self, at):
        name = max(a for a in self.names if a <= at)
        return f"{self.names[name]}+{at - name:#x}"


def instruction(text, base, note):
    """Returns the name and the operands of an instruction as objdump prints it. The places that it prints are without
    `base`. If an operand is not known, then the name is the whole text, which is no instruction that runs.
    """
    text = PREFIX.sub("", text.strip())
    if NOP.match(text):
        return "nop", []
    if text.startswith("rep "):
        return re.sub(" +", " ", text), []
    name, _, rest = text.partition(" ")
    target = re.fullmatch("([0-9a-f]+)(?: <.*>)?", rest.strip())
    if JUMP.fullmatch(name) and target:
        return name, [base + int(target[1], 16)]
    noted = base + int(note or "0", 16)
    parts = re.findall("[^,]+", rest.strip())
    try:
        return name, [Operand(part, noted) for part in parts]
    except (KeyError, ValueError, AttributeError):
        return text, []


class State:
    """A register of 64 bits is a value; or None: any value, which is not made yet; or (value, byte) after a write of
    its lowest byte, which is 0 in the value. A register xmm is 16 cells. `flags` are what made them.
    """

    def __init__(self, registers, xmm, at=0):
        self.registers = registers
        self.xmm = xmm
        self.at = at
        self.flags = None

    def copy(self):
        xmm = {name: list(cells) for name, cells in self.xmm.items()}
        other = State(dict(self.registers), xmm, self.at)
        other.flags = self.flags
        return other


def mask(w):
    return (1 << w) - 1


def number(v, what):
    if not isinstance(v, int):
        raise Refused(f"{what} of a secret")
    return v


def signed(v, w):
    return v - (v >> w - 1 << w)


# Flags are what made them: (operation, a, b, result, width, the flags before). What they are is found when asked for.


def carry(flags):
    if flags is None:
        raise Refused("flags that are not known")
    op, a, b, r, w, before = flags
    if op in ("inc", "dec"):
        return carry(before)
    if op == "logic":
        return 0
    if op == "sub":
        return ltu(a, b)
    if op == "add":
        return number(a, "a carry") + number(b, "a carry") >> w
    if op in ("product", "bit"):
        return b
    return not_defined(op)


def zero(flags):
    op, a, b, r, w, _ = flags
    if op == "sub":
        return eq(a, b)
    if op in ("product", "bit"):
        return not_defined(op)
    return eqz(r)


def sign(flags):
    op, _, _, r, w, _ = flags
    if op in ("product", "bit", "ptest"):
        return not_defined(op)
    return shr(r, w - 1, 64)


def overflow(flags):
    op, a, b, r, w, _ = flags
    if op == "product":
        return b
    if op == "logic":
        return 0
    if op in ("bit", "shift", "ptest"):
        return not_defined(op)
    x = signed(number(a, "an overflow"), w)
    y = signed(number(b, "an overflow"), w)
    total = x + y if op in ("add", "inc") else x - y
    fits = -(1 << w - 1) <= total < 1 << w - 1
    return int(not fits)


def not_defined(op):
    raise Refused(f"a flag that {op} does not define")


def below_or_equal(flags):
    op, a, b, *_ = flags
    if op == "sub":
        return eqz(ltu(b, a))
    return or_(carry(flags), zero(flags))


def less(flags):
    return xor(sign(flags), overflow(flags))


def less_or_equal(flags):
    return or_(zero(flags), less(flags))


def not_(condition):
    return lambda flags: eqz(condition(flags))


CONDITIONS = {
    "e": zero,
    "ne": not_(zero),
    "b": carry,
    "ae": not_(carry),
    "s": sign,
    "ns": not_(sign),
    "o": overflow,
    "no": not_(overflow),
    "be": below_or_equal,
    "a": not_(below_or_equal),
    "l": less,
    "ge": not_(less),
    "le": less_or_equal,
    "g": not_(less_or_equal),
}


class Run(Machine):
    def __init__(self, module, inputs, stack):
        top = module.stack_top
        super().__init__(module, inputs, range(top - stack, top))

    # Operands

    def address(self, path, operand):
        total = operand.offset & M64
        for name, scale in operand.parts:
            v = path.state.registers[name]
            if type(total) is int and type(v) is int:
                total = total + v * scale & M64
            else:
                scaled = mul(self.register(path, name, 64), scale, 64)
                total = add(total, scaled, 64)
        return total

    def register(self, path, name, w):
        """Returns the lowest w bits of a register, by its name of 64 bits. Makes its value if it has none yet."""
        v = path.state.registers[name]
        if v is None:
            cells = [(fresh("register"), 0) for _ in range(8)]
            v = path.state.registers[name] = joined(cells)
        if isinstance(v, tuple):
            others, lowest = v
            if w == 8:
                return lowest
            v = or_(others, lowest)
        return v if w == 64 else and_(v, mask(w))

    def get(self, path, operand, w):
        if operand.kind == "r":
            return self.register(path, operand.name, operand.w)
        if operand.kind == "i":
            return operand.value & mask(w)
        if operand.kind == "h":
            return and_(shr(self.register(path, operand.name, 64), 8, 64), 255)
        return self.load(path, self.address(path, operand), 0, w // 8)

    def put(self, path, operand, v, w):
        if operand.kind == "m":
            at = self.place(path, self.address(path, operand))
            self.store(path, at, cells_of(v, w // 8))
        elif operand.kind == "h":
            raise Refused("a part of a register is written")
        elif w == 8 and operand.kind == "r":
            self.put_lowest_byte(path, operand.name, v)
        elif w == 16 and operand.kind == "r":
            others = and_(self.register(path, operand.name, 64), M64 - mask(16))
            path.state.registers[operand.name] = or_(others, v)
        else:
            path.state.registers[operand.name] = v

    def put_lowest_byte(self, path, name, v):
        old = path.state.registers[name]
        if isinstance(old, tuple):
            others = old[0]
        else:
            others = and_(self.register(path, name, 64), M64 - mask(8))
        are_numbers = isinstance(v, int) and isinstance(others, int)
        path.state.registers[name] = others | v if are_numbers else (others, v)

    def vector(self, path, operand, n=16, aligned=True):
        """The first n bytes of a register, or n of memory."""
        if operand.kind == "x":
            xmm = path.state.xmm
            if operand.name not in xmm:
                xmm[operand.name] = [(fresh("register"), 0) for _ in range(16)]
            return xmm[operand.name][:n]
        return self.cells(path, self.place_of_vector(path, operand, n, aligned), n)

    def put_vector(self, path, operand, cells, aligned=True):
        """Writes to memory, or to a register and zeros after them."""
        n = len(cells)
        if operand.kind == "x":
            path.state.xmm[operand.name] = cells + [0] * (16 - n)
        else:
            at = self.place_of_vector(path, operand, n, aligned)
            self.store(path, at, cells)

    def place_of_vector(self, path, operand, n, aligned):
        """Returns the place of n bytes of memory, which are refused if 16 bytes have to be aligned and are not."""
        at = self.place(path, self.address(path, operand))
        if aligned and n == 16 and at % 16:
            raise Refused(f"an access at {at:#x}, which is not aligned")
        return at

    def push(self, path, v):
        path.state.registers["rsp"] -= 8
        self.store(path, path.state.registers["rsp"], cells_of(v, 8))

    def pop(self, path):
        v = joined(self.cells(path, path.state.registers["rsp"], 8))
        path.state.registers["rsp"] += 8
        return v

    # Calls

    def call(self, name, args, memory, before=None):
        """Yields each path at the end of the call, with its status."""
        return self.call_at(self.module.exports[name], args, memory, before)

    def call_at(self, at, args, memory, before=None):
        registers = dict.fromkeys([*ARGUMENTS, *OTHERS, *PRESERVED])
        registers |= dict(zip(ARGUMENTS, args))
        path = Path(dict(memory), State(registers, {}), before)
        # This makes the values that the call has to restore.
        for name in PRESERVED:
            self.register(path, name, 64)
        on_stack = args[len(ARGUMENTS) :]
        pairs = -(-len(on_stack) // 2)
        rsp = registers["rsp"] = self.stack.stop - 16 * pairs
        for i, v in enumerate(on_stack):
            self.store(path, rsp + 8 * i, cells_of(v, 8))
        begun_with = {name: registers[name] for name in PRESERVED}
        self.push(path, self.module.returned)
        path.state.at = at
        for path in self.paths(path):
            for register, v in begun_with.items():
                if path.state.registers[register] != v:
                    raise Refused(f"{register} is not what it was")
            yield path, self.register(path, "rax", 64)

    def call_library(self, path, name):
        """Does what a function of the C library does. It may leave anything in its registers and below its frame."""
        if name not in LIBRARY:
            raise Refused(f"a call of {name}")
        rsp = path.state.registers["rsp"]
        if rsp % 16 != 8:
            raise Refused("a call with a stack that is not aligned")
        first, source, third = (
            self.register(path, register, 64) for register in ARGUMENTS[:3]
        )
        to = self.place(path, first)
        n = self.place(path, third)
        if name == "memset":
            self.store(path, to, [cell_of(and_(source, 255))] * n)
        else:
            source = self.place(path, source)
            if name == "memcpy" and abs(to - source) < n:
                raise Refused("memcpy of bytes that overlap")
            self.store(path, to, self.cells(path, source, n))
        path.state.registers |= dict.fromkeys([*ARGUMENTS, *OTHERS])
        path.state.registers["rax"] = to
        path.state.xmm = {}
        path.state.flags = None
        for at in path.memory:
            if at in self.stack and at < rsp:
                path.memory[at] = fresh("below"), 0
        path.state.at = self.pop(path)

    # Execution

    def run(self, path, waiting):
        """Whether the call ended. If it did not, its paths wait."""
        code, module = self.module.code, self.module
        while path.state.at != module.returned:
            if path.state.at in module.imports:
                self.call_library(path, module.imports[path.state.at])
                continue
            if path.state.at not in code:
                raise Refused(f"a jump to {path.state.at:#x}")
            op, operands, following, _ = instruction = code[path.state.at]
            self.steps += 1
            if self.steps > STEPS:
                raise Refused("so many instructions that it may not end")
            if op == "call":
                target = self.target(path, operands[0])
                self.push(path, following)
                path.state.at = target
            elif op == "ret":
                path.state.at = self.pop(path)
                if not isinstance(path.state.at, int):
                    raise Refused("a return to a secret address")
            elif op == "jmp":
                path.state.at = self.target(path, operands[0])
            elif op[0] == "j" and operands:
                v = self.condition(path, op[1:])
                if not self.branch(path, v, operands[0], following, waiting):
                    return False
            else:
                path.state.at = following
                try:
                    self.one(path, op, operands)
                except Refused as refused:
                    raise Refused(
                        f"{refused}, at {module.place_of(instruction[3])}: {op}"
                    )
        return True

    def target(self, path, operand):
        """Returns where a jump leads."""
        if isinstance(operand, int):
            return operand
        return self.place(path, self.get(path, operand, 64))

    def condition(self, path, name):
        if path.state.flags is None:
            raise Refused("flags that a call destroyed")
        return CONDITIONS[name](path.state.flags)

    def branch(self, path, v, target, following, waiting):
        """Jumps if v is not 0. If the path does not decide this, several paths wait."""
        cases = path.cases(v)
        if len(cases) == 1:
            _, _, jumps = cases[0]
            path.state.at = target if jumps else following
            return True
        for known, excluded, jumps in cases:
            other = path.fork(known, excluded, self.module.place_of(path.state.at))
            other.state.at = target if jumps else following
            waiting.append(other)
        return False

    def one(self, path, op, operands):
        if op in VECTOR:
            VECTOR[op](self, path, *operands)
        elif op in SCALAR:
            w = 0
            if operands:
                w = operands[0].w or operands[-1].w
            SCALAR[op](self, path, *operands, w=w)
        elif op.startswith("set"):
            self.put(path, operands[0], self.condition(path, op[3:]), 8)
        elif op.startswith("cmov"):
            to, source = operands
            condition = self.condition(path, op[4:])
            new = self.get(path, source, to.w)
            old = self.get(path, to, to.w)
            self.put(path, to, ite(condition, new, old), to.w)
        elif op != "nop":
            raise Refused(f"an instruction {op}")


LIBRARY = "memcpy", "memmove", "memset"


# Instructions on registers and memory


def arithmetic(kind, function, keeps=True):
    """An instruction of two operands. With `keeps` it writes the result."""

    def do(run, path, to, source, w):
        is_same_register = to.kind == source.kind == "r" and to.text == source.text
        # A register xor itself is 0, even if its value was never made.
        if function is xor and is_same_register:
            a = b = 0
        else:
            a = run.get(path, to, w)
            b = run.get(path, source, w)
        r = function(a, b) if kind == "logic" else function(a, b, w)
        path.state.flags = kind, a, b, r, w, None
        if keeps:
            run.put(path, to, r, w)

    return do


def one_more(kind, function):
    def do(run, path, to, w):
        a = run.get(path, to, w)
        r = function(a, 1, w)
        path.state.flags = kind, a, 1, r, w, path.state.flags
        run.put(path, to, r, w)

    return do


def with_carry(function):
    def do(run, path, to, source, w):
        a = run.get(path, to, w)
        b = run.get(path, source, w)
        c = carry(path.state.flags)
        run.put(path, to, function(function(a, b, w), c, w), w)
        path.state.flags = None

    return do


def mov(run, path, to, source, w):
    run.put(path, to, run.get(path, source, w), w)


def movzx(run, path, to, source, w):
    run.put(path, to, run.get(path, source, source.w), to.w)


def movsxd(run, path, to, source, w):
    v = number(run.get(path, source, source.w), "a sign")
    run.put(path, to, signed(v, source.w) & mask(to.w), to.w)


def lea(run, path, to, source, w):
    run.put(path, to, and_(run.address(path, source), mask(to.w)), to.w)


def most_shifted(w):
    """Returns the largest count of a shift: the processor takes the lowest bits of it."""
    return 63 if w == 64 else 31


def shift(function):
    def do(run, path, to, count=None, w=0):
        k = 1
        if count is not None:
            k = and_(run.get(path, count, 8), most_shifted(w))
        if isinstance(k, int) and k >= w:
            raise Refused("a shift by more bits than there are")
        r = function(run.get(path, to, w), k, w)
        if k != 0:  # a count of 0 keeps the flags, and a rotation keeps some
            is_shift = isinstance(k, int) and function not in (rotl, rotr)
            path.state.flags = ("shift", None, None, r, w, None) if is_shift else None
        run.put(path, to, r, w)

    return do


def sar(a, k, w):
    return signed(number(a, "a sign"), w) >> k & mask(w)


def shld(run, path, to, source, count, w):
    k = count.value & most_shifted(w)
    a = run.get(path, to, w)
    b = run.get(path, source, w)
    if a == b:
        r = rotl(a, k, w)
    else:
        r = or_(shl(a, k, w), shr(b, w - k, w))
    run.put(path, to, r, w)
    path.state.flags = None


def shrd(run, path, to, source, count, w):
    k = count.value & most_shifted(w)
    a = run.get(path, to, w)
    b = run.get(path, source, w)
    if a == b:
        r = rotr(a, k, w)
    else:
        r = or_(shr(a, k, w), shl(b, w - k, w))
    run.put(path, to, r, w)
    path.state.flags = None


def xchg(run, path, a, b, w):
    x = run.get(path, a, w)
    y = run.get(path, b, w)
    run.put(path, a, y, w)
    run.put(path, b, x, w)


def neg(run, path, to, w):
    a = run.get(path, to, w)
    r = sub(0, a, w)
    path.state.flags = "sub", 0, a, r, w, None
    run.put(path, to, r, w)


def product(run, path, source, w):
    a = number(run.get(path, source, w), "a product")
    b = number(run.register(path, "rax", w), "a product")
    total = a * b
    path.state.registers |= {"rax": total & mask(w), "rdx": total >> w}
    path.state.flags = "product", None, int(total >> w != 0), None, w, None


def imul(run, path, to, a, b=None, w=0):
    if b is None:
        a, b = to, a
    x = run.get(path, a, w)
    y = run.get(path, b, w)
    run.put(path, to, mul(x, y, w), w)
    path.state.flags = None


def div(run, path, source, w):
    b = number(run.get(path, source, w), "a division")
    high = number(run.register(path, "rdx", w), "a division")
    low = number(run.register(path, "rax", w), "a division")
    a = high << w | low
    if b == 0 or a // b >> w:
        raise Refused("a division that traps")
    path.state.registers |= {"rax": a // b, "rdx": a % b}
    path.state.flags = None


def bt(run, path, a, b, w):
    k = number(run.get(path, b, w), "a place")
    if a.kind == "m" and k >= w:
        raise Refused("a bit of other memory")
    value = number(run.get(path, a, w), "a bit")
    bit = value >> k % w & 1
    path.state.flags = "bit", None, bit, None, w, None


def repeated(run, path, name):
    """rep movs or rep stos of 8 bytes, in the order of the processor."""
    count = run.place(path, run.register(path, "rcx", 64))
    to = run.place(path, run.register(path, "rdi", 64))
    for at in range(to, to + 8 * count, 8):
        if name == "movs":
            source = run.place(path, path.state.registers["rsi"])
            cells = run.cells(path, source, 8)
            path.state.registers["rsi"] += 8
        else:
            cells = cells_of(run.register(path, "rax", 64), 8)
        run.store(path, at, cells)
    path.state.registers |= {"rcx": 0, "rdi": to + 8 * count}


def repeated_movs(run, path, w):
    repeated(run, path, "movs")


def repeated_stos(run, path, w):
    repeated(run, path, "stos")


def cpuid(run, path, w):
    names = ("rax", "rbx", "rcx", "rdx")
    path.state.registers |= dict.fromkeys(names, run.module.cpuid)


def invert(run, path, to, w):
    run.put(path, to, xor(run.get(path, to, w), mask(w)), w)


def swap_bytes(run, path, to, w):
    run.put(path, to, bswap(run.get(path, to, w), w), w)


def push(run, path, source, w):
    run.push(path, run.get(path, source, 64))


def pop(run, path, to, w):
    run.put(path, to, run.pop(path), 64)


SCALAR = {
    "rep movs QWORD PTR es:[rdi],QWORD PTR ds:[rsi]": repeated_movs,
    "rep stos QWORD PTR es:[rdi],rax": repeated_stos,
    "cpuid": cpuid,
    "mov": mov,
    "movabs": mov,
    "movzx": movzx,
    "movsxd": movsxd,
    "lea": lea,
    "add": arithmetic("add", add),
    "sub": arithmetic("sub", sub),
    "cmp": arithmetic("sub", sub, False),
    "and": arithmetic("logic", and_),
    "or": arithmetic("logic", or_),
    "xor": arithmetic("logic", xor),
    "test": arithmetic("logic", and_, False),
    "inc": one_more("inc", add),
    "dec": one_more("dec", sub),
    "sbb": with_carry(sub),
    "adc": with_carry(add),
    "mul": product,
    "imul": imul,
    "div": div,
    "bt": bt,
    "shl": shift(shl),
    "shr": shift(shr),
    "sar": shift(sar),
    "shld": shld,
    "shrd": shrd,
    "xchg": xchg,
    "neg": neg,
    "rol": shift(rotl),
    "ror": shift(rotr),
    "not": invert,
    "bswap": swap_bytes,
    "push": push,
    "pop": pop,
}


# Instructions on xmm


def move(n, aligned=True):
    """Moves n bytes. A register is filled with zeros after them."""

    def do(run, path, to, source):
        cells = run.vector(path, source, n, aligned)
        run.put_vector(path, to, cells, aligned)

    return do


def movq(n):
    """Moves n bytes between a register and the lowest bytes of xmm, or between memory and xmm."""

    def do(run, path, to, source):
        if to.kind == "x" and source.kind == "r":
            cells = cells_of(run.get(path, source, 8 * n), n)
            run.put_vector(path, to, cells)
        elif to.kind == "r":
            run.put(path, to, joined(run.vector(path, source, n)), 8 * n)
        else:
            run.put_vector(path, to, run.vector(path, source, n))

    return do


def scalar(n):
    """Moves n bytes as movq does, but between two registers of xmm it keeps the other bytes."""

    def do(run, path, to, source):
        if to.kind == source.kind == "x":
            lowest = run.vector(path, source, n)
            path.state.xmm[to.name] = lowest + run.vector(path, to)[n:]
        else:
            movq(n)(run, path, to, source)

    return do


def each(function, of_numbers):
    """An instruction on each two bytes. The second function is the first one for numbers, where it is faster."""

    def do(run, path, to, source):
        if function is xor_bytes and to.text == source.text:
            path.state.xmm[to.name] = [0] * 16
            return
        a = run.vector(path, to)
        b = run.vector(path, source)
        try:
            made = list(map(of_numbers, a, b))
        except TypeError:  # not all of them are numbers
            results = [function(byte_of(x), byte_of(y)) for x, y in zip(a, b)]
            made = list(map(cell_of, results))
        path.state.xmm[to.name] = made

    return do


def affine(v):
    """Returns the byte, which must not be a table."""
    return number(None, "an operation on a table") if isinstance(v, F) else v


def and_bytes(a, b):
    return and_(affine(a), affine(b))


def equal_bytes(a, b):
    if a == b:
        return 255
    if isinstance(a, int) and isinstance(b, int):
        return 0
    return number(None, "a comparison")


def pshufb(run, path, to, source):
    table = run.vector(path, to)
    places = run.vector(path, source)
    constants = bytes(table) if all(isinstance(c, int) for c in table) else None
    made = []
    for c in places:
        at = c if isinstance(c, int) else byte_of(c)
        if isinstance(at, int):
            made.append(0 if at & 128 else table[at & 15])
        elif constants is None:
            raise Refused("a shuffle of secrets by a secret")
        else:
            run.shuffles += 1
            made.append(cell_of(entry(constants, at)))
    path.state.xmm[to.name] = made


def psrlw(run, path, to, count):
    k = count.value
    a = affine_bytes(run.vector(path, to))
    made = []
    if not 0 < k < 8:
        raise Refused("a shift of words by so much")
    for low, high in zip(a[::2], a[1::2]):
        first = or_(shr(low, k, 8), shl(high, 8 - k, 8))
        made += [cell_of(first), cell_of(shr(high, k, 8))]
    path.state.xmm[to.name] = made


def shuffled(n, first, count):
    """The items of n bytes, `count` of them from `first` on, in the order of a constant."""

    def do(run, path, to, source, order):
        a = run.vector(path, source)
        items = [a[i : i + n] for i in range(0, 16, n)]
        for i in range(count):
            at = first + (order.value >> 2 * i & 3)
            a[n * (first + i) : n * (first + i + 1)] = items[at]
        path.state.xmm[to.name] = a

    return do


def punpcklqdq(run, path, to, source):
    path.state.xmm[to.name] = run.vector(path, to)[:8] + run.vector(path, source)[:8]


def pextrq(run, path, to, source, at):
    k = 8 * (at.value & 1)
    cells = run.vector(path, source)[k : k + 8]
    if to.kind == "r":
        run.put(path, to, joined(cells), 64)
    else:
        run.put_vector(path, to, cells)


def pinsrd(run, path, to, source, at):
    k = 4 * (at.value & 3)
    a = run.vector(path, to)
    if source.kind == "r":
        a[k : k + 4] = cells_of(run.get(path, source, 32), 4)
    else:
        a[k : k + 4] = run.vector(path, source, 4)
    path.state.xmm[to.name] = a


def movhps(run, path, to, source):
    if to.kind == "x":
        lowest = run.vector(path, to)[:8]
        path.state.xmm[to.name] = lowest + run.vector(path, source, 8)
    else:
        run.put_vector(path, to, run.vector(path, source)[8:])


def movhlps(run, path, to, source):
    path.state.xmm[to.name] = run.vector(path, source)[8:] + run.vector(path, to)[8:]


def pslldq(run, path, to, count):
    path.state.xmm[to.name] = ([0] * min(count.value, 16) + run.vector(path, to))[:16]


def each_word(function):
    def do(run, path, to, count):
        if count.value > 31:
            raise Refused("a shift of words by so much")
        a = run.vector(path, to)
        made = []
        for i in range(0, 16, 4):
            word = joined(a[i : i + 4])
            made += cells_of(function(word, count.value, 32), 4)
        path.state.xmm[to.name] = made

    return do


def paddd(run, path, to, source):
    """Sums of words. A word that is added to itself is shifted, so that it stays an affine form."""
    a = run.vector(path, to)
    b = run.vector(path, source)
    made = []
    for i in range(0, 16, 4):
        x = joined(a[i : i + 4])
        y = joined(b[i : i + 4])
        total = shl(x, 1, 32) if x == y else add(x, y, 32)
        made += cells_of(total, 4)
    path.state.xmm[to.name] = made


def aes(kind, mix):
    """A round of FIPS 197, 5.1 or 5.3.5, with the source as the key; or only InvMixColumns of the source."""

    def made(state, key):
        if kind is None:
            return mix_columns(key, mix)
        # Byte i has row i % 4. A row is shifted by its number of columns, back if the round is undone.
        column = 4 if kind == "S" else -4
        shifted = [state[(i + column * (i % 4)) % 16] for i in range(16)]
        after = [substituted(kind, v) for v in shifted]
        if mix:
            after = mix_columns(after, mix)
        return [xor(a, b) for a, b in zip(after, key)]

    made_of_numbers = lru_cache(1 << 16)(made)

    def do(run, path, to, source):
        state = run.vector(path, to if kind else source)
        key = run.vector(path, source)
        try:
            after = list(made_of_numbers(bytes(state), bytes(key)))
        except TypeError:  # not all of them are numbers
            after = map(cell_of, made(affine_bytes(state), affine_bytes(key)))
        path.state.xmm[to.name] = list(after)

    return do


def affine_bytes(cells):
    return [affine(byte_of(cell)) for cell in cells]


def ptest(run, path, a, b):
    met = 0
    for x, y in zip(run.vector(path, a), run.vector(path, b)):
        met = or_(met, and_bytes(byte_of(x), byte_of(y)))
    path.state.flags = "ptest", None, None, met, 8, None


def pmovmskb(run, path, to, source):
    signs = 0
    for i, cell in enumerate(run.vector(path, source)):
        signs |= number(byte_of(cell), "a sign") >> 7 << i
    run.put(path, to, signs, 32)


VECTOR = {
    "movdqa": move(16),
    "movaps": move(16),
    "movdqu": move(16, False),
    "movups": move(16, False),
    "movq": movq(8),
    "movd": movq(4),
    "movss": scalar(4),
    "movsd": scalar(8),
    "pxor": each(xor_bytes, ixor),
    "xorps": each(xor_bytes, ixor),
    "pand": each(and_bytes, iand),
    "por": each(lambda a, b: or_(affine(a), affine(b)), ior),
    "pcmpeqb": each(equal_bytes, None),
    "pshufb": pshufb,
    "psrlw": psrlw,
    "pshufd": shuffled(4, 0, 4),
    "pshuflw": shuffled(2, 0, 4),
    "pshufhw": shuffled(2, 4, 4),
    "movhps": movhps,
    "movhlps": movhlps,
    "punpcklqdq": punpcklqdq,
    "pslldq": pslldq,
    "pslld": each_word(shl),
    "psrld": each_word(shr),
    "aesenc": aes("S", [2, 3, 1, 1]),
    "aesenclast": aes("S", None),
    "aesimc": aes(None, [14, 11, 13, 9]),
    "aesdec": aes("T", [14, 11, 13, 9]),
    "aesdeclast": aes("T", None),
    "pextrq": pextrq,
    "pinsrd": pinsrd,
    "ptest": ptest,
    "paddd": paddd,
    "pmovmskb": pmovmskb,
}
