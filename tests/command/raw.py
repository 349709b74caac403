"""Runs `keywrap wrap` and `unwrap` with --raw and --raw-kek for all KEKs and inputs of some lengths at once: the
program in C over raw.c, compiled for wasm32 by clang, in the engine of dist/check/all_inputs.

A command passes if on each path the exit status and standard output are what standard.py says, no byte of standard
error depends on the KEK or the input, no address does, and one branch does in an unwrap and none in a wrap.

usage: raw.py [PROGRAM_DIRECTORY]        dist/command, or a copy of it. Needs clang and wasm-ld"""

import operator
import pathlib
import re
import subprocess
import sys
import tempfile
from functools import partial

HERE = pathlib.Path(__file__).resolve().parent
ROOT = HERE.parent.parent
sys.path.insert(0, str(ROOT / "dist/check/all_inputs"))
sys.dont_write_bytecode = True

import standard  # noqa: E402
import terms  # noqa: E402
import wasm  # noqa: E402
from paths import Path, byte_of, cell_of  # noqa: E402
from terms import Known, Refused, input_byte  # noqa: E402
from wasm import signed  # noqa: E402

NO_LIBRARY = ROOT / "tests/all_inputs/without_a_library"
ROOM = 4096
WRONG = b"keywrap: integrity check failed\n"
INTEGRITY = 5


# The module


def build(output, program):
    """Compiles the program for wasm32."""
    compile_ = (
        "clang --target=wasm32 -Os -mbulk-memory -mmutable-globals -ffreestanding -w"
    )
    includes = [f"-I{NO_LIBRARY}", f"-I{program}"]
    with tempfile.TemporaryDirectory() as directory:
        objects = []
        for path in program / "program.c", HERE / "raw.c", NO_LIBRARY / "memory.c":
            objects.append(pathlib.Path(directory, f"{len(objects)}.o"))
            words = [*compile_.split(), *includes, "-c", path, "-o", objects[-1]]
            subprocess.run(words, check=True)
        exports = "run", "ideal_aes", "__heap_base", "__stack_pointer"
        options = ["--no-entry", *(f"--export={name}" for name in exports)]
        subprocess.run(["wasm-ld", *options, *objects, "-o", output], check=True)


def of_numbers(function):
    """Returns an operation on numbers, which refuses a value that inputs may change on the path that is followed."""

    def operation(*values):
        reduced = [Known.now.reduced(v) for v in values]
        if not all(isinstance(v, int) for v in reduced):
            raise Refused("an operation on a secret that the engine does not know")
        return function(*reduced)

    return operation


def divided(a, b, w):
    """The quotient of signed numbers, rounded towards 0."""
    x = signed(a, w)
    y = signed(b, w)
    quotient = abs(x) // abs(y)
    if (x < 0) != (y < 0):
        quotient = -quotient
    return quotient % 2**w


def remainder(a, b, w):
    x = signed(a, w)
    y = signed(b, w)
    quotient = signed(divided(a, b, w), w)
    return (x - quotient * y) % 2**w


def compared(a, b, w, compare):
    is_true = compare(signed(a, w), signed(b, w))
    return int(is_true)


def shifted_with_sign(a, b, w):
    return (signed(a, w) >> b % w) % 2**w


def zeros_above(v, w):
    return w - v.bit_length()


def zeros_below(v, w):
    lowest = v & -v
    return lowest.bit_length() - 1 if v else w


def ones(v):
    return bin(v).count("1")


def extended(v, n, w):
    """The lowest n bits as a signed number of w bits."""
    return signed(v % 2**n, n) % 2**w


BINARY = dict(wasm.BINARY)
UNARY = dict(wasm.UNARY)
SIGNED_COMPARISONS = (operator.lt, operator.gt, operator.le, operator.ge)
for first_comparison, first_arithmetic, first_unary, width in (
    (0x48, 0x6A, 0x67, 32),
    (0x53, 0x7C, 0x79, 64),
):
    for place, compare in enumerate(SIGNED_COMPARISONS):
        function = partial(compared, w=width, compare=compare)
        BINARY[first_comparison + 2 * place] = of_numbers(function)
    BINARY[first_arithmetic + 3] = of_numbers(partial(divided, w=width))
    BINARY[first_arithmetic + 5] = of_numbers(partial(remainder, w=width))
    BINARY[first_arithmetic + 11] = of_numbers(partial(shifted_with_sign, w=width))
    UNARY[first_unary] = of_numbers(partial(zeros_above, w=width))
    UNARY[first_unary + 1] = of_numbers(partial(zeros_below, w=width))
    UNARY[first_unary + 2] = of_numbers(ones)
UNARY[0xAC] = of_numbers(lambda v: extended(v, 32, 64))
SIGNED_LOADS = {
    0x2C: (1, 32),
    0x2E: (2, 32),
    0x30: (1, 64),
    0x32: (2, 64),
    0x34: (4, 64),
}


UNREACHABLE = [0x00]
F64_CONST = 0x44
F64_LOAD_AND_STORE = 0x2B, 0x39
F64_OPERATIONS = {*range(0x61, 0x67), *range(0x99, 0xA7), *range(0xAA, 0xC0)}


class Module(wasm.Module):
    """A module with more instructions, of numbers that do not depend on inputs. These commands do not compute with
    fractions, so such an instruction is one that must not be reached."""

    unary = UNARY
    binary = BINARY
    planted = 0  # the number of the bug that runs, in a program with planted bugs

    def instruction(self, r, code, opened):
        op = r.data[r.at]
        if op == F64_CONST:
            r.take(1 + 8)
            return UNREACHABLE
        if op in F64_LOAD_AND_STORE:
            r.take(1)
            r.u(), r.u()  # its alignment and its offset
            return UNREACHABLE
        if op in F64_OPERATIONS and op not in (*UNARY, wasm.I64_EXTEND_I32_U):
            r.take(1)
            return UNREACHABLE
        if op not in SIGNED_LOADS:
            return super().instruction(r, code, opened)
        r.take(1)
        r.u()  # its alignment
        size, width = SIGNED_LOADS[op]
        code.append([wasm.LOAD, r.u(), size])
        extend = partial(extended, n=8 * size, w=width)
        return [wasm.UNARY_OP, of_numbers(extend)]


class Run(wasm.Run):
    """A run that may read and write all of the memory, which is zero where no constant is."""

    def __init__(self, module):
        super().__init__(module, {}, stack=65536)
        self.aes = module.exports["ideal_aes"][1]
        self.schedules = {}

    def is_memory(self, at, n):
        end = self.module.heap + 16 * ROOM
        return 0 < at <= at + n <= end

    def cells(self, path, at, n):
        if not self.is_memory(at, n):
            raise Refused(f"a load at {at:#x}")
        constants = self.module.constants
        return [path.memory.get(i, constants.get(i, 0)) for i in range(at, at + n)]

    def store(self, path, at, cells):
        if not self.is_memory(at, len(cells)):
            raise Refused(f"a store at {at:#x}")
        path.memory.update(enumerate(cells, at))

    def lookup(self, address, offset, n):
        """No table is looked up at an input: AES is not here."""
        return None

    def bytes(self, path, at, n):
        return [byte_of(cell) for cell in self.cells(path, at, n)]

    def enter(self, path, index, args):
        if index != self.aes:
            super().enter(path, index, args)
            return
        block, key, key_len, inverse = args
        kek = tuple(self.bytes(path, key, key_len))
        if kek not in self.schedules:
            self.schedules[kek] = standard.key_expansion(list(kek))
        cipher = standard.inv_cipher if inverse else standard.cipher
        made = cipher(self.schedules[kek], self.bytes(path, block, 16))
        self.store(path, block, list(map(cell_of, made)))
        super().enter(path, index, args)


# Commands


def any_bytes(name, n):
    return [input_byte(name, i) for i in range(n)]


class Command:
    """A command with a KEK and an input of any bytes. `wanted` returns the exit status and the output on a path."""

    def __init__(self, module, number, kek_len, input_len):
        self.module = module
        self.number = number
        self.kek = any_bytes("kek", kek_len)
        self.input = any_bytes("input", input_len)

    def ends(self):
        """Yields each path at its end, with the exit status, standard output and standard error."""
        run = Run(self.module)
        at = self.module.heap
        kek, input_, output, errors, lengths = range(at, at + 5 * ROOM, ROOM)
        memory = dict(enumerate(map(cell_of, self.kek), kek))
        memory.update(enumerate(map(cell_of, self.input), input_))
        rooms = (len(self.kek), len(self.input), ROOM, ROOM)
        for i, n in enumerate(rooms):
            memory.update(enumerate(n.to_bytes(4, "little"), lengths + 4 * i))

        def written(path, where, place):
            """The bytes of a buffer whose length has this place among the lengths."""
            n = run.place(path, run.load(path, lengths, 4 * place, 4))
            return run.bytes(path, where, n)

        args = [self.number, self.module.planted, kek, input_, output, errors, lengths]
        for path, status in run.call("run", args, memory):
            outputs = written(path, output, 2), written(path, errors, 3)
            yield path, run.place(path, status), *outputs

    def check(self, wanted, branches):
        """Returns the exit statuses. Raises Refused if a path is wrong."""
        statuses = []
        for path, status, output, errors in self.ends():
            due, text = wanted(path.is_zero)
            if status != due or len(output) != len(text):
                raise Refused(f"status {status} and {len(output)} bytes, not {due}")
            Known.now = path.known
            for i, (got, right) in enumerate(zip(output, text)):
                if path.known.reduced(terms.xor(got, right)) != 0:
                    raise Refused(f"byte {i} of the output differs at status {status}")
            if not all(isinstance(v, int) for v in errors):
                raise Refused("standard error depends on the KEK or the input")
            if bytes(errors) != (WRONG if due else b""):
                raise Refused(f"standard error has {bytes(errors)}")
            if len(path.forks) != branches:
                raise Refused(f"{len(path.forks)} branches: {path.forks}")
            statuses.append(status)
        return sorted({*statuses})


def wrap(module, kek_len, key_len, padded):
    command = Command(module, 2 if padded else 0, kek_len, key_len)
    made = standard.wrapped_padded if padded else standard.wrapped
    text = made(command.kek, command.input)
    return command.check(lambda is_zero: (0, text), branches=0)


def unwrap(module, kek_len, key_len, padded):
    text_len = key_len + -key_len % 8 + 8
    command = Command(module, 3 if padded else 1, kek_len, text_len)
    a, registers = standard.unwrap_process(command.kek, command.input)

    def wanted(is_zero):
        if not padded:
            is_right = standard.is_plain(a, is_zero)
            return (0, registers) if is_right else (INTEGRITY, [])
        length = standard.padded_length(a, registers, is_zero)
        return (INTEGRITY, []) if length is None else (0, registers[:length])

    return command.check(wanted, branches=1)


def all_commands():
    """Yields the name of each command, its function and its numbers."""
    for kek_len in 16, 32:
        for key_len in 16, 24, 9:
            padded = key_len % 8 != 0
            for function in wrap, unwrap:
                name = f"{function.__name__} {kek_len} {key_len}"
                yield name, function, (kek_len, key_len, padded)


def performed(module, name):
    """Makes a command, and returns its exit statuses."""
    terms.forget()
    Known.now = Known()
    for other, function, numbers in all_commands():
        if other == name:
            return function(module, *numbers)
    raise SystemExit(f"raw.py: no such command: {name}")


def main(program=ROOT / "dist/command"):
    refused = 0
    with tempfile.TemporaryDirectory() as directory:
        path = pathlib.Path(directory, "program.wasm")
        build(path, pathlib.Path(program))
        module = Module(path)
        for name, *_ in all_commands():
            try:
                print(f"{name}: statuses {performed(module, name)}", flush=True)
            except Refused as reason:
                refused += 1
                print(f"{name}: REFUSED: {reason}", flush=True)
    return min(refused, 1)


if __name__ == "__main__":
    sys.exit(main(*sys.argv[1:]))
