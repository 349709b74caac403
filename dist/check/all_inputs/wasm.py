"""A WebAssembly module of the first version with bulk memory, and its execution for all inputs at once."""

from functools import partial

from paths import Machine, Path, cells_of
from terms import (
    V,
    Refused,
    add,
    and_,
    eq,
    eqz,
    ite,
    ltu,
    mul,
    ne,
    nz,
    or_,
    rotl,
    rotr,
    shl,
    shr,
    sub,
    xor,
)

STEPS = 1_000_000_000  # more instructions than any call needs
PAGE = 65536
LONGEST = 1048584  # bytes of a text
JS_STACK = 8192  # js/calls.js sets the stack pointer, and clears what is below
FUNCTION = 0  # the kind of an export
WITHOUT_CONTENT = 4, 12  # sections: the size of the table, and the number of segments
# Codes of instructions
BLOCK, LOOP, IF, ELSE, END = 0x02, 0x03, 0x04, 0x05, 0x0B
BR_TABLE, CALL_INDIRECT = 0x0E, 0x11
I32_CONST, I64_CONST = 0x41, 0x42
I64_EXTEND_I32_U = 0xAD
CONST, LOAD, STORE, UNARY_OP, BINARY_OP = 0x41, 0x28, 0x36, 0x45, 0x6A
WITH_A_NUMBER = 0x0C, 0x0D, 0x10, 0x20, 0x21, 0x22, 0x23, 0x24
WITHOUT_A_NUMBER = 0x00, 0x01, 0x0F, 0x1A, 0x1B
LOADS = {0x28: 4, 0x29: 8, 0x2D: 1, 0x2F: 2, 0x31: 1, 0x33: 2, 0x35: 4}
STORES = {0x36: 4, 0x37: 8, 0x3A: 1, 0x3B: 2, 0x3C: 1, 0x3D: 2, 0x3E: 4}


class Reader:
    def __init__(self, data, at=0):
        self.data = data
        self.at = at

    def byte(self):
        self.at += 1
        return self.data[self.at - 1]

    def take(self, n):
        self.at += n
        return self.data[self.at - n : self.at]

    def u(self):
        value = shift = 0
        while True:
            byte = self.byte()
            value |= (byte & 127) << shift
            shift += 7
            if byte < 128:
                return value

    def s(self, width):
        start = self.at
        value = self.u()
        n = 7 * (self.at - start)
        return (value - (value >> n - 1 << n)) & 2**width - 1

    def list(self, item):
        return [item() for _ in range(self.u())]

    def name(self):
        return self.take(self.u()).decode()


class Module:
    def __init__(self, path):
        with open(path, "rb") as file:
            data = file.read()
        if data[:8] != b"\0asm\1\0\0\0":
            raise Refused("not a WebAssembly module")
        self.types = []
        self.exports = {}
        self.globals = []
        self.constants = {}
        self.variables = {}
        self.functions = []
        self.code = []
        self.table = {}
        self.names = {}
        self.memory_bytes = 0
        r = Reader(data, 8)
        while r.at < len(data):
            self.read_section(r)
        self.constants = without_gaps(self.constants)
        self.heap = self.globals[self.exports["__heap_base"][1]]
        stack_global = self.exports["__stack_pointer"][1]
        if min(self.constants) < self.globals[stack_global] <= max(self.constants):
            raise Refused("a stack that begins in the constants")
        # Only the module of the JavaScript package exports its guard. It has 64-bit numbers, keywrap.c has 32-bit ones.
        self.size_bytes = 8 if "__in_call" in self.exports else 4
        if self.size_bytes == 8:
            self.globals[stack_global] = JS_STACK
            if self.memory_bytes < self.heap + 2 * LONGEST:
                raise Refused("a memory that has no room for a key and its text")
        for name, (kind, index) in self.exports.items():
            if kind == FUNCTION:
                self.names.setdefault(index, name)

    # Sections

    def read_section(self, r):
        number = r.byte()
        size = r.u()
        end = r.at + size
        if number == 0:
            self.read_custom(r, end)
        elif number in self.readers:
            self.readers[number](self, r)
        elif number not in WITHOUT_CONTENT:
            raise Refused(f"section {number}")
        r.at = end

    def read_custom(self, r, end):
        """Reads the names of functions, which only the output needs."""
        if r.name() != "name":
            return
        while r.at < end:
            kind = r.byte()
            after = r.u() + r.at
            if kind == 1:
                for _ in range(r.u()):
                    index = r.u()
                    self.names[index] = r.name()
            r.at = after

    def read_types(self, r):
        for _ in range(r.u()):
            r.byte()
            parameters = r.list(r.byte)
            results = r.list(r.byte)
            self.types.append((parameters, results))

    def read_functions(self, r):
        self.functions = r.list(r.u)

    def read_memory(self, r):
        """Reads how many bytes the memory has at the beginning."""
        for _ in range(r.u()):
            has_most = r.byte()
            self.memory_bytes = PAGE * r.u()
            if has_most:
                r.u()

    def read_globals(self, r):
        for _ in range(r.u()):
            r.take(2)  # its type, and whether it may change
            self.globals.append(self.constant(r))

    def read_exports(self, r):
        for _ in range(r.u()):
            name = r.name()
            kind = r.byte()
            self.exports[name] = kind, r.u()

    def read_table(self, r):
        for _ in range(r.u()):
            if r.u() != 0:
                raise Refused("an element of another kind")
            at = self.constant(r)
            for function in r.list(r.u):
                self.table[at] = function
                at += 1

    def read_code(self, r):
        self.code = r.list(lambda: self.body(r))

    def read_data(self, r):
        for _ in range(r.u()):
            r.u()
            at = self.constant(r)
            content = r.take(r.u())
            self.constants.update(enumerate(content, at))

    readers = {
        1: read_types,
        3: read_functions,
        5: read_memory,
        6: read_globals,
        7: read_exports,
        9: read_table,
        10: read_code,
        11: read_data,
    }

    @staticmethod
    def constant(r):
        width = {I32_CONST: 32, I64_CONST: 64}[r.byte()]
        value = r.s(width)
        if r.byte() != END:
            raise Refused("a constant that is computed")
        return value

    # Code. Instructions that do the same have one code.

    def body(self, r):
        """Returns how many locals a function has besides its parameters, and its instructions."""
        end = r.u() + r.at
        local_count = 0
        for _ in range(r.u()):
            local_count += r.u()
            r.byte()
        code = []
        opened = []
        while r.at < end:
            instruction = self.instruction(r, code, opened)
            if instruction:
                code.append(instruction)
        return local_count, code

    def instruction(self, r, code, opened):
        """Returns the next instruction, or None for one that does nothing. `code` are those before it, and `opened` the
        places of blocks that have not ended."""
        at = len(code)
        op = r.byte()
        if op in (BLOCK, LOOP, IF):
            opened.append(at)
            result_count = {0x40: 0, 0x7E: 1, 0x7F: 1}[r.byte()]
            return [op, result_count, None, None]  # results, end, else
        if op == ELSE:
            code[opened[-1]][3] = at
            return [op, opened[-1]]
        if op == END:
            if opened:
                code[opened.pop()][2] = at
            return [op]
        if op in WITH_A_NUMBER:
            return [op, r.u()]
        if op == CALL_INDIRECT:
            type_index = r.u()
            r.u()  # the table
            return [op, type_index]
        if op == BR_TABLE:
            targets = r.list(r.u)
            return [op, [*targets, r.u()]]
        if op == I32_CONST:
            return [CONST, r.s(32)]
        if op == I64_CONST:
            return [CONST, r.s(64)]
        if op in LOADS or op in STORES:
            r.u()  # its alignment
            offset = r.u()
            if op in LOADS:
                return [LOAD, offset, LOADS[op]]
            return [STORE, offset, STORES[op]]
        if op == 0xFC:
            operation = r.u()
            r.take({10: 2, 11: 1}[operation])
            return [0xFC00 + operation]
        if op in self.binary:
            return [BINARY_OP, self.binary[op]]
        if op in self.unary:
            return [UNARY_OP, self.unary[op]]
        if op in WITHOUT_A_NUMBER:
            return [op]
        if op == I64_EXTEND_I32_U:
            return None
        raise Refused(f"opcode {op:#x}")


def without_gaps(constants):
    """Returns them with zeros where no segment is: memory is zero there, and a linker leaves zeros out."""
    zeros = dict.fromkeys(range(min(constants), max(constants)), 0)
    return zeros | constants


def signed(v, w):
    if not isinstance(v, int):
        raise Refused("a signed comparison of a secret")
    return v - (v >> w - 1 << w)


def divided(a, b):
    if not isinstance(a, int) or not isinstance(b, int):
        raise Refused("a division of a secret")
    if b == 0:
        raise Refused("a division by 0")
    return a // b


UNARY = {0x45: eqz, 0x50: eqz, 0xA7: lambda a: and_(a, 0xFFFFFFFF)}
BINARY = {
    0x46: eq,
    0x47: ne,
    0x51: eq,
    0x52: ne,
    0x49: ltu,
    0x54: ltu,
    0x4B: lambda a, b: ltu(b, a),
    0x56: lambda a, b: ltu(b, a),
    0x4D: lambda a, b: eqz(ltu(b, a)),
    0x58: lambda a, b: eqz(ltu(b, a)),
    0x4F: lambda a, b: eqz(ltu(a, b)),
    0x5A: lambda a, b: eqz(ltu(a, b)),
    0x80: divided,
    0x6E: divided,
    0x82: lambda a, b: a - divided(a, b) * b,
    0x70: lambda a, b: a - divided(a, b) * b,
}
for start, w in (0x6A, 32), (0x7C, 64):
    for place, operation in (
        (0, add),
        (1, sub),
        (2, mul),
        (10, shl),
        (12, shr),
        (13, rotl),
        (14, rotr),
    ):
        BINARY[start + place] = partial(operation, w=w)
    for place, operation in (7, and_), (8, or_), (9, xor):
        BINARY[start + place] = operation
for start, w in (0x48, 32), (0x53, 64):
    BINARY[start] = lambda a, b, w=w: int(signed(a, w) < signed(b, w))
    BINARY[start + 2] = lambda a, b, w=w: int(signed(a, w) > signed(b, w))
    BINARY[start + 4] = lambda a, b, w=w: int(signed(a, w) <= signed(b, w))
    BINARY[start + 6] = lambda a, b, w=w: int(signed(a, w) >= signed(b, w))


Module.unary = UNARY
Module.binary = BINARY


class State:
    """The frames (function, code, number of results, stack, locals, labels) and the globals. The first item of a stack
    is the next instruction, if the frame is not the one that runs."""

    def __init__(self, frames, globals_):
        self.frames = frames
        self.globals = globals_

    def copy(self):
        return State(
            [[*frame[:3], *map(list, frame[3:])] for frame in self.frames],
            list(self.globals),
        )


class Run(Machine):
    def __init__(self, module, inputs, stack):
        top = module.globals[module.exports["__stack_pointer"][1]]
        super().__init__(module, inputs, range(max(top - stack, 0), top))

    def call(self, name, args, memory, before=None):
        """Yields each path at the end of the call, with its status."""
        path = Path(dict(memory), State([], list(self.module.globals)), before)
        self.enter(path, self.module.exports[name][1], args)
        for path in self.paths(path):
            if path.state.globals != self.module.globals:
                raise Refused("the globals are not what they were")
            yield path, path.results[0] if path.results else None

    def enter(self, path, index, args):
        _, results = self.module.types[self.module.functions[index]]
        local_count, code = self.module.code[index]
        stack = [0]
        locals_ = args + [0] * local_count
        labels = []
        frame = [index, code, len(results), stack, locals_, labels]
        path.state.frames.append(frame)

    def stops_at(self, path, function, pc, is_back):
        """Whether the run ends at this loop, at its beginning or when it goes back to it. lengths.py asks for that."""
        return False

    def low_cells(self, v, n):
        return cells_of(and_(v, 2 ** (8 * n) - 1), n)

    def copy(self, path, to, source, n):
        self.store(path, to, self.cells(path, source, n))

    def fill(self, path, to, byte, n):
        self.store(path, to, cells_of(byte, 1) * n)

    def decided(self, path, frame, pc, waiting):
        """Whether the condition on the stack is known on this path. If it is not, several paths wait instead."""
        stack = frame[3]
        cases = path.cases(stack[-1])
        if len(cases) == 1:
            stack[-1] = int(cases[0][2])
            return True
        for known, excluded, holds in cases:
            other = path.fork(
                known,
                excluded,
                self.module.names.get(frame[0], f"function {frame[0]}") + f", {pc}",
            )
            other.state.frames[-1][3][-1] = int(holds)
            other.state.frames[-1][3][0] = pc
            waiting.append(other)
        return False

    def chosen(self, path, v, most):
        """Returns which branch of a table is taken."""
        return min(self.place(path, v), most)

    def run(self, path, waiting):
        """Whether the call ended. If it did not, its paths wait."""
        module, state = self.module, path.state
        while True:
            frame = state.frames[-1]
            _, code, result_count, stack, local, labels = frame
            pc, stack[0] = (
                stack[0],
                None,
            )  # a frame that is not on top keeps its place there
            push = stack.append
            pop = stack.pop
            steps = 0
            while True:
                instruction = code[pc]
                op = instruction[0]
                steps += 1
                if op == 0x20:
                    push(local[instruction[1]])
                elif op == 0x41:
                    push(instruction[1])
                elif op == 0x6A:
                    b = pop()
                    stack[-1] = instruction[1](stack[-1], b)
                elif op == 0x45:
                    stack[-1] = instruction[1](stack[-1])
                elif op == 0x21:
                    local[instruction[1]] = pop()
                elif op == 0x22:
                    local[instruction[1]] = stack[-1]
                elif op == 0x28:
                    stack[-1] = self.load(
                        path, stack[-1], instruction[1], instruction[2]
                    )
                elif op == 0x36:
                    v = pop()
                    n = instruction[2]
                    at = self.place(path, pop()) + instruction[1]
                    self.store(path, at, self.low_cells(v, n))
                elif op in (2, 3):
                    labels.append((op, pc, instruction[2], len(stack), instruction[1]))
                    if op == 3 and self.stops_at(path, frame[0], pc, False):
                        stack[0] = pc + 1
                        return True
                elif op in (0x0C, 0x0D, 0x0E, 4):
                    if op == 0x0E:
                        v = pop()
                    elif op != 0x0C:
                        if not isinstance(stack[-1], int) and not self.decided(
                            path, frame, pc, waiting
                        ):
                            self.steps += steps
                            return False
                        v = pop()
                    if op == 4:
                        labels.append(
                            (op, pc, instruction[2], len(stack), instruction[1])
                        )
                        if not v:
                            if instruction[3] is None:
                                labels.pop()
                                pc = instruction[2]
                            else:
                                pc = instruction[3]
                        pc += 1
                        continue
                    if op == 0x0D and not v:
                        pc += 1
                        continue
                    depth = instruction[1]
                    if op == 0x0E:
                        depth = depth[self.chosen(path, v, len(depth) - 1)]
                    if depth >= len(labels):
                        break
                    kind, start, end, height, arity = labels[-1 - depth]
                    if kind == 3:
                        if self.steps + steps > STEPS:
                            raise Refused("so many instructions that it may not end")
                        del stack[height:]
                        if depth:
                            del labels[-depth:]
                        if self.stops_at(path, frame[0], start, True):
                            stack[0] = start + 1
                            return True
                        pc = start
                    else:
                        if arity:
                            stack[height:] = [stack[-1]]
                        else:
                            del stack[height:]
                        del labels[-1 - depth :]
                        pc = end
                elif op == 0x0B:
                    if not labels:
                        break
                    labels.pop()
                elif op == 5:
                    labels.pop()
                    pc = code[instruction[1]][2]
                elif op == 0x0F:
                    break
                elif op in (0x10, 0x11):
                    callee = instruction[1]
                    if op == 0x11:
                        callee = module.table[self.place(path, pop())]
                        if (
                            module.types[module.functions[callee]]
                            != module.types[instruction[1]]
                        ):
                            raise Refused("a call of a function of another type")
                    params, _ = module.types[module.functions[callee]]
                    args = stack[len(stack) - len(params) :]
                    del stack[len(stack) - len(params) :]
                    stack[0] = pc + 1
                    self.enter(path, callee, args)
                    break
                elif op == 0x1B:
                    c = pop()
                    b = pop()
                    stack[-1] = ite(nz(c) if isinstance(c, V) else c, stack[-1], b)
                elif op == 0x1A:
                    pop()
                elif op == 0x23:
                    push(state.globals[instruction[1]])
                elif op == 0x24:
                    state.globals[instruction[1]] = pop()
                elif op == 0xFC0A:
                    n, source, to = (self.place(path, pop()) for _ in range(3))
                    self.copy(path, to, source, n)
                elif op == 0xFC0B:
                    n = self.place(path, pop())
                    v = pop()
                    to = self.place(path, pop())
                    self.fill(path, to, and_(v, 255), n)
                elif op == 0:
                    raise Refused("unreachable")
                pc += 1
            self.steps += steps
            if state.frames[-1] is frame:
                state.frames.pop()
                results = stack[len(stack) - result_count :] if result_count else []
                if not state.frames:
                    path.results = results
                    return True
                state.frames[-1][3].extend(results)
