"""Runs of a WebAssembly module in which lengths and places of buffers are unknown numbers (linear.py), so that one run
holds for every length.

An array is a buffer of unknown place and length. What it contains is a list of writes over unknown bytes. The loop over
the steps of a key wrap is not run to its end. By induction it is enough to run it once, from any of its steps:

    entry   the state in which the run reaches the loop is the invariant at the first step
    step    from the invariant at any step but the last one, the code comes to the invariant at the next step
    end     the run goes on from the invariant at the last step

The invariant says which step of standard.py is next, where the registers are, and of each local what it is: a number
that does not change, a number that grows with the step or with the register, a part of the standard's state, or nothing
that matters. This is guessed from the first step, and then proved.
"""

import itertools
from functools import partial
from typing import NamedTuple

import standard
import terms
import wasm
from linear import Facts, Lin, Undecided, parts, plus, times, unknown
from paths import Path, byte_of, cell_of, cells_of, joined
from terms import N, V, Known, Refused, and_, fresh, input_byte, or_, shl, shr, xor

MOST_REGISTERS = 131072
FEW_REGISTERS = 4
N_REGISTERS = unknown("n")
LOOP = 3  # the kind of a label
WORD = 8


# Operations on unknown numbers

# The value of each number, by how many of its bytes are unknown; and the number of each value, for as_number.
_value_of, _number_of = {}, {}
_few_registers = None


def begin(facts):
    """Begins a run under these facts. It forgets the values of numbers, as terms.forget() forgets their atoms. If the
    facts allow only one number of registers, which is small, then the run has this number for n, and runs the loop over
    the steps to its end."""
    global _few_registers
    for known in (_value_of, _number_of):
        known.clear()
    Facts.now = facts
    _few_registers = None
    for count in range(2, FEW_REGISTERS + 1):
        if facts.is_between(N_REGISTERS, count, count):
            _few_registers = count


def few_registers():
    """Returns the number of registers, or None if it may be large."""
    return _few_registers


def with_few_registers(v):
    """Returns a sum with the number of registers in it, if they are few."""
    if isinstance(v, Lin) and _few_registers:
        return v.with_value("n", _few_registers)
    return v


def as_bytes(v):
    """Returns an unknown number as a value of bytes. They are atoms, the same ones for the same number, and as few as
    the facts allow: what the code masks out has to be 0 here, too. Four are for a length that overflowed.
    """
    v = with_few_registers(v)
    if not isinstance(v, Lin):
        return v
    count, high = few_bytes(v)
    if count is None:
        raise Refused(f"the bytes of a number that may be large: {v}")
    if high:
        value = or_(as_bytes(v - high), high)
        _number_of[value] = v
        return value
    return value_of(v, count)


def few_bytes(v):
    """Returns how many of its bytes are unknown, and what the others are; or None twice for more than four."""
    for count, high in (1, 0), (2, 0), (3, 0), (4, v.constant >> 32 << 32):
        if Facts.now.is_between(v - high, 0, 256**count - 1):
            return count, high
    return None, None


def value_of(v, count):
    """Returns a number of this many bytes as a value of atoms. It is made once: its atoms are as old as the first
    request, which LongCall.begun relies on."""
    if (v, count) not in _value_of:
        made = 0
        for i in range(count):
            made = or_(made, shl(input_byte(("number", v), i), 8 * i, 64))
        if all(k % WORD == 0 for _, k in v.factors):  # the lowest bits are known
            made = or_(and_(made, 2**64 - WORD), v.constant % WORD)
        _value_of[v, count] = made
        _number_of[_value_of[v, count]] = v
    return _value_of[v, count]


def as_number(v):
    """Returns the number whose bytes these are, or None."""
    if isinstance(v, (int, Lin)):
        return v
    return _number_of.get(v) if isinstance(v, V) else None


def modulo(v, w):
    """Returns a sum as a number of w bits: it overflows always in the same way."""
    if isinstance(v, int):
        return v % 2**w
    for wraps in (0, 1, -1):
        number = v + wraps * 2**w
        if Facts.now.is_between(number, 0, 2**w - 1):
            return number
    if Facts.now.decides(v):
        Facts.now.decides(2**w - 1 - v)
    raise Refused(f"a number that overflows: {v}")


def near_zero(v, w):
    """Returns a constant of the upper half as a negative number."""
    return v - 2 ** w if isinstance(v, int) and v >> w - 1 else v


def add(a, b, w):
    return modulo(plus(near_zero(a, w), near_zero(b, w)), w)


def subtract(a, b, w):
    x = as_number(a)
    y = as_number(b)
    if x is None or y is None:
        return N("sub", a, b, w, top=2**w - 1)
    return modulo(plus(near_zero(x, w), times(near_zero(y, w), -1)), w)


def multiply(a, b, w):
    if isinstance(a, Lin) and isinstance(b, Lin):
        raise Refused("a product of two lengths")
    return modulo(times(a, b) if isinstance(b, int) else times(b, a), w)


def split(v, unit):
    """Returns (x, rest) with v = unit * x + rest and 0 <= rest < unit, or None if the facts do not show them."""
    constant, factors = parts(v)
    rest = {name: k for name, k in factors.items() if k % unit}
    whole = {name: k // unit for name, k in factors.items() if not k % unit}
    for more in (0, -1, 1):
        low = Lin(constant % unit + more * unit, rest.items()) + 0
        if Facts.now.is_between(low, 0, unit - 1):
            return Lin(constant // unit - more, whole.items()) + 0, low
    if unit == WORD and all(abs(k) < unit for k in rest.values()):
        low = Lin(constant % unit, rest.items())
        Facts.now.decides(low)
        Facts.now.decides(unit - 1 - low)
    return None


def small_number(v, limit):
    """Returns a number below the limit, which the facts say or are asked for."""
    return next(i for i in range(limit) if equal(v, i))


def shift_count(k, w):
    """Returns by how many bits a shift shifts. A compiler asks for one of a few numbers by the bits of a mask."""
    if isinstance(k, Lin) and Facts.now.is_between(k, 0, w - 1):
        return small_number(k, w)
    return k


def shift_left(a, k, w):
    k = shift_count(k, w)
    if isinstance(a, Lin) and isinstance(k, int) and k < 8:  # more moves bytes
        if Facts.now.is_between(a, 0, (2**w - 1) >> k):
            return times(a, 1 << k)
    return shl(as_bytes(a), as_bytes(k), w)


def shift_right(a, k, w):
    k = shift_count(k, w)
    found = split(a, 1 << k) if isinstance(a, Lin) and isinstance(k, int) else None
    return found[0] if found else shr(as_bytes(a), as_bytes(k), w)


def both(a, b):
    """The bits that both numbers have."""
    a, b = (b, a) if isinstance(a, int) else (a, b)
    if isinstance(b, int) and isinstance(a, Lin) and b:
        low = (
            b & -b
        )  # the lowest bit of a mask that has all bits from there to another one
        most = b | low - 1
        if most & most + 1 == 0 and Facts.now.is_between(a, 0, most):
            found = split(a, low)
            if found:
                return times(found[0], low)
        if low == 1 and most & most + 1 == 0:
            found = split(a, b + 1)
            if found:
                return found[1]
        # Code may take a part of a length before it compares the length with the longest one.
        if few_bytes(a) == (None, None) and not Facts.now.decides(b - a):
            return and_(any_value(), b)
    return and_(as_bytes(a), as_bytes(b))


def remainder(a, b):
    return divided(a, b)[1]


def quotient(a, b):
    return divided(a, b)[0]


def divided(a, b):
    """Divides by a constant, or by the number of registers n. `q`, which is n times the rounds that are done, leaves no
    remainder. The quotient by n is not known.
    """
    if isinstance(b, int):
        found = split(a, b)
        if found:
            return found
    if isinstance(a, (int, Lin)) and b == unknown("n"):
        n = unknown("n")
        rest = a
        if isinstance(a, Lin) and a.factor("q"):
            rest = plus(a, times(unknown("q"), -1))
        factor = rest.factor("n") if isinstance(rest, Lin) else 0
        for multiple in (factor, factor - 1, factor + 1):
            low = plus(rest, times(n, -multiple))
            if Facts.now.is_between(low, 0, n - 1):
                return None, low
        Facts.now.decides(n - 1 - low)
    raise Refused("a division of a length")


def equal(a, b):
    x = as_number(a)
    y = as_number(b)
    if x is None or y is None:
        return terms.eq(as_bytes(a), as_bytes(b))
    difference = plus(x, times(y, -1))
    return int(
        Facts.now.decides(difference) and Facts.now.decides(times(difference, -1))
    )


def less(a, b):
    x = as_number(a)
    y = as_number(b)
    if x is None or y is None:
        return terms.ltu(as_bytes(a), as_bytes(b))
    return int(Facts.now.decides(plus(plus(y, times(x, -1)), -1)))


def signed_less(a, b):
    """A length is far from what is negative in 32 or 64 bits."""
    for v in (a, b):
        if isinstance(v, Lin) and not Facts.now.is_between(v, 0, 2**31 - 1):
            raise Refused("a signed comparison of a length that may be negative")
        if isinstance(v, int) and v >= 2**31:
            raise Refused("a signed comparison of a length with a negative number")
    return less(a, b)


def of_bytes(function):
    return lambda a, b: function(as_bytes(a), as_bytes(b))


def not_(operation):
    """Returns the comparison that holds if another one does not."""
    return lambda a, b: terms.eqz(operation(a, b))


def swapped(operation):
    return lambda a, b: operation(b, a)


# In the order of their codes. None: no code of this module has it.
ARITHMETIC = (
    add,
    subtract,
    multiply,
    None,  # div_s
    quotient,
    None,  # rem_s
    remainder,
    both,
    of_bytes(or_),
    of_bytes(xor),
    shift_left,
    None,  # shr_s
    shift_right,
)
COMPARISONS = (
    equal,
    not_(equal),
    signed_less,
    less,
    swapped(signed_less),
    swapped(less),
    not_(swapped(signed_less)),
    not_(swapped(less)),
    not_(signed_less),
    not_(less),
)
WITH_A_WIDTH = add, subtract, multiply, shift_left, shift_right


def operations(first_arithmetic, first_comparison, w):
    """Returns the operations of w bits by their codes."""
    found = {}
    for first, names in (first_arithmetic, ARITHMETIC), (first_comparison, COMPARISONS):
        for code, operation in enumerate(names, first):
            if operation in WITH_A_WIDTH:
                operation = partial(operation, w=w)
            if operation:
                found[code] = operation
    return found


BINARY = operations(0x6A, 0x46, 32) | operations(0x7C, 0x51, 64)
UNARY = {
    0x45: lambda a: equal(a, 0),
    0x50: lambda a: equal(a, 0),
    0xA7: lambda a: modulo(a, 32),
}


def lifted(code, function, of_numbers):
    """Returns the operation for numbers that may be unknown."""

    def do(*args):
        if any(isinstance(v, Lin) for v in args):
            if code not in of_numbers:
                raise Refused(f"an operation {code} of a length")
            return of_numbers[code](*args)
        return function(*args)

    return do


def less_by(a, i, w):
    return as_bytes(subtract(a, i, w)) if isinstance(a, Lin) else a - i & 2**w - 1


# A value is made again where more is known: then its numbers may be unknown ones.
for _name, _operation in {
    "xor": of_bytes(xor),
    "and": both,
    "or": of_bytes(or_),
    "shl": shift_left,
    "shr": shift_right,
    "add": add,
    "sub": subtract,
    "mul": multiply,
    "nz": lambda a: 1 - equal(a, 0),
    "eqz": lambda a: equal(a, 0),
    "ltu": less,
}.items():
    terms.OPS[_name] = lifted(_name, terms.OPS[_name], {_name: _operation})
terms.less_by = less_by


class Module(wasm.Module):
    binary = {op: lifted(op, f, BINARY) for op, f in wasm.BINARY.items()}
    unary = {op: lifted(op, f, UNARY) for op, f in wasm.UNARY.items()}


# The content of an array


class Write(NamedTuple):
    """A write of `size` bytes at `offset`: of cells, a part of another content, or one byte again and again."""

    offset: object
    size: object
    cells: list = None
    content: object = None
    source: object = None
    byte: object = None


class Content:
    """The bytes of an array: writes over the bytes that it had when the call began, which may have any value. The name
    `origin` stands for these. An origin that no array has stands for bytes that nobody may read.
    """

    def __init__(self, origin, writes=()):
        self.origin = origin
        self.writes = writes

    def with_(self, write):
        return Content(self.origin, (*self.writes, write))

    def with_cells(self, offset, cells):
        return self.with_(Write(offset, len(cells), cells=cells))

    def with_copy(self, offset, size, content, source):
        return self.with_(Write(offset, size, content=content, source=source))

    def with_bytes(self, offset, size, byte):
        return self.with_(Write(offset, size, byte=byte))

    def cells(self, offset, n):
        """Returns n cells, from the newest write that has them."""
        for write in reversed(self.writes):
            ends_before = plus(plus(write.offset, times(offset, -1)), -n)
            begins_after = plus(offset, times(plus(write.offset, write.size), -1))
            if Facts.now.proves(ends_before) or Facts.now.proves(begins_after):
                continue
            inside = plus(offset, times(write.offset, -1))
            room = plus(plus(write.size, times(inside, -1)), -n)
            if not (Facts.now.decides(inside) and Facts.now.decides(room)):
                # One byte that is not inside is outside. If the facts left this open, `decides` raised Undecided.
                if n == 1:
                    continue
                return [c for k in range(n) for c in self.cells(plus(offset, k), 1)]
            if write.content is not None:
                return write.content.cells(plus(write.source, inside), n)
            if write.cells is None:
                return [cell_of(write.byte)] * n
            if isinstance(inside, int):
                return write.cells[inside : inside + n]
            if all(cell == write.cells[0] for cell in write.cells):
                return write.cells[:n]
            k = 0
            while Facts.now.decides(plus(inside, -k - 1)):
                k += 1
            return write.cells[k : k + n]
        constant, factors = parts(with_few_registers(offset))
        name = self.origin, tuple(sorted(factors.items()))
        return [(input_byte(name, constant + k), 0) for k in range(n)]

    def bytes(self, offset, n):
        return [byte_of(as_cell(cell)) for cell in self.cells(offset, n)]

    def ends(self, offset=0):
        """Yields where writes begin and end, from `offset` on."""
        for write in self.writes:
            yield plus(write.offset, times(offset, -1))
            yield plus(plus(write.offset, write.size), times(offset, -1))
            if write.content is not None:
                move = plus(write.offset, times(write.source, -1))
                for end in write.content.ends():
                    yield plus(plus(end, move), times(offset, -1))


def byte_of_cell(cell):
    return byte_of(as_cell(cell))


def as_cell(cell):
    """Returns a cell that has no unknown number."""
    if not isinstance(cell, tuple) or not isinstance(cell[0], Lin):
        return cell
    number, place = as_bytes(cell[0]), cell[1]
    return cells_of(number, place + 1)[place]


def first_difference(a, b, size):
    """Returns where two contents differ in their first `size` bytes, or None."""
    cuts = [0]
    for end in [size, *a.ends(), *b.ends()]:
        at = 0
        while at < len(cuts) and Facts.now.decides(plus(end, times(cuts[at], -1))):
            at += 1
        cuts.insert(at, end)
    for low, high in zip(cuts, cuts[1:]):
        is_before = Facts.now.proves(plus(-1, times(low, -1)))
        is_after = Facts.now.proves(plus(low, times(size, -1)))
        if not is_before and not is_after:
            place = difference_between(a, b, low, high)
            if place is not None:
                return place
    return None


def difference_between(a, b, low, high):
    """Returns where two contents differ between two places, or None."""
    width = plus(high, times(low, -1))
    before = Facts.now
    if isinstance(width, int):
        waiting = [(before, plus(low, k)) for k in range(width)]
    else:
        place = unknown("place")
        waiting = [(before.with_(place - low, high - 1 - place), place)]
    try:
        while waiting:
            Facts.now, place = waiting.pop()
            if not Facts.now.are_possible():
                continue
            try:
                if not Known.now.are_equal(*a.bytes(place, 1), *b.bytes(place, 1)):
                    return place
            except Undecided as question:
                waiting += [(facts, place) for facts in Facts.now.cases(question.total)]
    finally:
        Facts.now = before
    return None


# Runs


class Array(NamedTuple):
    """A buffer of a call: its place is the unknown with its name."""

    name: str
    size: object
    may_change: bool


class State(wasm.State):
    """`contents` has the Content of each array. `done` is what the standard made in the loops that have ended."""

    def __init__(self, frames, globals_, contents, done=()):
        super().__init__(frames, globals_)
        self.contents = contents
        self.done = done

    def add(self, step):
        """Adds the last step of a loop."""
        step.made()
        self.done += (step,)

    def copy(self):
        other = super().copy()
        return State(other.frames, other.globals, dict(self.contents), self.done)


class Run(wasm.Run):
    """`loops` are the loops at which a run stops: (function, place). next_process(path) returns what the standard
    makes in the next loop of a path, or None if it makes nothing more."""

    def __init__(self, module, inputs, stack, arrays, loops, next_process):
        super().__init__(module, inputs, stack)
        self.arrays = {array.name: array for array in arrays}
        self.loops = loops
        self.next_process = next_process
        # For each loop, by the depth of its frame and its place: whether it began again, and the look-ups before it.
        self.has_begun_again = {}
        self.lookups_before = {}
        self.path = None

    # Memory

    def place(self, path, v):
        return v if isinstance(v, Lin) else super().place(path, v)

    def array_at(self, at, n):
        """Returns the array in which these n bytes lie, and their offset."""
        for name, array in self.arrays.items():
            if at.factor(name) == 1:
                offset = at.without(name) + 0
                if not Facts.now.decides(Lin(0) + offset):
                    break
                if not Facts.now.decides(plus(array.size, times(plus(offset, n), -1))):
                    break
                return array, offset
        raise Refused(f"an access to {n} bytes at {at}")

    def cells(self, path, at, n):
        if not isinstance(at, Lin):
            return super().cells(path, at, n)
        array, offset = self.array_at(at, n)
        return path.state.contents[array.name].cells(offset, n)

    def load(self, path, address, offset, n):
        if not isinstance(address, Lin) and not isinstance(address, int):
            return super().load(path, address, offset, n)
        cells = self.cells(path, address + offset, n)
        if any(isinstance(cell, tuple) and isinstance(cell[0], Lin) for cell in cells):
            v = cells[0][0] if isinstance(cells[0], tuple) else None
            if isinstance(v, Lin) and cells == cells_of(v, n):
                return (
                    v if Facts.now.is_between(v, 0, 256**n - 1) else modulo(v, 8 * n)
                )
            cells = list(map(as_cell, cells))
        return joined(cells)

    def low_cells(self, v, n):
        if isinstance(v, Lin):
            if not Facts.now.is_between(v, 0, 256**n - 1):
                raise Refused(f"a number that is stored in part: {v}")
            return cells_of(v, n)
        return super().low_cells(v, n)

    def store(self, path, at, cells):
        if not isinstance(at, Lin):
            super().store(path, at, cells)
            return
        self.write(
            path,
            at,
            len(cells),
            lambda content, offset: content.with_cells(offset, cells),
        )

    def write(self, path, at, n, change):
        array, offset = self.array_at(at, n)
        if not array.may_change:
            raise Refused(f"a store at {at}")
        contents = path.state.contents
        contents[array.name] = change(contents[array.name], offset)

    def copy(self, path, to, source, n):
        if not isinstance(n, Lin):
            super().copy(path, to, source, n)
            return
        array, start = self.array_at(source, n)
        content = path.state.contents[array.name]
        self.write(
            path, to, n, lambda old, offset: old.with_copy(offset, n, content, start)
        )

    def fill(self, path, to, byte, n):
        if not isinstance(n, Lin):
            super().fill(path, to, byte, n)
            return
        self.write(path, to, n, lambda old, offset: old.with_bytes(offset, n, byte))

    # Decisions and loops

    def decided(self, path, frame, pc, waiting):
        stack = frame[3]
        if isinstance(stack[-1], Lin):
            stack[-1] = int(Facts.now.decides(stack[-1] - 1))
            return True
        return super().decided(path, frame, pc, waiting)

    def chosen(self, path, v, most):
        if not isinstance(v, Lin):
            return super().chosen(path, v, most)
        return most if Facts.now.decides(v - most) else small_number(v, most)

    def run(self, path, waiting):
        self.path = path
        return super().run(path, waiting)

    def stops_at(self, path, function, pc, is_back):
        loop = len(path.state.frames), pc
        self.has_begun_again[loop] = is_back
        if not is_back:
            self.lookups_before[loop] = self.lookups
        if (function, pc) in self.loops:
            path.stopped = function, pc
            return True
        return False

    def loop_of_steps(self):
        """Returns the outermost loop that has begun again and enciphers, if there is one. Other loops, such as those
        over the buffers of a call, come to an end."""
        for depth, frame in enumerate(self.path.state.frames, 1):
            function, labels = frame[0], frame[5]
            for kind, pc, *_ in labels:
                if kind != LOOP or (function, pc) in self.loops:
                    continue
                has_begun_again = self.has_begun_again.get((depth, pc))
                if has_begun_again and self.lookups > self.lookups_before[depth, pc]:
                    return function, pc
        return None

    def ends(self, path):
        """Yields each path at the end of the call."""
        waiting = [path]
        while waiting:
            path = waiting.pop()
            path.stopped = None
            for path in list(self.paths(path)):
                Known.now = path.known
                if path.stopped:
                    waiting.append(Loop(self, path).at_the_end())
                    continue
                if few_registers():
                    self.make_all_steps(path)
                yield path

    def make_all_steps(self, path):
        """Makes the steps of the standard for few registers. The code has made its own, without a stop."""
        process = self.next_process(path)
        while process:
            # The code unwraps before it knows something of what it finds.
            Known.now = Known() if process.undo else path.known
            path.state.add(process.last_step())
            Known.now = path.known
            process = self.next_process(path)


# Key wrap's loop


class Process:
    """The steps of a key wrap by the standard, from A and the registers of a content on. `back` is None, or an unwrap
    whose steps this process takes back: it begins with what the unwrap has left, and ends with what it began with.
    """

    def __init__(self, words, a, content, offset, undo, back=None):
        self.words = words
        self.a = a
        self.content = content
        self.offset = offset
        self.undo = undo
        self.back = back

    def registers(self):
        """Returns the registers at the beginning."""
        return Content("none").with_copy(0, 8 * N_REGISTERS, self.content, self.offset)

    def first_place(self):
        return (5 * N_REGISTERS, N_REGISTERS - 1) if self.undo else (0, 0)

    def last_place(self):
        return (0, 0) if self.undo else (5 * N_REGISTERS, N_REGISTERS - 1)

    def begin(self, registers, q, i):
        """Returns the first step, over these registers."""
        return Step(self, self.a, registers, q, i)

    def any_step(self, q, i):
        """Returns a step at this place, over A and registers of any value."""
        a = [fresh("A", k) for k in range(8)]
        return Step(self, a, Content(("registers", next(_serial))), q, i)

    def before_the_end(self):
        """Returns the last step. What is known before it may be any value. Only of a way back it is known: it is what
        the other process had after its first step."""
        if not self.back:
            return self.any_step(*self.last_place())
        self.check_way_back()
        first = self.back.begin(self.back.registers(), *self.back.first_place())
        return Step(self, *first.after(), *self.last_place())

    def check_way_back(self):
        """Checks that a step of the other process and the step of this one at the same place change nothing, at any
        place and for any values.

        So each step of the way back leaves what the other process had before it undid the step. That is an induction:
        the way back begins with what the other process has left, and goes through its places in the opposite order.
        """
        q = unknown("q")
        i = unknown("i")
        before = Facts.now
        Facts.now = before.with_(q, 5 * N_REGISTERS - q, i, N_REGISTERS - 1 - i)
        try:
            undone = self.back.any_step(q, i)
            again = Step(self, *undone.after(), q, i)
            if again.made() != (undone.a, undone.register()):
                raise Refused("a way back whose steps do not take back the others")
        finally:
            Facts.now = before

    def last_step(self):
        """Returns the last step for few registers, after all steps before it."""
        count = few_registers()
        places = [(count * j, i) for j in range(6) for i in range(count)]
        if self.undo:
            places.reverse()
        step = self.begin(self.registers(), *places[0])
        for place in places[1:]:
            step = step.following(*place)
        return step


ANY = object()
_serial = itertools.count()


class NotInvariant(Refused):
    """Why a guess does not hold."""


class OtherLocal(NotInvariant):
    def __init__(self, local, kind):
        super().__init__(f"local {local} is not as before: {kind}")
        self.local = local


class OtherMemory(NotInvariant):
    def __init__(self, places):
        super().__init__(f"memory at {places[0]:#x} is not as before")
        self.places = places


def any_value():
    return joined([(fresh("left"), 0) for _ in range(8)])


def number_bytes(v):
    """Returns the 8 bytes of a number, the highest first."""
    v = as_bytes(v)
    return [and_(shr(v, 8 * k, 64), 255) for k in range(7, -1, -1)]


def is_known(v, wanted):
    """Whether a local has this value: a number, or a value under what is known on the path."""
    if isinstance(v, Lin) or isinstance(wanted, Lin):
        return v == wanted
    return Known.now.are_equal(v, wanted)


class Step:
    """The values before a step: A and the registers; and its place: q is n times the rounds that are done or, if steps
    are undone, to come; i is the register."""

    def __init__(self, process, a, registers, q, i):
        self.process = process
        self.a = a
        self.registers = registers
        self.q = q
        self.i = i
        # Steps that are done or, if they are undone, left.
        self.t = plus(plus(q, i), int(process.undo))
        self.has_made = None

    def register(self):
        return self.registers.bytes(times(self.i, 8), 8)

    def made(self):
        """Returns A and the register that the step makes. It makes them once, under what is known then: afterwards they
        are the same atoms over which the code has decided."""
        if self.has_made is None:
            self.has_made = self.make()
        return self.has_made

    def make(self):
        number = number_bytes(self.t if self.process.undo else plus(self.t, 1))
        a, words = self.a, self.process.words
        if self.process.undo:
            block = standard.inv_cipher(
                words, [xor(x, y) for x, y in zip(a, number)] + self.register()
            )
            return block[:8], block[8:]
        block = standard.cipher(words, a + self.register())
        return [xor(x, y) for x, y in zip(block[:8], number)], block[8:]

    def after(self):
        """Returns A and the registers after the step."""
        a, register = self.made()
        cells = list(map(cell_of, register))
        return a, self.registers.with_cells(times(self.i, 8), cells)

    def way_back(self):
        """Returns the process that makes the steps again that were undone up to this one, the last one."""
        process = self.process
        return Process(process.words, *self.after(), 0, not process.undo, process)

    def following(self, q, i):
        """Returns the next step, which is at this place."""
        return Step(self.process, *self.after(), q, i)

    def words(self):
        """Returns what code may keep of it in a local, by its name."""
        found = {}
        counted = [xor(x, y) for x, y in zip(self.a, number_bytes(self.t))]
        for name, content in (
            ("A", self.a),
            ("A xor t", counted),
            ("the register", self.register()),
        ):
            for order, ordered in ("", content), (" turned", content[::-1]):
                cells = list(map(cell_of, ordered))
                found[name + order] = joined(cells)
                found[f"first half of {name}{order}"] = joined(cells[:4])
                found[f"second half of {name}{order}"] = joined(cells[4:])
        return found


class Role(NamedTuple):
    """The meaning of a local: `kind` is "same", "register" or "step" (a number that grows with it), "any", or a name of
    Step.words."""

    kind: str
    growth: int = 0


class Invariant(NamedTuple):
    """The facts that hold whenever the code comes to the loop: the array that has the registers, each local's role, and
    the offsets from the stack pointer at which memory may be anything."""

    array: str
    offset: object
    roles: list
    changing: frozenset

    def as_guess(self):
        """Returns what Loop.guess returns."""
        options = [[role] for role in self.roles]
        return self.array, self.offset, options, self.changing


class Loop:
    """A run that has reached the loop of the next process."""

    known = {}  # (function, place, undo): the Invariant that was found last

    def __init__(self, run, path):
        self.run = run
        self.path = path
        self.function, self.pc = path.stopped
        self.process = run.next_process(path)
        if not self.process:
            raise Refused(f"{self.name()}, for which the standard has no steps")
        self.local = path.state.frames[-1][4]
        self.first = self.process.first_place()

    def name(self):
        names = self.run.module.names
        return f"the loop at {names.get(self.function, f'function {self.function}')}, {self.pc}"

    def stack_pointer(self):
        return self.path.state.globals[0]

    def started(self):
        return Path(dict(self.path.memory), self.path.state.copy(), self.path)

    def at_the_end(self):
        """Proves the invariant, and returns the path before the last step."""
        invariant = self.proved()
        step = self.process.before_the_end()
        path = self.path_before(invariant, step)
        path.state.add(step)
        return path

    def proved(self):
        """Returns an invariant that holds: the one that was found last, or another one."""
        key = self.function, self.pc, self.process.undo
        known = Loop.known.get(key)
        if known and known.array in self.path.state.contents:
            try:
                return self.first_that_holds(known.as_guess())
            except Refused:
                pass
        try:
            Loop.known[key] = self.first_that_holds(self.guess())
        except Refused as refused:
            raise Refused(f"{self.name()} is not recognised: {refused}")
        return Loop.known[key]

    def first_that_holds(self, guess):
        """Returns an invariant. A local that is not the first of its options is the next one. Memory that is not as
        before is what changes."""
        array, offset, options, changing = guess
        while True:
            roles = [option[0] for option in options]
            invariant = Invariant(array, offset, roles, changing)
            try:
                return self.check(invariant)
            except OtherLocal as other:
                if len(options[other.local]) == 1:
                    raise
                del options[other.local][0]
            except OtherMemory as other:
                changing |= {at - self.stack_pointer() for at in other.places}

    def check(self, invariant):
        self.check_entry(invariant)
        for case in self.cases():
            self.check_step(invariant, *case)
        return invariant

    # One step of the standard

    def after_one_step(self, path):
        """Runs this path, which stands at the loop, to the next loop that it comes to, and returns it there.

        The code may leave the loop and enter it again: so it goes from one round to the next. check_one checks that it
        is the same loop. Raises NotInvariant if the code branches on an input, returns or stops in another frame, and
        Undecided if the facts do not decide a branch.
        """
        depth = len(path.state.frames)
        path.stopped = None
        try:
            ended = list(self.run.paths(path))
        finally:
            Known.now = self.path.known
        after = ended[0]
        if len(ended) > 1 or not after.stopped or len(after.state.frames) != depth:
            raise NotInvariant("it does not begin again")
        return after

    def guess(self):
        """Returns what fits the first step: the array and the offset of the registers, what each local may be, and
        which memory changes."""
        before = Facts.now
        q, i = self.first
        direction = -1 if self.process.undo else 1
        try:
            Facts.now = before.with_(N_REGISTERS - 3)
            after = self.after_one_step(self.started())
            array, offset = self.registers_of(after)
            step = self.process.begin(self.seen(array, offset), q, i)
            words = step.words(), step.following(q, i + direction).words()
            locals_ = zip(self.local, after.state.frames[-1][4])
            options = [self.options(old, new, words, direction) for old, new in locals_]
        finally:
            Facts.now = before
        changed = [
            at for at, cell in after.memory.items() if self.path.memory.get(at) != cell
        ]
        return (
            array,
            offset,
            options,
            frozenset(at - self.stack_pointer() for at in changed),
        )

    def registers_of(self, after):
        """Returns the array that a step wrote to, and where its registers begin."""
        for name, content in after.state.contents.items():
            old = self.path.state.contents[name]
            if len(content.writes) > len(old.writes):
                at = content.writes[len(old.writes)].offset
                return name, plus(at, times(self.first[1], -8))
        raise NotInvariant("it writes no register")

    def seen(self, array, offset):
        """Returns the registers as they are in an array."""
        content = self.path.state.contents[array]
        return Content("none").with_copy(0, 8 * N_REGISTERS, content, offset)

    @staticmethod
    def options(old, new, words, direction):
        """Returns what a local may be that has these values before and after the first step, the likeliest first."""
        if old == new:
            return [Role("same"), Role("any")]
        before, behind = words
        names = []
        for name in before:
            if is_known(old, before[name]) and is_known(new, behind[name]):
                names.append(name)
        found = [Role(name) for name in names[:1]]
        if isinstance(old, (int, Lin)) and isinstance(new, (int, Lin)):
            growth = plus(new, times(old, -1))
            if growth in (1, -1):
                found += [
                    Role("step", growth * direction),
                    Role("register", growth * direction),
                ]
            elif growth in (8, -8):
                found += [
                    Role("register", growth * direction),
                    Role("step", growth * direction),
                ]
        return [*found, Role("any")]

    # The invariant

    def path_before(self, invariant, step):
        """Returns the path before this step."""
        path = self.started()
        contents = path.state.contents
        contents[invariant.array] = contents[invariant.array].with_copy(
            invariant.offset, 8 * N_REGISTERS, step.registers, 0
        )
        local = path.state.frames[-1][4]
        for k, v in enumerate(self.values(invariant, step)):
            local[k] = any_value() if v is ANY else v
        for offset in invariant.changing:
            path.memory[self.stack_pointer() + offset] = fresh("left"), 0
        return path

    def values(self, invariant, step):
        """Returns what the locals have to be before a step, or ANY."""
        words = step.words()
        made = []
        for role, v in zip(invariant.roles, self.local):
            if role.kind == "any":
                v = ANY
            elif role.kind == "register":
                moved = plus(step.i, times(self.first[1], -1))
                v = plus(v, times(moved, role.growth))
            elif role.kind == "step":
                moved = plus(plus(step.q, step.i), times(plus(*self.first), -1))
                v = plus(v, times(moved, role.growth))
            elif role.kind != "same":
                v = words[role.kind]
            made.append(v)
        return made

    def check_locals(self, invariant, step, local):
        for k, (v, wanted) in enumerate(zip(local, self.values(invariant, step))):
            if wanted is not ANY and not is_known(v, wanted):
                raise OtherLocal(k, invariant.roles[k].kind)

    def check_entry(self, invariant):
        registers = self.seen(invariant.array, invariant.offset)
        wanted = self.process.registers()
        place = first_difference(registers, wanted, 8 * N_REGISTERS)
        if place is not None:
            raise NotInvariant(f"the registers at the beginning, at {place}")
        step = self.process.begin(registers, *self.first)
        self.check_locals(invariant, step, self.local)

    def cases(self):
        """Yields (facts, the place of any step but the last one, the place of the next)."""
        n = N_REGISTERS
        q = unknown("q")
        i = unknown("i")
        rounds = [q, 5 * n - q]
        if self.process.undo:
            yield [*rounds, i - 1, n - 1 - i], (q, i), (q, i - 1)
            yield [q - n, 5 * n - q], (q, 0), (q - n, n - 1)
        else:
            yield [*rounds, i, n - 2 - i], (q, i), (q, i + 1)
            yield [q, 4 * n - q], (q, n - 1), (q + n, 0)

    def check_step(self, invariant, facts, place, next_place):
        before = Facts.now
        waiting = [before.with_(*facts)]
        try:
            while waiting:
                Facts.now = waiting.pop()
                try:
                    self.check_one(invariant, place, next_place)
                except Undecided as question:
                    waiting += Facts.now.cases(question.total)
        finally:
            Facts.now = before

    def check_one(self, invariant, place, next_place):
        step = self.process.any_step(*place)
        path = self.path_before(invariant, step)
        memory = dict(path.memory)
        state = path.state.copy()
        after = self.after_one_step(path)
        following = step.following(*next_place)
        self.check_locals(invariant, following, after.state.frames[-1][4])
        same = after.state.globals == state.globals and after.forks == self.path.forks
        for frame, old in zip(after.state.frames, state.frames):
            same &= frame[:4] == old[:4] and frame[5] == old[5]
        for frame, old in zip(after.state.frames[:-1], state.frames[:-1]):
            same &= frame[4] == old[4]
        if not same:
            raise NotInvariant("the stack is not what it was")
        changing = {self.stack_pointer() + offset for offset in invariant.changing}
        changed = [at for at, cell in after.memory.items() if memory.get(at) != cell]
        others = [at for at in changed if at not in changing]
        if others:
            raise OtherMemory(others)
        self.check_contents(invariant, step, state.contents, after.state.contents)

    def check_contents(self, invariant, step, old, new):
        """One register is new."""
        at = plus(invariant.offset, times(step.i, 8))
        for name, content in new.items():
            more = content.writes[len(old[name].writes) :]
            if name != invariant.array and more:
                raise NotInvariant(f"it writes to {name}")
            for write in more:
                inside = plus(write.offset, times(at, -1))
                is_inside = isinstance(inside, int) and isinstance(write.size, int)
                if not is_inside or not 0 <= inside <= inside + write.size <= 8:
                    raise NotInvariant(f"it writes to {name} at {write.offset}")
        _, register = step.made()
        if new[invariant.array].bytes(at, 8) != register:
            raise NotInvariant("the register is not what the standard makes")
