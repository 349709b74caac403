"""Memory, paths and decisions for all inputs at once. wasm.py and x86.py share them.

A cell is a byte of memory: an int, or (value, k), which is byte k of the value. A machine runs a call as one path. If
the code decides something that depends on the inputs, the path becomes several. Each has the equations under which the
code takes it."""

from functools import reduce

from terms import (
    N,
    V,
    Known,
    Refused,
    and_,
    bits,
    flips,
    input_byte,
    is_sum_with_number,
    or_,
    picked,
    shl,
    shr,
    table_of,
    zero_cases,
)


def byte_of(cell):
    if isinstance(cell, int):
        return cell
    v, k = cell
    is_one_byte = not isinstance(v, (V, N)) or k == 0 and bits(v) < 256
    if is_one_byte:
        return v
    if type(v) is V:
        return picked(v, 255 << 8 * k, 8 * k)
    return and_(shr(v, 8 * k, 64), 255)


def cell_of(v):
    return v if isinstance(v, int) else (v, 0)


def cells_of(v, n):
    """Returns the lowest n bytes of a value."""
    if isinstance(v, int):
        return [v >> 8 * i & 255 for i in range(n)]
    return [(v, i) for i in range(n)]


def joined(cells):
    """Returns the little-endian value of these bytes."""
    if type(cells[0]) is int:
        try:
            return int.from_bytes(cells, "little")
        except TypeError:  # not all of them are numbers
            pass
    parts = []
    i = 0
    while i < len(cells):
        n = neighbours(cells, i)
        parts.append((part_of(cells[i], n), 8 * i))
        i += n
    if len(parts) == 1:
        return parts[0][0]
    if any(isinstance(part, N) for part, _ in parts):
        return reduce(or_, [shl(part, k, 64) for part, k in parts])
    c = 0
    t = {}
    for part, k in parts:
        if isinstance(part, int):
            c |= part << k
            continue
        c |= part.c << k
        for atom, x in part.t.items():
            t[atom] = t.get(atom, 0) | x << k
    return V(c, t) if t else c


def neighbours(cells, start):
    """Returns how many cells from there on are bytes of one value, in their order."""
    if isinstance(cells[start], int):
        return 1
    v, k = cells[start]
    n = 1
    for cell in cells[start + 1 :]:
        if not isinstance(cell, tuple) or cell[0] is not v or cell[1] != k + n:
            break
        n += 1
    return n


def part_of(cell, n):
    """Returns the value of n bytes that begin with this cell."""
    if isinstance(cell, int):
        return cell
    v, k = cell
    if not isinstance(v, (V, N)):
        raise Refused(
            "a byte that is not an affine map of a byte, its S-box or its inverse S-box"
        )
    is_whole = k == 0 and bits(v) >> 8 * n == 0
    if is_whole:
        return v
    return and_(shr(v, 8 * k, 64), (1 << 8 * n) - 1)


class Path:
    """A run for all inputs for which `known` holds and none of `excluded` does. `forks` are the places of the decisions
    that depend on inputs. `state` is what the machine keeps: registers, or frames and globals. `before` is the path of
    the call before, if there is one."""

    def __init__(self, memory, state, before=None):
        self.memory = memory
        self.state = state
        self.stopped = None
        self.known = before.known if before else Known()
        self.excluded = before.excluded if before else []
        self.forks = before.forks if before else []

    def fork(self, known, excluded, place):
        other = Path(dict(self.memory), self.state.copy())
        other.known = known
        other.excluded = excluded
        other.forks = [*self.forks, place]
        return other

    def is_zero(self, values):
        """Whether all these values are 0. The path has to have decided this."""
        known = self.known
        for v in values:
            known = known.with_zero(v)
            if known is None:
                return False
        if known is self.known:
            return True
        if any(known.implies(other) for other in self.excluded):
            return False
        raise Refused("the code did not decide what the standard decides")

    def cases(self, v):
        """Returns (what is known, what is excluded, whether v is not 0) for each way to go on."""
        inner, is_negated = without_tests(v)
        zeros = []
        for case in zero_cases(inner, self.known):
            if not any(case.implies(other) for other in self.excluded):
                zeros.append(case)
        if_zero = is_negated
        if_not_zero = not is_negated
        if not zeros:
            return [(self.known, self.excluded, if_not_zero)]
        if any(case is self.known for case in zeros):
            return [(self.known, self.excluded, if_zero)]
        ways = [(self.known, self.excluded + zeros, if_not_zero)]
        for case in reversed(zeros):
            ways.append((case.closed(), self.excluded, if_zero))
        return ways


def without_tests(v):
    """Returns the value that a test for zero, or a test of a test, is about; and whether the test holds for 0."""
    is_negated = False
    while isinstance(v, N) and v.op in ("nz", "eqz"):
        inner = v.args[0]
        is_not_less = v.op == "eqz" and isinstance(inner, N) and inner.op == "ltu"
        # zero_cases decides a >= b as a whole.
        if is_not_less:
            break
        is_negated ^= v.op == "eqz"
        v = inner
    return v, is_negated


class Machine:
    """Runs the calls of an object. `inputs` are the cells that a call may only read. The stack holds any bytes before a
    call. `module` has constants and variables: dictionaries from addresses to bytes."""

    def __init__(self, module, inputs, stack):
        self.module = module
        self.stack = stack
        self.unwritten = module.variables | inputs
        self.steps = self.lookups = self.shuffles = 0
        self.tables = {}

    def keep_apart(self, memory):
        """Refuses places that have two meanings: of what is only read, what is written, variables, constants, stack."""
        constants = self.module.constants
        stack = self.stack
        variables = self.module.variables
        places = list(self.unwritten)
        for at in memory:
            if at not in stack and at not in variables:
                places.append(at)
        is_twice = len({*places}) != len(places)
        if is_twice or any(at in constants or at in stack for at in places):
            raise Refused("places with two meanings")

    def cells(self, path, at, n):
        memory = path.memory
        unwritten = self.unwritten
        constants = self.module.constants
        found = []
        for i in range(at, at + n):
            cell = memory.get(i)
            if cell is None:
                cell = unwritten.get(i)
            if cell is None:
                cell = constants.get(i)
            if cell is None:
                if i not in self.stack:
                    raise Refused(f"a load at {i:#x}")
                cell = input_byte("stack", i - self.stack.start), 0
            found.append(cell)
        return found

    def load(self, path, address, offset, n):
        """Returns the value of n bytes."""
        if not isinstance(address, int):
            found = self.lookup(address, offset, n)
            if found is not None:  # even if the address is known, since S(T(v)) is v
                return found
            address = self.place(path, address)
        return joined(self.cells(path, address + offset, n))

    def lookup(self, address, offset, n):
        """Returns what is loaded from a table of constants at an index of any value, or None if it is not that."""
        more = 0
        w = 64
        if is_sum_with_number(address):
            address, more, w = address.args
        if not isinstance(address, V):
            return None
        # The bits of the index are `free`, and the address without them begins the table.
        free = flips(address)
        shift = (free & -free).bit_length() - 1
        lowest = (address.c & ~free) + more
        highest = (address.c | free) + more
        is_index_of_a_byte = (free >> shift).bit_length() <= 8
        if lowest >> w != highest >> w or not is_index_of_a_byte:
            return None
        table = self.table_at(offset + (lowest & 2**w - 1), shift, n)
        if table is None:
            return None
        self.lookups += 1
        return table.of(picked(address, 255 << shift & free, shift))

    def table_at(self, base, shift, n):
        """Returns the table of 256 constants of n bytes that begins there, or None."""
        table = self.tables.get((base, shift, n))
        if table is None:
            constants = self.module.constants
            entries = []
            for x in range(256):
                at = base + (x << shift)
                cells = [constants.get(at + i) for i in range(n)]
                if None in cells:
                    return None
                entries.append(int.from_bytes(cells, "little"))
            table = self.tables[base, shift, n] = table_of(tuple(entries))
        return table

    def store(self, path, at, cells):
        memory = path.memory
        stack = self.stack
        variables = self.module.variables
        for i, cell in enumerate(cells, at):
            if i not in memory and i not in stack and i not in variables:
                raise Refused(f"a store at {i:#x}")
            memory[i] = cell

    def place(self, path, v):
        """Returns an address or a length, which no input may change."""
        v = path.known.reduced(v)
        if not isinstance(v, int):
            raise Refused("a secret address or length")
        return v

    def paths(self, path):
        """Yields each path at the end of the call."""
        before = Known.now
        waiting = [path]
        while waiting:
            path = waiting.pop()
            Known.now = path.known
            if self.run(path, waiting):
                yield path
        Known.now = before

    def reached(self, path):
        """Returns the bytes of the stack that the path wrote."""
        end = self.stack.stop
        written = (at for at in path.memory if at in self.stack)
        return end - min(written, default=end)
