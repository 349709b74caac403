"""Values for all inputs at once, in canonical form, and what is known about them on a path.

A value is an int, a V (an affine form over GF(2)), or an N (an operation on values that is not affine).

An atom is a byte: an input byte, S(v) or T(v), where S is the S-box of AES, T is the inverse S-box, and v is an affine
form. A V is its constant `c`, xored with a matrix times the atom for each atom. The matrix has 8 columns of 64 bits,
packed into one int: column i has the bits of the value that bit i of the atom flips.

If two V are equal as forms, then the values are equal for all inputs. S and T are the only functions of AES that are
not affine, and each pair of function and form has one atom. So results can be compared by ==. The only law on S and T
that the checker uses is S(T(v)) = T(S(v)) = v.
"""

from functools import cache, reduce
from itertools import count

M64 = 2**64 - 1
EACH = sum(1 << 64 * i for i in range(8))
MASKS = {}  # (bits, k): these bits of each column, k bits lower
IDENTITY = sum(1 << 65 * i for i in range(8))


class V:
    __slots__ = ("c", "t", "s")

    def __init__(self, c, t, s=None):
        self.c = c
        self.t = t
        self.s = s  # flips(self), or None if this was not computed

    def __eq__(self, other):
        return isinstance(other, V) and self.c == other.c and self.t == other.t

    def __hash__(self):
        return hash((self.c, frozenset(self.t)))


class N:
    """op(*args). Its bits are below top.bit_length()."""

    __slots__ = ("op", "args", "top", "h")

    def __init__(self, op, *args, top):
        self.op = op
        self.args = args
        self.top = top
        self.h = None

    def __eq__(self, other):
        if self is other:
            return True
        if not isinstance(other, N) or hash(self) != hash(other):
            return False
        return self.op == other.op and self.args == other.args

    def __hash__(self):
        if self.h is None:
            self.h = hash((self.op, self.args))
        return self.h

    def __repr__(self):
        return f'{self.op}({", ".join(map(show, self.args))})'


def show(v):
    if isinstance(v, int):
        return hex(v)
    if isinstance(v, V):
        return f"<{len(v.t)} atoms>"
    return repr(v)


def form(c, t, s=None):
    return V(c, t, s) if t else c


def flips(v):
    """Returns the bits of a V that its atoms flip."""
    if v.s is None:
        s = 0
        for x in v.t.values():
            s |= x
        s |= s >> 256
        s |= s >> 128
        v.s = (s | s >> 64) & M64
    return v.s


def bits(v):
    """Returns the bits that can be 1."""
    if isinstance(v, V):
        return flips(v) | v.c
    if isinstance(v, int):
        return v
    return (1 << v.top.bit_length()) - 1


def least(v):
    """Returns bits that are always 1."""
    if isinstance(v, int):
        return v
    if isinstance(v, V):
        return v.c & ~flips(v)
    if v.op == "or":
        one, other = v.args
        return least(one) | least(other)
    return 0


# Atoms

ATOMS = {}  # number: (name, place) of an input byte, or ('S' or 'T', form)
_number = count()
_made = {"S": {}, "T": {}}  # form: V of the atom
_inputs = {}  # (name, place): V
_shared = {}  # one object for each matrix
turns = None  # the Turns of a call that forgets atoms while it runs


def new_atom(kind, what):
    atom = next(_number)
    ATOMS[atom] = kind, what
    return atom


def fresh(name, place=0):
    """Returns a new byte of any value."""
    return V(0, {new_atom(name, place): IDENTITY})


def input_byte(name, i):
    """Returns byte i of the input with this name, of any value."""
    if (name, i) not in _inputs:
        _inputs[name, i] = fresh(name, i)
    return _inputs[name, i]


def forget():
    """Forgets all atoms. No value made before may be used any more."""
    for made in (ATOMS, _inputs, *_made.values()):
        made.clear()


def forget_between(first, end):
    """Forgets how these atoms were made. This never makes two values equal: the same byte gets another atom later."""
    for atom in range(first, end):
        kind, v = ATOMS.pop(atom, (None, None))
        if kind in _made:
            _made[kind].pop(v, None)


def _field_inverse():
    """The inverse of each element of AES's field, and 0 of 0."""
    # The powers of the generator 3.
    powers = []
    x = 1
    for _ in range(255):
        powers.append(x)
        doubled = x << 1
        if x & 0x80:
            doubled ^= 0x11B
        x ^= doubled
    inverses = [0] * 256
    for exponent, x in enumerate(powers):
        inverses[x] = powers[-exponent % 255]
    return inverses


def _affine(x):
    """The affine transformation of the S-box."""
    result = 0x63
    for k in range(5):
        result ^= (x << k | x >> 8 - k) & 255
    return result


S = [_affine(x) for x in _field_inverse()]
T = [S.index(x) for x in range(256)]
TABLES = {"S": S, "T": T}
INVERSE = {"S": "T", "T": "S"}


def argument_of(kind, v):
    """Returns x if the form v is the atom of S(x) or T(x), or None."""
    if v.c == 0 and len(v.t) == 1:
        ((atom, matrix),) = v.t.items()
        made_by, argument = ATOMS.get(atom, (None, None))
        if matrix == IDENTITY and made_by == kind:
            return argument
    return None


def substituted(kind, v):
    """Returns S or T of a byte."""
    if isinstance(v, int):
        return TABLES[kind][v]
    argument = argument_of(INVERSE[kind], v)
    if argument is not None:
        return argument
    known = Known.now
    if known.rows:
        v = known.reduced(v)
        if isinstance(v, int):
            return TABLES[kind][v]
        argument = argument_of(INVERSE[kind], v)
        if argument is None:
            argument = known.argument(kind, v)
        if argument is not None:
            return argument
    made = _made[kind].get(v)
    if made is None and turns:
        turns.wait()
        made = _made[kind].get(v)
    if made is None:
        v = V(v.c, {a: _shared.setdefault(x, x) for a, x in v.t.items()})
        made = _made[kind][v] = fresh(kind, v)
    if turns:
        turns.met(*made.t)
    return made


class Table:
    """A function of a byte: an affine map of the byte, its S or its T. Another function is refused."""

    def __init__(self, entries, kinds=(("", range(256)), ("S", T), ("T", S))):
        self.entries = entries
        for self.kind, order in kinds:
            after = [entries[x] for x in order]
            self.c = after[0]
            self.linear = linear_map(after)
            if all(after[x] == self.linear[x] ^ self.c for x in range(256)):
                self.image = cache(self.image_of)
                return
        raise Refused(
            "a table that is not an affine map of a byte, its S-box or its inverse S-box"
        )

    def of(self, v):
        if isinstance(v, int):
            return self.entries[v]
        v = substituted(self.kind, v) if self.kind else v
        if isinstance(v, int):
            return self.c ^ self.linear[v]
        image = self.image
        matrices = {atom: y for atom, x in v.t.items() if (y := image(x))}
        return form(self.c ^ self.linear[v.c], matrices)

    def image_of(self, matrix):
        return sum(self.linear[matrix >> 64 * i & 255] << 64 * i for i in range(8))


def linear_map(entries):
    """Returns the linear map of a byte that is, on single bits, what a table is but for its constant."""
    linear = [0] * 256
    for x in range(1, 256):
        low = x & -x
        linear[x] = linear[x ^ low] ^ entries[low] ^ entries[0]
    return linear


table_of = cache(Table)


class Refused(Exception):
    """Something that is wrong, or that the checker cannot follow."""


# Operations


def xor(a, b):
    if type(a) is V and type(b) is V:
        return total((b, a) if len(a.t) < len(b.t) else (a, b))
    if isinstance(a, int) and isinstance(b, int):
        return a ^ b
    if isinstance(a, int):
        a, b = b, a
    if isinstance(a, N) or isinstance(b, N):
        if b == 0:
            return a
        if b == 1 and a.top == 1:
            return eqz(a)
        width = (bits(a) | bits(b)).bit_length()
        return N("xor", a, b, top=(1 << width) - 1)
    return V(a.c ^ b, a.t, a.s)


def total(values):
    """Returns the xor of these values."""
    c, t = 0, {}
    for v in values:
        if type(v) is int:
            c ^= v
        elif type(v) is not V:
            return reduce(xor, values)
        elif t.keys().isdisjoint(v.t):
            c ^= v.c
            t |= v.t
        else:
            c ^= v.c
            for atom, x in v.t.items():
                y = t.get(atom)
                if y is None:
                    t[atom] = x
                elif x != y:
                    t[atom] = x ^ y
                else:
                    del t[atom]
    return V(c, t) if t else c


def and_(a, b):
    if isinstance(a, int):
        a, b = b, a
    if isinstance(b, int):
        return masked(a, b)
    if bits(a) == 1 < bits(b) or bits(b) == 1 < bits(a):
        # Only bit 0 of the other value counts.
        return and_(and_(a, 1), and_(b, 1))
    return a if a == b else N("and", a, b, top=min(bits(a), bits(b)))


def masked(a, mask):
    """Returns the bits of a value that a number has."""
    if type(a) is V:
        has_no_others = a.s is not None and (a.s | a.c) & ~mask == 0
        return a if has_no_others else picked(a, mask, 0)
    if isinstance(a, int):
        return a & mask
    if bits(a) & ~mask == 0:
        return a
    if bits(a) & mask == 0:
        return 0
    has_number = isinstance(a.args[-1], int)
    if a.op == "and" and has_number:
        inner, other_mask = a.args
        return and_(inner, other_mask & mask)
    if a.op == "xor" and has_number and mask == 1:
        inner, number = a.args
        return xor(and_(inner, 1), number & 1)
    if a.op == "or":
        parts = [and_(part, mask) for part in a.args]
        if 0 in parts or mask == 1:
            return or_(*parts)
    return N("and", a, mask, top=min(bits(a), mask))


def picked(v, wanted, k):
    """Returns these bits of an affine form, k bits lower. They have none of the lowest k bits."""
    mask = MASKS.get((wanted, k))
    if mask is None:
        mask = MASKS[wanted, k] = wanted * EACH >> k
    t = {atom: y for atom, x in v.t.items() if (y := x >> k & mask)}
    c = (v.c & wanted) >> k
    if not t:
        return c
    s = None if v.s is None else (v.s & wanted) >> k
    return V(c, t, s)


def or_(a, b):
    if isinstance(a, int) and isinstance(b, int):
        return a | b
    if a == 0:
        return b
    if b == 0:
        return a
    are_forms = not isinstance(a, N) and not isinstance(b, N)
    if are_forms and bits(a) & bits(b) == 0:
        both = xor(a, b)
        if isinstance(a, V) and isinstance(b, V):
            both.s = flips(a) | flips(b)
        return both
    for one, other in (a, b), (b, a):
        if bits(one) & ~least(other) == 0:
            return other
    return a if a == b else N("or", a, b, top=bits(a) | bits(b))


def shl(a, k, w):
    if not isinstance(k, int):
        return N("shl", a, k, w, top=2**w - 1)
    k %= w
    if isinstance(a, int):
        return a << k & 2**w - 1
    a = and_(a, (1 << w - k) - 1)
    if k == 0:
        return a
    if isinstance(a, int):
        return a << k
    if isinstance(a, N):
        return N("shl", a, k, w, top=a.top << k)
    t = {atom: x << k for atom, x in a.t.items()}
    s = None if a.s is None else a.s << k
    return V(a.c << k, t, s)


def shr(a, k, w):
    if not isinstance(k, int):
        return N("shr", a, k, w, top=bits(a))
    k %= w
    if isinstance(a, int):
        return a >> k
    if isinstance(a, N):
        if a.op == "or":
            parts = [shr(part, k, w) for part in a.args]
            if 0 in parts:
                return or_(*parts)
        top = a.top >> k
        if top == 0:
            return 0
        return N("shr", a, k, w, top=top) if k else a
    if k == 0:
        return and_(a, (1 << w) - 1)
    return picked(a, (1 << w) - (1 << k), k)


def rotl(a, k, w):
    if not isinstance(k, int):
        raise Refused("a rotation by a secret")
    k %= w
    if k == 0:
        return a
    if type(a) is not V:
        return or_(shl(a, k, w), shr(a, -k, w))
    high = ((1 << w) - (1 << k)) * EACH
    low = ((1 << k) - 1) * EACH
    constant = (a.c << k | a.c >> w - k) & 2**w - 1
    rotated = {}
    for atom, x in a.t.items():
        rotated[atom] = x << k & high | x >> w - k & low
    return V(constant, rotated)


def rotr(a, k, w):
    return rotl(a, -k, w)


def bswap(a, w):
    """Returns the bytes in reverse order."""
    if isinstance(a, N):
        if a.op == "bswap" and a.args[1] == w:
            return a.args[0]
        if a.op == "or":
            return or_(*(bswap(part, w) for part in a.args))
        if a.op == "shl":
            shifted, k, _ = a.args
            is_by_bytes = isinstance(k, int) and k % 8 == 0
            if is_by_bytes and bits(shifted) >> w - k == 0:
                return bswap(shifted, w - k)
        return N("bswap", a, w, top=2**w - 1)
    total = 0
    for k in range(0, w, 8):
        byte = and_(shr(a, k, 64), 255)
        total = or_(total, shl(byte, w - 8 - k, 64))
    return total


def is_sum_with_number(v):
    """Whether it is an addition of a number."""
    return isinstance(v, N) and v.op == "add" and isinstance(v.args[1], int)


def add(a, b, w):
    if isinstance(a, int) and isinstance(b, int):
        return a + b & 2**w - 1
    if isinstance(a, int):
        a, b = b, a
    if isinstance(b, int) and is_sum_with_number(a):
        inner, c, inner_width = a.args
        is_exact = bits(inner) + c < 2**inner_width
        if inner_width == w or is_exact:
            return add(inner, b + c & 2**w - 1, w)
    if bits(a) & bits(b) == 0:
        return or_(a, b)
    return N("add", a, b, w, top=min(bits(a) + bits(b), 2**w - 1))


def sub(a, b, w):
    if isinstance(a, int) and isinstance(b, int):
        return a - b & 2**w - 1
    if isinstance(b, int):
        return add(a, -b & 2**w - 1, w)
    return 0 if a == b else N("sub", a, b, w, top=2**w - 1)


def mul(a, b, w):
    if isinstance(a, int) and isinstance(b, int):
        return a * b & 2**w - 1
    if isinstance(a, int):
        a, b = b, a
    if isinstance(b, int) and b & b - 1 == 0:
        return shl(a, b.bit_length() - 1, w) if b else 0
    return N("mul", a, b, w, top=2**w - 1)


def nz(a):
    if isinstance(a, int):
        return int(a != 0)
    if least(a):
        return 1
    return a if isinstance(a, N) and a.top == 1 else N("nz", a, top=1)


def eqz(a):
    if isinstance(a, int):
        return int(a == 0)
    if isinstance(a, N) and a.op == "eqz":
        return nz(a.args[0])
    if isinstance(a, N) and a.op == "nz":
        return eqz(a.args[0])
    return 0 if least(a) else N("eqz", a, top=1)


def ne(a, b):
    return nz(xor(a, b))


def eq(a, b):
    return eqz(xor(a, b))


def ltu(a, b):
    if bits(a) < least(b):
        return 1
    return 0 if least(a) >= bits(b) else N("ltu", a, b, top=1)


def ite(c, a, b):
    if isinstance(c, int):
        return a if c else b
    return a if a == b else N("ite", c, a, b, top=bits(a) | bits(b))


OPS = {
    "xor": xor,
    "and": and_,
    "or": or_,
    "shl": shl,
    "shr": shr,
    "add": add,
    "sub": sub,
    "mul": mul,
    "bswap": bswap,
    "nz": nz,
    "eqz": eqz,
    "ltu": ltu,
    "ite": ite,
}


# The equations of a path


class Known:
    """Solved linear equations over the bits of atoms: each pivot bit is a sum of other bits, none of them a pivot."""

    def __init__(self, rows=()):
        # pivot: (frozenset of other bits, constant); a bit is (atom, number)
        self.rows = dict(rows)
        self.pivots = {}
        for atom, i in self.rows:
            self.pivots.setdefault(atom, []).append(i)
        self.memo = {}
        self.arguments = None
        self.images = {}

    def closed(self):
        """Returns the equations with those that follow for existing atoms: if T(x) = v, then S(v) = x."""
        self.argument("S", 0)
        for (kind, v), x in self.arguments.items():
            made = None if isinstance(v, int) else _made[kind].get(v)
            if made is not None and (*made.t, 0) not in self.rows:
                more = self.with_zero(xor(made, x))
                if more is not None and more is not self:
                    return more.closed()
        return self

    def argument(self, kind, v):
        """Returns x if it is known that v is T(x) (for S) or S(x) (for T), although its atom is eliminated; or None."""
        if self.arguments is None:
            self.arguments = {}
            for atom in self.pivots:
                other, x = ATOMS.get(atom, (None, None))
                if other in TABLES:
                    result = self.reduced(V(0, {atom: IDENTITY}))
                    self.arguments[INVERSE[other], result] = x
        return self.arguments.get((kind, v)) if self.arguments else None

    def reduced(self, v):
        """Returns the value without pivots."""
        if not isinstance(v, (V, N)) or not self.rows:
            return v
        if isinstance(v, N):
            if v not in self.memo:
                self.memo[v] = OPS[v.op](*(self.reduced(a) for a in v.args))
            return self.memo[v]
        hit = [atom for atom in v.t if atom in self.pivots]
        if not hit:
            return v
        c = v.c
        t = dict(v.t)
        for atom in hit:
            for i in self.pivots[atom]:
                column = v.t[atom] >> 64 * i & M64
                if column:
                    others, constant = self.rows[atom, i]
                    t[atom] ^= column << 64 * i
                    c ^= column * constant
                    for other, j in others:
                        t[other] = t.get(other, 0) ^ column << 64 * j
        return form(c, {atom: x for atom, x in t.items() if x})

    def rewritten(self, v):
        """Returns the value with arguments of S and T that are reduced, too, but for those inside an N. An atom that is
        older than an equation has its argument as it was before. Only Known.now may be asked: substituted() reads it.
        """
        waiting = list(v.t) if isinstance(v, V) else []
        met = {}
        while waiting:
            atom = waiting.pop()
            if atom not in self.images and atom not in met:
                kind, x = met[atom] = ATOMS.get(atom, (None, 0))
                waiting += x.t if kind in TABLES else ()
        for atom in sorted(met):  # the argument of an atom is older
            kind, x = met[atom]
            image = substituted(kind, self.replaced(x)) if kind in TABLES else None
            self.images[atom] = None if image == V(0, {atom: IDENTITY}) else image
        return self.reduced(self.replaced(v))

    def replaced(self, v):
        """Returns the value with the images of its atoms."""
        if not isinstance(v, V):
            return v
        replaced = v
        for atom, matrix in v.t.items():
            image = self.images[atom]
            if image is not None:
                change = xor(V(0, {atom: matrix}), product(matrix, image))
                replaced = xor(replaced, change)
        return replaced

    def are_equal(self, v, other):
        """Whether two values are equal. Only Known.now may be asked, as rewritten() says."""
        if v == other:
            return True
        if not self.rows:
            return False
        if self.reduced(xor(self.reduced(v), other)) == 0:
            return True
        return xor(self.rewritten(v), self.rewritten(other)) == 0

    def with_zero(self, v):
        """Returns the equations with v == 0, or None if that is a contradiction."""
        v = self.reduced(v)
        if isinstance(v, int):
            return self if v == 0 else None
        rows = dict(self.rows)
        ones_at = flipping(v)
        if v.c & ~sum(ones_at):
            return None
        for b, ones in ones_at.items():
            c = int(v.c & b != 0)
            for bit in [bit for bit in ones if bit in rows]:
                ones = ones ^ {bit} ^ rows[bit][0]
                c ^= rows[bit][1]
            if not ones:
                if c:
                    return None
                continue
            pivot = max(ones)
            rest = frozenset(ones - {pivot})
            for bit, (others, constant) in list(rows.items()):
                if pivot in others:
                    rows[bit] = others ^ {pivot} ^ rest, constant ^ c
            rows[pivot] = rest, c
        return Known(rows)

    def implies(self, other):
        for pivot, (others, c) in other.rows.items():
            total = V(c, _columns([pivot, *others]))
            if self.reduced(total) != 0:
                return False
        return True


Known.now = Known()  # what is known on the path that is followed now


def flipping(v):
    """Returns the bits of atoms that flip each bit of a V, by this bit."""
    ones_at = {}
    for atom, x in v.t.items():
        for i in range(8):
            column = x >> 64 * i & M64
            while column:
                low = column & -column
                ones_at.setdefault(low, set()).add((atom, i))
                column ^= low
    return ones_at


def product(matrix, v):
    """Returns a matrix times a byte."""

    def times(byte):
        total = 0
        for i in range(8):
            if byte >> i & 1:
                total ^= matrix >> 64 * i & M64
        return total

    if isinstance(v, int):
        return times(v)
    t = {}
    for atom, x in v.t.items():
        image = sum(times(x >> 64 * i & 255) << 64 * i for i in range(8))
        if image:
            t[atom] = image
    return form(times(v.c), t)


def _columns(ones):
    t = {}
    for atom, i in ones:
        t[atom] = t.get(atom, 0) ^ 1 << 64 * i
    return t


def fits(v, w):
    """Returns v, which must have at most w bits."""
    if bits(v) >> w:
        raise Refused(f"a number of more than {w} bits: {show(v)[:200]}")
    return v


def zero_cases(v, known):
    """Returns systems of equations. For an input for which `known` holds, v is 0 if and only if one of them holds."""
    v = known.reduced(v)
    if isinstance(v, int):
        return [known] if v == 0 else []
    if isinstance(v, V):
        more = known.with_zero(v)
        return [more] if more else []
    a = v.args[0]
    b = v.args[1] if len(v.args) > 1 else None
    has_number = isinstance(b, int)
    # No bit is shifted out.
    if v.op == "nz" or v.op == "shl" and has_number:
        return zero_cases(a, known)
    if v.op == "eqz" and isinstance(a, N) and a.op == "ltu":
        return less_cases(*a.args, known)
    if v.op == "or":
        try:
            return both_zero_cases(a, b, known)
        except Refused:
            return both_zero_cases(b, a, known)
    if v.op == "xor" and has_number and is_sum_with_number(a):
        x, c, w = a.args
        if b >> w:
            return []
        return zero_cases(xor(fits(x, w), b - c & 2**w - 1), known)
    if v.op == "and" and bits(a) | bits(b) == 1:
        return zero_cases(a, known) + zero_cases(b, known)
    if v.op == "shr" and has_number and b < 8:
        return less_cases(a, 1 << b, known)
    if v.op in ("add", "sub"):
        return less_cases(v, 1, known)
    raise Refused(f"a decision over {show(v)[:200]}")


def both_zero_cases(a, b, known):
    """Returns the cases in which both values are 0. The first one is decided first."""
    cases = []
    for case in zero_cases(a, known):
        cases += zero_cases(b, case)
    return cases


def less_by(a, i, w):
    """Returns a - i, as a value of w bits. lengths.py adds numbers that are not known."""
    return a - i & 2**w - 1


def less_cases(v, limit, known):
    """Returns systems of equations. For an input for which `known` holds, v < limit if and only if one holds."""
    if not isinstance(v, N) or not isinstance(limit, int) or limit > 256:
        raise Refused(f"a decision over {show(v)[:200]} < {limit}")
    a, b, *w = v.args
    if v.op == "sub" and not isinstance(a, (V, N)):
        x = b
        values = [less_by(a, i, w[0]) for i in range(limit)]
    elif v.op == "add" and isinstance(a, int):
        x = b
        values = [less_by(i, a, w[0]) for i in range(limit)]
    elif v.op == "add" and isinstance(b, int):
        x = a
        values = [less_by(i, b, w[0]) for i in range(limit)]
    else:
        raise Refused(f"a decision over {show(v)[:200]}")
    narrow = fits(x, w[0])
    cases = []
    for value in values:
        cases += zero_cases(xor(narrow, value), known)
    return cases
