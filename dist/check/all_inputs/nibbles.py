"""Bytes that are tables of one or two halves of bytes (pshufb), until they are affine maps of a byte, its S or its T
again.

An F is the xor of an affine byte, `rest`, and a table over nibbles. A nibble is an affine form of four bits. Entry x is
for the first nibble x & 15 and the second nibble x >> 4. If nibbles depend on each other, some entries do not occur."""

from functools import cache

from hints import HINTS
from terms import Refused, Table, V, bits, shl, table_of, xor


class Nibbles:
    """One or two nibbles, and their sums: (which of them, form)."""

    def __init__(self, *items):
        self.items = items
        self.sums = [(1 + i, nibble) for i, nibble in enumerate(items)]
        if len(items) == 2:
            self.sums.append((3, xor(*items)))

    def sum_of(self, v):
        """Returns v as (a constant, which of the nibbles are in the sum), or None."""
        for which, total in self.sums:
            if total is v or isinstance(total, V) and total.t == v.t:
                return total.c ^ v.c, which
        return None

    def with_(self, v):
        if isinstance(v, int) or self.sum_of(v) is not None:
            return self
        if len(self.items) == 2 or bits(v) > 15:
            raise Refused("a byte that depends on more than two halves of bytes")
        return Nibbles(*self.items, v)


class F:
    __slots__ = ("nibbles", "table", "rest")

    def __init__(self, nibbles, table, rest=0):
        self.nibbles = nibbles
        self.table = table
        self.rest = rest


def entry(table, at):
    """pshufb: returns the entry of a table of 16 constants at a byte. If bit 7 of the byte is 1, this is 0."""
    if isinstance(at, F):
        nibbles = at.nibbles.with_(at.rest)
        inside = xor_tables(over(at, nibbles), over(at.rest, nibbles))
        return settled(F(nibbles, inside.translate(shuffle(table))))
    if not isinstance(at, V) or bits(at) > 15:
        raise Refused("a shuffle by a byte that is not half a byte")
    return settled(F(Nibbles(at), table))


@cache
def shuffle(table):
    return bytes(0 if x & 128 else table[x & 15] for x in range(256))


def xor_bytes(a, b):
    if not isinstance(a, F):
        a, b = b, a
    if not isinstance(a, F):
        return xor(a, b)
    if not isinstance(b, F):
        return F(a.nibbles, a.table, xor(a.rest, b))
    nibbles = a.nibbles
    for nibble in b.nibbles.items:
        nibbles = nibbles.with_(nibble)
    return settled(
        F(nibbles, xor_tables(over(a, nibbles), over(b, nibbles)), xor(a.rest, b.rest))
    )


def xor_tables(a, b):
    return (int.from_bytes(a, "big") ^ int.from_bytes(b, "big")).to_bytes(len(a), "big")


def over(v, nibbles):
    """Returns the values of v, without its rest, for all values of the nibbles."""
    count = len(nibbles.items)
    if isinstance(v, int):
        return bytes([v]) * 16**count
    if isinstance(v, F):
        return (
            v.table
            if v.nibbles is nibbles
            else spread(
                v.table,
                tuple(nibbles.sum_of(nibble) for nibble in v.nibbles.items),
                count,
            )
        )
    return spread(bytes(range(256)), (nibbles.sum_of(v),), count)


@cache
def spread(table, sums, count):
    values = []
    for x in range(16**count):
        at = 0
        for i, (c, which) in enumerate(sums):
            total = c
            for j in range(count):
                total ^= x >> 4 * j & 15 if which >> j & 1 else 0
            at |= total << 4 * i
        values.append(table[at])
    return bytes(values)


@cache
def recognised(table):
    """Returns the table as (an affine map, a hint or None), or None."""
    whole = tuple(table) if len(table) == 256 else tuple(table) * 16
    try:
        return Table(whole, [("", range(256))]), None
    except Refused:
        pass
    hint = HINTS.get(bytes(v ^ table[0] for v in table))
    if hint is None:
        return None
    back = [hint.index(x) for x in range(256)]
    return Table(tuple(table[at] for at in back)), table_of(hint)


def settled(f):
    found = recognised(f.table)
    if found is None:
        return f
    made, hint = found
    first, *second = f.nibbles.items
    whole = xor(first, shl(second[0], 4, 8)) if second else first
    return xor(made.of(hint.of(whole) if hint else whole), f.rest)
