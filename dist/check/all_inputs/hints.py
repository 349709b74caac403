"""Hints for nibbles.py. The shuffles compute in other fields than FIPS 197. A hint says of which byte a table may be an
affine map of S or T. Nothing depends on a hint being right: all 256 entries are compared afterwards."""

from standard import PRODUCTS
from terms import S, T


def linear(low, high):
    low, high = bytes.fromhex(low), bytes.fromhex(high)
    return [low[x & 15] ^ high[x >> 4] for x in range(256)]


CIPHER = linear("00401151165607 47D696C787C080D191", "00E5DF3A35D0EA0F8A6F55B0BF5A6085")
INVERSE = linear("00F2798B49BB30C2C133B84A887AF103", "0043A3E07E3DDD9E89CA2A69F7B45417")


def hints():
    found = {}
    for kind, field, mask, factors in ("S", CIPHER, 0, (1, 2)), (
        "T",
        INVERSE,
        0x56,
        (1, 9, 11, 13, 14),
    ):
        for first, second in (
            (0, 1),
            (1, 0),
            (2, 0),
            (0, 2),
            (1, 2),
            (2, 1),
        ):  # lower, upper half, their sum
            place = {}
            for x in range(256):
                y = field[x] ^ mask
                halves = y & 15, y >> 4, y & 15 ^ y >> 4
                place[halves[first] | halves[second] << 4] = x
            hint = tuple(place[at] for at in range(256))
            for factor in factors:
                values = [PRODUCTS[factor].of({"S": S, "T": T}[kind][x]) for x in hint]
                for table in values, [field[v] for v in values]:
                    found[bytes(v ^ table[0] for v in table)] = hint
    return found


HINTS = hints()
