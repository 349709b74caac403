"""The self test of a shared object passes, and fails if one byte of a vector or of the damaged wrapped key is changed.

With `tables` it also fails if only the decryption is damaged: then every wrap is right, so a self test that unwraps
nothing passes. Nothing shows that it calls the exports, and not what they call: to a proof two functions of one meaning
are one, and both compilers put a copy of the exports' code into the self test.
With `instructions` the tables are there and the processor's AES runs in their place, so damage to them is not seen.
With neither there are no tables to damage: Rattle's own compiler does not store one in one piece.

usage: patched.py LIBRARY [tables | instructions]"""

import ctypes
import pathlib
import sys
import tempfile

sys.path.insert(0, str(pathlib.Path(__file__).resolve().parent.parent / "lib"))
from vectors import (
    KEY20,
    KEY24_UNDER_24,
    KEY24_UNDER_32,
    KEY32_UNDER_32,
    KEY7,
    WRAPPED16,
    WRAPPED20,
    WRAPPED24,
    WRAPPED32,
    WRAPPED7,
)

# A part of each vector that no other one has, and of the wrapped key that must be refused, which becomes a right one.
PARTS = [
    WRAPPED16[-16:],
    *(
        vector[:16]
        for vector in (
            WRAPPED24,
            WRAPPED32,
            KEY24_UNDER_24,
            KEY24_UNDER_32,
            KEY32_UNDER_32,
            WRAPPED20,
            WRAPPED7,
            KEY20,
            KEY7,
        )
    ),
]
DAMAGED = f"{int(WRAPPED16[-16:], 16) ^ 1:016x}"

# The tables of the inverse cipher: the places of InvShiftRows in the AES by byte shuffles, the front of the inverse
# S-box in the AES by word tables.
DECRYPTION = ["000d0a0704010e0b0805020f0c090603", "52096ad53036a538bf40a39e81f3d7fb"]

original = pathlib.Path(sys.argv[1]).read_bytes()
with tempfile.TemporaryDirectory() as directory:

    def self_test(name, library):
        path = pathlib.Path(directory, f"{name}.so")
        path.write_bytes(library)
        return ctypes.CDLL(str(path)).keywrap_self_test()

    def wraps(name):
        """Whether the library of this name wraps the first vector of RFC 3394."""
        wrapped = ctypes.create_string_buffer(24)
        key = bytes.fromhex("00112233445566778899aabbccddeeff")
        arguments = [
            bytes(range(16)),
            ctypes.c_size_t(16),
            key,
            ctypes.c_size_t(16),
            wrapped,
            ctypes.c_size_t(24),
        ]
        status = ctypes.CDLL(str(pathlib.Path(directory, f"{name}.so"))).keywrap_wrap(
            *arguments
        )
        return status == 0 and wrapped.raw.hex() == WRAPPED16

    assert self_test("original", original) == 0
    for part in map(bytes.fromhex, [*PARTS, DAMAGED]):
        assert part in original, part.hex()
        assert (
            self_test(
                part.hex(), original.replace(part, bytes([*part[:-1], part[-1] ^ 1]))
            )
            == 5
        ), part.hex()
    tables = [
        table for table in map(bytes.fromhex, DECRYPTION) if original.count(table) == 1
    ]
    assert bool(tables) == (sys.argv[2:] in (["tables"], ["instructions"]))
    if sys.argv[2:] == ["tables"]:
        for table in tables:
            library = original.replace(table, bytes(reversed(table)))
            assert self_test(table.hex(), library) == 5, table.hex()
            assert wraps(table.hex()), table.hex()
