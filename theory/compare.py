#!/usr/bin/env python3
"""Compares values that Coq computes from Statement.v with those of another definition or program: of wraps and unwraps
with random arguments. Run as a program, it compares them with dist/check/all_inputs/standard.py.

usage: compare.py DIRECTORY [SEED]        where make has put what it built; `make compare` runs this
"""

import pathlib
import random
import subprocess
import sys
import tempfile
from typing import NamedTuple, Optional

ROOT = pathlib.Path(__file__).resolve().parents[1]
# In the archive keywrap-portable, check/ is beside this directory.
BESIDE = ROOT / "check/all_inputs"
CHECKER = BESIDE if BESIDE.exists() else ROOT / "dist/check/all_inputs"
DEFAULT_IV = bytes([0xA6] * 8)
# How Coq begins: each value is on one line.
FRONT = """Require Import NArith List String.
Require Import Statement Values.
Import ListNotations.
Open Scope N_scope.
Set Printing Width 1000000.
"""


def quoted(data):
    """The bytes as an argument of Values.v."""
    return f'"{data.hex()}"%string'


def ok(data):
    """The bytes as Coq prints them."""
    return f"Ok [{'; '.join(map(str, data))}]"


def form(iv):
    """The plain form with an initial value, or the padded form."""
    return "InPadded" if iv is None else f"(InPlain {int.from_bytes(iv, 'big')})"


class Case(NamedTuple):
    """A wrap of a key, or an unwrap of a text, in the plain form with an initial value or in the padded form."""

    unwraps: bool
    kek: bytes
    iv: Optional[bytes]
    given: bytes

    def expression(self):
        call = "unwrapped" if self.unwraps else "wrapped"
        return f"{call} {quoted(self.kek)} {form(self.iv)} {quoted(self.given)}"


def computed(out, expressions):
    """The values of expressions as Coq prints them. `out` is where make has put what it built."""
    lines = [f"Eval vm_compute in {expression}." for expression in expressions]
    with tempfile.TemporaryDirectory() as directory:
        file = pathlib.Path(directory, "Compared.v")
        file.write_text(FRONT + "\n".join(lines) + "\n")
        ended = subprocess.run(
            ["coqc", "-noglob", "-Q", out, "", file],
            stdout=subprocess.PIPE,
            check=True,
            text=True,
        )
    values = [
        line.removeprefix("     = ")
        for line in ended.stdout.splitlines()
        if line.startswith("     = ")
    ]
    assert len(values) == len(lines)
    return values


def drawn(count, seed, wrap):
    """Cases with random arguments: wraps, and unwraps of texts that `wrap` makes, of which half are changed. Most keys
    are short, since Coq takes 10 ms for a block."""
    draw = random.Random(seed)
    cases = []
    for number in range(count):
        kek = draw.randbytes(draw.choice([16, 24, 32]))
        iv = draw.choice([None, DEFAULT_IV, bytes([0x5A]) + draw.randbytes(7)])
        size = draw.randrange(1, 25) if iv is None else draw.choice([16, 16, 24])
        key = draw.randbytes(size)
        if number % 2 == 0:
            cases.append(Case(False, kek, iv, key))
            continue
        text = bytearray(wrap(kek, iv, key))
        if number % 4 == 1:
            text[draw.randrange(len(text))] ^= 1 << draw.randrange(8)
        cases.append(Case(True, kek, iv, bytes(text)))
    return cases


def differences(out, cases, answer):
    """The cases for which answer(case) is not what Coq computes, with both values."""
    values = computed(out, [case.expression() for case in cases])
    return [
        (case, value, answer(case))
        for case, value in zip(cases, values)
        if value != answer(case)
    ]


def wrap_by_standard(kek, iv, key):
    import standard

    if iv is None:
        return bytes(standard.wrapped_padded(list(kek), list(key)))
    return bytes(standard.wrapped(list(kek), list(key), list(iv)))


def answer_by_standard(case):
    """The answer by standard.py of the checker, as Coq prints it."""
    import standard

    if not case.unwraps:
        return ok(wrap_by_standard(case.kek, case.iv, case.given))

    def is_zero(data):
        return not any(data)

    a, found = standard.unwrap_process(list(case.kek), list(case.given))
    if case.iv is None:
        length = standard.padded_length(a, found, is_zero)
        return "Err Integrity" if length is None else ok(found[:length])
    if standard.is_plain(a, is_zero, list(case.iv)):
        return ok(found)
    return "Err Integrity"


def main(out, seed):
    sys.path.insert(0, str(CHECKER))
    print(f"seed {seed}")
    cases = drawn(200, seed, wrap_by_standard)
    found = differences(pathlib.Path(out), cases, answer_by_standard)
    for case, value, other in found:
        print(f"{case}\n    Coq: {value}\n    standard.py: {other}")
    print(f"{len(found)} of {len(cases)} cases differ")
    return 1 if found else 0


if __name__ == "__main__":
    seed = int(sys.argv[2]) if len(sys.argv) > 2 else random.randrange(10**9)
    sys.exit(main(sys.argv[1], seed))
