#!/usr/bin/env python3
"""Tests the checker itself: operations, systems of equations and decisions against numbers, the standard on published
vectors, whole calls against the same calls with numbers, and each instruction of a shared object against the processor.

usage: test_checker.py OBJECT        for a shared object on x86-64 also: as, ld"""

import ctypes
import itertools
import os
import random
import re
import subprocess
import sys
import tempfile
from typing import NamedTuple

import linear
import second
import standard
import terms
import wasm
import x86
from calls import STACK, any_bytes
from paths import Path, byte_of, cell_of
from terms import ATOMS, TABLES, Known, N, Refused, V, fresh


def value(v, atoms):
    """Returns the number that a value is, if these are the atoms."""
    if isinstance(v, int):
        return v
    if isinstance(v, N):
        return terms.OPS[v.op](*(value(a, atoms) for a in v.args))
    total = v.c
    for atom, x in v.t.items():
        for i in range(8):
            if atoms(atom) >> i & 1:
                total ^= x >> 64 * i & terms.M64
    return total


def at(numbers):
    """Returns the values of all atoms, if the inputs are these numbers."""
    known = {}

    def atom(a):
        if a not in known:
            kind, v = ATOMS[a]
            if kind in TABLES:
                known[a] = TABLES[kind][value(v, atom)]
            else:
                known[a] = numbers[kind, v]
        return known[a]

    return atom


def random_point(inputs):
    """The values of all atoms, for random bytes of the input x."""
    return at({("x", i): random.randrange(256) for i in range(inputs)})


OPERATIONS = [
    "xor",
    "and",
    "or",
    "shl",
    "shr",
    "add",
    "sub",
    "mul",
    "nz",
    "eqz",
    "ltu",
    "ite",
    "rotl",
]


def operands(op, a, b, c, shift):
    """The operands of an operation on 64 bits, of those that it may have."""
    if op in ("shl", "shr", "rotl"):
        return a, shift, 64
    if op in ("add", "sub", "mul"):
        return a, b, 64
    if op in ("nz", "eqz"):
        return (a,)
    if op == "ite":
        return terms.nz(c), a, b
    return a, b


def operations(count):
    """An operation on values gives the value that it gives for numbers, and its bits are known as they are."""
    random.seed(1)
    for _ in range(count):
        terms.forget()
        pool = [fresh("x", i) for i in range(4)]
        pool += [random.getrandbits(64), 255, 0xFF00, 1, 8, 0]
        for _ in range(30):
            op = random.choice([*OPERATIONS, "sbox"])
            a, b, c = (random.choice(pool) for _ in range(3))
            shift = random.randrange(64)
            points = [random_point(4) for _ in range(3)]
            if op == "sbox":
                byte = terms.and_(a, 255)
                if isinstance(byte, N):
                    continue
                kind = random.choice("ST")
                result = terms.substituted(kind, byte)
                expected = [TABLES[kind][value(byte, point)] for point in points]
            else:
                function = terms.rotl if op == "rotl" else terms.OPS[op]
                given = operands(op, a, b, c, shift)
                result = function(*given)
                expected = []
                for point in points:
                    numbers = [value(v, point) for v in given]
                    expected.append(function(*numbers))
            numbers = [value(result, point) for point in points]
            assert numbers == expected, (op, a, b, shift)
            for number in numbers:
                assert number & ~terms.bits(result) == 0
                assert number & terms.least(result) == terms.least(result)
            pool.append(result)


def random_byte(pool):
    """A byte made of others by one operation."""
    a = random.choice(pool)
    b = random.choice(pool)
    made = [
        terms.xor(a, b),
        terms.xor(a, random.randrange(256)),
        terms.substituted(random.choice("ST"), a),
        terms.and_(terms.shr(a, 1, 8), 0x7F),
        terms.shl(a, 1, 8),
    ]
    return random.choice(made)


def systems(count):
    """A value reduced under equations is the same wherever they hold."""
    random.seed(2)
    for _ in range(count):
        terms.forget()
        pool = [fresh("x", i) for i in range(2)]
        for _ in range(8):
            pool.append(random_byte(pool))
        points = []
        for x, y in itertools.product(range(0, 256, 5), range(0, 256, 3)):
            points.append(at({("x", 0): x, ("x", 1): y}))
        known = terms.Known()
        for _ in range(2):
            zero = terms.and_(random.choice(pool), random.choice([1, 3, 0x81]))
            points = [point for point in points if value(zero, point) == 0]
            known = known.with_zero(zero)
            if known is None:
                assert not points
                break
            same_where_it_holds(known, pool, points[::25])


def same_where_it_holds(known, values, points):
    """Values are the same at these points after they are reduced or rewritten under equations that hold there."""
    Known.now = known
    for v in values:
        for same in known.reduced(v), known.rewritten(v):
            for point in points:
                assert value(same, point) == value(v, point)
    Known.now = Known()


def vectors():
    """The standard gives the published vectors."""
    h = lambda text: list(bytes.fromhex(text))
    block = h("00112233445566778899aabbccddeeff")
    for kek_len, expected in (
        (16, "69c4e0d86a7b0430d8cdb78070b4c55a"),
        (24, "dda97ca4864cdfe06eaf70a0ec0d7191"),
        (32, "8ea2b7ca516745bfeafc49904b496089"),
    ):
        words = standard.key_expansion(list(range(kek_len)))
        assert standard.cipher(words, block) == h(expected)
        assert standard.inv_cipher(words, h(expected)) == block
    kek = list(range(32))
    key = h("00112233445566778899AABBCCDDEEFF000102030405060708090A0B0C0D0E0F")
    text = h(
        "28C9F404C4B810F4CBCCB35CFB87F8263F5786E2D80ED326CBC7F0E71A99F43BFB988B9B7A02DD21"
    )
    assert standard.wrapped(kek, key) == text
    assert standard.unwrap_process(kek, text) == (standard.DEFAULT_IV, key)
    kek = h("5840df6e29b02af1ab493b705bf16ea1ae8338f4dcc176a8")
    for key, expected in (
        (
            "c37b7e6492584340bed12207808941155068f738",
            "138bdeaa9b8fa7fc61f97742e72248ee5ae6ae5360d1ae6a5f54f373fa543b6a",
        ),
        ("466f7250617369", "afbeb0f07dfbf5419200f2ccb50bb24f"),
    ):
        assert standard.wrapped_padded(kek, h(key)) == h(expected)


def random_number(pool):
    """A number made of others by one operation of a decision."""
    a = random.choice(pool)
    b = random.choice(pool)
    k = random.choice([0, 1, 7, 8, 255, 256, 2**32 - 8])
    w = random.choice([32, 64])
    make = random.choice(
        [
            lambda: terms.sub(k, a, w),
            lambda: terms.add(a, k, w),
            lambda: terms.or_(a, b),
            lambda: terms.nz(a),
            lambda: terms.eqz(a),
            lambda: terms.and_(a, b),
            lambda: terms.xor(a, k),
            lambda: terms.shr(a, 3, w),
            lambda: terms.ltu(a, k),
            lambda: terms.shl(a, 8, w),
            lambda: terms.sub(a, b, w),
        ]
    )
    return make()


def holds_at(case, point):
    """Whether the equations of a case hold for these values of the atoms."""
    for pivot, (others, constant) in case.rows.items():
        total = 0
        for atom, bit in (pivot, *others):
            total ^= point(atom) >> bit & 1
        if total != constant:
            return False
    return True


def decisions(count):
    """The cases of a decision hold for exactly the inputs for which the value is 0."""
    random.seed(4)
    decided = 0
    for _ in range(count):
        terms.forget()
        x = fresh("x")
        y = fresh("y")
        wide = terms.or_(x, terms.shl(y, 8, 64))
        pool = [x, y, wide, terms.xor(x, y), terms.substituted("S", x)]
        made = len(pool)
        for _ in range(4):
            pool.append(random_number(pool))
        for v in pool[made:]:
            try:
                cases = terms.zero_cases(v, Known())
            except Refused:
                continue
            decided += 1
            for i, j in itertools.product(range(0, 256, 15), range(0, 256, 17)):
                point = at({("x", 0): i, ("y", 0): j})
                holds = any(holds_at(case, point) for case in cases)
                assert holds == (value(v, point) == 0), (v, i, j)
    assert decided > count


def two_standards():
    """standard.py and second.py are equal for bytes of any value."""
    for kek_len, n in itertools.product((16, 24, 32), (1, 7, 8, 9, 16, 24)):
        terms.forget()
        kek = any_bytes("kek", kek_len)
        key = any_bytes("key", n)
        iv = any_bytes("iv", 8)
        text = any_bytes("text", -(-n // 8) * 8 + 8)
        assert standard.wrapped_padded(kek, key) == second.wrap_padded(kek, key)
        if n % 8:
            continue
        opened = standard.unwrap_process(kek, text)
        assert opened == second.unwrap_padded(kek, text)
        a, padded = opened
        asked = []
        # append returns None, so that the next length is asked for, too.
        standard.padded_length(a, padded, asked.append)
        assert asked == list(second.accepted(a, padded).values())
        if n > 8:
            assert standard.wrapped(kek, key, iv) == second.wrap(kek, iv, key)
            assert opened == second.unwrap(kek, text)
            asked.clear()
            standard.is_plain(a, asked.append, iv)
            assert asked == [[terms.xor(v, b) for v, b in zip(a, iv)]]
    terms.forget()


def older_atoms():
    """A value that was made before an equation was known is rewritten to the one that is made afterwards."""
    terms.forget()
    x, y, z = (fresh(name) for name in "xyz")
    equal_to_x = terms.xor(z, 7)

    def made_of(v):
        inner = terms.xor(terms.substituted("S", v), y)
        outer = terms.xor(terms.substituted("S", inner), z)
        return terms.substituted("T", outer)

    before = made_of(x)
    Known.now = Known().with_zero(terms.xor(x, equal_to_x))
    after = made_of(equal_to_x)
    assert Known.now.reduced(before) != after
    assert Known.now.rewritten(before) == after
    assert Known.now.rewritten(after) == after
    point = at({("x", 0): 1 ^ 7, ("y", 0): 2, ("z", 0): 1})
    assert value(before, point) == value(after, point)
    with_x = terms.xor(before, x)
    assert Known.now.rewritten(with_x) == terms.xor(after, Known.now.reduced(x))
    Known.now = Known()


def inverse_of_a_known_s_box():
    """If T(x + 5) = z + 3, then S(z + 3) = x + 5."""
    terms.forget()
    x, y, z = (fresh(name) for name in "xyz")
    x_and_5 = terms.xor(x, 5)
    z_and_3 = terms.xor(z, 3)
    before = terms.substituted("T", terms.xor(terms.substituted("S", z_and_3), y))
    equation = terms.xor(terms.substituted("T", x_and_5), z_and_3)
    Known.now = Known().with_zero(equation)
    after = terms.substituted("T", terms.xor(x_and_5, y))
    assert Known.now.rewritten(before) == after
    Known.now = Known()


def implications():
    """Two equations imply each of them, and one does not imply both."""
    terms.forget()
    x, y = (fresh(name) for name in "xy")
    one = Known().with_zero(x)
    both = Known().with_zero(terms.or_(x, terms.shl(y, 8, 64)))
    assert both.implies(one) and not one.implies(both)


def inequalities(count):
    """A contradiction that is found holds for all small numbers, and most contradictions are found."""
    rng = random.Random(6)
    found = 0
    possible = 0
    for _ in range(count):
        sums = []
        for _ in range(rng.randint(1, 5)):
            constant = rng.randint(-6, 6)
            factors = {name: rng.randint(-3, 3) for name in "xyz"}
            sums.append(linear.settled(constant, factors))
        for name in "xyz":
            sums.append(linear.unknown(name) + 3)
            sums.append(3 - linear.unknown(name))
        holds = False
        for point in itertools.product(range(-3, 4), repeat=3):
            numbers = dict(zip("xyz", point))
            holds |= all(number_of(total, numbers) >= 0 for total in sums)
        contradict = linear.contradict(sums)
        assert not (holds and contradict), sums
        found += contradict
        possible += not holds
    assert found > 0.9 * possible > 0


def number_of(total, numbers):
    constant, factors = linear.parts(total)
    return constant + sum(k * numbers[name] for name, k in factors.items())


GENERAL = [
    "rax",
    "rcx",
    "rdx",
    "rbx",
    "rbp",
    "rsi",
    "rdi",
    *(f"r{n}" for n in range(8, 16)),
]
FLAGS = {"b": 1 << 0, "e": 1 << 6, "s": 1 << 7, "o": 1 << 11}
USES_FLAGS = re.compile("set|cmov|adc|sbb")


class State(ctypes.Structure):
    _fields_ = [
        ("general", ctypes.c_uint64 * 15),
        ("flags", ctypes.c_uint64),
        ("xmm", ctypes.c_uint8 * 256),
    ]


def stub(i, lines):
    """Returns a function that loads all registers, runs these lines, and stores all registers and the flags."""
    saved = ["rbx", "rbp", "r12", "r13", "r14", "r15"]
    push_saved, pop_saved = [], []
    for name in saved:
        push_saved.append(f"push {name}")
        pop_saved.insert(0, f"pop {name}")
    load_general, store_general = [], []
    for k, name in enumerate(GENERAL):
        if name != "rdi":  # it has the address of the State
            load_general.append(f"mov {name},[rdi+{8 * k}]")
            store_general.append(f"mov [rdi+{8 * k}],{name}")
    load_xmm, store_xmm = [], []
    for k in range(16):
        load_xmm.append(f"movups xmm{k},[rdi+{128 + 16 * k}]")
        store_xmm.append(f"movups [rdi+{128 + 16 * k}],xmm{k}")
    load = [*push_saved, "push rdi", *load_xmm, *load_general, "mov rdi,[rdi+48]"]
    store_flags = ["pushfq", "pop rax", "mov [rdi+120],rax"]
    store_rdi = ["pop rax", "mov [rdi+48],rax"]
    store = ["xchg rdi,[rsp]", *store_general, *store_flags, *store_rdi, *store_xmm]
    return "\n".join(
        [f".globl f{i}", f"f{i}:", *load, *lines, *store, *pop_saved, "ret", ""]
    )


def aimed(operand, state, middle):
    """Sets registers so that the operand is in the middle of the room. Returns False if this is not possible."""
    base, index = [*operand.parts, None, None][:2]
    if base is None or abs(operand.offset) > 1 << 40:
        return False
    base_name, base_scale = base
    if base_scale != 1 or index and index[0] == base_name:
        return False
    inside = 0
    if index:
        index_name, index_scale = index
        number = GENERAL.index(index_name)
        state.general[number] &= 7
        inside = state.general[number] * index_scale
    address = middle - inside - operand.offset
    state.general[GENERAL.index(base_name)] = address & (1 << 64) - 1
    return True


class Tried(NamedTuple):
    """An instruction of the object: its text, its name, its operands and its bytes."""

    text: str
    op: str
    operands: list
    code: bytes


def instructions_of(module, file):
    """Each distinct instruction that uses only registers and memory at registers."""
    objdump = ["objdump", "-d", "-w", "-M", "intel", "--no-show-raw-insn", file]
    ended = subprocess.run(objdump, capture_output=True, text=True, check=True)
    found = {}
    for line in ended.stdout.splitlines():
        if ":\t" not in line:
            continue
        place, text = line.split(":\t", 1)
        op, operands, following, start = module.code[module.base + int(place, 16)]
        is_computation = op != "nop" and op in x86.SCALAR | x86.VECTOR
        is_elsewhere = re.search(r"rip|[er]?sp\b|spl\b|rep|push|pop|cpuid", text)
        if (is_computation or USES_FLAGS.match(op)) and not is_elsewhere:
            code = bytes(module.constants[i] for i in range(start, following))
            found[text] = Tried(text, op, operands, code)
    return list(found.values())


def library_of(tried, directory):
    """A library whose function f0, f1, .. runs the instruction of this number. Flags are set by a comparison before."""
    source = ".intel_syntax noprefix\n"
    for number, it in enumerate(tried):
        lines = [".byte " + ",".join(map(str, it.code))]
        if USES_FLAGS.match(it.op):
            lines.insert(0, "cmp rax,rcx")
        source += stub(number, lines)
    text, made, library = (f"{directory}/test.{kind}" for kind in ("s", "o", "so"))
    with open(text, "w", encoding="ascii") as file:
        file.write(source)
    subprocess.run(["as", "-o", made, text], check=True)
    subprocess.run(["ld", "-shared", "-o", library, made], check=True)
    return ctypes.CDLL(library)


def random_state(rng, tried):
    """Random registers. A divisor is not 0, and the quotient fits."""
    state = State()
    small = tried.op == "div" or rng.random() < 0.3
    sizes = [3, 8, 16, 31] if small else [8, 32, 63, 64]
    state.general[:] = [rng.getrandbits(rng.choice(sizes)) for _ in GENERAL]
    if tried.op == "div":
        state.general[GENERAL.index("rdx")] = 0
        state.general[GENERAL.index(tried.operands[0].name)] |= 1
    xmm = []
    for _ in range(256):
        is_small = rng.random() < 0.2
        xmm.append(rng.getrandbits(4 if is_small else 8))
    state.xmm[:] = xmm
    return state


def path_of(state, room):
    """A path of the checker with these registers and this memory."""
    memory = dict(enumerate(room, ctypes.addressof(room)))
    general = dict(zip(GENERAL, state.general))
    xmm = {k: list(state.xmm[16 * k : 16 * k + 16]) for k in range(16)}
    return Path(memory, x86.State(general, xmm))


def compare(text, run, path, state, room):
    """The path ends with the registers, the memory and the defined flags that the processor has."""
    general = [run.register(path, name, 64) for name in GENERAL]
    assert general == list(state.general), (
        text,
        [hex(v) for v in general],
        [hex(v) for v in state.general],
    )
    assert bytes(byte_of(cell) for cell in path.memory.values()) == bytes(room), text
    xmm = sum((path.state.xmm[k] for k in range(16)), [])
    assert xmm == list(state.xmm), text
    if not path.state.flags:
        return
    for name, bit in FLAGS.items():
        try:
            flag = x86.CONDITIONS[name](path.state.flags)
        except (Refused, KeyError):
            continue
        is_set = state.flags & bit != 0
        assert flag == int(is_set), (text, name, path.state.flags)


def instructions(module, file, directory):
    """Compares each distinct instruction that uses only registers and memory at registers, with random numbers."""
    tried = instructions_of(module, file)
    library = library_of(tried, directory)
    first = [x86.Operand(name, 0) for name in ("rax", "rcx")]
    rng = random.Random(5)
    kinds = set()
    refused = 0
    room = (ctypes.c_uint8 * 512)()
    middle = ctypes.addressof(room) // 64 * 64 + 256
    for (number, it), _ in itertools.product(enumerate(tried), range(8)):
        state = random_state(rng, it)
        in_memory = [operand for operand in it.operands if operand.kind == "m"]
        if not all(aimed(operand, state, middle) for operand in in_memory):
            continue
        room[:] = rng.randbytes(512)
        path = path_of(state, room)
        run = x86.Run(module, {}, 0)
        if USES_FLAGS.match(it.op):
            run.one(path, "cmp", first)
        try:
            run.one(path, it.op, it.operands)
        except Refused as why:
            refused += 1
            assert re.search("secret|flag|trap", str(why)), (it.text, why)
            if "trap" in str(why):
                continue
        getattr(library, f"f{number}")(ctypes.byref(state))
        compare(it.text, run, path, state, room)
        kinds.add(it.op)
    print(
        f"{len(tried)} instructions of {len(kinds)} kinds: as the processor has them; {refused} runs refused"
    )


def whole_calls(module):
    """The forms that a call writes, at random inputs, are what it writes for these numbers. Returns the numbers."""
    random.seed(3)
    numbers = {
        (name, i): random.randrange(256)
        for name in ("kek", "key", "old", "stack", "register", "below")
        for i in range(STACK)
    }
    machine = wasm if isinstance(module, wasm.Module) else x86
    lengths = (24, 21, 32)

    def written(bytes_of):
        buffers = [bytes_of(name, n) for name, n in zip(("kek", "key", "old"), lengths)]
        place = module.heap
        args = []
        memory = {}
        for buffer in buffers:
            memory |= enumerate(map(cell_of, buffer), place)
            args += [place, len(buffer)]
            place += 64
        ((path, status),) = machine.Run(module, {}, STACK).call(
            "keywrap_wrap_padded", args, memory
        )
        assert status == 0
        return [byte_of(path.memory[place - 64 + i]) for i in range(lengths[2])]

    terms.forget()
    p = at(numbers)
    found = [value(v, p) for v in written(any_bytes)]
    assert found == written(lambda name, n: [numbers[name, i] for i in range(n)])
    kek, key = (
        [numbers[name, i] for i in range(n)] for name, n in zip(("kek", "key"), lengths)
    )
    assert found == standard.wrapped_padded(kek, key)
    return kek, key, found


def is_what_runs(file, kek, key, found):
    """The library, called by ctypes, writes what the forms of the call are for these numbers."""
    out = ctypes.create_string_buffer(len(found))
    wrap = ctypes.CDLL(os.path.abspath(file)).keywrap_wrap_padded
    assert (
        wrap(
            bytes(kek),
            ctypes.c_size_t(len(kek)),
            bytes(key),
            ctypes.c_size_t(len(key)),
            out,
            ctypes.c_size_t(len(found)),
        )
        == 0
    )
    assert list(out.raw) == found


def main(file):
    operations(300)
    systems(100)
    decisions(150)
    older_atoms()
    inverse_of_a_known_s_box()
    implications()
    inequalities(300)
    vectors()
    two_standards()
    with open(file, "rb") as opened:
        is_module = opened.read(4) == b"\0asm"
    module = wasm.Module(file) if is_module else x86.Module(file)
    made = whole_calls(module)
    if not is_module:
        is_what_runs(file, *made)
        with tempfile.TemporaryDirectory() as directory:
            instructions(module, file, directory)
    print("the checker passes its tests")


if __name__ == "__main__":
    sys.exit(main(*sys.argv[1:]) if len(sys.argv) == 2 else __doc__)
