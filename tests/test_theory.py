"""theory/: Coq accepts its proofs and the published vectors, and refuses wrong definitions. Its definitions have the
names of those of the crates, and the values of the C library, whose contract is the crates' definitions."""

import csv
import ctypes
import itertools
import random
import re
import shutil
import subprocess
import sys

import pytest

from builds import ROOT, run
from program import all_of, slow
from vectors import IV, KEY16, RESERVED_IV, raw

THEORY = ROOT / "theory"
sys.path.insert(0, str(THEORY))
sys.dont_write_bytecode = True  # nothing is written beside the sources
import compare  # noqa: E402
from compare import DEFAULT_IV, Case, ok, quoted  # noqa: E402

needs_coq = pytest.mark.needs("coqc")


def test_definitions_are_paired():
    """Each row of definitions.csv names a definition of Statement.v and one of a crate's specs."""
    with open(THEORY / "definitions.csv") as file:
        rows = list(csv.DictReader(file))
    assert len(rows) > 70
    statement = (THEORY / "Statement.v").read_text()
    for row in rows:
        name = row["Statement.v"]
        begins = "Definition|Fixpoint|Inductive|Record"
        assert re.search(rf"^({begins}) {name}\b", statement, re.M), name
        specs = sorted(ROOT.glob(f"crates/{row['crate']}/specs/*.antt"))
        begins = "abbrev pub|unfoldable pub|pub record"
        defined = rf"^({begins}) {row['specs']}\b"
        assert any(re.search(defined, path.read_text(), re.M) for path in specs), row


@pytest.fixture
def proved(once):
    """A directory: `out` is what make -C theory has built, and `output` what it printed."""

    def build(directory):
        before = sorted(THEORY.iterdir())
        output = run("make", "-s", "-C", THEORY, f"OUT={directory}/out")
        (directory / "output").write_text(output)
        assert sorted(THEORY.iterdir()) == before

    return once("theory", build)


@slow
@needs_coq
def test_proofs(proved):
    """Coq proves every theorem of Statement.v and every vector, without an axiom. No file is written to the sources."""
    output = (proved / "output").read_text()
    assert output == "19 theorems and 12 vectors, without an axiom\n"


@slow
@needs_coq
def test_theorems_say_what_the_readme_says(proved, tmp_path):
    """Coq derives each sentence of "What is proved" from the theorems, which say no less."""
    claims = shutil.copy(ROOT / "tests/theory_claims.v", tmp_path)
    run("coqc", "-noglob", "-Q", proved / "out", "", claims)


@slow
@needs_coq
def test_values_of_the_checkers_standard(proved):
    """As make -C theory compare does, with fewer cases."""
    sys.path.insert(0, str(compare.CHECKER))
    cases = compare.drawn(20, 3394, compare.wrap_by_standard)
    assert compare.differences(proved / "out", cases, compare.answer_by_standard) == []


# The statuses of keywrap.h, as Statement.v names them.
CAUSES = {2: "BadIv", 3: "BadKek", 4: "BadLength", 5: "Integrity", 8: "KeyNotPlain"}
# keywrap_kind refuses a text of neither form by this status. Any other one is an error of the test.
NO_KIND = {5: "Neither"}
OLD_PADDED = 1
NEW_PADDED = 2
KEEP_FORM = 4
PASS_NEW = 8


def sized(data):
    """A buffer as two arguments: its address and its length."""
    return data, ctypes.c_size_t(len(data))


def refusal(status):
    return f"Err {CAUSES[status]}"


class Library:
    """The C library. Each method returns the answer of a call as Coq prints it."""

    def __init__(self, path):
        self.calls = ctypes.CDLL(str(path))

    def wrap(self, kek, iv, key):
        if iv is None:
            text = ctypes.create_string_buffer(len(key) + -len(key) % 8 + 8)
            call = self.calls.keywrap_wrap_padded
            initial_value = ()
        else:
            text = ctypes.create_string_buffer(len(key) + 8)
            call = self.calls.keywrap_wrap_with
            initial_value = sized(iv)
        status = call(*sized(kek), *initial_value, *sized(key), *sized(text))
        return refusal(status) if status else ok(text.raw)

    def unwrap(self, kek, iv, text):
        key = ctypes.create_string_buffer(max(len(text) - 8, 0))
        length = ctypes.c_size_t(len(key))
        given = sized(text)
        if iv is None:
            call = self.calls.keywrap_unwrap_padded
            status = call(*sized(kek), *given, *sized(key), ctypes.byref(length))
        else:
            call = self.calls.keywrap_unwrap_with
            status = call(*sized(kek), *sized(iv), *given, *sized(key))
        return refusal(status) if status else ok(key.raw[: length.value])

    def answer(self, case):
        call = self.unwrap if case.unwraps else self.wrap
        return call(case.kek, case.iv, case.given)

    def wrapped(self, kek, iv, key):
        """The text of a key that is wrapped without a refusal."""
        return bytes(map(int, re.findall(r"\d+", self.wrap(kek, iv, key))))

    def kind(self, kek, text):
        scratch = ctypes.create_string_buffer(max(len(text) - 8, 0))
        padded = ctypes.c_uint32()
        length = ctypes.c_size_t()
        status = self.calls.keywrap_kind(
            *sized(kek),
            *sized(text),
            *sized(scratch),
            ctypes.byref(padded),
            ctypes.byref(length),
        )
        if status:
            return NO_KIND[status]
        return f"{'PaddedKey' if padded.value else 'PlainKey'} {length.value}"

    def rewrap(self, old_kek, new_kek, text, flags):
        buffer = ctypes.create_string_buffer(text, len(text))
        already = ctypes.c_uint32()
        status = self.calls.keywrap_rewrap(
            *sized(old_kek),
            *sized(new_kek),
            *sized(buffer),
            ctypes.c_uint32(flags),
            ctypes.byref(already),
        )
        done = "AlreadyNew" if already.value else "Fresh"
        outcome = refusal(status) if status else f"Ok {done}"
        return f"({outcome}, [{'; '.join(map(str, buffer.raw))}])"


def test_kind_with_another_status_is_an_error():
    """A library whose keywrap_kind refuses for a wrong cause does not agree with Coq's Neither."""

    class Refusing:
        def __init__(self, status):
            self.keywrap_kind = lambda *_: status

    library = object.__new__(Library)
    library.calls = Refusing(5)
    assert library.kind(bytes(16), bytes(24)) == "Neither"
    for status in 1, 2, 3, 4, 6, 7, 8:
        library.calls = Refusing(status)
        with pytest.raises(KeyError):
            library.kind(bytes(16), bytes(24))


@pytest.fixture
def proved_library(library):
    """The C library as the proved source is built."""
    return Library(library / "libkeywrap.so.1")


@slow
@needs_coq
def test_values_of_the_specs(proved, proved_library):
    """Random wraps and unwraps. The contract of the library is the definition of the crates' specs, so its answers are
    their values."""
    cases = compare.drawn(120, 5649, proved_library.wrapped)
    assert compare.differences(proved / "out", cases, proved_library.answer) == []


@slow
@needs_coq
def test_order_of_refusals(proved, proved_library):
    """Every set of causes at once: a reserved initial value, a KEK and a text of an illegal length, a failed check."""
    iv = raw(IV)
    kek = bytes(16)
    text = proved_library.wrapped(kek, iv, raw(KEY16))
    ivs = [iv, raw(RESERVED_IV)]
    keks = [kek, bytes(17)]
    texts = [text, bytes(24), bytes(23)]
    every_set = itertools.product([0, 1], keks, ivs, texts)
    cases = [Case(*values) for values in every_set]
    assert compare.differences(proved / "out", cases, proved_library.answer) == []


def forms_of(flags):
    """The forms that the flags of a rewrap name, in Coq."""
    if flags & KEEP_FORM:
        return "Kept"
    old, new = (
        compare.form(None if flags & bit else DEFAULT_IV)
        for bit in (OLD_PADDED, NEW_PADDED)
    )
    return f"(Changed {old} {new})"


@slow
@needs_coq
def test_values_of_kind_and_rewrap(proved, proved_library):
    """Random texts, under the old KEK, the new one and another: 40 kinds and 40 rewraps."""
    draw = random.Random(1)
    expressions = []
    expected = []
    for number in range(40):
        old_kek, new_kek, other = (draw.randbytes(size) for size in (16, 32, 24))
        iv = draw.choice([None, DEFAULT_IV])
        key = draw.randbytes(draw.choice([16, 24, 3, 20] if iv is None else [16, 24]))
        kek = [old_kek, old_kek, new_kek, other][number % 4]
        text = proved_library.wrapped(kek, iv, key)
        form_flags = draw.choice([0, OLD_PADDED, NEW_PADDED, 3, KEEP_FORM])
        flags = form_flags | draw.choice([0, PASS_NEW])
        pass_new = "true" if flags & PASS_NEW else "false"
        expressions.append(f"kind_under {quoted(old_kek)} {quoted(text)}")
        expected.append(proved_library.kind(old_kek, text))
        keks = f"{quoted(old_kek)} {quoted(new_kek)}"
        expressions.append(
            f"rewrapped_text {pass_new} {forms_of(flags)} {keks} {quoted(text)}"
        )
        expected.append(proved_library.rewrap(old_kek, new_kek, text, flags))
    assert compare.computed(proved / "out", expressions) == expected
    for outcome in "Fresh", "AlreadyNew", "Integrity", "KeyNotPlain", "Neither":
        assert any(outcome in answer for answer in expected), outcome


# Wrong definitions of Statement.v: the file in which Coq refuses them, and the edits.
WRONG = {
    "counter from 0": (
        "Loops",
        [("(a t xor N.of_nat t, x", "(a t xor N.of_nat (t - 1), x")],
    ),
    "counter from 0, in the loop too": (
        "Vectors",
        [
            ("(a t xor N.of_nat t, x", "(a t xor N.of_nat (t - 1), x"),
            ("fst B xor N.of_nat t;", "fst B xor N.of_nat (t - 1);"),
            ("D (A s xor N.of_nat t,", "D (A s xor N.of_nat (t - 1),"),
        ],
    ),
    "wrong half": (
        "Vectors",
        [
            (
                "A := fst B xor N.of_nat t; R := set i (snd B)",
                "A := snd B xor N.of_nat t; R := set i (fst B)",
            )
        ],
    ),
    "little-endian bytes": (
        "Bytes",
        [
            (
                "big_bytes i (w / 256) ++ [w mod 256]",
                "w mod 256 :: big_bytes i (w / 256)",
            )
        ],
    ),
    "little-endian bytes and numbers": (
        "Vectors",
        [
            (
                "big_bytes i (w / 256) ++ [w mod 256]",
                "w mod 256 :: big_bytes i (w / 256)",
            ),
            (
                "fold_left (fun n b => 256 * n + b) bs 0",
                "fold_right (fun b n => 256 * n + b) 0 bs",
            ),
        ],
    ),
    "reserved value allowed": (
        "Relation",
        [("iv / 2 ^ 32 =? 0xA65959A6", "iv / 2 ^ 32 =? 0xA65959A7")],
    ),
    "limit of the key one word too high": (
        "Relation",
        [
            (
                "(16 <=? m)%nat && (N.of_nat m <=? 1048576)",
                "(16 <=? m)%nat && (N.of_nat m <=? 1048584)",
            )
        ],
    ),
    "limit of the padded key one byte too high": (
        "Relation",
        [
            (
                "(1 <=? m)%nat && (N.of_nat m <=? 1048576)",
                "(1 <=? m)%nat && (N.of_nat m <=? 1048577)",
            )
        ],
    ),
    "padding not zero": ("Relation", [("key ++ zeros (8 *", "key ++ repeat 1 (8 *")]),
    "padding not checked": (
        "Calls",
        [("if forallb (N.eqb 0) (skipn (N.to_nat m) bytes) then", "if true then")],
    ),
    "length one word too short": ("Calls", [("(l - 8 <? m)", "(l - 8 <=? m)")]),
    "plain text of 16 bytes": ("Relation", [("(24 <=? m)%nat", "(16 <=? m)%nat")]),
    "other default value": ("Vectors", [("0xA6A6A6A6A6A6A6A6", "0xA6A6A6A6A6A6A6A5")]),
    "five passes": ("Loops", [("(seq 1 n)) (seq 0 6)", "(seq 1 n)) (seq 0 5)")]),
    "one padded word by six passes": (
        "Relation",
        [
            (
                "spelled [fst (E (iv, p)); snd (E (iv, p))] = text",
                "exists C, spelled C = text /\\ Wraps E iv P C",
            )
        ],
    ),
    "eight bytes cleared": (
        "Calls",
        [("buffer := zeros (length text);", "buffer := zeros 8 ++ skipn 8 text;")],
    ),
    "a refused rewrap leaves the registers": (
        "Calls",
        [("(bytes_of again, calls again)", "(bytes_of s, calls again)")],
    ),
    "KEK before initial value": (
        "Proofs",
        [
            (
                "if negb (forallb is_agreed forms) then Some BadIv",
                "if negb (forallb (fun K => is_kek_length (length K)) keks) then Some BadKek",
            ),
            (
                "else if negb (forallb (fun K => is_kek_length (length K)) keks) then Some BadKek",
                "else if negb (forallb is_agreed forms) then Some BadIv",
            ),
        ],
    ),
    "MixColumns in the last round": (
        "Vectors",
        [
            (
                "add_round_key k (shift_rows (sub_bytes s)).",
                "add_round_key k (mix_columns (shift_rows (sub_bytes s))).",
            ),
        ],
    ),
    "AES-256 without its SubWord": ("Vectors", [("(6 <? Nk)%nat", "(8 <? Nk)%nat")]),
}
CHEAP = [name for name, (file, _) in WRONG.items() if file in ("Bytes", "Relation")]


@slow
@needs_coq
@pytest.mark.parametrize("name", all_of(list(WRONG), [], in_gate=CHEAP[:4]))
def test_wrong_definition_is_refused(tmp_path, name):
    file, edits = WRONG[name]
    copy = shutil.copytree(THEORY, tmp_path / "theory", ignore=lambda *_: ["out"])
    text = (copy / "Statement.v").read_text()
    for old, new in edits:
        assert text.count(old) == 1, old
        text = text.replace(old, new)
    (copy / "Statement.v").write_text(text)
    ended = subprocess.run(
        ["make", "-s", "-C", copy, f"out/{file}.vo"], capture_output=True, text=True
    )
    assert ended.returncode == 2, ended.stderr
    assert f'{file}.v", line' in ended.stderr, ended.stderr
