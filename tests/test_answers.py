"""The answers of each command: the vectors of RFC 3394 and RFC 5649, in each notation, form and direction."""

import os
import pathlib
import random

import pytest

import rules
from checks import DONE, comes_to, fresh, keeps
from commands import CHECK, UNWRAP, WRAP, table
from program import Ended, Program, answered, refused, slow
from rules import Form
from vectors import (
    BAD_LENGTH,
    INTEGRITY,
    KEY16,
    VECTOR_LINES,
    WRAPPED16,
    drilled_zeros,
    raw,
    zeros,
)

BOTH_WAYS = []
for flags, kek, key, wrapped in table("answers", "both ways"):
    BOTH_WAYS += [
        (f"wrap {flags} --kek {kek}.hex", key, wrapped),
        (f"unwrap {flags} --kek {kek}.hex", wrapped, key),
    ]
ANY_FORM = [
    (f"unwrap --any-form {flags} --kek {kek}.hex", wrapped, key)
    for flags, kek, wrapped, key in table("answers", "any form")
]
REWRAP = [
    (f"rewrap {flags} --kek {old}.hex --new-kek {new}.hex", wrapped, answer)
    for old, new, wrapped, answer, flags in table("answers", "rewrap")
]


def in_hex(args):
    """The command with KEKs in hex: as it is."""
    return args


def in_raw_keks(args):
    """The same command with raw KEKs."""
    return args.replace(".hex", ".raw") + " --raw-kek"


def is_check(args):
    return args.startswith("check")


@pytest.mark.parametrize(
    "args, given, answer", BOTH_WAYS + ANY_FORM + REWRAP + table("answers", "check")
)
@pytest.mark.parametrize("kek", [in_hex, in_raw_keks], ids=["KEK in hex", "raw KEK"])
def test_answers(keywrap, kek, args, given, answer):
    """Keys in hex, in either case, and raw, and in lines."""
    args = kek(args)
    status = 5 if answer == "none" else 0
    for text in given + "\n", given.upper():
        assert keywrap(args, stdin=text) == Ended(status, answer + "\n")
    # The answer of `check` is a text, also with --raw.
    answer_bytes = raw(answer) if not is_check(args) else f"{answer}\n".encode()
    ended = keywrap(args, "--raw", stdin=raw(given), text=False)
    assert ended == Ended(status, answer_bytes)
    comes_to(keywrap, args, [given, given.upper()], [answer] * 2)


@slow
@pytest.mark.parametrize(
    "form, flags, lengths",
    [(Form.PLAIN, "", range(16, 4097, 8)), (Form.PADDED, "--padded", range(1, 1025))],
    ids=["plain", "padded"],
)
def test_every_length(keywrap, form, flags, lengths):
    """No contract says that memory is lacking, or a file unreadable, only with a cause."""
    for length in lengths:
        key = random.Random(length).randbytes(length)
        wrapped = rules.wrapped(form, bytes(range(16)), key)
        assert keywrap(f"{WRAP} {flags}", stdin=key.hex()) == answered(wrapped.hex())
        assert keywrap(f"{UNWRAP} {flags}", stdin=wrapped.hex()) == answered(key.hex())


@slow
def test_check_of_every_length(keywrap):
    """Zeros are no wrapped key, whether or not a wrapped key can have their length."""
    for length in range(1, 1041):
        assert keywrap(CHECK, stdin=bytes(length).hex()) == Ended(5, "none\n"), length


@pytest.mark.parametrize("args, given, status, message", table("answers", "refused"))
@pytest.mark.parametrize("kek", [in_hex, in_raw_keks], ids=["KEK in hex", "raw KEK"])
def test_refused(keywrap, kek, args, given, status, message):
    """Neither the output file changes, nor an input file that would be replaced."""
    args = kek(args)
    fresh(given.encode())
    refusal = refused(int(status), message)
    assert keywrap(args, stdin=given) == refusal
    assert keywrap(args, "--raw", stdin=raw(given)) == refusal
    keeps(keywrap, f"{args} -o to/file", refusal, stdin=given)
    keeps(keywrap, f"{args} -i to/file -o to/file", refusal)


@pytest.mark.parametrize(
    "size, flags, rewrap_flags, new_flags",
    [
        (4096, "", "--new-padded", "--padded"),
        (4096, "--padded", "--padded", ""),
        (4097, "--padded", "--keep-form", "--padded"),
        (1048576, "", "", ""),
        (1048576, "", "--new-padded", "--padded"),
        (1048576, "--padded", "--padded", ""),
        (1048575, "--padded", "--padded --new-padded", "--padded"),
    ],
)
class TestLongKeys:
    """A wrapped key is unwrapped to the key that it was made of, raw and in hex."""

    @pytest.fixture
    def key(self, size):
        return random.Random(size).randbytes(size)

    @pytest.fixture
    def wrapped(self, keywrap, key, flags):
        args = f"wrap --raw --kek kek32.hex {flags}"
        return keywrap(args, stdin=key, text=False).stdout

    def test_streams(self, keywrap, key, wrapped, flags, size, rewrap_flags, new_flags):
        padding = -size % 8
        assert len(wrapped) == size + padding + 8
        args = f"unwrap --raw --kek kek32.hex {flags}"
        assert keywrap(args, stdin=wrapped, text=False) == Ended(0, key)

    def test_many_lines_of_hex(
        self, keywrap, key, wrapped, flags, size, rewrap_flags, new_flags
    ):
        flags = f"--kek kek32.hex {flags}"
        lines = key.hex(" ", 2).replace("00 ", "00\n")
        ended = keywrap(f"wrap {flags}", stdin=lines)
        assert ended == answered(wrapped.hex())
        back = keywrap(f"unwrap {flags}", stdin=ended.stdout)
        assert back == answered(key.hex())

    def test_rewrap_in_place(
        self, keywrap, key, wrapped, flags, size, rewrap_flags, new_flags
    ):
        pathlib.Path("file").write_bytes(wrapped)
        in_place = "--raw -i file -o file"
        rewrap = f"rewrap --kek kek32.hex --new-kek kek16.hex {rewrap_flags}"
        assert keywrap(f"{rewrap} {in_place}") == DONE
        assert keywrap(f"{UNWRAP} {new_flags} {in_place}") == DONE
        assert pathlib.Path("file").read_bytes() == key


@pytest.mark.parametrize(
    "flags, given, answer",
    [
        *table("answers", "drill"),
        ("", zeros(344), drilled_zeros(43)),
        ("", zeros(4096), drilled_zeros(512)),
    ],
)
def test_drill(keywrap, flags, given, answer):
    assert keywrap(f"drill {flags} {given}") == answered(answer)
    assert keywrap(f"drill {flags} --unwrap {answer}") == answered(given)


@pytest.mark.parametrize(
    "args, status, message",
    [(["drill", ""], 4, BAD_LENGTH), *table("answers", "refused drill")],
)
def test_refused_drill(keywrap, args, status, message):
    assert keywrap(args) == refused(int(status), message)


def test_damaged_decryption(keywrap):
    """A program that encrypts right and decrypts wrong: `vectors` reports each vector, so it unwraps what it wraps.

    Eight of the places of InvShiftRows are in the program, and only its decryption uses them.
    """
    keywrap.need_kit()
    program = pathlib.Path(keywrap.path).read_bytes()
    places = raw("000d0a0704010e0b")
    assert places in program
    damaged_program = program.replace(places, places[::-1])
    pathlib.Path("damaged").write_bytes(damaged_program)
    os.chmod("damaged", 0o700)

    damaged = Program(pathlib.Path("damaged").absolute())
    all_failed = VECTOR_LINES.replace(" ok", " failed")
    assert damaged("vectors") == Ended(5, all_failed)
    assert damaged(WRAP, stdin=KEY16) == answered(WRAPPED16)
    assert damaged(UNWRAP, stdin=WRAPPED16) == refused(5, INTEGRITY)
    assert damaged(CHECK, stdin=WRAPPED16) == Ended(5, "none\n")
