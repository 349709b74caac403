"""The second line of a refusal, with --verbose: the file, and why it is refused. And lines that come with an answer: a
raw KEK that looks like text, a padded key that becomes plain, and a rewrap that changes nothing. Most are in
reasons.txt."""

import pathlib
import shlex

import pytest

from commands import MAX_FILE, WRAP, table, unescaped
from program import Ended, answered, refused, sh, words
from vectors import (
    FULL,
    KEK,
    KEK16,
    KEK_LENGTH,
    KEY16,
    NOT_OPENED,
    UNSENT,
    WRAPPED16,
    in_base64,
    in_url,
    zeros,
)

NO_FILE = "No such file or directory (os error 2)"


MORE_FILES = {
    "one.hex": b"00\n",
    "raw17": bytes(17),
    "colons": b"00:11:22\n",
    "two.64": b"AA==\nAA==",
    "wrapped23.hex": zeros(23).encode(),
    "key.long": bytes(1048577),
    "wrapped.long": bytes(1048592),
    "kek.base64": in_base64(KEK16).encode(),
    "kek16.base64": in_base64(KEK16).encode() + b"\n",
    "kek17.base64": in_base64(KEK[:34]).encode(),
    "kek.digits": KEK16.encode(),
    "kek.line": KEK[:23].encode() + b"\n",
    "kek.crlf": KEK[:30].encode() + b"\r\n",
    "kek.ends": b"\n" * 16,
    "kek.url": b"AAEC-wQ_BgcICQoL",
    "kek.nul": KEK[:15].encode() + b"\0",
    "kek.words": b"correct horse ba",
    "kek.other": KEK[:30].encode() + b"ff",
    "kek.newline": b"correct horse ba\n",
    "kek.short": b"0123456789abcdef\n",
    "typo.hex": KEK16.replace("0", "O", 2).replace("O", "0", 1).encode(),
    "kek.letters": b"correcthorsebatterystapletoogood\n",
    "line.url": b"AAEC-wQ_BgcICQoL\n",
    "two_keys.hex": f"{KEY16}\r\n\n{KEY16}".encode(),
    "two_wrapped.hex": f"{WRAPPED16}\n{WRAPPED16}\n".encode(),
    "uneven.hex": f"{WRAPPED16}\n{WRAPPED16[:32]}\n".encode(),
    "wrapped.digits": WRAPPED16.encode(),
    "wrapped.base64": in_base64(WRAPPED16).encode(),
}


@pytest.fixture(autouse=True)
def more_files():
    for name, content in MORE_FILES.items():
        pathlib.Path(name).write_bytes(content)
    sh("mkdir to; ln -s old link; mkfifo pipe")


def explains(keywrap, args, status, message, reason, **options):
    """With --verbose the refusal has a second line, otherwise only the first."""
    usual = keywrap(args, **options)
    assert usual == refused(status, message)
    verbose = keywrap(args, "--verbose", **options)
    assert verbose == refused(status, message, reason)


# The names of files that are not there, and how messages show them.
NAMES_IN_MESSAGES = [
    ("missing", "missing"),
    ("", "''"),
    ("a\x1b[31m\nb", r"a\x1b[31m\x0ab"),
    ("é", "é"),
    (
        "a\u202eb\u2028c\u200bd\ufeffe\u2066f",
        r"a\u{202e}b\u{2028}c\u{200b}d\u{feff}e\u{2066}f",
    ),
]
FAULTS_OF_BASE64 = [
    ("digit.64", "no base64 character at byte 2"),
    ("two.64", "base64 goes on after its padding at byte 5"),
    ("length.64", "length is not that of base64"),
    ("bits.64", "last base64 character has bits of no byte"),
]


def names_like_a_kek():
    """Names that have one character more than a KEK, or another one."""
    for digits in 32, 48, 64:
        in_hex = KEK[:digits]
        for kek in in_hex, in_base64(in_hex):
            yield f"0{kek}"
            yield f".{kek[1:]}"


def refused_files():
    """The names of files, with the message that refuses each and the reason."""
    for name, shown in NAMES_IN_MESSAGES:
        yield name, "cannot be opened", f"{shown}: {NO_FILE}"
    for name in names_like_a_kek():
        yield name, "cannot be opened", f"{name}: {NO_FILE}"
    not_a_directory = "key.hex/x: Not a directory (os error 20)"
    yield "key.hex/x", "cannot be opened", not_a_directory
    a_directory = "directory: Is a directory (os error 21)"
    yield "directory", "cannot be read", a_directory
    yield "long.hex", "too long", f"long.hex: more than {MAX_FILE} bytes"
    yield "odd.hex", "odd number of hex digits", "odd.hex: 3 hex digits"
    yield "colons", "no hex digit at byte 2", "colons: not hex"
    for name, message in FAULTS_OF_BASE64:
        yield name, message, f"{name}: not base64"


def notations_of_a_kek():
    """KEKs of each length in hex, in upper case, and in base64 of each kind."""
    for digits in 32, 48, 64:
        kek = f"00013e{KEK[6:digits]}"
        yield kek
        yield kek.upper()
        yield in_base64(kek)
        yield in_base64(kek).rstrip("=")
        yield in_url(kek)


class TestReasons:
    def test_environment_turns_verbose_on(self, keywrap):
        """Only the value 1 does, and a run over lines shows its counts, too."""
        message = "key file: cannot be opened"
        for value in "0", "", "11":
            ended = keywrap("wrap --kek missing", env={"KEYWRAP_VERBOSE": value})
            assert ended == refused(6, message)
        turned_on = {"KEYWRAP_VERBOSE": "1"}
        ended = keywrap("wrap --kek missing", env=turned_on)
        assert ended == refused(6, message, f"missing: {NO_FILE}")
        ended = keywrap(f"{WRAP} --lines", stdin=f"{KEY16}\n", env=turned_on)
        counts = "keywrap: 1 line: 1 answered, 0 refused\n"
        assert ended == Ended(0, f"{WRAPPED16}\n", counts)

    @pytest.mark.parametrize(
        "args, status, message, reason", table("reasons", "refused")
    )
    def test_refusals_of_the_table(self, keywrap, args, status, message, reason):
        given = pathlib.Path("key7.hex")
        if "--lines" in args:
            given = None
        command = shlex.split(args)
        explains(keywrap, command, int(status), message, reason, stdin=given)

    @pytest.mark.parametrize("args, lines", table("reasons", "answered"))
    def test_answers_of_the_table(self, keywrap, args, lines):
        """The answer is the same without --verbose, which only adds the lines, with --output, too."""
        quiet = keywrap(args, text=False)
        assert quiet.status == (5 if args.startswith("check") else 0)
        assert quiet.stdout != b""
        assert quiet.stderr == ""
        error = ""
        for line in unescaped(lines).splitlines():
            error += f"keywrap: {line}\n"
        verbose = keywrap(args, "--verbose", text=False)
        assert verbose == quiet._replace(stderr=error)
        into_file = keywrap(f"{args} --verbose -o file")
        assert into_file == Ended(quiet.status, "", error)
        assert pathlib.Path("file").read_bytes() == quiet.stdout

    @pytest.mark.parametrize("name, message, reason", refused_files())
    def test_files(self, keywrap, name, message, reason):
        is_base64 = name.endswith(".64")
        for args, flag, file in [
            ("wrap --kek", "--base64-kek", "key file"),
            (f"{WRAP} -i", "--base64", "input"),
            ("rewrap --kek kek16.64 --new-kek", "--base64-kek", "new key file"),
        ]:
            command = [*words(args), name, flag]
            if not is_base64:
                command = [*words(args.replace(".64", ".hex")), name]
            explains(keywrap, command, 6, f"{file}: {message}", reason)

    @pytest.mark.parametrize("kek", notations_of_a_kek())
    def test_kek_in_place_of_its_name_is_not_shown(self, keywrap, kek):
        for args, file, option in [
            (f"check --kek {kek}", "key file", "--kek"),
            (f"rewrap --kek kek16.hex --new-kek {kek}", "new key file", "--new-kek"),
        ]:
            reason = (
                f"{option} takes a file; the value looks like a KEK and is not shown"
            )
            message = f"{file}: cannot be opened"
            explains(keywrap, args, 6, message, f"{reason}: {NO_FILE}")

    def test_file_whose_name_looks_like_a_kek(self, keywrap):
        """The file can be opened, so the second line does not ask for a file."""
        pathlib.Path(KEK16).write_bytes(pathlib.Path("kek15.hex").read_bytes())
        reason = "(the name of the KEK is not shown: it looks like a KEK)"
        args = f"check --kek {KEK16}"
        explains(keywrap, args, 3, KEK_LENGTH, f"{reason}: 15 bytes of KEK")

    @pytest.mark.parametrize(
        "flag, full",
        [("", FULL.format(0)), (" --lines", UNSENT.format(49, 1))],
        ids=["one key", "lines"],
    )
    def test_output_without_room(self, keywrap, flag, full):
        args = f"{WRAP} -i key.hex{flag}"
        no_directory = rf"no\x1b/file: {NO_FILE}"
        explains(keywrap, f"{args} -o no\x1b/file", 6, NOT_OPENED, no_directory)
        too_large = "to/file: File too large (os error 27)"
        limits = {"FSIZE": 0}
        explains(keywrap, f"{args} -o to/file", 6, full, too_large, limits=limits)
        no_space = "standard output: No space left on device (os error 28)"
        explains(keywrap, args, 6, full, no_space, stdout="/dev/full")

    def test_digits_as_raw_bytes_are_the_kek(self, keywrap):
        pathlib.Path("kek.hex").write_text(KEK16.encode().hex())
        as_raw = keywrap("wrap --raw-kek --kek kek.digits -i key.hex")
        in_hex = keywrap("wrap --kek kek.hex -i key.hex")
        assert as_raw == in_hex
        assert as_raw != answered(WRAPPED16)
