"""--base64, --base64url and --base64-kek: which texts denote which bytes, what is written, what is refused.

Expected values are the vectors of RFC 3394, RFC 4648 and RFC 5649, of JOSE (RFC 7516 and 7517), and a model of base64,
`denoted`. test_published.py has NIST's cases in base64."""

import base64
import itertools
import pathlib
import random
import re

import pytest

from checks import DONE
from commands import CHECK, MAX_FILE, REWRAP, UNWRAP, WRAP, table, unescaped
from program import Ended, answered, refused
from vectors import BAD_LENGTH, KEY16, WRAPPED16, in_base64, in_url, raw


@pytest.fixture(autouse=True)
def more_files():
    for name, text in table("base64", "files"):
        pathlib.Path(name).write_text(text + "\n")


class TestTexts:
    @pytest.mark.parametrize("args, given, answer", table("base64", "answers"))
    def test_answers(self, keywrap, args, given, answer):
        given = unescaped(given)
        answer = unescaped(answer)
        assert keywrap(args, stdin=given + "\n") == answered(answer)
        assert keywrap(f"{args} -o file", stdin=given) == DONE
        assert pathlib.Path("file").read_text() == answer + "\n"

    def test_longest_key(self, keywrap):
        """base64 breaks its lines at 76 columns; the file is read as one text, and the answer is one line."""
        key = random.Random(1).randbytes(1048576)
        wrapped = keywrap(f"{WRAP} --raw", stdin=key, text=False).stdout
        ended = keywrap(f"{WRAP} --base64", stdin=base64.encodebytes(key))
        assert ended == answered(in_base64(wrapped.hex()))
        back = keywrap(f"{UNWRAP} --base64url", stdin=base64.encodebytes(wrapped))
        assert back == answered(in_url(key.hex()))

    def test_longest_file(self, keywrap):
        text = in_base64(KEY16)
        longest = keywrap(f"{WRAP} --base64", stdin=text.ljust(MAX_FILE))
        assert longest == answered(in_base64(WRAPPED16))
        too_long = keywrap(f"{WRAP} --base64", stdin=text.ljust(MAX_FILE + 1))
        assert too_long == refused(6, "input: too long")

    def test_empty_input(self, keywrap):
        assert keywrap(f"{CHECK} --base64") == Ended(5, "none\n")

    def test_raw_input(self, keywrap):
        args = "wrap --raw --base64-kek --kek kek16.64"
        ended = keywrap(args, stdin=raw(KEY16), text=False)
        assert ended == Ended(0, raw(WRAPPED16))

    @pytest.mark.parametrize("args, status, message", table("base64", "refused KEKs"))
    def test_refused_kek(self, keywrap, args, status, message):
        ended = keywrap(f"{args} --base64-kek", stdin=WRAPPED16)
        assert ended == refused(int(status), message)

    @pytest.mark.parametrize("digits, in_64, in_64_url", table("base64", "rfc 4648"))
    def test_rfc_4648(self, keywrap, digits, in_64, in_64_url):
        wrap = f"{WRAP} --padded"
        unwrap = f"{UNWRAP} --padded"
        wrapped = in_base64(keywrap(wrap, stdin=digits).stdout.strip())
        for text in in_64, in_64_url:
            assert keywrap(f"{wrap} --base64", stdin=text) == answered(wrapped)
        assert keywrap(f"{unwrap} --base64", stdin=wrapped) == answered(in_64)
        assert keywrap(f"{unwrap} --base64url", stdin=wrapped) == answered(in_64_url)


BLANKS = " \t\r\n"


def denoted(text, in_line=False):
    """The bytes that a text denotes by RFC 4648, sections 4 and 5, with padding or without it, or a message that says
    why there are none. In one text blanks are skipped everywhere, in a line only at its ends.
    """
    skipped = BLANKS
    start = 0
    if in_line:
        skipped = ""
        start = len(text) - len(text.lstrip(BLANKS))
    text = text.rstrip(BLANKS)

    # The first letter of only one alphabet decides which one it is.
    own_letter = re.search("[-+/_]", text)
    is_url = own_letter is not None and own_letter[0] in "-_"
    last_two = "-_" if is_url else "+/"
    letters = "A-Za-z0-9" + re.escape(last_two)

    foreign = re.compile(f"[^{letters}={skipped}]").search(text, start)
    if foreign:
        return f"no base64 character at byte {foreign.start()}"
    after_padding = re.search(f"=[={skipped}]*([{letters}])", text)
    if after_padding:
        return f"base64 goes on after its padding at byte {after_padding.start(1)}"

    without_blanks = "".join(text.split())
    body = without_blanks.rstrip("=")
    padding = len(without_blanks) - len(body)
    if len(body) % 4 == 1 or padding not in (0, -len(body) % 4):
        return "length is not that of base64"
    content = base64.b64decode(body + "==", last_two)
    written_again = base64.b64encode(content, last_two.encode()).decode()
    if written_again.rstrip("=") != body:
        return "last base64 character has bits of no byte"
    return content


# Two letters whose last bits are 0, two whose last bits are not, the letters of one alphabet only, padding, a blank,
# and a character that is never accepted.
LETTERS = "AQgB+/-_= *"


def texts(letters=LETTERS):
    """Every text of up to 4 of these letters."""
    every = []
    for length in range(5):
        every += map("".join, itertools.product(letters, repeat=length))
    return every


def test_every_text_of_up_to_4_characters_in_lines(keywrap):
    lines = texts()
    assert len(lines) == 1 + 11 + 121 + 1331 + 14641
    refusals = ""
    keys = ""
    kinds_of_refusals = set()
    for number, line in enumerate(lines, 1):
        # The empty key has no padded form.
        answer = denoted(line, in_line=True) or BAD_LENGTH
        if isinstance(answer, bytes):
            keys += f"{answer.hex()}\n"
        else:
            keys += "\n"
            refusals += f"keywrap: line {number}: {answer}\n"
            kinds_of_refusals.add(answer.partition(" at byte ")[0])
    assert len(kinds_of_refusals) == 5

    flags = "--lines --keep-going --padded"
    ended = keywrap(f"{WRAP} {flags} --base64url", stdin="\n".join(lines) + "\n")
    assert ended.status == 4
    assert ended.stderr == refusals
    wrapped = ""
    for line in ended.stdout.split("\n")[:-1]:
        wrapped += base64.urlsafe_b64decode(line + "==").hex() + "\n"
    assert keywrap(f"{UNWRAP} {flags}", stdin=wrapped).stdout == keys


@pytest.mark.parametrize("part", range(4))
def test_text_of_up_to_4_characters_as_one_key(keywrap, part):
    """A sample. Blanks are allowed anywhere."""
    for text in texts(LETTERS + "\n")[97 * part :: 388]:
        ended = keywrap(f"{WRAP} --padded --base64", stdin=text)
        answer = denoted(text)
        if answer == b"":
            assert ended == refused(4, BAD_LENGTH), text
        elif isinstance(answer, str):
            assert ended == refused(6, f"input: {answer}"), text
        else:
            assert ended.stderr == "", text
            wrapped = base64.b64decode(ended.stdout)
            back = keywrap(f"{UNWRAP} --padded --raw", stdin=wrapped, text=False)
            assert back == Ended(0, answer), text


@pytest.mark.parametrize("job", [WRAP, UNWRAP, REWRAP, CHECK])
@pytest.mark.parametrize(
    "one, other",
    [
        ("--base64", "--raw"),
        ("--base64url", "--raw"),
        ("--base64", "--base64url"),
        ("--base64-kek", "--raw-kek"),
        ("--base64", "--base64"),
    ],
)
def test_notations_exclude_one_another(keywrap, job, one, other):
    for first, second in (one, other), (other, one):
        ended = keywrap(job, first, second)
        assert (ended.status, ended.stdout) == (2, "")
        message = f"error: the argument '{first}' cannot be used"
        assert ended.stderr.startswith(message)


def test_drill_has_no_notations(keywrap):
    assert keywrap("drill --base64 00").status == 2
