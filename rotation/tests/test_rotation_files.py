"""The engine over files of lines, files of one key, CSV and JSON Lines: a unit, undisturbed and while others write."""

import base64
import functools
import io
import json
import os
import pathlib
import random
import stat
import tempfile
from typing import NamedTuple

import pytest
from rotation_help import (
    KEK,
    NEW_KEK,
    left_over,
    lines_under,
    make_keys,
    pyca,
    seen,
    set_keks,
    unwrapped,
    wrapped_under,
)

from keywrap import _many, rotate
from keywrap_rotate import found, keys, replacing
from keywrap_rotate import fields
from keywrap_rotate.files import Files, lines, one_key
from keywrap_rotate.keys import BLANKS, Notation, rewrapped_texts
from keywrap_rotate.listing import FileListing, Names, Sightings, Unit

HEX = Notation()
BASE64 = Notation("base64")
RAW = Notation("raw")


def digits_of(wrapped):
    """A wrapped key as a line has it, without the end of the line."""
    return wrapped.hex().encode()


def Lines(notation):
    return functools.partial(lines, notation)


def OneKey(notation):
    return functools.partial(one_key, notation)


def Csv(name, notation=HEX):
    return fields.Csv(name, notation).rewrapped


def Json(name, notation=HEX):
    return fields.Json([name], notation).rewrapped


KEYS = make_keys(12)
EQUAL = [key[:16] + key[:16] for key in KEYS]
OLD = lines_under(KEK, KEYS)
NEW = lines_under(NEW_KEK, KEYS)
FOREIGN = digits_of(wrapped_under(bytes(32), KEYS[1])) + b"\n"


@pytest.fixture
def file(tmp_path):
    path = tmp_path / "keys.hex"
    path.write_bytes(OLD)
    return path


def rotated(path, format=None, may_write=True, verify=False):
    """Returns the counts of one unit. No temporary file is left."""
    store = Files(format or Lines(HEX), Names([str(path)]))
    rings = rotate.challenges().rings()
    if verify:
        rings = {None: rings[None]._replace(old=())}
    answer = found.found_by(
        lambda found: store.do(Unit(str(path), 1, ""), rings, may_write, found)
    )
    assert left_over(path.parent) == []
    return answer


def refusal(path, format=None):
    """The reason for which a file is as it was, with its inode and times."""
    before = seen(path)
    answer = rotated(path, format)
    assert seen(path) == before
    assert answer.refused + answer.lost == 1
    assert answer.digest is None
    return answer.named[0][1]


def refused(path, format=None):
    """The places of refused keys, and why."""
    answer = rotated(path, format)
    assert answer.digest is not None
    assert answer.refused == len(answer.named)
    return [": ".join(named) for named in answer.named]


@pytest.mark.parametrize("new", [0, 1, 5, 11])
@pytest.mark.parametrize("block", [100, 1000, 1 << 18])
def test_a_restart_finds_the_first_old_key(file, monkeypatch, new, block):
    """Lines that are new already are copied in blocks, and never unwrapped under the KEK."""
    monkeypatch.setattr(replacing, "BLOCK", block)
    file.write_bytes(lines_under(NEW_KEK, KEYS[:new]) + lines_under(KEK, KEYS[new:]))
    assert rotated(file).new == new
    assert file.read_bytes() == NEW


def with_line(number, line, content=OLD):
    changed = content.splitlines(keepends=True)
    changed[number - 1] = line
    return b"".join(changed)


@pytest.mark.parametrize(
    "number, line, why",
    [
        (3, FOREIGN, "under no KEK of this rotation"),
        (1, b"\n", "blank"),
        (12, b" \r\n", "blank"),
        (12, b"00" + OLD.splitlines()[11][2:], "under no KEK of this rotation"),
        (2, b"00" * 25 + b"\n", "bad length"),
        *(
            (2, line, "not in the notation of the store")
            for line in (
                b"0g" * 24 + b" \r\n",
                b"00 " * 24 + b"\n",
                b"0" * 49 + b"\n",
                b"\x0b\x00\xff\n",
            )
        ),
    ],
)
@pytest.mark.parametrize("block", [100, 1 << 18])
def test_a_refused_line_is_named_and_stays_to_the_byte(
    file, monkeypatch, number, line, why, block
):
    monkeypatch.setattr(replacing, "BLOCK", block)
    file.write_bytes(with_line(number, line))
    for _ in range(2):
        assert refused(file) == [f"line {number}: {why}"]
        assert file.read_bytes() == with_line(number, line, NEW)


@pytest.mark.parametrize("line", [b"%b0\n", b"0%b\n"], ids=["last", "first"])
def test_lines_with_a_digit_too_many(file, line):
    """Both lines together have an even number of digits, and neither is a key."""
    content = b"".join(
        line % wrapped_under(KEK, key).hex().encode() for key in EQUAL[:2]
    )
    file.write_bytes(content)
    why = "not in the notation of the store"
    assert refused(file) == [f"line 1: {why}", f"line 2: {why}"]
    assert file.read_bytes() == content


class Rotated(NamedTuple):
    """What a rotation makes of a line: the line afterwards, whether it is refused, and whether it was new."""

    line: bytes
    is_refused: bool
    is_new: bool


def rotated_line(line):
    """What must come out of a line, by pyca and without our code."""
    digits = line.strip(b" \t\r\n")
    is_hex = set(digits) <= set(b"0123456789abcdefABCDEF")
    if not is_hex or len(digits) % 2:
        return Rotated(line, is_refused=True, is_new=False)
    wrapped = bytes.fromhex(digits.decode())
    if unwrapped(NEW_KEK, wrapped) is not None:
        return Rotated(line, is_refused=False, is_new=True)
    for wrap, unwrap in (
        (pyca.aes_key_wrap, pyca.aes_key_unwrap),
        (pyca.aes_key_wrap_with_padding, pyca.aes_key_unwrap_with_padding),
    ):
        try:
            key = unwrap(KEK, wrapped)
            new = digits_of(wrap(NEW_KEK, key))
        except (pyca.InvalidUnwrap, ValueError):
            continue
        return Rotated(line.replace(digits, new), is_refused=False, is_new=False)
    return Rotated(line, is_refused=True, is_new=False)


def test_only_keys_change(file):
    """Blanks, ends of lines, and a last line without an end stay."""
    keys = make_keys(3)
    one, two, three = [digits_of(wrapped_under(KEK, key)) for key in keys]
    new = [digits_of(wrapped_under(NEW_KEK, key)) for key in keys]
    lines = b"%b\r\n \t%b \n%b"
    file.write_bytes(lines % (one, two.upper(), three))
    rotated(file)
    assert file.read_bytes() == lines % tuple(new)


class TestLeftOut:
    """A file that a listing had and that nobody has read."""

    @pytest.fixture
    def file(self, tmp_path):
        (tmp_path / "store").mkdir()
        path = tmp_path / "store/file"
        path.write_bytes(lines_under(KEK, KEYS))
        return path

    @pytest.fixture
    def listing(self, file, monkeypatch):
        monkeypatch.setattr("time.sleep", lambda seconds: None)
        return FileListing(Names([str(file.parent)]), True, Sightings())

    def test_it_is_named_where_it_is_now(self, file, listing):
        moved = file.with_name("moved")
        file.rename(moved)
        assert listing.left_out() == [str(moved)]
        moved.write_bytes(b"written in place")
        assert listing.left_out() == [str(moved)]

    def test_it_was_removed(self, file, listing):
        file.unlink()
        assert listing.left_out() == []

    @pytest.mark.parametrize("write", [True, False])
    def test_it_was_read(self, file, listing, write):
        """The file counts as read, also if others write it afterwards, or if it was replaced."""
        (unit,) = listing.units
        answer = found.Found()
        store = Files(Lines(HEX), Names([]))
        store.do(unit, rotate.challenges().rings(), write, answer)
        listing.take(unit, answer)
        file.write_bytes(b"written in place")
        assert listing.left_out() == []


def something_else(source, line, wrap, length):
    """Returns what may be in the place of a line: a key in another form or under another KEK, or no key at all."""
    key = source.randbytes(length)
    zeros = bytes(length)
    new = digits_of(wrap(NEW_KEK, key))
    new_upper = digits_of(wrap(NEW_KEK, zeros)).upper()
    foreign = digits_of(wrap(bytes(16), zeros))
    other_keys = [new + b"\n", new_upper + b"\n", foreign, line.upper()]
    text = line[:-1]
    other_ends = [text, text + b" \n", text + b"\r\n", b" " + line]
    other_lengths = [line[1:], line[2:], line + line[:2] + b"\n", b"\n", b" \n"]
    at = source.randrange(len(text))
    before = line[:at]
    after = line[at + 1 :]
    digit = int(line[at : at + 1], 16)
    other_digit = b"%x" % (digit ^ 1)
    wrong_digits = []
    for other in b"\n", b" ", b"g", b"\xff", other_digit:
        wrong_digits.append(before + other + after)
    choices = [*other_keys, *other_ends, *other_lengths, *wrong_digits]
    return source.choice(choices)


def base64_without_padding(key):
    return base64.b64encode(key).rstrip(b"=")


def base64url(key):
    return base64.urlsafe_b64encode(key).rstrip(b"=")


def move_an_end(source, lines):
    """Two lines stay as long together as they were, with LF in other places."""
    at = source.randrange(1, len(lines) - 1)
    one, other = lines[at : at + 2]
    exchanged = [other[:2] + one, other[2:]]
    joined = [one[:-1] + b" " + other]
    lines[at : at + 2] = source.choice([exchanged, joined])


def random_content(source):
    """Lines of one length, with something else in the place of some of them."""
    wrap = source.choice([pyca.aes_key_wrap, pyca.aes_key_wrap_with_padding])
    length = source.choice([16, 24, 32])
    each = []
    for _ in range(source.randrange(1, 12)):
        wrapped = wrap(KEK, source.randbytes(length))
        each.append(digits_of(wrapped) + b"\n")
    count = min(len(each), source.choice([0, 1, 1, 2, 4]))
    for at in source.sample(range(len(each)), count):
        each[at] = something_else(source, each[at], wrap, length)
    if len(each) > 2 and source.randrange(3) == 0:
        move_an_end(source, each)
    return b"".join(each)


class TestKeys:
    @pytest.mark.parametrize("seed", range(150))
    def test_lines_with_something_else_among_them(self, file, monkeypatch, seed):
        """Lines of one length are taken at once. Each line gets its own result."""
        source = random.Random(seed)
        block = source.choice([82, 200, 1000, 1 << 18])
        monkeypatch.setattr(replacing, "BLOCK", block)
        content = random_content(source)
        expected = [rotated_line(line) for line in io.BytesIO(content)]
        new_lines = [due.line for due in expected]
        refused = set()
        changed = {}
        count_of_new = 0
        for at, due in enumerate(expected):
            if due.is_refused:
                refused.add(f"line {at + 1}")
            elif due.is_new:
                count_of_new += 1
            else:
                changed[at] = due.line.strip(BLANKS)

        file.write_bytes(content)
        answer = rotated(file)
        assert file.read_bytes() == b"".join(new_lines)
        named = {place for place, _ in answer.named}
        assert named == refused
        assert answer.refused == len(refused)
        assert answer.keys == len(expected)
        assert answer.new == count_of_new

        # The same lines as texts, without a file.
        texts = [line.strip(BLANKS) for line in io.BytesIO(content)]
        also = found.Found()
        rings = rotate.challenges().rings()
        assert rewrapped_texts(rings, HEX, texts, also, str) == changed
        assert also.counts() == answer.counts()
        assert len(also.named) == len(refused)
        two_lines = lines_under(KEK, EQUAL[:2]).strip()
        assert rewrapped_texts(rings, HEX, [two_lines], also, str) == {}

    @pytest.mark.parametrize(
        "format", [Lines(HEX), OneKey(HEX), OneKey(RAW), Csv("key"), Json("key")]
    )
    def test_a_long_line_is_refused_before_it_is_read_whole(self, file, format):
        with open(file, "wb") as sparse:
            sparse.truncate(1 << 40)
        answer = rotated(file, format)
        assert answer.refused == 1
        assert answer.keys == 0
        assert "longer than any" in answer.named[0][1]

    @pytest.mark.parametrize("wrong", [0, 11])
    @pytest.mark.parametrize(
        "plain", [KEYS, EQUAL], ids=["of both forms", "of one length"]
    )
    def test_replaces_nothing_before_its_check(self, file, monkeypatch, wrong, plain):
        file.write_bytes(lines_under(KEK, plain))
        right_ones = [*plain]
        del right_ones[wrong]
        under = [wrapped_under(NEW_KEK, key) for key in right_ones]
        real = _many.check_slots

        def check_slots(kek, texts, length):
            if kek != NEW_KEK:
                return real(kek, texts, length)
            statuses = []
            for at in range(0, len(texts), length):
                wrapped = bytes(texts[at : at + length])
                statuses.append(wrapped not in under)
            return statuses, bytes(len(texts))

        monkeypatch.setattr(_many, "check_slots", check_slots)
        assert refusal(file) == "a rewrapped key is not under the new KEK"

    @pytest.mark.parametrize(
        "notation, write, read",
        [
            ("base64", base64.b64encode, base64.b64encode),
            ("base64", base64.b64encode, base64.urlsafe_b64encode),
            ("base64", base64.b64encode, base64_without_padding),
            ("base64url", base64url, base64.b64encode),
        ],
        ids=[
            "base64",
            "base64 of the other alphabet",
            "base64 without padding",
            "base64url",
        ],
    )
    def test_rotates_base64(self, file, notation, write, read):
        old = [read(wrapped_under(KEK, key)) + b"\n" for key in KEYS]
        new = [write(wrapped_under(NEW_KEK, key)) + b"\n" for key in KEYS]
        file.write_bytes(b"".join(old))
        answer = rotated(file, Lines(Notation(notation)))
        assert answer.refused == 0
        assert file.read_bytes() == b"".join(new)

    @pytest.mark.parametrize(
        "text",
        ["+-" * 20, "A" * 33, "AAAA=" * 8, "A" * 38 + "=", "A" * 37 + "B==", "A*" * 20],
    )
    def test_refuses_what_is_not_base64(self, file, text):
        file.write_bytes(text.encode() + b"\n")
        assert refused(file, Lines(BASE64)) == [
            "line 1: not in the notation of the store"
        ]

    def test_rotates_a_raw_key(self, file):
        # A raw key may contain the bytes of line ends and blanks, at its ends too.
        def ends_with_a_blank(key):
            return wrapped_under(KEK, key)[-1:] in (b"\n", b" ")

        key = next(filter(ends_with_a_blank, make_keys(3000, 5)))
        file.write_bytes(wrapped_under(KEK, key))
        answer = rotated(file, OneKey(RAW))
        assert answer.keys == 1
        assert file.read_bytes() == wrapped_under(NEW_KEK, key)

    @pytest.mark.parametrize("notation", ["hex", "base64"])
    def test_rotates_one_key_on_several_lines(self, file, notation):
        def encode(key):
            if notation == "hex":
                return key.hex()
            return base64.b64encode(key).decode()

        format = OneKey(Notation(notation))
        text = encode(wrapped_under(KEK, KEYS[1]))
        new = encode(wrapped_under(NEW_KEK, KEYS[1]))
        parts = [text[at : at + 20] for at in range(0, len(text), 20)]
        file.write_text("\n".join(parts))
        answer = rotated(file, format)
        assert answer.keys == 1
        assert file.read_text() == f"{new}\n"
        file.write_text(" \n")
        assert refused(file, format) == ["its key: blank"]


def csv_of(kek, end="\r\n"):
    text = "\ufeffid,name,key,owner" + end
    for at, key in enumerate(KEYS):
        wrapped = wrapped_under(kek, key).hex()
        text += f'{at},"quoted ""{at}""\nzweite Zeile",{wrapped},Zoë{end}'
    return text.encode() + b"\xff,,,\r\n"


def json_lines(kek):
    more = '"n": 1.10, "big": 1e400, "id": 12345678901234567890, "\\u00e9": [null, {"key": "x"}]'
    text = ""
    for key in KEYS:
        wrapped = wrapped_under(kek, key).hex()
        text += f'  {{{more}, "key" :"{wrapped}"}}\n'
    text += '\n{"key": null}\n{}'
    return text.encode()


class TestRecords:
    @pytest.mark.parametrize(
        "format, content",
        [
            (Csv("key"), csv_of),
            (Csv("key"), lambda kek: csv_of(kek, "\n")),
            (Json("key"), json_lines),
            (Csv("key"), lambda kek: b"\xef\xbb\xbfkey\n" + lines_under(kek, KEYS)),
        ],
    )
    def test_rotates_one_field_of_each_record(self, file, format, content):
        file.write_bytes(content(KEK))
        for _ in range(2):
            answer = rotated(file, format)
            assert file.read_bytes() == content(NEW_KEK)
            assert answer.keys == 12
            assert answer.refused == 0

    def test_a_key_that_is_twice_in_its_record_changes_in_its_column(self, file):
        old = wrapped_under(KEK, KEYS[0]).hex()
        new = wrapped_under(NEW_KEK, KEYS[0]).hex()
        file.write_text(f'a,b\n"{old}", {old} \n')
        rotated(file, Csv("b"))
        assert file.read_text() == f'a,b\n"{old}", {new} \n'
        file.write_text(f'{{"a": "{old}", "b": "{old}"}}\n')
        rotated(file, Json("b"))
        assert file.read_text() == f'{{"a": "{old}", "b": "{new}"}}\n'

    @pytest.mark.parametrize(
        "content, why",
        [
            (b"id,name\n1,2\n", "the first line does not have the column 'key' once"),
            (b"key,key\n1,2\n", "the first line does not have the column 'key' once"),
            (b'key,b\n"a"b,2\n', "line 2: not CSV"),
        ],
    )
    def test_refuses_a_csv_file(self, file, content, why):
        file.write_bytes(content)
        assert refusal(file, Csv("key")) == why

    def test_names_refused_records_of_csv(self, file):
        old = wrapped_under(KEK, KEYS[0]).hex()
        new = wrapped_under(NEW_KEK, KEYS[0]).hex()
        file.write_text(f'id,key\n1,"\n"\n2,{old}\n\n3\n4,00\n5,\n')
        named = refused(file, Csv("key"))
        assert named == ["line 6: the column is missing", "line 7: bad length"]
        assert file.read_text() == f'id,key\n1,"\n"\n2,{new}\n\n3\n4,00\n5,\n'

    def test_names_refused_records_of_json_lines(self, file):
        good = wrapped_under(KEK, KEYS[0]).hex()
        new = wrapped_under(NEW_KEK, KEYS[0]).hex()
        lines = [
            '{"key": 1}',
            '{"key": 1.5}',
            "[]",
            "{",
            f'{{"key": "{good}", "key": "{good}"}}',
            '{"key": "00"}',
            f'{{"key": "{good}"}}',
            "[" * 100000,
        ]
        file.write_text("\n".join(lines))
        named = refused(file, Json("key"))
        assert sorted(named) == [
            "line 1: not a string",
            "line 2: not a string",
            "line 3: not a JSON object, or a member comes twice",
            "line 4: not a JSON object, or a member comes twice",
            "line 5: not a JSON object, or a member comes twice",
            "line 6: bad length",
            "line 8: not a JSON object, or a member comes twice",
        ]
        line_with_key = file.read_text().splitlines()[6]
        assert json.loads(line_with_key) == {"key": new}

    def test_a_key_written_with_escapes_is_refused(self, file):
        text = ""
        while "/" not in text:
            key = os.urandom(32)
            text = base64.b64encode(wrapped_under(KEK, key)).decode()
        escaped = text.replace("/", "\\/")
        file.write_text(f'{{"key": "{escaped}"}}\n')
        why = refusal(file, Json("key", BASE64))
        assert why.startswith("line 1: the key is written with escapes")


class TestAccess:
    def test_refuses_links_and_what_is_no_file(self, file, tmp_path):
        link = tmp_path / "link"
        link.symlink_to(file)
        assert refusal(link) == "a symbolic link"
        fifo = tmp_path / "fifo"
        os.mkfifo(fifo)
        assert refusal(fifo) == "not a regular file"
        os.link(file, tmp_path / "other")
        assert refusal(file) == "the file has 2 hard links"
        assert rotated(tmp_path / "none").moved == 1
        database = tmp_path / "database"
        database.write_bytes(b"SQLite format 3\0" + bytes(99))
        assert refusal(database) == "an SQLite database: name its table by --table"

    def test_the_longest_name(self, tmp_path):
        """A longer one is refused by a dry run, too; to verify it is no problem."""
        longest = tmp_path / ("n" * 186)
        longest.write_bytes(OLD)
        assert rotated(longest).refused == 0
        assert longest.read_bytes() == NEW

        longer = tmp_path / ("n" * 187)
        longer.write_bytes(OLD)
        assert rotated(longer).refused == 1
        assert longer.read_bytes() == OLD
        assert "its name is longer than 186 bytes" in refusal(longer)
        dry_run = rotated(longer, may_write=False)
        assert "its name is longer" in dry_run.named[0][1]
        longer.write_bytes(NEW)
        verified = rotated(longer, may_write=False, verify=True)
        assert verified.new == 12

    @pytest.mark.parametrize("mode", [0o600, 0o640, 0o444, 0o666])
    def test_keeps_owner_group_and_mode(self, file, mode):
        owner = os.geteuid(), os.getegid()
        if os.geteuid() == 0:
            owner = 12, 34
        os.chown(file, *owner)
        file.chmod(mode)
        rotated(file)
        status = file.stat()
        assert file.read_bytes() == NEW
        assert (status.st_uid, status.st_gid) == owner
        assert stat.S_IMODE(status.st_mode) == mode

    @pytest.mark.skipif(os.geteuid() != 0, reason="not root")
    @pytest.mark.parametrize("owner", [(0, 0), (65534, 34)], ids=["owner", "group"])
    def test_refuses_an_owner_or_group_that_it_cannot_keep(self, monkeypatch, owner):
        with tempfile.TemporaryDirectory() as name:
            directory = pathlib.Path(name)
            set_keks(directory, monkeypatch)
            file = directory / "keys.hex"
            file.write_bytes(OLD)
            directory.chmod(0o777)
            for path in directory.iterdir():
                path.chmod(0o644)
            os.chown(file, *owner)
            os.seteuid(65534)
            try:
                why = refusal(file)
            finally:
                os.seteuid(0)
            assert why == "its owner, group or mode cannot be kept"


ADDED = make_keys(2, 9)[1]


def written_at(path, offset):
    with open(path, "r+b") as file:
        file.seek(offset)
        file.write(lines_under(KEK, [ADDED]))


def replaced(path):
    other = path.with_name("other")
    other.write_bytes(lines_under(KEK, [ADDED]))
    os.rename(other, path)


def appended(path):
    written_at(path, len(OLD))


def changed(path):
    last_line = lines_under(KEK, KEYS[-1:])
    written_at(path, len(OLD) - len(last_line))


def removed(path):
    path.write_bytes(lines_under(KEK, KEYS[1:]))


CHANGES = [
    (appended, KEYS + [ADDED]),
    (changed, KEYS[:-1] + [ADDED]),
    (removed, KEYS[1:]),
    (replaced, [ADDED]),
]


class TestChanges:
    def test_begins_again_after_a_change_of_the_mode(self, file, meanwhile):
        meanwhile(lambda: file.chmod(0o640))
        rotated(file)
        assert file.read_bytes() == NEW
        assert stat.S_IMODE(file.stat().st_mode) == 0o640

    @pytest.mark.parametrize("at", [1, 2, 12])
    @pytest.mark.parametrize("change, keys", CHANGES)
    def test_begins_again_after_a_change(self, file, meanwhile, change, keys, at):
        meanwhile(lambda: change(file), at=at)
        assert rotated(file).digest
        assert file.read_bytes() == lines_under(NEW_KEK, keys)

    @pytest.mark.parametrize(
        "content", [b"", wrapped_under(KEK, ADDED), wrapped_under(NEW_KEK, ADDED), None]
    )
    def test_a_file_of_one_key_that_changes_meanwhile(self, file, meanwhile, content):
        """Emptied, changed under either KEK, removed: what is there afterwards is rotated, or stays as it is."""
        file.write_bytes(wrapped_under(KEK, KEYS[0]))
        is_removed = content is None

        def change():
            if is_removed:
                file.unlink()
            else:
                file.write_bytes(content)

        meanwhile(change)
        answer = rotated(file, OneKey(RAW))
        assert answer.moved == is_removed
        assert bool(answer.digest) != is_removed
        assert answer.refused == (content == b"")
        assert file.exists() != is_removed
        if content:
            assert file.read_bytes() == wrapped_under(NEW_KEK, ADDED)
        elif not is_removed:
            assert file.read_bytes() == b""

    @pytest.mark.parametrize("change, keys", CHANGES[:2])
    @pytest.mark.parametrize("block", [100, 1 << 16])
    def test_two_writes_within_a_tick_of_the_clock(
        self, file, meanwhile, monkeypatch, change, keys, block
    ):
        """Then the time of the file is the same, and only its content differs."""
        monkeypatch.setattr(replacing, "BLOCK", block)
        monkeypatch.setattr(replacing, "identity", lambda status: str(status.st_ino))
        meanwhile(lambda: change(file))
        assert rotated(file).digest
        assert file.read_bytes() == lines_under(NEW_KEK, keys)

    def test_what_is_copied_is_what_was_read(self, file, meanwhile, monkeypatch):
        """New keys at the start of a file are copied later. Here somebody changes them in place, and back again."""
        monkeypatch.setattr(replacing, "BLOCK", 100)
        content = lines_under(NEW_KEK, KEYS[:3]) + lines_under(KEK, KEYS[3:])
        file.write_bytes(content)
        before = file.stat()
        changed = b"0" + content[1:]
        contents = iter([changed, changed])  # while the first block is rewrapped

        def change():
            with open(file, "r+b") as opened:
                opened.write(next(contents, content))
            os.utime(file, ns=(before.st_atime_ns, before.st_mtime_ns))

        meanwhile(change, times=4)
        assert rotated(file).digest
        assert file.read_bytes() == NEW


def test_rewraps_all_or_none():
    old = {}
    new = {}
    for at, key in enumerate(KEYS):
        old[f"k{at}"] = wrapped_under(KEK, key)
        new[f"k{at}"] = wrapped_under(NEW_KEK, key)
    pair = rotate.challenges()
    rewrapped = rotate.rewrap_all(old, pair)
    assert list(rewrapped.items()) == list(new.items())
    one_is_new = {**old, "k3": new["k3"]}
    assert rotate.rewrap_all(one_is_new, pair) == new

    three_are_wrong = {**old, "k2": b"no", "k4": bytes(40), "k5": b""}
    message = "^'k2': bad length; 'k5': blank; 'k4': under no KEK of this rotation$"
    with pytest.raises(rotate.Refused, match=message):
        rotate.rewrap_all(three_are_wrong, pair)
