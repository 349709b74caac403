"""keywrap.pyca compared with cryptography.hazmat.primitives.keywrap: the same results and exceptions."""

import random
import subprocess
import sys

import pytest

from keywrap import pyca as ours

theirs = pytest.importorskip(
    "cryptography.hazmat.primitives.keywrap",
    reason="no cryptography (apt-get install python3-cryptography)",
)

CALLS = [name for name in ours.__all__ if name.startswith("aes_")]
KEK_LENGTHS = [0, 1, 15, 16, 17, 23, 24, 25, 31, 32, 33, 40]
rng = random.Random(20)


def ended(module, name, *given):
    """The result of a call, or the type of its exception."""
    try:
        return getattr(module, name)(*given)
    except module.InvalidUnwrap:
        return "InvalidUnwrap"
    except ValueError:
        return "ValueError"
    except TypeError:
        return "TypeError"


def message_of(module, name, *given):
    """The message of the exception that a call raises, or None."""
    try:
        getattr(module, name)(*given)
    except (module.InvalidUnwrap, ValueError) as error:
        return str(error)
    return None


def is_ours_alone(name, given):
    """Whether only ours refuses this, or with another exception."""
    length = len(given)
    if name == "aes_key_wrap_with_padding":
        return length == 0
    return name == "aes_key_unwrap_with_padding" and length > 16 and length % 8 != 0


@pytest.mark.parametrize("name", CALLS)
def test_kek_lengths_and_lengths(name):
    for kek_length in KEK_LENGTHS:
        kek = rng.randbytes(kek_length)
        for length in range(0, 73):
            given = rng.randbytes(length)
            if is_ours_alone(name, given):
                continue
            expected = ended(theirs, name, kek, given)
            assert ended(ours, name, kek, given) == expected, (kek_length, length)


@pytest.mark.parametrize("name", CALLS)
def test_messages_contain_theirs(name):
    """The tests of pyca, and of programs that are written for it, match messages."""
    refused = set()
    for kek_length in (0, 6, 16, 24, 32, 33):
        for length in (0, 1, 8, 15, 16, 17, 20, 23, 24, 27, 32):
            given = (bytes(kek_length), bytes(length))
            words = message_of(theirs, name, *given)
            if words is not None and not is_ours_alone(name, given[1]):
                refused.add(words)
                assert words in message_of(ours, name, *given), (kek_length, length)
    # A wrapping key's length, and of the plain form two lengths of key, of the padded one of a wrapped key.
    count_of_padded = {
        "aes_key_wrap_with_padding": 1,
        "aes_key_unwrap_with_padding": 2,
    }
    assert len(refused - {""}) == count_of_padded.get(name, 3)


REFUSED_BY_OURS = [
    ("aes_key_wrap_with_padding", 0, "ValueError"),
    ("aes_key_unwrap_with_padding", 17, "InvalidUnwrap"),
    ("aes_key_wrap", 1048584, "ValueError"),
    ("aes_key_wrap_with_padding", 1048577, "ValueError"),
    ("aes_key_unwrap", 1048592, "InvalidUnwrap"),
    ("aes_key_unwrap_with_padding", 1048592, "InvalidUnwrap"),
]


def test_what_ours_alone_refuses():
    for name, length, error in REFUSED_BY_OURS:
        assert ended(ours, name, bytes(16), bytes(length)) == error, (name, length)


def damaged(wrapped):
    """The wrapped key with a random bit changed, without its first register, and with one register more."""
    changed = bytearray(wrapped)
    at = rng.randrange(len(wrapped))
    changed[at] ^= 1 << rng.randrange(8)
    return bytes(changed), wrapped[8:], wrapped + bytes(8)


@pytest.mark.parametrize("padded", ["", "_with_padding"])
def test_random_keys_and_damaged_ones(padded):
    wrap = "aes_key_wrap" + padded
    unwrap = "aes_key_unwrap" + padded
    for _ in range(300):
        kek = rng.randbytes(rng.choice([16, 24, 32]))
        length = rng.randint(1, 200)
        if not padded:
            length = 8 + (length + 7) // 8 * 8
        key = rng.randbytes(length)
        wrapped = ended(ours, wrap, kek, key)
        assert wrapped == ended(theirs, wrap, kek, key)
        assert ended(ours, unwrap, kek, wrapped) == key
        assert ended(theirs, unwrap, kek, wrapped) == key
        for text in damaged(wrapped):
            expected = ended(theirs, unwrap, kek, text)
            assert ended(ours, unwrap, kek, text) == expected


def test_one_exception():
    """A handler of either exception catches both. Without pyca we have our own exception."""
    assert ours.InvalidUnwrap is theirs.InvalidUnwrap
    code = """if True:
        import sys
        sys.modules["cryptography"] = None
        from keywrap import pyca
        try:
            pyca.aes_key_unwrap(bytes(16), bytes(24))
        except pyca.InvalidUnwrap as error:
            print(type(error).__module__)"""
    written = subprocess.check_output([sys.executable, "-c", code], text=True)
    assert written == "keywrap.pyca\n"


@pytest.mark.parametrize("name", CALLS)
def test_takes_the_backend_and_names(name):
    parameter = "key_to_wrap"
    given = bytes(16)
    if "unwrap" in name:
        wrap = getattr(ours, name.replace("unwrap", "wrap"))
        parameter = "wrapped_key"
        given = wrap(bytes(16), given)
    answer = getattr(theirs, name)(bytes(16), given)
    call = getattr(ours, name)
    named = {"wrapping_key": bytes(16), parameter: given, "backend": None}
    assert call(**named) == answer
    assert call(bytes(16), given, object()) == answer
