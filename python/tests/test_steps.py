"""keywrap.steps: wraps and unwraps by a callable for AES, here of pyca or of a token. tests/rows.txt has the calls."""


import pytest

import keywrap
from keywrap import _many, steps

REASON = "no cryptography (apt-get install python3-cryptography)"
ciphers = pytest.importorskip("cryptography.hazmat.primitives.ciphers", reason=REASON)
from cryptography.hazmat.primitives import keywrap as pyca  # noqa: E402

KEK = bytes(range(32))
IV = bytes.fromhex("0123456789abcdef")
WRAPS = {False: pyca.aes_key_wrap, True: pyca.aes_key_wrap_with_padding}
each_form = pytest.mark.parametrize("padded", [False, True], ids=["plain", "padded"])


def wrapped_plain(kek, keys):
    """The wrapped keys of pyca, in the plain form."""
    return [pyca.aes_key_wrap(kek, key) for key in keys]


def wrapped_padded(kek, keys):
    """The wrapped keys of pyca, in the padded form."""
    return [pyca.aes_key_wrap_with_padding(kek, key) for key in keys]


class Token:
    """AES-ECB over a KEK, which counts the blocks of each call."""

    def __init__(self, kek=KEK):
        self.cipher = ciphers.Cipher(ciphers.algorithms.AES(kek), ciphers.modes.ECB())
        self.calls = []

    def _run(self, context, blocks):
        assert type(blocks) is bytes
        self.calls.append(len(blocks) // 16)
        return context.update(blocks) + context.finalize()

    def encrypt(self, blocks):
        return self._run(self.cipher.encryptor(), blocks)

    def decrypt(self, blocks):
        return self._run(self.cipher.decryptor(), blocks)

    def counted(self):
        """The calls since the last time."""
        calls = self.calls
        self.calls = []
        return calls


def call_of(padded, direction):
    """The call for one key, with the callable of the token for it."""
    call = getattr(steps, f"{direction}_padded" if padded else direction)

    def call_with(token, text):
        cipher = getattr(token, CIPHERS[direction])
        return call(cipher, text)

    return call_with


CIPHERS = {"wrap": "encrypt", "unwrap": "decrypt"}


LENGTHS_OF_PADDED = [*range(1, 50), 256, 4096]
LENGTHS_OF_PLAIN = [*range(16, 88, 8), 256, 4096]


def block_calls(length):
    """The calls of a wrap or an unwrap of a key of this length: 6 for each 8 bytes, or 1 for up to 8."""
    words = -(-length // 8)
    return 6 * words if words > 1 else 1


@pytest.mark.parametrize("kind", [bytes, bytearray, memoryview])
@pytest.mark.parametrize("kek_len", [16, 24, 32])
@each_form
def test_each_length(padded, kek_len, kind):
    """The result of OpenSSL, and exactly as many calls as the standard has."""
    kek = bytes(range(kek_len))
    token = Token(kek)
    wrap = call_of(padded, "wrap")
    unwrap = call_of(padded, "unwrap")
    for length in LENGTHS_OF_PADDED if padded else LENGTHS_OF_PLAIN:
        key = bytes(at % 251 for at in range(length))
        wrapped = WRAPS[padded](kek, key)
        calls = [1] * block_calls(length)
        assert wrap(token, kind(key)) == wrapped
        assert token.counted() == calls
        assert unwrap(token, kind(wrapped)) == key
        assert token.counted() == calls


@pytest.mark.parametrize(
    "call, text, more, refusal",
    [
        (steps.wrap, bytes(15), {}, keywrap.BadLength),
        (steps.wrap_padded, b"", {}, keywrap.BadLength),
        (steps.unwrap, bytes(16), {}, keywrap.BadLength),
        (steps.unwrap_padded, bytes(17), {}, keywrap.BadLength),
        (steps.wrap, bytes(16), {"iv": IV[1:]}, keywrap.BadInitialValue),
        (
            steps.unwrap,
            bytes(24),
            {"iv": bytes.fromhex("a65959a600000010")},
            keywrap.BadInitialValue,
        ),
        (steps.wrap_many, [bytes(15)], {}, keywrap.BadLength),
        (steps.unwrap_many, [bytes(17)], {}, keywrap.BadLength),
        (steps.wrap_many, ["0123456789abcdef"], {}, TypeError),
    ],
)
def test_refused_without_a_call(call, text, more, refusal):
    with pytest.raises(refusal):
        call(pytest.fail, text, **more)


@pytest.fixture
def wiped(monkeypatch):
    """The buffers that are wiped, each as it was before and as it is afterwards."""
    found = []
    ffi = keywrap._ffi.ffi

    class Lib:
        def __getattr__(self, name):
            return getattr(keywrap._lib, name)

        def wipe(self, buffer, length):
            view = ffi.from_buffer(buffer) if type(buffer) is bytes else buffer
            before = bytes(ffi.buffer(view, length))
            keywrap._lib.wipe(buffer, length)
            after = bytes(ffi.buffer(view, length))
            found.append((before, after))

    monkeypatch.setattr(steps, "_lib", Lib())
    monkeypatch.setattr(_many, "_lib", Lib())
    monkeypatch.setattr(keywrap, "_wipe", Lib().wipe)
    return found


def all_are_zeros(wiped):
    """Whether buffers were wiped, and each has only zeros afterwards."""
    return wiped != [] and not any(any(after) for _, after in wiped)


def had(wiped, secret):
    """Whether a buffer that was wiped had this before."""
    return any(secret in before for before, _ in wiped)


def lengths_of(wiped):
    return sorted(len(before) for before, _ in wiped)


@each_form
def test_no_key_after_a_failed_check(padded, wiped):
    """The registers are zeros before the buffer is wiped: the proved end has cleared them."""
    key = bytes(range(1, 41))
    wrapped = bytearray(WRAPS[padded](KEK, key))
    wrapped[-1] ^= 1
    token = Token()
    message = "integrity check failed: no wrapped key under this KEK"
    with pytest.raises(keywrap.IntegrityFailed, match=message):
        call_of(padded, "unwrap")(token, bytes(wrapped))
    assert len(token.counted()) == 30
    assert lengths_of(wiped) == [16, len(wrapped) + 8]
    for before, _ in wiped:
        registers = before[8:48] if len(before) > 16 else before
        assert not any(registers)


@each_form
def test_key_after_a_good_check(padded, wiped):
    """The fixture of the test before would see a key."""
    key = bytes(range(1, 41))
    wrapped = WRAPS[padded](KEK, key)
    assert call_of(padded, "unwrap")(Token(), wrapped) == key
    assert had(wiped, key)
    assert all_are_zeros(wiped)


@each_form
@pytest.mark.parametrize("direction", ["wrap", "unwrap"])
def test_copies_are_wiped(padded, direction, wiped):
    """An argument that is not `bytes` is copied. A buffer that equals it is wiped: the copy. So is one with the key."""
    key = bytes(range(1, 41))
    given = key if direction == "wrap" else WRAPS[padded](KEK, key)
    call_of(padded, direction)(Token(), bytearray(given))
    assert had(wiped, key)
    assert given in [before for before, _ in wiped]
    assert all_are_zeros(wiped)


class Broken(Exception):
    pass


def raises(blocks):
    raise Broken


def changes(blocks):
    """No callable can change the blocks."""
    with pytest.raises(TypeError):
        memoryview(blocks)[0] = 0
    raise Broken


NO_BYTES = [
    lambda blocks: None,
    lambda blocks: "0123456789abcdef",
    lambda blocks: list(blocks),
]
NOT_BLOCKS = [
    *[(callable, TypeError) for callable in NO_BYTES],
    (raises, Broken),
    (changes, Broken),
    (lambda blocks: blocks[:-1], ValueError),
    (lambda blocks: blocks + b"\0", ValueError),
    (lambda blocks: b"", ValueError),
    (lambda blocks: memoryview(blocks * 2)[::2], TypeError),
]


@pytest.mark.parametrize("callable, error", NOT_BLOCKS)
@pytest.mark.parametrize("count", [1, 2], ids=["one", "many"])
@pytest.mark.parametrize("direction", ["wrap", "unwrap"])
@pytest.mark.parametrize("at", range(12))
def test_a_callable_that_fails(callable, error, direction, count, at, wiped):
    """In each of its calls: the error is raised, there is no result, and the buffers with the key are wiped."""
    token = Token()
    cipher = getattr(token, CIPHERS[direction])
    key = bytes(range(1, 17))
    given = key if direction == "wrap" else pyca.aes_key_wrap(KEK, key)
    call = getattr(steps, direction)
    if count > 1:
        call = getattr(steps, f"{direction}_many")
        given = [given] * count

    def failing(blocks):
        if len(token.calls) == at:
            return callable(blocks)
        return cipher(blocks)

    with pytest.raises(error) as raised:
        call(failing, given)
    if error is ValueError:
        assert str(16 * count) in str(raised.value)
    if callable in NO_BYTES:
        assert str(raised.value).startswith("the callable returned '")
    assert len(token.counted()) == at
    assert len(wiped) == 2
    assert lengths_of(wiped)[0] == 16 * count
    assert all_are_zeros(wiped)
    if direction == "wrap" and at == 0:
        assert had(wiped, key)


class Liar(bytes):
    def __len__(self):
        return 4096


@pytest.mark.parametrize(
    "kind",
    [bytes, bytearray, memoryview, Liar, lambda answer: memoryview(answer).cast("I")],
)
def test_a_result_of_another_type(kind):
    token = Token()
    wrapped = steps.wrap(lambda blocks: kind(token.encrypt(blocks)), bytes(16))
    assert wrapped == pyca.aes_key_wrap(KEK, bytes(16))


def numbered_keys(count, length):
    """Keys that differ in each byte."""
    return [
        bytes((number + 7 * byte) % 256 for byte in range(length))
        for number in range(count)
    ]


@each_form
@pytest.mark.parametrize("count", [1, 2, 25])
def test_many(padded, count):
    """Each of the keys as OpenSSL wraps it, and as many calls as for one key, each with a block of each key."""
    token = Token()
    for length in [1, 8, 9, 16, 31, 40] if padded else [16, 24, 40]:
        keys = numbered_keys(count, length)
        texts = [WRAPS[padded](KEK, key) for key in keys]
        calls = [count] * block_calls(length)

        def wraps(given, size=None):
            wrapped = steps.wrap_many(token.encrypt, given, size, padded=padded)
            return wrapped == texts and token.counted() == calls

        def unwraps(given, size=None):
            unwrapped = steps.unwrap_many(token.decrypt, given, size, padded=padded)
            return unwrapped == keys and token.counted() == calls

        assert wraps(keys)
        assert wraps(map(bytearray, keys))
        assert wraps(b"".join(keys), length)
        assert unwraps(texts)
        assert unwraps(b"".join(texts), len(texts[0]))


@pytest.mark.parametrize("call", [steps.wrap_many, steps.unwrap_many])
def test_no_keys(call):
    assert call(pytest.fail, []) == []
    assert call(pytest.fail, b"", 24) == []


@pytest.mark.parametrize(
    "call", [steps.wrap, steps.unwrap, steps.wrap_padded, steps.unwrap_padded]
)
@pytest.mark.parametrize("text", ["0123456789abcdef" * 2, None, 24])
def test_no_bytes(call, text):
    with pytest.raises(TypeError, match="a contiguous bytes-like object is required"):
        call(pytest.fail, text)


@pytest.mark.parametrize(
    "call, text", [(steps.wrap, bytes(16)), (steps.unwrap, bytes(24))]
)
def test_no_initial_value(call, text):
    message = "a contiguous bytes-like object is required, not 'str'"
    with pytest.raises(TypeError, match=message):
        call(pytest.fail, text, "01234567")


@pytest.mark.parametrize("direction, length", [("wrap", 16), ("unwrap", 24)])
def test_a_step_that_is_refused(monkeypatch, direction, length):
    """It ends the call: the library would never be ready."""

    class Lib:
        def __getattr__(self, name):
            return getattr(keywrap._lib, name)

        @staticmethod
        def step_wrap_each(*given):
            return keywrap._lib.KEYWRAP_BAD_LENGTH

        step_unwrap_each = step_wrap_each

    monkeypatch.setattr(steps, "_lib", Lib())
    token = Token()
    cipher = getattr(token, CIPHERS[direction])
    with pytest.raises(RuntimeError, match="a step was refused"):
        getattr(steps, direction)(cipher, bytes(length))
    assert token.counted() == [1]


def fails(blocks):
    raise OSError("no token")


@pytest.mark.parametrize(
    "decrypt, encrypt",
    [(fails, Token(bytes(24)).encrypt), (Token().decrypt, fails)],
    ids=["old KEK", "new KEK"],
)
def test_rewrap_with_a_callable_that_fails(decrypt, encrypt, wiped):
    """It passes through, after the buffers are wiped, and the caller's text is as it was."""
    wrapped = pyca.aes_key_wrap(KEK, bytes(16))
    given = bytearray(wrapped)
    with pytest.raises(OSError, match="no token"):
        steps.rewrap(decrypt, encrypt, given)
    assert lengths_of(wiped) == [16, 24, 24]
    assert all_are_zeros(wiped)
    assert given == wrapped


NEW_KEK = bytes(range(100, 124))


class TestRewrapMany:
    """OpenSSL's key wrap, by pyca, gives the expected values."""

    @staticmethod
    def rewrapped(old, new, wrapped, *given, **more):
        return steps.rewrap_many(old.decrypt, new.encrypt, wrapped, *given, **more)

    @pytest.mark.parametrize("length", [16, 24, 32, 256])
    @pytest.mark.parametrize("count", [1, 2, 25])
    def test_plain_keys(self, length, count):
        """6 calls for each 8 bytes of a key under either KEK, each with a block of every key."""
        old = Token()
        new = Token(NEW_KEK)
        keys = numbered_keys(count, length)
        wrapped = wrapped_plain(KEK, keys)
        joined = b"".join(wrapped)
        due = wrapped_plain(NEW_KEK, keys)
        calls = [count] * block_calls(length)
        for given in (wrapped,), (joined, length + 8):
            assert self.rewrapped(old, new, *given) == due
            assert old.counted() == calls
            assert new.counted() == calls

    def test_calls_for_five_thousand_keys(self):
        """48 calls rewrap 5,000 keys of 32 bytes, and 24 more ask which of the refused ones are new."""
        old = Token()
        new = Token(NEW_KEK)
        keys = [at.to_bytes(32, "big") for at in range(5000)]
        wrapped = wrapped_plain(KEK, keys)
        due = wrapped_plain(NEW_KEK, keys)
        assert self.rewrapped(old, new, wrapped) == due
        calls = old.counted() + new.counted()
        assert len(calls) == 48

        one_is_old = [wrapped[0], *due[1:]]
        results = self.rewrapped(
            old, new, one_is_old, keep_form=True, pass_new=new.decrypt
        )
        assert results == due
        assert old.counted() == [5000] * 24
        assert sorted(new.counted()) == [1] * 24 + [4999] * 24

    @pytest.mark.parametrize("length", [1, 8, 9, 16, 31])
    @pytest.mark.parametrize("keep_form", [False, True])
    def test_padded_keys(self, length, keep_form):
        old = Token()
        new = Token(NEW_KEK)
        keys = [bytes([at]) * length for at in range(5)]
        wrapped = wrapped_padded(KEK, keys)
        flags = {"old_padded": True, "new_padded": True}
        if keep_form:
            flags = {"keep_form": True}
        results = self.rewrapped(old, new, wrapped, **flags)
        assert results == wrapped_padded(NEW_KEK, keys)

    def test_both_forms_in_one_call(self):
        """With keep_form each key keeps its form, whatever the forms of the others are."""
        old = Token()
        new = Token(NEW_KEK)
        plain = pyca.aes_key_wrap
        padded = pyca.aes_key_wrap_with_padding
        keys = [
            (plain, bytes(range(32))),
            (padded, bytes(range(25))),
            (plain, bytes(32)),
            (padded, bytes(range(31))),
        ]
        wrapped = [wrap(KEK, key) for wrap, key in keys]
        due = [wrap(NEW_KEK, key) for wrap, key in keys]
        results = self.rewrapped(old, new, wrapped, keep_form=True)
        assert results == due

    def test_one_refused_key_does_not_stop_the_others(self):
        """Each refusal is in its place: under a third KEK, damaged, and a key that is not plain."""
        old = Token()
        new = Token(NEW_KEK)
        keys = [bytes([at]) * 32 for at in range(6)]
        due = wrapped_plain(NEW_KEK, keys)
        wrapped = wrapped_padded(KEK, keys)
        damaged = bytearray(wrapped[2])
        damaged[-1] ^= 1
        wrapped[1] = pyca.aes_key_wrap_with_padding(bytes(16), keys[1])
        wrapped[2] = bytes(damaged)
        wrapped[4] = pyca.aes_key_wrap_with_padding(KEK, bytes(27))

        results = self.rewrapped(old, new, wrapped, old_padded=True)
        types = [type(result) for result in results]
        failed = keywrap.IntegrityFailed
        assert types == [bytes, failed, failed, bytes, keywrap.KeyNotPlain, bytes]
        for at in 0, 3, 5:
            assert results[at] == due[at]

    def test_what_is_new_stays_only_if_it_may(self):
        old = Token()
        new = Token(NEW_KEK)
        keys = [bytes(24), bytes(24)]
        wrapped = wrapped_plain(NEW_KEK, keys)
        refused = self.rewrapped(old, new, wrapped)
        types = [type(refusal) for refusal in refused]
        assert types == [keywrap.IntegrityFailed, keywrap.IntegrityFailed]
        results = self.rewrapped(old, new, wrapped, pass_new=new.decrypt)
        assert results == wrapped

    @pytest.mark.parametrize("failing", ["decrypt", "encrypt", "pass_new"])
    @pytest.mark.parametrize("callable, error", NOT_BLOCKS)
    def test_a_callable_that_fails(self, failing, callable, error, wiped):
        """The error is raised, and every buffer that had key material is wiped."""
        key = bytes(range(1, 33))
        new = Token(NEW_KEK)
        wrapped = [pyca.aes_key_wrap(KEK, key), pyca.aes_key_wrap(NEW_KEK, key)]
        ciphers_of = {
            "decrypt": Token().decrypt,
            "encrypt": new.encrypt,
            "pass_new": new.decrypt,
            failing: callable,
        }
        with pytest.raises(error):
            steps.rewrap_many(
                ciphers_of["decrypt"],
                ciphers_of["encrypt"],
                wrapped,
                pass_new=ciphers_of["pass_new"],
            )
        assert all_are_zeros(wiped)
        # The keys that are under the old KEK are wrapped before the others are tried.
        if failing == "encrypt":
            assert had(wiped, key)

    @pytest.mark.parametrize(
        "wrapped, more, error",
        [
            ([bytes(16)], {}, keywrap.BadLength),
            ([bytes(25)], {"keep_form": True}, keywrap.BadLength),
            (
                [bytes(16)],
                {"new_padded": True, "pass_new": pytest.fail},
                keywrap.BadLength,
            ),
            ([b""], {}, keywrap.BadLength),
            ([bytes(24), bytes(32)], {}, keywrap.BadLength),
            ([bytes(24)], {"keep_form": True, "old_padded": True}, ValueError),
            (["0123456789abcdef"], {}, TypeError),
        ],
    )
    def test_refused_without_a_call(self, wrapped, more, error):
        with pytest.raises(error):
            steps.rewrap_many(pytest.fail, pytest.fail, wrapped, **more)

    def test_no_keys(self):
        assert steps.rewrap_many(pytest.fail, pytest.fail, []) == []


def test_check_slots():
    """The slots of the rotation: each is found to be a wrapped key of its form, or none."""
    plain = pyca.aes_key_wrap(KEK, bytes(16))
    padded = pyca.aes_key_wrap_with_padding(KEK, bytes(13))
    texts = bytearray(plain + padded + bytes(24))
    kept = bytes(texts)
    statuses, forms = steps.check_slots(Token().decrypt, texts, 24)
    refused = [bool(status) for status in statuses]
    assert refused == [False, False, True]
    assert texts == kept
    assert list(forms) == [0, 1, 0]
    statuses, _ = steps.check_slots(pytest.fail, bytes(50), 25)
    assert all(statuses)
    assert len(statuses) == 2


def test_unwrap_any_slots():
    """The key and the form of each, or the refusal."""
    plain = pyca.aes_key_wrap(KEK, bytes(16))
    padded = pyca.aes_key_wrap_with_padding(KEK, bytes(13))
    texts = bytearray(plain + padded + bytes(24))
    results = steps.unwrap_any_slots(Token().decrypt, texts, 24)
    of_plain, of_padded, of_none = results
    assert of_plain == (bytes(16), keywrap.Kind.PLAIN)
    assert of_padded == (bytes(13), keywrap.Kind.PADDED)
    assert type(of_none) is keywrap.IntegrityFailed
