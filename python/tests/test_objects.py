"""Objects with a false length do not make a call read or write out of bounds. tests/test_python.py runs this
file under the address sanitizer too."""

import array
import functools
import gc
import mmap
import os
import sys
import threading
import time

import pytest

import keywrap
from keywrap import pyca, steps

KEK = bytes(range(16))
KEY = bytes.fromhex("00112233445566778899aabbccddeeff")
WRAPPED = keywrap.wrap(KEK, KEY)
WRAPPED_PADDED = keywrap.wrap_padded(KEK, KEY)


class Liar(bytes):
    """Reports a length that is too long."""

    def __len__(self):
        return 4096

    def __getitem__(self, at):
        return b"lie"

    def __bytes__(self):
        return b"lie"


class Shrunk(bytes):
    """Reports a length that is too short."""

    def __len__(self):
        return 0


class LyingArray(bytearray):
    """The same for a mutable object."""

    def __len__(self):
        return 4096


def swapped(blocks):
    """A permutation of blocks in the place of AES: it exchanges the halves."""
    return blocks[8:] + blocks[:8]


CALLS = [
    (keywrap.wrap, (KEK, KEY), WRAPPED),
    (keywrap.wrap, (KEK, KEY, b"\xa6" * 8), WRAPPED),
    (keywrap.unwrap, (KEK, WRAPPED), KEY),
    (keywrap.unwrap, (KEK, WRAPPED, b"\xa6" * 8), KEY),
    (keywrap.wrap_padded, (KEK, KEY), WRAPPED_PADDED),
    (keywrap.unwrap_padded, (KEK, WRAPPED_PADDED), KEY),
    (keywrap.unwrap_any, (KEK, WRAPPED), (KEY, keywrap.Kind.PLAIN)),
    (keywrap.rewrap, (KEK, KEK, WRAPPED), WRAPPED),
    (keywrap.check, (KEK, WRAPPED), keywrap.Kind.PLAIN),
    (keywrap.check_with_length, (KEK, WRAPPED), (keywrap.Kind.PLAIN, 16)),
    (pyca.aes_key_wrap, (KEK, KEY), WRAPPED),
    (pyca.aes_key_unwrap, (KEK, WRAPPED), KEY),
    (pyca.aes_key_wrap_with_padding, (KEK, KEY), WRAPPED_PADDED),
    (pyca.aes_key_unwrap_with_padding, (KEK, WRAPPED_PADDED), KEY),
]
# The same without a KEK.
SWAPPED = steps.wrap(swapped, KEY)
SWAPPED_PADDED = steps.wrap_padded(swapped, KEY)
BY_STEPS = [
    (functools.partial(steps.wrap, swapped), (KEY,), SWAPPED),
    (functools.partial(steps.wrap_padded, swapped), (KEY,), SWAPPED_PADDED),
    (functools.partial(steps.unwrap, swapped), (SWAPPED,), KEY),
    (functools.partial(steps.unwrap_padded, swapped), (SWAPPED_PADDED,), KEY),
]


# Calls for many keys, with an item and with all items in one object.
def wrap_two(kek, key):
    return keywrap.wrap_many(kek, [KEY, key])


def wrap_joined(kek, keys):
    return keywrap.wrap_many(kek, keys, 16)


def unwrap_two(kek, text):
    return keywrap.unwrap_many(kek, [WRAPPED, text])


def unwrap_joined(kek, texts):
    return keywrap.unwrap_many(kek, texts, 24)


def rewrap_listed(kek, new, text):
    return keywrap.rewrap_many(kek, new, [text])


def rewrap_joined(kek, new, text):
    return keywrap.rewrap_many(kek, new, text, 24)


def check_listed(kek, text):
    return keywrap.check_many(kek, [text])


def check_joined(kek, text):
    return keywrap.check_many(kek, text, 24)


MANY = [
    (wrap_two, (KEK, KEY), [WRAPPED, WRAPPED]),
    (wrap_joined, (KEK, KEY + KEY), [WRAPPED, WRAPPED]),
    (unwrap_two, (KEK, WRAPPED), [KEY, KEY]),
    (unwrap_joined, (KEK, WRAPPED + WRAPPED), [KEY, KEY]),
    (rewrap_listed, (KEK, KEK, WRAPPED), [WRAPPED]),
    (rewrap_joined, (KEK, KEK, WRAPPED), [WRAPPED]),
    (check_listed, (KEK, WRAPPED), [keywrap.Kind.PLAIN]),
    (check_joined, (KEK, WRAPPED), [keywrap.Kind.PLAIN]),
]


def with_each(given, made):
    """The arguments, with each in turn replaced by `made` of it, and with all replaced."""
    for at in range(len(given)):
        objects = list(given)
        objects[at] = made(given[at])
        yield objects
    yield [made(item) for item in given]


TAKEN = {
    "a subclass with a greater length": Liar,
    "a subclass with a smaller length": Shrunk,
    "a bytearray": bytearray,
    "a bytearray with a greater length": LyingArray,
    "a view": memoryview,
    "a view of a liar": lambda item: memoryview(Liar(item)),
    "a read-only view": lambda item: memoryview(bytearray(item)).toreadonly(),
    "a slice of a view": lambda item: memoryview(b"<" + item + b">")[1:-1],
    "an array": lambda item: array.array("B", item),
    "an array of words": lambda item: array.array("Q", item),
    "a view of words": lambda item: memoryview(array.array("H", item)),
    "a view of two dimensions": lambda item: memoryview(item).cast(
        "B", [2, len(item) // 2]
    ),
}


@pytest.mark.parametrize("call, given, answer", [*CALLS, *BY_STEPS, *MANY])
@pytest.mark.parametrize("made", TAKEN.values(), ids=TAKEN)
def test_is_taken_as_its_bytes(call, given, answer, made):
    for objects in with_each(given, made):
        assert call(*objects) == answer
        assert type(call(*objects)) is type(answer)


def released(item):
    view = memoryview(item)
    view.release()
    return view


class NoBuffer:
    """Has every method of bytes, but no buffer."""

    def __len__(self):
        return 16

    def __getitem__(self, at):
        return 0

    def __bytes__(self):
        return KEK


REFUSED = {
    "text": lambda item: item.decode("latin-1"),
    "a list": list,
    "a tuple": tuple,
    "a number": lambda item: 16,
    "an object of bytes": lambda item: NoBuffer(),
    "a released view": released,
    "a view with a step": lambda item: memoryview(bytes(2 * len(item)))[::2],
    "a view backwards": lambda item: memoryview(item)[::-1],
}


@pytest.mark.parametrize("call, given, answer", [*CALLS, *BY_STEPS, *MANY])
@pytest.mark.parametrize("made", REFUSED.values(), ids=REFUSED)
def test_is_a_type_error(call, given, answer, made):
    for objects in with_each(given, made):
        with pytest.raises(TypeError):
            call(*objects)


@pytest.mark.parametrize("call, given, answer", CALLS)
def test_none_is_a_type_error_but_as_an_initial_value(call, given, answer):
    for at in range(min(len(given), 2)):
        objects = list(given)
        objects[at] = None
        with pytest.raises(TypeError):
            call(*objects)


@pytest.mark.parametrize("length", range(3))
@pytest.mark.parametrize("call", [keywrap.wrap, keywrap.unwrap, keywrap.unwrap_padded])
def test_a_liar_of_0_to_2_bytes(call, length):
    with pytest.raises(keywrap.BadLength, match=f"is {length} bytes long"):
        call(KEK, Liar(bytes(length)))


def test_objects_can_change_and_go_after_a_refusal():
    """No buffer is held longer than the call, not even by the exception."""
    key = bytearray(15)
    room = mmap.mmap(-1, 15)
    for given in (key, room):
        try:
            keywrap.wrap(KEK, given)
        except keywrap.BadLength:
            key.clear()
            room.close()
            break


@pytest.mark.parametrize("number", range(256))
def test_pythons_own_bytes_stay(number):
    """Python shares its bytes objects of length 0 and 1."""
    shared = bytes([number])
    given = bytearray(shared)
    wrapped = keywrap.wrap_padded(KEK, given)
    assert keywrap.unwrap_padded(KEK, wrapped) == shared
    with pytest.raises(keywrap.BadLength):
        keywrap.rewrap(KEK, KEK, given)
    assert shared[0] == number
    assert bytes(bytearray()) == b""


@pytest.mark.parametrize("call, given, answer", CALLS)
def test_copies_are_wiped(monkeypatch, call, given, answer):
    """Copies of objects that are not bytes, also if the call is refused."""
    copies = []
    copied = keywrap._copied

    def noted(item):
        copies.append(copied(item))
        return copies[-1]

    monkeypatch.setattr(keywrap, "_copied", noted)
    objects = [bytearray(item) for item in given]
    assert call(*objects) == answer
    with pytest.raises(keywrap.BadKekLength):
        call(bytearray(15), *objects[1:])
    assert len(copies) == 2 * len(given)
    for copy in copies:
        assert copy == bytes(len(copy))


@pytest.mark.parametrize("key", [b"seven..", b"nine byte"])
@pytest.mark.parametrize(
    "call",
    [keywrap.unwrap_padded, lambda kek, text: keywrap.unwrap_any(kek, text)[0]],
    ids=["unwrap_padded", "unwrap_any"],
)
def test_padded_keys_are_wiped(monkeypatch, key, call):
    """A padded key with its padding is wiped once it is copied without it."""
    wiped = []
    wipe = keywrap._wipe

    def noted(buffer, length):
        wiped.append(buffer)
        wipe(buffer, length)

    monkeypatch.setattr(keywrap, "_wipe", noted)
    assert call(KEK, keywrap.wrap_padded(KEK, key)) == key
    padded_length = len(key) + -len(key) % 8
    assert wiped == [bytes(padded_length)]


def test_eight_threads():
    """They run at the same time, and each gets its own answer."""
    wrong = []

    def work(number):
        kek = bytes([number]) * 32
        for count in range(300):
            length = 16 + count % 50 * 8
            key = bytes([number, count % 256]) * (length // 2)
            wrapped = keywrap.wrap(kek, bytearray(key))
            unwrapped = keywrap.unwrap(bytearray(kek), wrapped)
            kind = keywrap.check(kek, wrapped)
            if unwrapped != key or kind is None:
                wrong.append(number)

    threads = [threading.Thread(target=work, args=[number]) for number in range(8)]
    for thread in threads:
        thread.start()
    for thread in threads:
        thread.join()
    assert wrong == []


def test_other_threads_run_while_one_computes():
    """Python itself would not switch threads. On a busy machine the other thread may sleep through a call."""
    ticks = [0]
    done = threading.Event()

    def count():
        while not done.is_set():
            ticks[0] += 1
            time.sleep(0)

    def ticked():
        before = ticks[0]
        keywrap.wrap(KEK, bytes(1048576))
        return ticks[0] > before

    counter = threading.Thread(target=count)
    interval = sys.getswitchinterval()
    until = time.monotonic() + 60
    try:
        counter.start()
        sys.setswitchinterval(1000)
        # After it the counter waits by this interval, too.
        time.sleep(0.1)
        while not (found := ticked()) and time.monotonic() < until:
            pass
    finally:
        done.set()
        sys.setswitchinterval(interval)
        counter.join()
    assert found


def resident():
    with open("/proc/self/statm", encoding="ascii") as file:
        return int(file.read().split()[1]) * mmap.PAGESIZE


def test_many_calls_take_no_memory():
    """A million calls, or KEYWRAP_CALLS."""
    padded = keywrap.wrap_padded(KEK, b"seven..")
    damaged = bytes(24)
    view = memoryview(WRAPPED)

    def calls(count):
        for _ in range(count):
            keywrap.wrap(KEK, KEY)
            keywrap.unwrap_padded(KEK, padded)
            try:
                keywrap.unwrap(KEK, damaged)
            except keywrap.IntegrityFailed:
                pass
            keywrap.check(KEK, view)

    calls(10_000)
    gc.collect()
    before = resident()
    calls(int(os.environ.get("KEYWRAP_CALLS", 1_000_000)) // 4)
    gc.collect()
    assert resident() - before < 1 << 20
