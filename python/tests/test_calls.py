"""The package without its results: named flags, names, the objects that calls for many keys take, and wiping.
tests/rows.txt has the results, and tests/faces.py the messages."""

import contextlib
import copy
import gc
import pathlib
import pickle
import types

import pytest

import keywrap.pyca
from keywrap import Kind, _many
from test_objects import Liar

KEK = bytes(range(16))
WRAPPED = keywrap.wrap(KEK, KEK)
PADDED_OF_7 = keywrap.wrap_padded(KEK, KEK[:7])
# Each call for many keys: the KEKs that come first, and one item that it takes.
GIVEN_BY_CALL = {
    "wrap_many": ([KEK], KEK),
    "unwrap_many": ([KEK], WRAPPED),
    "rewrap_many": ([KEK, KEK], WRAPPED),
    "check_many": ([KEK], WRAPPED),
}
each_call = pytest.mark.parametrize("name", GIVEN_BY_CALL)


def test_self_test(monkeypatch):
    assert keywrap.self_test() is None
    failing = types.SimpleNamespace(keywrap_self_test=lambda: 5, KEYWRAP_OK=0)
    monkeypatch.setattr(keywrap, "_lib", failing)
    with pytest.raises(RuntimeError, match="self test failed"):
        keywrap.self_test()


@pytest.mark.parametrize("flag", ["old_padded", "new_padded"])
@pytest.mark.parametrize(
    "call, given", [(keywrap.rewrap, WRAPPED), (keywrap.rewrap_many, [])]
)
def test_keep_form_goes_with_no_form(flag, call, given):
    flags = {"keep_form": True, flag: True}
    with pytest.raises(ValueError, match="keep_form goes with neither"):
        call(KEK, KEK, given, **flags)


def test_forms_by_position():
    assert keywrap.rewrap(KEK, KEK, PADDED_OF_7, True, True) == PADDED_OF_7


@pytest.mark.parametrize(
    "text, kind",
    [
        (WRAPPED, Kind.PLAIN),
        (PADDED_OF_7, Kind.PADDED),
        (bytes(24), None),
        (b"", None),
    ],
)
def test_check_returns_the_form(text, kind):
    assert keywrap.check(KEK, text) == kind


def test_check_many_of_illegal_lengths():
    assert keywrap.check_many(KEK, [b"", b""]) == [None, None]
    assert keywrap.check_many(KEK, bytes(34), 17) == [None, None]


def test_kek_shows_no_bytes():
    with keywrap.Kek(bytearray(KEK)) as kek:
        assert f"{kek} {kek!r} {[kek]}" == "<keywrap.Kek> <keywrap.Kek> [<keywrap.Kek>]"


def test_kek_and_its_bytes():
    """A copy of its bytes is a KEK."""
    with keywrap.Kek(bytearray(KEK)) as kek:
        assert keywrap.pyca.aes_key_unwrap(kek, WRAPPED) == KEK
        assert keywrap.unwrap(bytes(kek), WRAPPED) == KEK


@pytest.mark.parametrize("copied", [copy.copy, copy.deepcopy, pickle.dumps])
def test_kek_cannot_be_pickled_or_copied(copied):
    with keywrap.Kek(KEK) as kek:
        with pytest.raises(TypeError, match="a Kek cannot be pickled or copied"):
            copied(kek)


def test_kek_is_cleared():
    """By `close`, and at the end of `with`, also after an exception."""
    kek = keywrap.Kek(KEK)
    assert any(kek)
    kek.close()
    assert not any(kek)
    with pytest.raises(ZeroDivisionError), keywrap.Kek(KEK) as left:
        1 / 0
    assert not any(left)


@pytest.mark.parametrize(
    "call",
    [
        lambda kek: keywrap.wrap(kek, KEK),
        lambda kek: keywrap.check(kek, bytearray()),
        lambda kek: keywrap.rewrap(KEK, kek, WRAPPED),
        lambda kek: keywrap.wrap_many(kek, [KEK]),
    ],
    ids=["wrap", "check", "rewrap", "wrap_many"],
)
def test_closed_kek_is_refused(call):
    kek = keywrap.Kek(KEK)
    kek.close()
    message = "the KEK is closed, or 184 bytes long"
    with pytest.raises(keywrap.BadKekLength, match=message):
        call(kek)


def test_length_of_a_kek():
    with pytest.raises(keywrap.BadKekLength, match="the KEK is 15 bytes long"):
        keywrap.Kek(bytes(15))


def test_names():
    """`import *` gives all names without an underscore, except the modules that the package uses."""
    assert sorted(keywrap.__all__) == keywrap.__all__
    public = []
    for name, item in sorted(vars(keywrap).items()):
        is_own = getattr(item, "__module__", "") == "keywrap"
        if is_own and not name.startswith("_"):
            public.append(name)
    assert public == keywrap.__all__


def test_package_has_types():
    package = pathlib.Path(keywrap.__file__).parent
    assert (package / "py.typed").exists()


def test_prompts_of_the_readme():
    """They run as they are."""
    doctest = pytest.importorskip("doctest")
    failed, tried = doctest.testfile("../README.md")
    assert failed == 0
    assert tried > 3


def test_statuses_of_slots():
    """`keywrap.rotate` goes by them: rewrapped, under the new KEK already, and refused."""
    old_kek = KEK
    new_kek = KEK[::-1]
    another_kek = bytes(16)
    slots = bytearray()
    for kek in old_kek, new_kek, another_kek:
        slots += keywrap.wrap(kek, KEK)
    pass_new = keywrap._lib.KEYWRAP_PASS_NEW
    statuses = _many.rewrap_slots(old_kek, new_kek, slots, 24, pass_new)
    assert list(statuses) == [0, _many.ALREADY, 5]
    assert _many.ALREADY == 1


@each_call
@pytest.mark.parametrize(
    "items_of",
    [
        lambda item: map(bytearray, [item, item]),
        lambda item: [Liar(item), memoryview(item).cast("Q")],
        lambda item: iter((item, item)),
    ],
    ids=["map", "list", "iterator"],
)
def test_any_iterable(name, items_of):
    """The items are what test_objects.py has for one key, from any iterable, or one object and a length."""
    call = getattr(keywrap, name)
    keks, item = GIVEN_BY_CALL[name]
    expected = call(*keks, item + item, len(item))
    assert call(*keks, items_of(item)) == expected


@each_call
@pytest.mark.parametrize(
    "items_of",
    [
        lambda item: None,
        lambda item: 7,
        lambda item: "text",
        lambda item: item,
        lambda item: [7],
        lambda item: [None, item],
        lambda item: memoryview(item + item).cast("B", [2, len(item)]),
    ],
    ids=["None", "7", "text", "item", "numbers", "a None", "two dimensions"],
)
def test_wrong_items(name, items_of):
    keks, item = GIVEN_BY_CALL[name]
    with pytest.raises(TypeError):
        getattr(keywrap, name)(*keks, items_of(item))


@each_call
def test_refusal_among_the_items(name):
    """The results of one call, of which one is a refusal, are given to another: its place and its kind are named."""
    keks, item = GIVEN_BY_CALL[name]
    with pytest.raises(TypeError, match=": item 1 is a refusal, BadLength$"):
        getattr(keywrap, name)(*keks, [item, keywrap.BadLength("bad length"), item])


@each_call
def test_length_that_does_not_fit(name):
    keks, item = GIVEN_BY_CALL[name]
    all_items = item * 3
    for length in -1, 0, 5, len(item) + 1:
        message = f"bad length: {len(all_items)} bytes are not items of {length} bytes"
        with pytest.raises(keywrap.BadLength, match=message):
            getattr(keywrap, name)(*keks, all_items, length)


@each_call
def test_no_items(name):
    call = getattr(keywrap, name)
    keks, _ = GIVEN_BY_CALL[name]
    assert call(*keks, []) == []
    assert call(*keks, b"", 16) == []


@pytest.mark.parametrize(
    "name, item",
    [
        ("wrap_many", bytes(range(32))),
        ("wrap_many", bytes(range(9))),
        ("unwrap_many", keywrap.wrap(KEK, bytes(range(32)))),
    ],
)
@pytest.mark.parametrize(
    "kek, items_of",
    [
        (KEK, lambda item: [item] * 3),
        (KEK[1:], lambda item: [item] * 3),
        (KEK, lambda item: [item, item[1:]]),
    ],
    ids=["done", "refused", "lengths differ"],
)
def test_keys_in_buffers_are_wiped(monkeypatch, name, item, kek, items_of):
    """Also if the call is refused, or the lengths differ."""
    buffers = []
    wipe = _many._Slots.wipe

    def noted(slots):
        buffers.append(slots.buffer)
        wipe(slots)

    monkeypatch.setattr(_many._Slots, "wipe", noted)
    is_padded = len(item) == 9
    with contextlib.suppress(keywrap.KeywrapError):
        getattr(keywrap, name)(kek, items_of(item), padded=is_padded)
    (buffer,) = buffers
    assert len(buffer) >= 2 * len(item) - 1
    assert buffer == bytes(len(buffer))


@each_call
def test_a_refusal_in_a_cycle_can_be_collected(name):
    """Some versions of Python crash if they collect a view whose buffer C uses."""
    keks, item = GIVEN_BY_CALL[name]
    for wrong in ([bytes(9)] * 2, [memoryview(item), memoryview(item)[:8]]):
        try:
            getattr(keywrap, name)(*keks, wrong)
        except keywrap.BadLength as refusal:
            refusal.cycle = [refusal, wrong]
        gc.collect()
