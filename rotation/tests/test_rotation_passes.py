"""Passes over a store in memory, whose keys others move, write and remove between any two steps. The status is compared
with what the store has at the end."""

import contextlib
import itertools
import random
import types

import pytest

from keywrap_rotate.found import (
    DONE,
    INTERRUPTED,
    REFUSED,
    UNFINISHED,
    Changed,
    Found,
    Gone,
    Refused,
    Unanswered,
)
from keywrap_rotate.listing import Unit
from keywrap_rotate.passes import Passes
from keywrap_rotate.report import Report


class Key:
    """A file with one key: its state, and its identity, which a write changes and a move does not."""

    numbers = itertools.count()

    def __init__(self, state):
        self.state = state
        self.identity = str(next(self.numbers))


class Memory:
    """Places with keys. A listing sees one place after the other. Before each step others do what `acts` says."""

    noun = "files"

    def __init__(self, states, order, acts=()):
        self.places = {place: Key(state) for place, state in states.items()}
        self.order = order
        self.acts = dict(acts)
        self.steps = 0
        self.passes = 0
        self.moves = []
        self.trouble = {}
        #: The identities of keys that a listing had, and that were not read since.
        self.unread = set()

    def step(self):
        self.steps += 1
        act = self.acts.get(self.steps)
        if act is not None:
            act(self)

    def move(self, one, other):
        if one in self.places and other not in self.places:
            self.places[other] = self.places.pop(one)
            self.moves.append((self.passes, self.places[other]))

    def seen(self):
        found = []
        for place in self.order:
            self.step()
            if place in self.places:
                found.append((place, self.places[place].identity))
        return found

    @contextlib.contextmanager
    def listed(self, may_write):
        self.passes += 1
        first = self.seen()
        read = set()
        last = []
        self.unread |= {identity for _, identity in first}

        def take(unit, found):
            if not found.moved:
                read.add(found.identity or unit.identity)
            self.unread -= {found.identity, found.read_identity}

        def rest():
            last[:] = self.seen()
            self.unread |= {identity for _, identity in last} - read
            left = [
                Unit(place, 1, identity)
                for place, identity in last
                if identity not in read
            ]
            return left, len(left)

        def left_out():
            return [place for place, identity in self.seen() if identity in self.unread]

        began = len(self.moves)
        yield types.SimpleNamespace(
            units=[Unit(place, 1, identity) for place, identity in first],
            number=len(first),
            weight=1,
            found=Found(),
            is_quiet=lambda found: first == last and len(self.moves) == began,
            take=take,
            left_out=left_out,
            warnings=lambda: [],
            rest=rest,
        )

    def do(self, unit, rings, may_write, found):
        self.step()
        key = self.places.get(unit.name)
        if key is None:
            raise Gone
        if unit.name in self.trouble:
            self.trouble[unit.name](self)
        self.step()
        if self.places.get(unit.name) is not key:
            raise Changed
        found.keys = 1
        found.identity = key.identity
        found.digest = "digest"
        found.read_identity = key.identity
        if key.state == "foreign":
            found.refuse("", "under no KEK of this rotation")
        elif key.state == "new":
            found.new = 1
        else:
            found.old["the KEK"] += 1
            if may_write and key.state == "stuck":
                found.unwritten = 1
            elif may_write:
                self.places[unit.name] = Key("new")
                found.identity = self.places[unit.name].identity


class Keks:
    def rings(self):
        return {}


class Now:
    """A pool that does units at once, in the order of the store or in another one."""

    stopped = False

    def __init__(self, mixed=None):
        self.mixed = mixed

    def __call__(self, work, units, count):
        units = list(units)
        if self.mixed:
            self.mixed.shuffle(units)
        for unit in units:
            yield unit, work([unit])[0]


@pytest.fixture(autouse=True)
def no_waiting(monkeypatch):
    monkeypatch.setattr("time.sleep", lambda seconds: None)


def run(store, may_write=True, pool=None):
    made = Passes(store, Keks(), pool or Now(), Report(None), may_write)
    made.run()
    return made


def states(store):
    return {place: key.state for place, key in store.places.items()}


OLD = {"a": "old", "b": "old", "c": "old"}
NEW = dict.fromkeys("abc", "new")


class TestPasses:
    """Passes over a store in memory, which nobody else uses, or in which others move keys between steps."""

    @pytest.mark.parametrize(
        "given, may_write, status, numbers",
        [
            (OLD, True, DONE, (2, 3)),
            (NEW, True, DONE, (1, 0)),
            ({**OLD, "b": "new"}, True, DONE, (2, 2)),
            ({**OLD, "b": "foreign"}, True, REFUSED, (2, 2)),
            ({}, True, REFUSED, (1, 0)),
            ({"a": "foreign"}, True, REFUSED, (1, 0)),
            ({**OLD, "c": "stuck"}, True, UNFINISHED, (4, 2)),
            (OLD, False, UNFINISHED, (1, 0)),
            (NEW, False, DONE, (1, 0)),
            ({}, False, REFUSED, (1, 0)),
            ({"a": "new", "b": "old"}, False, UNFINISHED, (1, 0)),
            ({"a": "foreign", "b": "old"}, False, REFUSED, (1, 0)),
        ],
    )
    def test_status_of_a_store_that_nobody_else_uses(
        self, given, may_write, status, numbers
    ):
        store = Memory(given, "abcd")
        made = run(store, may_write)
        assert made.status() == status
        assert (made.number, made.rewrapped) == numbers
        then = {"old": "new"} if may_write else {}
        assert states(store) == {
            place: then.get(state, state) for place, state in given.items()
        }

    @pytest.mark.parametrize(
        "order", ["".join(order) for order in itertools.permutations("abcd")]
    )
    @pytest.mark.parametrize(
        "given", [OLD, {"a": "old", "b": "new"}], ids=["all old", "one old"]
    )
    def test_one_move_at_any_step_hides_no_key(self, order, given):
        """Whatever the order of the listing is, a key that moves once is read under the new KEK by the last pass."""
        undisturbed = Memory(given, order)
        run(undisturbed)
        count = 0
        for at in range(1, undisturbed.steps + 12):
            for one, other in itertools.permutations("abcd", 2):
                store = Memory(given, order, {at: lambda store: store.move(one, other)})
                assert run(store).status() == DONE
                assert set(states(store).values()) == {"new"}, (at, one, other)
                count += bool(store.moves)
        assert count > 50

    @pytest.mark.parametrize("seed", range(4))
    def test_many_moves_hide_a_key_only_by_a_move_in_both_last_passes(self, seed):
        """The one hole that the page names: status 0 with an old key needs moves of this key in both last passes."""
        source = random.Random(seed)
        holes = ended = 0
        for _ in range(1500):
            steps = source.sample(range(1, 80), source.randint(2, 12))
            pairs = [source.sample("abcdef", 2) for _ in steps]
            acts = {
                at: lambda store, pair=pair: store.move(*pair)
                for at, pair in zip(steps, pairs)
            }
            given = {"a": "old", "b": source.choice(["old", "new"]), "c": "new"}
            store = Memory(given, source.sample("abcdef", 6), acts)
            made = run(store, pool=Now(source))
            ended += made.status() == DONE
            for key in (
                key
                for key in store.places.values()
                if key.state == "old" and made.status() == DONE
            ):
                moved = {number for number, which in store.moves if which is key}
                assert {made.number, made.number - 1} <= moved, (
                    made.number,
                    store.moves,
                )
                holes += 1
        assert ended > 1000
        assert holes < 15


class Restless(Memory):
    """Others rename a key after each listing, before it is read."""

    def seen(self):
        found = super().seen()
        one, other = "ab" if "a" in self.places else "ba"
        self.move(one, other)
        return found


def test_a_key_that_no_pass_can_read():
    """Two passes in a row write nothing, and the key is still there: this is no success, and its file is named."""
    made = run(Restless({"a": "old", "c": "new"}, "abc"))
    assert made.status() == UNFINISHED
    assert made.left_out in (["a"], ["b"])


def write(place, state):
    return lambda store: store.places.__setitem__(place, Key(state))


def remove(place):
    return lambda store: store.places.pop(place, None)


@pytest.mark.parametrize(
    "act", [write("b", "new"), write("d", "new"), remove("b"), remove("a")]
)
def test_a_write_of_others_at_any_step(act):
    """A writer under the new KEK, or one that removes a key, at any step: the run ends with 0."""
    for at in range(1, 40):
        store = Memory(OLD, "abcd", {at: act})
        assert run(store).status() == DONE
        assert set(states(store).values()) == {"new"}


def test_a_writer_that_never_rests():
    """Under the new KEK every key becomes new. Under the KEK the run is no success."""
    store = Memory(
        OLD, "abcd", {at: write("abcd"[at % 4], "new") for at in range(1, 1000, 3)}
    )
    assert run(store).status() in (DONE, UNFINISHED)
    assert "old" not in states(store).values()
    store = Memory(OLD, "abcd", {at: write("b", "old") for at in range(1, 10000, 3)})
    assert run(store).status() == UNFINISHED


def raising(error, times=1):
    left = [error] * (10**5 if times == 99 else times)

    def trouble(store):
        if left:
            raise left.pop()

    return trouble


@pytest.mark.parametrize(
    "error, times, status",
    [
        (Unanswered("locked"), 1, DONE),
        (Unanswered("locked"), 99, UNFINISHED),
        (Changed(), 2, DONE),
        (Changed(), 99, UNFINISHED),
        (MemoryError(), 1, DONE),
        (Gone(), 1, DONE),
        (Refused("no key"), 99, REFUSED),
        (OSError(5, "I/O"), 99, REFUSED),
        (OSError(5, "I/O"), 1, DONE),
    ],
)
def test_a_unit_that_is_there_and_was_not_read_is_never_0(error, times, status):
    for given in OLD, NEW:
        store = Memory(given, "abcd")
        store.trouble["b"] = raising(error, times)
        assert run(store).status() == (
            REFUSED if given is NEW and type(error) is OSError else status
        )
        assert (states(store)["b"] == "new") == (status == DONE or given is NEW)


class Forgetful(Now):
    """One unit has no answer."""

    def __call__(self, work, units, count):
        return list(super().__call__(work, units, count))[:-1]


class Stopped(Now):
    def __call__(self, work, units, count):
        self.stopped = True
        return []


class TestEnds:
    @pytest.mark.parametrize(
        "pool, status", [(Forgetful, UNFINISHED), (Stopped, INTERRUPTED)]
    )
    def test_a_pass_without_all_answers(self, pool, status):
        assert run(Memory(OLD, "abcd"), pool=pool()).status() == status
