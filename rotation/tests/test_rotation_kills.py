"""Random kills and stops of a rotation, over each kind of store, with live writers, a KEK that is replaced for a
moment, and two rotations at once, also of halves of the store.

`cryptography` (OpenSSL) checks every key: none is lost, none is under a foreign KEK. With status 0 all are new.
With KEYWRAP_KILLS=N there are N times the 48 kills."""

import contextlib
import json
import os
import pathlib
import random
import signal
import time

import pytest
from store_kit import KINDS, OTHER_KEK, Writer, key_and_kek, server_of
from rotation_help import (
    KEK,
    NEW_KEK,
    children,
    end,
    left_over,
    patched,
    start,
    wait_for,
    wrapped_under,
)

ROUNDS = int(os.environ.get("KEYWRAP_KILLS", "1"))
RANDOMLY = patched(
    """import random
from keywrap import _many
from keywrap_rotate import keys, replacing
from rotation_help import before_each_key
keys.ROWS = 10
def wait(seconds):
    time.sleep(random.random() * seconds)
def slow(*words, real=replacing.exchange):
    wait(0.01)
    real(*words)
replacing.exchange = slow
_many.rewrap_slots = before_each_key(lambda text: wait(0.004))"""
)


def replace_kek(source, runs):
    """Replaces the new KEK for a moment, after each run has begun its report."""
    for report, running in runs.items():
        wait_for(
            lambda: running.poll() is not None
            or os.path.exists(report)
            and os.path.getsize(report)
        )
    for content in (OTHER_KEK, NEW_KEK):
        pathlib.Path("other").write_text(content.hex())
        os.rename("other", "new-kek.hex")
        time.sleep(source.random() * 0.2)


def disturb(source, running):
    """Kills or stops a run, one of its processes, or all of them. Returns whether it killed something."""
    time.sleep(source.random() * 0.6)
    how = source.choice(["run", "worker", "all", "stop", "terminate"])
    with contextlib.suppress(ProcessLookupError, FileNotFoundError):  # It ended before.
        workers = children(running)
        if how == "stop":
            os.kill(source.choice([*workers, running.pid]), signal.SIGSTOP)
            time.sleep(0.4)
            os.killpg(running.pid, signal.SIGCONT)
        elif running.poll() is None:
            victim = {
                "all": -running.pid,
                "worker": source.choice([*workers, running.pid]),
            }.get(how, running.pid)
            os.kill(victim, signal.SIGTERM if how == "terminate" else signal.SIGKILL)
            return True
    return False


@pytest.fixture
def filled(request, kind):
    """filled(seed): a store of random keys under the KEK, the keys by their places, and a source of numbers."""
    server = server_of(KINDS[kind], request)

    def fill(seed):
        source = random.Random(f"{kind} {seed}")
        keys = {}
        wrapped = {}
        for place in range(KINDS[kind].places):
            keys[place] = source.randbytes(32)
            wrapped[place] = wrapped_under(KEK, keys[place])
        return KINDS[kind](wrapped, server), keys, source

    return fill


def begun(store, source, *words):
    """A new report, and the run that writes it."""
    report = f"report{source.random()}"
    return report, start(
        "--jobs", "2", "--report", report, *words, *store.words, program=RANDOMLY
    )


def last(store, source):
    """How a run ends that is begun again until it is done, and its counts: others may need some."""
    for _ in range(5):
        report, running = begun(store, source)
        done = end(running)
        if done != 6:
            break
    return done, json.loads(open(report).readlines()[-1])


@pytest.mark.parametrize("number", range(ROUNDS))
@pytest.mark.parametrize("kind", KINDS)
@pytest.mark.parametrize("count", [1, 2])
def test_random_kills(filled, tmp_path, number, count):
    """Four kills of one run or two over the whole store, or of two over its halves."""
    store, keys, source = filled(f"{count} {number}")
    kills = 0
    with Writer(store, source) as acknowledged:
        while kills < 4:
            may_have_halves = count == 2 and store.has_shards
            has_halves = may_have_halves and source.randrange(2) == 0
            runs = {}
            for half in range(1, count + 1):
                words = ["--shard", f"{half}/2"] if has_halves else []
                report, running = begun(store, source, *words)
                runs[report] = running
            if source.randrange(3) == 0:
                replace_kek(source, runs)
            for running in runs.values():
                kills += disturb(source, running)
            for running in runs.values():
                end(running)
    done, counts = last(store, source)
    written = dict(acknowledged)
    every_key = {*keys.values(), *(key for _, key in acknowledged)}
    # A file that was written twice around an exchange: a person decides.
    left = list(tmp_path.rglob(".rotating.*"))
    for path in left:
        assert done.has(
            f"{path}: a run left it, and others wrote the file since: compare it with the file"
        )
        texts = path.read_text().split()
        found = {key_and_kek(bytes.fromhex(text))[0] for text in texts}
        assert found <= every_key
        path.unlink()
    if left and done == 5:
        done, counts = last(store, source)
    held = {place: key_and_kek(wrapped) for place, wrapped in store.held().items()}
    expected = {**keys, **written}
    assert held == {place: (key, NEW_KEK) for place, key in expected.items()}
    assert done.status == 0
    assert counts["keys"] == len(keys)
    assert counts["new"] == len(keys)
    assert counts["refused"] == 0
    assert left_over(tmp_path) == []
