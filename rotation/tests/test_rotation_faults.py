"""Faults of I/O at each call of each kind, and kills at each point of an exchange, while another program may write;
renames, new files and removals: status 0 is never wrong, no key is lost, and the next run finishes what is left."""

import collections
import os
import shutil
import subprocess
import sys
import time

import pytest
from rotation_help import (
    KEK,
    NEW_KEK,
    evidence,
    fill,
    left_over,
    lines_under,
    make_keys,
    patched,
    rotate,
    state,
)

FILES = 6
KEYS = [make_keys(20, seed) for seed in range(FILES)]
THEIRS = [lines_under(NEW_KEK, make_keys(1, seed)) for seed in (50, 51)]
# Before or after its Nth call for the store, a function fails, or its process is killed.
BROKEN = patched(
    """import errno, fcntl
from keywrap_rotate import replacing
what, number = os.environ["WHAT"], int(os.environ["NUMBER"])
calls = 0
def is_this(matches):
    global calls
    calls += matches
    return matches and (calls == number if number > 0 else calls % -number == 0)
def place(what):
    return os.readlink(f"/proc/self/fd/{what}") if isinstance(what, int) else os.fsdecode(what)
def die():
    if "EACH" in os.environ or not os.path.exists("once"):
        open("once", "w").close()
        os.kill(os.getpid(), 9)
def write(path, at):
    if "EACH" in os.environ or not os.path.exists("once"):
        with open(f"their{os.getpid()}", "wb") as file, open(f"theirs{at}", "rb") as content:
            file.write(content.read())
        os.rename(f"their{os.getpid()}", path)
def failing(module, name, number):
    real = getattr(module, name)
    def call(first, *more, **others):
        where = place(first)
        is_dir = name == "fsync" and os.path.isdir(where)
        if is_this((what == f"fail {name}" or is_dir and "fail dirsync" in what) and "/store" in where):
            raise OSError(number, os.strerror(number))
        if name == "write" and is_this(what == "short write" and "/store" in where and len(more[0]) > 1):
            return real(first, more[0][: len(more[0]) // 2])
        kill = is_this(what == f"kill at {name}" and ".rotating." in where or is_dir and "kill at dirsync" in what)
        if kill and name != "rename":
            die()
        answer = real(first, *more, **others)
        if kill:
            die()
        return answer
    setattr(module, name, call)
for name in "fsync", "pread", "write", "unlink", "rename":
    failing(os, name, errno.EIO)
failing(os, "fchmod", errno.EPERM)
failing(fcntl, "flock", errno.ENOLCK)
def exchange(one, other, real=replacing.exchange):
    how = what.split()[-1]
    hit = is_this(how in ("exchange", "before", "after", "written", "twice", "raced", "exchanged", "none"))
    if hit and how == "none":
        raise replacing.Refused("this file system cannot exchange two files: stop all writers, then use --quiesced")
    if hit and how == "before":
        die()
    if hit and how == "exchange":
        raise OSError(errno.EIO, "Input/output error")
    if hit and how in ("written", "twice", "raced"):
        write(other, 1)
    real(one, other)
    if hit and how == "twice":
        write(other, 2)
    if hit and how == "exchanged":
        raise OSError(errno.EIO, "Input/output error")
    if hit and how in ("after", "written", "twice"):
        die()
replacing.exchange = exchange"""
)


@pytest.fixture(autouse=True)
def store(tmp_path):
    for number, content in enumerate(THEIRS, 1):
        (tmp_path / f"theirs{number}").write_bytes(content)
    return tmp_path / "store"


def kinds(store):
    """How many files are old, new, or have their first or second content."""
    of_theirs = {THEIRS[0]: "1", THEIRS[1]: "2"}
    counts = collections.Counter()
    for number, found in enumerate(state(store, KEYS)):
        if found == "neither":
            found = of_theirs[(store / str(number)).read_bytes()]
        counts[found] += 1
    return counts


def broken(store, what, number, **more):
    """Fills the store, and runs a rotation in which this happens."""
    fill(store, KEYS)
    if os.path.exists("once"):
        os.unlink("once")
    files = store.iterdir() if "names" in what else [store]
    more = {
        "WHAT": what,
        "NUMBER": str(number),
        **more,
    }
    return rotate("--jobs", "1", *files, program=BROKEN, env={**os.environ, **more})


FAULTS = [
    "fail fsync",
    "fail dirsync",
    "fail dirsync of names",
    "fail pread",
    "fail write",
    "short write",
    "fail unlink",
    "fail rename",
    "fail fchmod",
    "fail flock",
    "fail exchange",
    "fail exchanged",
    "fail none",
]


@pytest.mark.parametrize("what", FAULTS)
@pytest.mark.parametrize(
    "numbers",
    [[1, 3, -1], pytest.param([2, 4, 5, 6, 8, 13, -2, -3], marks=evidence)],
    ids=["some", "all"],
)
def test_faults_of_input_and_output(store, what, numbers):
    for number in numbers:
        done = broken(store, what, number)
        found = kinds(store)
        if done == 0:
            assert set(found) == {"new"}, (what, number)
            assert left_over(store) == [], (what, number)
        assert set(found) <= {"old", "new"}
        if number == -1 and what in ("fail exchange", "fail none"):
            assert done.status in (5, 6)
            assert set(found) == {"old"}
        if (
            number == -1 and "dirsync" in what
        ):  # Files that are new, also before, and may be old again after a crash.
            for done in done, rotate(
                store, program=BROKEN, env={**os.environ, "WHAT": what, "NUMBER": "-1"}
            ):
                assert done == 6
                assert done.has(": it was not synced: Input/output error")
                assert set(found) == {"new"}
        assert rotate(store) == 0
        assert set(kinds(store)) == {"new"}
        assert sorted(os.listdir(store)) == list(map(str, range(FILES)))


KILLS = [
    "kill at rename",
    "kill before",
    "kill after",
    "kill at unlink",
    "kill at dirsync",
    "kill written",
    "kill twice",
    "raced",
]


@pytest.mark.parametrize("what", KILLS)
@pytest.mark.parametrize("each", [False, True])
@pytest.mark.parametrize(
    "numbers", [[1, 4], pytest.param([2, 3, 5, 6], marks=evidence)], ids=["some", "all"]
)
def test_kills_at_each_point_of_an_exchange(store, what, each, numbers):
    """All keys are right after the next run, or a file is named with 5 if only a person can decide."""
    for number in numbers:
        done = broken(store, what, number, **({"EACH": "1"} if each else {}))
        assert done.status in (0, 5, 6, -9)
        if done == 0:
            assert left_over(store) == []
            assert "old" not in kinds(store)
        last = rotate(store)
        found = kinds(store)
        assert "old" not in found, (what, number, last)
        assert last.status in (0, 5), (what, number, last)
        assert found["new"] == FILES or found["1"] + found["2"] > 0, (what, number)
        assert (last == 5) == bool(left_over(store))
        if last == 5:
            # Others wrote the file twice around one exchange: what came out is there, and named.
            assert what == "kill twice" or each and what == "kill written"
            assert last.has("compare it with the file")
            for name in left_over(store):
                assert (store / name).read_bytes() in THEIRS


MOVER = """
import os, random, sys, time
how, rate = sys.argv[1], float(sys.argv[2])
source = random.Random(3)
text = open("theirs1").read()
while True:
    one, other = source.randrange(10), source.randrange(10)
    try:
        if how == "move":
            name = source.choice([name for name in os.listdir(f"store/{one}") if not name.startswith(".")])
            os.rename(f"store/{one}/{name}", f"store/{other}/{name}")
        elif source.random() < 0.4:
            os.unlink(f"store/{one}/new{other}")
        else:
            with open("their", "w") as file:
                file.write(text)
            os.rename("their", f"store/{one}/new{other}")
    except (OSError, IndexError):
        pass
    time.sleep(1 / rate)
"""


@pytest.mark.parametrize(
    "how, rate", [("move", 50), ("move", 500), ("move", 5000), ("churn", 2000)]
)
@pytest.mark.parametrize("runs", [3, pytest.param(24, marks=evidence)])
def test_beside_programs_that_rename(store, how, rate, runs):
    """Status 0 is never wrong. A run reaches it during fifty renames a second, on a quiet machine in ten seconds."""
    keys = make_keys(1200)
    expected = {lines_under(NEW_KEK, [key]) for key in keys}
    for _ in range(runs):
        shutil.rmtree(store, ignore_errors=True)
        for number, key in enumerate(keys):
            directory = store / str(number % 10)
            directory.mkdir(parents=True, exist_ok=True)
            (directory / f"f{number}").write_bytes(lines_under(KEK, [key]))
        mover = subprocess.Popen([sys.executable, "-B", "-c", MOVER, how, str(rate)])
        began = time.monotonic()
        try:
            # On a busy machine each pass takes long.
            done = rotate("--jobs", "1", store, timeout=1000)
        finally:
            mover.kill()
            mover.wait()
        found = {path.read_bytes() for path in store.glob("*/f*")}
        assert len(found) == len(keys), done
        assert done.status in (0, 6), done
        is_slow = time.monotonic() - began > 10 and os.getloadavg()[0] < os.cpu_count()
        assert rate > 50 or done == 0 and not is_slow, done
        assert found == expected or done == 6
        assert rotate(store) == 0
        assert {path.read_bytes() for path in store.glob("*/f*")} == expected
