"""Whole rotations next to programs that rename files and directories, and next to writers that use `flock`, at several
rates. `cryptography` looks at every key. All of it is left to `make evidence`."""

import contextlib
import fcntl
import multiprocessing
import os
import pathlib
import random
import time

import pytest
from rotation_help import (
    KEK,
    NEW_KEK,
    evidence,
    lines_under,
    make_keys,
    rotate,
    unwrapped,
    wrapped_under,
)

RUNS = int(os.environ.get("KEYWRAP_RENAMES", "20"))
KEYS = make_keys(3)
OLD = lines_under(KEK, KEYS)
NEW = lines_under(NEW_KEK, KEYS)
pytestmark = evidence


def fill(files):
    for path in map(pathlib.Path, files):
        path.parent.mkdir(parents=True, exist_ok=True)
        path.write_bytes(OLD)


def contents():
    return [
        path.read_bytes() for path in pathlib.Path("store").rglob("*") if path.is_file()
    ]


def rename_files(rate, stopped):
    """Renames one file after the other to a free name."""
    source = random.Random(1)
    names = [f"store/{at % 20}/{at}" for at in range(300)]
    free = [f"store/{at % 20}/free{at}" for at in range(60)]
    while not stopped.is_set():
        one = source.randrange(len(names))
        other = source.randrange(len(free))
        with contextlib.suppress(FileNotFoundError):
            os.rename(names[one], free[other])
            names[one], free[other] = free[other], names[one]
        time.sleep(1 / rate)


def toggle_directory(rate, stopped):
    """Renames a directory of 20 files to and fro."""
    while not stopped.is_set():
        for one, other in ("store/a/x", "store/z/x"), ("store/z/x", "store/a/x"):
            os.rename(one, other)
            time.sleep(1 / rate)


@contextlib.contextmanager
def renaming(how, rate):
    stopped = multiprocessing.Event()
    process = multiprocessing.Process(target=how, args=(rate, stopped))
    process.start()
    try:
        yield
    finally:
        stopped.set()
        process.join()


@pytest.mark.parametrize("run", range(RUNS))
@pytest.mark.parametrize("rate", [50, 500])
def test_files_that_are_renamed_are_all_rotated(run, rate):
    fill(f"store/{at % 20}/{at}" for at in range(300))
    with renaming(rename_files, rate):
        done = rotate("--jobs", "2", "store")
    assert done.status == 0, done
    assert set(contents()) == {NEW}, done


@pytest.mark.parametrize("run", range(RUNS))
@pytest.mark.parametrize(
    "how, rate",
    [(rename_files, 5000), (toggle_directory, 500)],
    ids=["files", "directory"],
)
def test_no_rename_hides_an_old_key_behind_status_0(run, how, rate):
    """A run names the files that it could not read, and the run after the renames ends with 0."""
    fill(f"store/{at % 20}/{at}" for at in range(300))
    fill(f"store/a/x/{at}" for at in range(20))
    os.mkdir("store/z")
    with renaming(how, rate):
        done = rotate("--jobs", "2", "store")
    assert done.status in (0, 6), done
    has_old_key = set(contents()) != {NEW}
    assert not has_old_key or done == 6 and done.has("store/"), done
    done = rotate("store")
    assert done == 0, done
    assert set(contents()) == {NEW}


def write_in_place(numbers, seed, acknowledged):
    """Writes one key into each of these files at random moments, with `flock` and without a look at the name."""
    source = random.Random(seed)
    for number in numbers:
        time.sleep(source.random() * 0.25)
        key = source.randbytes(32)
        with open(f"store/{number}", "r+b") as file:
            fcntl.flock(file, fcntl.LOCK_EX)
            file.write(wrapped_under(NEW_KEK, key).hex().encode())
            file.flush()
            os.fsync(file.fileno())
        acknowledged.put((number, key))


def test_writers_with_flock_that_do_not_look_at_the_name_again():
    """At most one of 1,200 comes between the exchange and the end of the old file."""
    keys = [key for key in make_keys(3000) if len(key) == 32][:2000]
    lost = 0
    for seed in range(3):
        for number in range(400):
            fill([f"store/{number}"])
            pathlib.Path(f"store/{number}").write_bytes(lines_under(KEK, keys[:500]))
        acknowledged = multiprocessing.Queue()
        writers = [
            multiprocessing.Process(
                target=write_in_place,
                args=(range(at, 400, 6), 6 * seed + at, acknowledged),
            )
            for at in range(6)
        ]
        for writer in writers:
            writer.start()
        done = rotate("--jobs", "2", "store")
        written = dict(acknowledged.get() for _ in range(400))
        for writer in writers:
            writer.join()
        assert done.status in (0, 6), done
        for number, key in written.items():
            first = pathlib.Path(f"store/{number}").read_text().split("\n")[0]
            lost += unwrapped(NEW_KEK, bytes.fromhex(first)) != key
    assert lost <= 1
