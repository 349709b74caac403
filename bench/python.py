"""Measures how long a call takes, and compares it with Debian's pyca and the C call: python3 bench/python.py WHEEL

The C call is made through cffi; so is the one that is refused at once, which shows what that costs.
Microseconds by the processor time of this thread, the best of many short rounds."""

import sys
import tempfile
import time
import timeit
import zipfile

LENGTHS = (16, 32, 4096)
ROUNDS = 200
# A round has at most so many calls, and takes about so long.
CALLS = 100
ROUND_US = 1000


def calls(length):
    """The calls with a key of this length, by their names."""
    import keywrap
    from keywrap import _ffi

    kek = bytes(range(32))
    key = bytes(length)
    answer = _ffi.ffi.new("uint8_t[]", length + 8)
    wrapped = keywrap.wrap(kek, key)
    yield "wrap", lambda: keywrap.wrap(kek, key)
    yield "C call", lambda: _ffi.lib.keywrap_wrap(
        kek, 32, key, length, answer, length + 8
    )
    yield "refused C call", lambda: _ffi.lib.keywrap_wrap(
        kek, 0, key, length, answer, length + 8
    )
    yield "unwrap", lambda: keywrap.unwrap(kek, wrapped)
    kept = keywrap.Kek(kek)
    yield "wrap with a Kek", lambda: keywrap.wrap(kept, key)
    yield "unwrap with a Kek", lambda: keywrap.unwrap(kept, wrapped)
    try:
        from cryptography.hazmat.primitives import keywrap as theirs
    except ImportError:
        print("left out: pyca (apt-get install python3-cryptography)", file=sys.stderr)
        return
    assert theirs.aes_key_wrap(kek, key) == wrapped
    yield "pyca's wrap", lambda: theirs.aes_key_wrap(kek, key)
    yield "pyca's unwrap", lambda: theirs.aes_key_unwrap(kek, wrapped)


def microseconds(call):
    """How long a call takes in the fastest round."""
    timer = timeit.Timer(call, timer=time.thread_time)
    one_us = timer.timeit(1) * 1e6
    count = min(CALLS, int(ROUND_US / one_us) + 1)
    fastest = min(timer.repeat(ROUNDS, count))
    return fastest / count * 1e6


if __name__ == "__main__":
    with tempfile.TemporaryDirectory() as workdir:
        zipfile.ZipFile(sys.argv[1]).extractall(workdir)
        sys.path.insert(0, workdir)
        print("key,call,us")
        for length in LENGTHS:
            for name, call in calls(length):
                print(f"{length},{name},{microseconds(call):.2f}")
