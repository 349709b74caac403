"""Shared helpers of the tests of keywrap-rotate. `cryptography` makes the expected bytes."""

import os
import random
import re
import shutil
import signal
import subprocess
import sys
import time

import pytest

pyca = pytest.importorskip(
    "cryptography.hazmat.primitives.keywrap",
    reason="no cryptography (apt-get install python3-cryptography)",
)

KEK = bytes(range(16))
NEW_KEK = bytes(range(100, 132))
# Runs only by `make evidence`, which sets KEYWRAP_EVIDENCE=1.
evidence = pytest.mark.skipif(
    os.environ.get("KEYWRAP_EVIDENCE") != "1", reason="left to KEYWRAP_ALL=1"
)
ROTATE = (sys.executable, "-B", "-m", "keywrap_rotate")


def patched(lines):
    """The rotation, each of whose processes has executed these lines before."""
    here = os.path.dirname(os.path.abspath(__file__))
    return (
        sys.executable,
        "-B",
        "-c",
        f"import os, sys, time\nsys.path.insert(0, {here!r})\n{lines}\n"
        "from keywrap_rotate import main\nsys.exit(main())",
    )


# A rotation that sleeps for $SLOW seconds before each key.
SLOWLY = patched(
    """from keywrap import _many
from rotation_help import before_each_key
_many.rewrap_slots = before_each_key(lambda text: time.sleep(float(os.environ.get("SLOW", "0.01"))))"""
)


def secrets_in(text):
    """The KEKs that the text shows in hex or as bytes."""
    return [
        secret
        for secret in (KEK.hex().encode(), NEW_KEK.hex().encode(), KEK, NEW_KEK)
        if secret in text
    ]


def wrapped_under(kek, key):
    """The wrapped key, padded if the length of the key is not plain."""
    wrap = (
        pyca.aes_key_wrap_with_padding
        if len(key) % 8 or len(key) < 16
        else pyca.aes_key_wrap
    )
    return wrap(kek, key)


def unwrapped(kek, wrapped):
    """The key, or `None`."""
    for unwrap in (pyca.aes_key_unwrap, pyca.aes_key_unwrap_with_padding):
        try:
            return unwrap(kek, wrapped)
        except (pyca.InvalidUnwrap, ValueError):
            pass
    return None


def make_keys(count, seed=0):
    """Keys of both forms."""
    source = random.Random(seed)
    return [source.randbytes(32 if number % 3 else 21) for number in range(count)]


def rows(kek, keys):
    """The rows of a table by their numbers: 10, 20 and so on."""
    return {number * 10: wrapped_under(kek, key) for number, key in enumerate(keys, 1)}


def lines_under(kek, keys):
    return b"".join(wrapped_under(kek, key).hex().encode() + b"\n" for key in keys)


def fill(store, keys, kek=KEK):
    """Makes a directory with a file of lines for each of these lists of keys: 0, 1 and so on."""
    shutil.rmtree(store, ignore_errors=True)
    store.mkdir()
    for number, keys_of_file in enumerate(keys):
        (store / str(number)).write_bytes(lines_under(kek, keys_of_file))


def state(store, keys):
    """For each of these files: old, new, or neither."""
    states = []
    for number, keys_of_file in enumerate(keys):
        content = (store / str(number)).read_bytes()
        if content == lines_under(KEK, keys_of_file):
            states.append("old")
        elif content == lines_under(NEW_KEK, keys_of_file):
            states.append("new")
        else:
            states.append("neither")
    return states


def set_keks(directory, monkeypatch, kek=KEK, new_kek=NEW_KEK):
    """Writes both KEKs into files, and sets the variables with their names."""
    for name, variable, content in (
        ("kek.hex", "KEYWRAP_KEK", kek),
        ("new-kek.hex", "KEYWRAP_NEW_KEK", new_kek),
    ):
        (directory / name).write_text(content.hex() + "\n", encoding="ascii")
        monkeypatch.setenv(variable, str(directory / name))


class Done:
    """How a rotation ended: its status, its messages, and the numbers of the last line by their words."""

    def __init__(self, status, stderr, printed=b""):
        assert secrets_in(stderr + printed) == []
        self.status = status
        self.printed = printed.decode()
        self.messages = stderr.decode("utf-8", "backslashreplace").splitlines()
        last = re.findall(
            r"(\d+) (pass|keys|new|old|refused|rewrapped)", (self.messages or [""])[-1]
        )
        self.counts = {word: int(number) for number, word in last}

    def __eq__(self, status):
        return self.status == status

    def has(self, text):
        return any(text in line for line in self.messages)

    def __repr__(self):
        return f"{self.status}: {self.messages}"


def start(*words, program=ROTATE, **more):
    """Begins a rotation. Its process has a group of its own."""
    return subprocess.Popen(
        [*program, *map(str, words)],
        stdout=subprocess.PIPE,
        stderr=subprocess.PIPE,
        start_new_session=True,
        **more,
    )


def end(running, timeout=200):
    try:
        printed, stderr = running.communicate(timeout=timeout)
    except subprocess.TimeoutExpired:
        os.killpg(running.pid, signal.SIGKILL)
        raise
    return Done(running.returncode, stderr, printed)


def rotate(*words, timeout=200, **more):
    return end(start(*words, **more), timeout)


def wait_for(condition):
    until = time.monotonic() + 120
    while not condition():
        assert time.monotonic() < until
        time.sleep(0.02)


def children(process):
    with open(
        f"/proc/{process.pid}/task/{process.pid}/children", encoding="ascii"
    ) as file:
        return [int(child) for child in file.read().split()]


def write_lines(name, lines):
    with open(name, "w", encoding="utf-8") as file:
        file.writelines(f"{line}\n" for line in lines)


def left_over(directory):
    return [
        name
        for _, _, names in os.walk(directory)
        for name in names
        if name.startswith(".rotating.")
    ]


def seen(path):
    """Everything about a file except the time of its last read."""
    status = os.lstat(path)
    return (
        *status[:7],
        status.st_mtime_ns,
        status.st_ctime_ns,
        path.read_bytes() if path.is_file() else None,
    )


def before_each_key(act):
    """A call in the place of `_many.rewrap_slots`, which rewraps keys one by one, and calls `act` before each."""
    from keywrap import _many

    real = _many.rewrap_slots

    def rewrap_slots(old_kek, new_kek, texts, length, flags):
        statuses = bytearray()
        for at in range(0, len(texts), length):
            slot = texts[at : at + length]
            act(bytes(slot))
            statuses += real(old_kek, new_kek, slot, length, flags)
            texts[at : at + length] = slot
        return statuses

    return rewrap_slots
