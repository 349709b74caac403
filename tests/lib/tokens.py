"""A token of SoftHSM, and 5,000 wrapped keys that are rewrapped by it. OpenSSL makes what is due."""

import os
import pathlib
from typing import NamedTuple

from builds import ROOT, run
from rules import DEFAULT_IV, Form, by_openssl

SOURCES = ROOT / "tests/tokens"
MODULE = "/usr/lib/softhsm/libsofthsm2.so"
PIN = "1234"
OLD_KEK, NEW_KEK = bytes(range(32)), bytes(range(255, 223, -1))
COUNT = 5000
# The number of the key that is damaged, in the middle of the others.
DAMAGED = 2500
# Keys a second of the processor: a tenth of what was measured. A block at a time is 600.
LEAST = 20_000


def keys_of_32_bytes():
    return [number.to_bytes(32, "big") for number in range(1, COUNT + 1)]


def wrapped_under(kek):
    return [
        by_openssl("wrap", "encrypt", Form.PLAIN, kek, key, DEFAULT_IV)
        for key in keys_of_32_bytes()
    ]


def damaged():
    return bytes(40)


def environment():
    """The variables of a token, which is made in the test's directory."""
    conf = pathlib.Path("softhsm2.conf").absolute()
    pathlib.Path("tokens").mkdir()
    conf.write_text(f"directories.tokendir = {os.getcwd()}/tokens\n")
    env = {**os.environ, "SOFTHSM2_CONF": str(conf), "KEYWRAP_MODULE": MODULE}
    pins = "--pin", PIN, "--so-pin", PIN
    run("softhsm2-util", "--init-token", "--free", "--label", "t", *pins, env=env)
    return env


def library_over_token():
    """Builds libecb.so, and returns its directory."""
    flags = run("pkg-config", "--cflags", "p11-kit-1").split()
    words = "-O2", "-shared", "-fPIC", *flags, SOURCES / "ecb.c"
    run("cc", *words, "-ldl", "-o", "libecb.so")
    return os.getcwd()


class Printed(NamedTuple):
    """The numbers that a program of tests/tokens prints."""

    calls: int
    blocks: int
    refused: int
    rate: int


def check(*command, env, **options):
    """Runs a program over the wrapped keys, and compares what it writes with what OpenSSL wraps. A damaged key is
    refused, and stays. Returns how many keys a second of the processor it rewraps."""
    given, due = wrapped_under(OLD_KEK), wrapped_under(NEW_KEK)
    given[DAMAGED] = due[DAMAGED] = damaged()
    source, target = pathlib.Path("given"), pathlib.Path("rewrapped")
    source.write_bytes(b"".join(given))
    files = source.absolute(), target.absolute()
    output = run(*command, OLD_KEK.hex(), NEW_KEK.hex(), *files, env=env, **options)
    printed = Printed(*map(int, output.split()))
    assert target.read_bytes() == b"".join(due)
    assert printed.calls == 48
    assert printed.refused == 1
    # The new KEK encrypts nothing of the refused one.
    assert printed.blocks in (48 * COUNT, 48 * COUNT - 24)
    return printed.rate
