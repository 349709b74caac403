"""Tokens of SoftHSM with known AES keys, and a library around it whose calls are late, fail or lie."""

import os
import pathlib
import shutil
import subprocess
import sys
from urllib.parse import quote

import pytest

#: Puts a key into a token. With an id that is empty it takes the place of those that have the label.
PUT_KEY = """
import sys
import PyKCS11
module, token, pin, label, key, key_id = sys.argv[1:]
library = PyKCS11.PyKCS11Lib()
library.load(module)
for slot in library.getSlotList(tokenPresent=True):
    if library.getTokenInfo(slot).label.rstrip() == token:
        break
session = library.openSession(slot, PyKCS11.CKF_SERIAL_SESSION | PyKCS11.CKF_RW_SESSION)
session.login(pin)
if not key_id:
    for object in session.findObjects([(PyKCS11.CKA_LABEL, label)]):
        session.destroyObject(object)
session.createObject([
    (PyKCS11.CKA_CLASS, PyKCS11.CKO_SECRET_KEY), (PyKCS11.CKA_KEY_TYPE, PyKCS11.CKK_AES),
    (PyKCS11.CKA_TOKEN, True), (PyKCS11.CKA_PRIVATE, True), (PyKCS11.CKA_SENSITIVE, True),
    (PyKCS11.CKA_LABEL, label), (PyKCS11.CKA_ID, bytes.fromhex(key_id)),
    (PyKCS11.CKA_VALUE, bytes.fromhex(key)), (PyKCS11.CKA_ENCRYPT, True), (PyKCS11.CKA_DECRYPT, True)])
"""
PIN = "8361-PIN-4927"
MODULE = "/usr/lib/softhsm/libsofthsm2.so"
_HERE = pathlib.Path(__file__).resolve().parent


def build_shim(directory):
    """Compiles the library around SoftHSM, and returns its path."""
    path = pathlib.Path(directory) / "shim.so"
    words = ["-shared", "-fPIC", "-O1", "-Wall", "-Wextra", "-Werror"]
    headers = subprocess.run(
        ["pkg-config", "--cflags", "p11-kit-1"], stdout=subprocess.PIPE, text=True
    ).stdout.split()
    subprocess.run(
        ["cc", *words, *headers, str(_HERE / "shim.c"), "-o", str(path), "-ldl"],
        check=True,
    )
    return path


class Tokens:
    """The tokens in one directory, whose configuration SOFTHSM2_CONF names."""

    def __init__(self, directory):
        self.directory = pathlib.Path(directory)
        store = self.directory / "tokens"
        store.mkdir()
        conf = self.directory / "softhsm2.conf"
        conf.write_text(f"directories.tokendir = {store}\nlog.level = ERROR\n")
        self.environment = {**os.environ, "SOFTHSM2_CONF": str(conf)}
        self.pin_file = self.directory / "pin"
        self.pin_file.write_text(PIN + "\n")

    def _run(self, *words):
        subprocess.run(
            ["softhsm2-util", *map(str, words)],
            env=self.environment,
            check=True,
            stdout=subprocess.DEVNULL,
            stderr=subprocess.PIPE,
        )

    def add(self, token):
        """Makes a token."""
        self._run(
            "--init-token",
            "--free",
            *("--label", token, "--pin", PIN, "--so-pin", PIN),
        )

    def put(self, token, label, key, key_id="01"):
        """Puts an AES key into a token: softhsm2-util would cut it at a zero byte."""
        # No library of a token is loaded into the process of the tests, which forks.
        words = [MODULE, token, PIN, label, key.hex(), key_id]
        subprocess.run(
            [sys.executable, "-c", PUT_KEY, *words], env=self.environment, check=True
        )

    def replace(self, token, label, key):
        """Gives this label to another key, and removes the key that had it."""
        self.put(token, label, key, "")

    def uri(self, token, label=None, key_id=None, module=MODULE, pin_file=None):
        """The URI of a key."""
        attributes = [f"token={quote(token, safe='')}"]
        if label is not None:
            attributes.append(f"object={quote(label, safe='')}")
        if key_id is not None:
            attributes.append(f"id={key_id}")
        path = ";".join(attributes)
        pin = pin_file or self.pin_file
        return f"pkcs11:{path}?module-path={module}&pin-source=file:{pin}"


def needs_softhsm():
    """Skips a test without SoftHSM."""
    if not shutil.which("softhsm2-util") or not os.path.exists(MODULE):
        pytest.skip("no SoftHSM (apt-get install softhsm2)")
    pytest.importorskip(
        "PyKCS11", reason="no PyKCS11 (apt-get install python3-pykcs11)"
    )


def needs_shim():
    """Skips a test that cannot compile the library around it."""
    needs_softhsm()
    found = shutil.which("cc") and shutil.which("pkg-config")
    if not found or subprocess.run(["pkg-config", "--exists", "p11-kit-1"]).returncode:
        pytest.skip("no cc, or no pkcs11.h (apt-get install gcc libp11-kit-dev)")
