"""keywrap.pyca.install: libraries over pyca encrypt and decrypt by our calls, which are counted."""

import importlib.util
import subprocess
import sys
import types

import pytest

from keywrap import pyca as ours

theirs = pytest.importorskip(
    "cryptography.hazmat.primitives.keywrap",
    reason="no cryptography (apt-get install python3-cryptography)",
)

CALLS = [name for name in ours.__all__ if name.startswith("aes_")]
PYCAS = {name: getattr(theirs, name) for name in CALLS}
OURS = {name: getattr(ours, name) for name in CALLS}


@pytest.fixture
def calls(monkeypatch):
    """Installs them, and lists the calls of the package that they make."""
    made = []

    def counted(name, call):
        def counting(*given):
            made.append(name)
            return call(*given)

        return counting

    for name in "wrap", "unwrap", "wrap_padded", "unwrap_padded":
        monkeypatch.setattr(ours, name, counted(name, getattr(ours, name)))
    ours.install()
    yield made
    ours.uninstall()


def jwcrypto():
    jwk = pytest.importorskip(
        "jwcrypto.jwk", reason="no jwcrypto (apt-get install python3-jwcrypto)"
    )
    from jwcrypto import jwe

    key = jwk.JWK.generate(kty="oct", size=256)
    token = jwe.JWE(
        b"a message", '{"alg": "A256KW", "enc": "A256GCM"}', recipient=key
    ).serialize(compact=True)
    yield
    read = jwe.JWE()
    read.deserialize(token, key)
    assert read.payload == b"a message"


def jose():
    jwe = pytest.importorskip(
        "jose.jwe", reason="no python-jose (apt-get install python3-jose)"
    )
    kek = bytes(range(32))
    token = jwe.encrypt(b"a message", kek, algorithm="A256KW", encryption="A256GCM")
    yield
    assert jwe.decrypt(token, kek) == b"a message"


def authlib():
    jose = pytest.importorskip(
        "authlib.jose", reason="no Authlib (apt-get install python3-authlib)"
    )
    jwe = jose.JsonWebEncryption()
    kek = bytes(range(32))
    header = {"alg": "A256KW", "enc": "A256GCM"}
    token = jwe.serialize_compact(header, b"a message", kek)
    yield
    read = jwe.deserialize_compact(token, kek)
    assert read["payload"] == b"a message"


def pgpy():
    pgp = pytest.importorskip("pgpy", reason="no PGPy (apt-get install python3-pgpy)")
    from pgpy import constants

    curve = constants.EllipticCurveOID.NIST_P256
    cipher = constants.SymmetricKeyAlgorithm.AES256
    key = pgp.PGPKey.new(constants.PubKeyAlgorithm.ECDSA, curve)
    key.add_uid(
        pgp.PGPUID.new("reader"),
        usage={constants.KeyFlags.Sign},
        hashes=[constants.HashAlgorithm.SHA256],
        ciphers=[cipher],
    )
    part = pgp.PGPKey.new(constants.PubKeyAlgorithm.ECDH, curve)
    key.add_subkey(part, usage={constants.KeyFlags.EncryptCommunications})
    message = pgp.PGPMessage.new("a message")
    encrypted = key.pubkey.encrypt(message, cipher=cipher)
    yield
    assert key.decrypt(encrypted).message == "a message"


@pytest.mark.filterwarnings("ignore")
@pytest.mark.parametrize("library", [jwcrypto, jose, authlib, pgpy])
class TestLibraries:
    def test_both_ways(self, library, calls):
        steps = library()
        next(steps)
        assert calls == ["wrap"]
        assert next(steps, "end") == "end"
        assert calls == ["wrap", "unwrap"]

    @pytest.mark.parametrize("ours_first", [True, False])
    def test_with_pyca(self, library, calls, ours_first):
        """One side is pyca's."""
        if not ours_first:
            ours.uninstall()
        steps = library()
        next(steps)
        (ours.uninstall if ours_first else ours.install)()
        assert next(steps, "end") == "end"
        assert calls == ["wrap" if ours_first else "unwrap"]


class Module(types.ModuleType):
    """A library may have a class of its own for its modules."""


@pytest.fixture(params=[types.ModuleType, Module])
def importer(request):
    """A module that imported pyca's function under another name, and one that imported ours."""
    module = request.param("importer")
    module.of_pyca = PYCAS["aes_key_wrap"]
    module.of_ours = ours.aes_key_wrap
    sys.modules["importer"] = module
    yield module
    del sys.modules["importer"]


def test_names(importer, calls):
    """The names in pyca's module and in others, and back; the second call of either changes nothing."""
    for _ in range(2):
        assert importer.of_pyca is theirs.aes_key_wrap is not PYCAS["aes_key_wrap"]
        assert importer.of_pyca(bytes(16), bytes(16)) == PYCAS["aes_key_wrap"](
            bytes(16), bytes(16)
        )
        ours.install()
    assert calls == ["wrap", "wrap"]
    later = types.ModuleType("later")
    later.call = theirs.aes_key_unwrap
    sys.modules["later"] = later
    for _ in range(2):
        ours.uninstall()
        assert importer.of_pyca is PYCAS["aes_key_wrap"]
        assert importer.of_ours is OURS["aes_key_wrap"]
        assert {name: getattr(theirs, name) for name in CALLS} == PYCAS
        assert {name: getattr(ours, name) for name in CALLS} == OURS
        assert later.call is PYCAS["aes_key_unwrap"]
    del sys.modules["later"]


def test_other_code_in_the_place_of_pycas(calls):
    """A second call of install replaces it, also in a module that imported it, and uninstall puts it back."""
    module = types.ModuleType("importer")
    module.call = theirs.aes_key_wrap = other = lambda *given: b"other"
    sys.modules["importer"] = module
    try:
        ours.install()
        assert (
            theirs.aes_key_wrap(bytes(16), bytes(16))
            == module.call(bytes(16), bytes(16))
            != b"other"
        )
        assert calls == ["wrap", "wrap"]
        ours.uninstall()
        assert theirs.aes_key_wrap is module.call is other
    finally:
        del sys.modules["importer"]
        theirs.aes_key_wrap = PYCAS["aes_key_wrap"]
        ours.install()


def test_loads_no_lazy_module():
    spec = importlib.util.find_spec("colorsys")
    lazy = importlib.util.module_from_spec(spec)
    importlib.util.LazyLoader(spec.loader).exec_module(lazy)
    sys.modules["lazy"] = lazy
    ours.install()
    ours.uninstall()
    assert type(sys.modules.pop("lazy")) is not types.ModuleType


def test_functions_look_like_pycas(calls):
    for name in CALLS:
        function = getattr(theirs, name)
        pycas = PYCAS[name]
        assert function.__name__ == name
        assert function.__module__ == "keywrap.pyca"
        assert function.__code__.co_varnames[:3] == pycas.__code__.co_varnames[:3]
        error = ValueError
        if "unwrap" in name:
            error = ours.InvalidUnwrap
        with pytest.raises(error):
            function(bytes(16), b"", backend=None)


def test_without_pyca():
    code = 'import sys; sys.modules["cryptography"] = None; from keywrap import pyca; pyca.install()'
    ended = subprocess.run([sys.executable, "-c", code], capture_output=True, text=True)
    assert ended.stderr.splitlines()[-1].startswith("ModuleNotFoundError")
