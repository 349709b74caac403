"""KEKs in tokens: SoftHSM, and a library around it that is late, fails and lies. OpenSSL makes the expected bytes."""

import json
import os
import sqlite3
import time

import pytest

import keywrap_rotate as rotate
import softhsm
from cryptography.hazmat.primitives.ciphers import Cipher, algorithms, modes
from keywrap_rotate import kek_calls, pkcs11, pkcs11_uri
from keywrap_rotate.found import Refused, Unanswered, WrongKeks
from keywrap_rotate.pkcs11 import TokenKek
from keywrap_rotate.pkcs11_uri import BadUri, parsed
from rotation_help import (
    KEK,
    NEW_KEK,
    evidence,
    fill,
    lines_under,
    make_keys,
    rotate as run,
    start,
    end,
    state,
    unwrapped,
    wait_for,
    wrapped_under,
)

URI = "pkcs11:object=kek?module-path=/lib/x.so"
SHIM_RULES = "rules"
CALLS = "calls"


@pytest.fixture(scope="session")
def made(tmp_path_factory):
    """Tokens that are made once: `old` has the KEK, `new` its successor, and both have a key of another label."""
    softhsm.needs_softhsm()
    tokens = softhsm.Tokens(tmp_path_factory.mktemp("softhsm"))
    for token, kek in ("old", KEK), ("new", NEW_KEK):
        tokens.add(token)
        tokens.put(token, "another", bytes(range(50, 66)), "02")
        tokens.put(token, "kek", kek)
    return tokens


@pytest.fixture
def tokens(made, monkeypatch):
    """These tokens, which the variable of SoftHSM names."""
    monkeypatch.setenv("SOFTHSM2_CONF", made.environment["SOFTHSM2_CONF"])
    return made


@pytest.fixture(scope="session")
def shim_path(tmp_path_factory):
    softhsm.needs_shim()
    return softhsm.build_shim(tmp_path_factory.mktemp("shim"))


@pytest.fixture
def shim(tokens, shim_path, tmp_path, monkeypatch):
    """shim(RULES) makes the calls of the library that shim.c describes late or wrong."""
    monkeypatch.setenv("SHIM_MODULE", softhsm.MODULE)
    monkeypatch.setenv("SHIM_RULES", str(tmp_path / SHIM_RULES))

    def install(*rules, counts=True):
        if counts:
            monkeypatch.setenv("SHIM_CALLS", str(tmp_path / CALLS))
        (tmp_path / SHIM_RULES).write_text("\n".join(rules) + "\n")
        return str(shim_path)

    return install


def set_uris(monkeypatch, old=None, new=None):
    """Gives KEKs that are in tokens to the rotation."""
    if old is not None:
        monkeypatch.setenv("KEYWRAP_KEK", old)
    if new is not None:
        monkeypatch.setenv("KEYWRAP_NEW_KEK", new)


class TestUri:
    def test_all_attributes(self):
        uri = parsed(
            "pkcs11:token=My%20token;manufacturer=A%26B;serial=%31;model=m;object=a+b;id=%00%ff;"
            "type=secret-key;slot-id=12?module-path=/usr/lib/x.so&pin-source=file:/etc/a%20pin"
        )
        assert uri.module == "/usr/lib/x.so"
        assert uri.pin_file == "/etc/a pin"
        assert uri.fields == {
            "token": b"My token",
            "manufacturer": b"A&B",
            "serial": b"1",
            "model": b"m",
        }
        assert (uri.label, uri.key_id, uri.slot) == (b"a+b", b"\x00\xff", 12)

    @pytest.mark.parametrize(
        "source", ["/etc/pin", "file:/etc/pin", "file:///etc/pin", "file:/etc/p%69n"]
    )
    def test_sources_of_a_pin(self, source):
        assert parsed(f"{URI}&pin-source={source}").pin_file == "/etc/pin"

    @pytest.mark.parametrize(
        "text, names",
        [
            (f"{URI}&pin-value=1234", "pin-value is refused"),
            ("pkcs11:object=k;pin-value=1234?module-path=/x", "pin-value is refused"),
            (f"{URI}&pin-value=%31234", "pin-value is refused"),
            (f"{URI}&PIN-VALUE=1234", "unknown attribute 'PIN-VALUE'"),
            (f"{URI}&module-name=x", "unknown attribute 'module-name'"),
            ("pkcs11:slot-description=x?module-path=/x", "'slot-description'"),
            ("pkcs11:object=k;x-vendor=1?module-path=/x", "'x-vendor'"),
            (f"{URI}&module-path=/y", "module-path is there twice"),
            ("pkcs11:object=a;object=b?module-path=/x", "object is there twice"),
            ("pkcs11:object=k", "needs module-path"),
            ("pkcs11:token=k?module-path=/x", "needs object, or id"),
            ("pkcs11:?module-path=/x", "needs object, or id"),
            ("pkcs11:object?module-path=/x", "not NAME=VALUE"),
            ("pkcs11:object=k;type=private?module-path=/x", "type=secret-key"),
            ("pkcs11:object=k;slot-id=0x1?module-path=/x", "slot-id"),
            ("pkcs11:object=k;slot-id=-1?module-path=/x", "slot-id"),
            ("pkcs11:object=k?module-path=x.so", "module-path is not an absolute"),
            (f"{URI}&pin-source=pin", "pin-source is not an absolute"),
            (f"{URI}&pin-source=|/bin/pin", "pin-source is not an absolute"),
            (f"{URI}&pin-source=file:pin", "pin-source is not an absolute"),
            (f"{URI}&pin-source=https://x/pin", "pin-source is not an absolute"),
            (f"{URI}&pin-source=/a%00b", "pin-source is not an absolute"),
        ],
    )
    def test_refused_by_name(self, text, names):
        with pytest.raises(BadUri, match=names) as refused:
            parsed(text)
        assert "1234" not in str(refused.value)

    @pytest.mark.parametrize(
        "value",
        ["%", "%4", "%4g", "%%41", "a b", "é", "a/b", "a?b", 'a"', "a<b", "a#b"],
    )
    def test_percent_encoding_is_exact(self, value):
        text = f"pkcs11:object=k;token={value}?module-path=/x"
        with pytest.raises(BadUri):
            parsed(text)

    def test_every_byte(self):
        for byte in range(256):
            for digits in f"{byte:02x}", f"{byte:02X}":
                uri = parsed(f"pkcs11:id=a%{digits}b;object=k?module-path=/x")
                assert uri.key_id == b"a" + bytes([byte]) + b"b"

    def test_a_pin_in_an_argument(self, tmp_path):
        """Nothing is touched, and nothing shows the PIN, in capital letters either."""
        fill(tmp_path / "store", [make_keys(2)])
        for scheme in "pkcs11", "PKCS11", "Pkcs11":
            uri = f"{scheme}:object=k?module-path=/x&pin-value=98761234"
            done = run("--kek", uri, "--report", "report", "store")
            assert done == 2
            assert done.has("pin-value is refused")
            assert "98761234" not in repr(done)
        assert not os.path.exists("report")

    def test_a_pin_of_a_kek_that_is_not_used(self, tmp_path):
        """To verify, the old KEK is not needed. The report has the options."""
        fill(tmp_path / "store", [make_keys(2)])
        uri = "pkcs11:object=k?module-path=/x&pin-value=98761234"
        done = run("--verify", "--kek", uri, "--report", "report", "store")
        assert done == 2
        assert done.has("pin-value is refused")
        assert not os.path.exists("report")


class MixedUp(TokenKek):
    """A KEK whose token exchanges the answers to two blocks in one call, or in none."""

    def __init__(self, kek, wrong_call):
        self.cipher = Cipher(algorithms.AES(kek), modes.ECB())
        self.wrong_call = wrong_call
        self.calls = 0

    def encrypt(self, blocks):
        return self._answer(self.cipher.encryptor().update(blocks))

    def decrypt(self, blocks):
        return self._answer(self.cipher.decryptor().update(blocks))

    def _answer(self, answer):
        self.calls += 1
        if self.calls == self.wrong_call:
            return answer[16:32] + answer[:16] + answer[32:]
        return answer


class TestAnswersOfOtherKeys:
    """Each text is then a valid wrapping, but of another key. A key of 32 bytes takes 24 calls."""

    KEYS = [bytes(range(at, at + 32)) for at in range(3)]

    def rewrapped(self, old, new):
        texts = bytearray().join(wrapped_under(KEK, key) for key in self.KEYS)
        length = len(texts) // len(self.KEYS)
        statuses = kek_calls.rewrap_slots(old, new, texts, length)
        assert not any(statuses)
        slots = range(0, len(texts), length)
        return [unwrapped(NEW_KEK, bytes(texts[at : at + length])) for at in slots]

    def test_right_answers(self):
        assert self.rewrapped(MixedUp(KEK, None), MixedUp(NEW_KEK, None)) == self.KEYS

    @pytest.mark.parametrize(
        "old, new",
        [
            (MixedUp(KEK, 24), MixedUp(NEW_KEK, None)),
            (MixedUp(KEK, None), MixedUp(NEW_KEK, 1)),
            (MixedUp(KEK, 24), NEW_KEK),
            (KEK, MixedUp(NEW_KEK, 1)),
        ],
        ids=[
            "last unwrap",
            "first wrap",
            "last unwrap to a file",
            "first wrap of a file",
        ],
    )
    def test_exchanged_answers(self, old, new):
        with pytest.raises(Refused, match="not the key that it was"):
            self.rewrapped(old, new)


@pytest.mark.parametrize(
    "old, new",
    [
        (MixedUp(KEK, None), MixedUp(NEW_KEK, None)),
        (MixedUp(KEK, None), NEW_KEK),
        (KEK, MixedUp(NEW_KEK, None)),
    ],
    ids=["both in tokens", "old in a token", "new in a token"],
)
def test_keys_of_several_lengths_in_one_call(old, new):
    """A key of 24 bytes is wrapped plain, and shorter ones are padded: all have wrapped keys of 32 bytes."""
    keys = [bytes(range(length)) for length in range(17, 25)]
    texts = bytearray().join(wrapped_under(KEK, key) for key in keys)
    assert not any(kek_calls.rewrap_slots(old, new, texts, 32))
    assert texts == b"".join(wrapped_under(NEW_KEK, key) for key in keys)


PAIRS = ["both", "old", "new"]


@pytest.fixture(params=PAIRS)
def uris(request, tokens, monkeypatch):
    """Which of the KEKs are in tokens. The other one is in a file."""
    old = tokens.uri("old", "kek")
    new = tokens.uri("new", "kek")
    set_uris(
        monkeypatch,
        old if request.param in ("both", "old") else None,
        new if request.param in ("both", "new") else None,
    )
    return tokens


class TestRotation:
    def test_files(self, uris, tmp_path):
        """Both forms and lengths that differ; what is neither is refused and stays."""
        keys = [make_keys(60, seed) for seed in range(4)]
        fill(tmp_path / "store", keys)
        foreign = wrapped_under(bytes(16), bytes(32)).hex().encode() + b"\n"
        path = tmp_path / "store/0"
        path.write_bytes(path.read_bytes() + foreign)
        done = run("--jobs", 2, "store")
        assert done == 5
        assert done.counts["new"] == 240
        assert done.counts["refused"] == 1
        assert path.read_bytes() == lines_under(NEW_KEK, keys[0]) + foreign
        assert state(tmp_path / "store", keys)[1:] == ["new"] * 3

    def test_table(self, uris, tmp_path):
        """Some keys are new before, and one has no key."""
        keys = make_keys(500)
        rows = [
            (at, wrapped_under(NEW_KEK if at % 5 == 0 else KEK, key))
            for at, key in enumerate(keys)
        ]
        with sqlite3.connect("keys.db") as database:
            database.execute("CREATE TABLE keys (id INTEGER PRIMARY KEY, key BLOB)")
            database.executemany("INSERT INTO keys VALUES (?, ?)", rows)
            database.execute("INSERT INTO keys VALUES (1000, NULL)")
        done = run("--table", "keys", "keys.db")
        assert done == 0
        assert done.counts["rewrapped"] == 400
        with sqlite3.connect("keys.db") as database:
            found = dict(database.execute("SELECT id, key FROM keys"))
        assert found.pop(1000) is None
        due = [wrapped_under(NEW_KEK, key) for key in keys]
        assert [found[at] for at in range(500)] == due

    def test_no_key_under_the_kek(self, uris, tmp_path):
        """A second run says so, as it does with KEKs in files."""
        keys = [make_keys(20)]
        fill(tmp_path / "store", keys, NEW_KEK)
        done = run("store")
        assert done == 0, done
        assert done.has("no key was under the KEK"), done

    def test_verify_and_dry_run(self, uris, tmp_path):
        keys = [make_keys(20)]
        fill(tmp_path / "store", keys)
        assert run("--dry-run", "store") == 6
        assert state(tmp_path / "store", keys) == ["old"]
        assert run("--verify", "store") == 5
        fill(tmp_path / "store", keys, NEW_KEK)
        assert run("--verify", "store") == 0

    def test_report(self, uris, tmp_path):
        """It has the URIs and no PIN; the ids of the KEKs are those of the same KEKs in files."""
        fill(tmp_path / "store", [make_keys(20)])
        done = run("--report", "report", "--summary-json", "store")
        assert done == 0
        text = (tmp_path / "report").read_text()
        for shown in text, repr(done), done.printed:
            assert softhsm.PIN not in shown
        for name in "KEYWRAP_KEK", "KEYWRAP_NEW_KEK":
            if os.environ[name].startswith("pkcs11:"):
                assert os.environ[name] in text
        keks = json.loads(text.splitlines()[0])["keks"]
        with_files = tmp_path / "by-files"
        env = {**os.environ, "KEYWRAP_KEK": "kek.hex", "KEYWRAP_NEW_KEK": "new-kek.hex"}
        assert run("--report", with_files, "store", env=env) == 0
        (by_files,) = json.loads(with_files.read_text().splitlines()[0])["keks"]
        assert by_files == {name: keks[0][name] for name in ("name", "old", "new")}

    def test_challenge(self, uris, tmp_path):
        """A challenge of the new KEK fits, and one of the old KEK is refused."""
        fill(tmp_path / "store", [make_keys(2)])
        (tmp_path / "good").write_text(wrapped_under(NEW_KEK, bytes(32)).hex())
        (tmp_path / "bad").write_text(wrapped_under(KEK, bytes(32)).hex())
        assert run("--new-challenge", "bad", "store") == 3
        assert run("--new-challenge", "good", "store") == 0

    def test_a_kill_of_a_worker(self, uris, tmp_path, shim, monkeypatch):
        """Its unit is done by another process, whose session is its own."""
        library = shim("C_DecryptInit 200 200 die 9", "C_EncryptInit 200 200 die 9")
        for name, token in ("KEYWRAP_KEK", "old"), ("KEYWRAP_NEW_KEK", "new"):
            if os.environ[name].startswith("pkcs11:"):
                uri = uris.uri(token, "kek", module=library)
                monkeypatch.setenv(name, uri)
        keys = [make_keys(30, seed) for seed in range(8)]
        fill(tmp_path / "store", keys)
        assert run("--jobs", 2, "store") == 0
        assert state(tmp_path / "store", keys) == ["new"] * 8


def test_tables_of_keks(tokens, tmp_path):
    """A line NAME=URI is a key in a token, and NAME=FILE a file in the directory of the table."""
    (tmp_path / "keks").mkdir()
    (tmp_path / "keks/bob.hex").write_text(bytes(24).hex())
    old = [f"ada={tokens.uri('old', 'kek')}", "bob=bob.hex"]
    new = [f"{name}={tokens.uri('new', 'kek')}" for name in ("ada", "bob")]
    (tmp_path / "keks/old").write_text("\n".join(old))
    (tmp_path / "keks/new").write_text("\n".join(new))
    keys = make_keys(20)
    keks = {"ada": KEK, "bob": bytes(24)}
    lines = ["tenant,key"]
    for at, key in enumerate(keys):
        name = ("ada", "bob")[at % 2]
        lines.append(f"{name},{wrapped_under(keks[name], key).hex()}")
    (tmp_path / "keys.csv").write_text("\n".join(lines) + "\n")
    done = run(
        *("--csv", "key", "--kek-name", "tenant", "keys.csv"),
        *("--keks", "keks/old", "--new-keks", "keks/new"),
    )
    assert done == 0, done
    _, *fresh = (tmp_path / "keys.csv").read_text().splitlines()
    found = [bytes.fromhex(line.partition(",")[2]) for line in fresh]
    assert [unwrapped(NEW_KEK, each) for each in found] == keys


class TestMakeChallenges:
    def test_names(self, tokens, monkeypatch, tmp_path):
        set_uris(monkeypatch, tokens.uri("old", "kek"), tokens.uri("new", None, "%01"))
        done = run("--make-challenges")
        assert done == 0
        assert done.printed.split() == ["kek.challenge", "01.challenge"]
        for name, kek in ("kek.challenge", KEK), ("01.challenge", NEW_KEK):
            wrapped = bytes.fromhex((tmp_path / name).read_text())
            assert unwrapped(kek, wrapped) is not None


class TestWhichKey:
    def test_label_and_id_decide(self, tokens, monkeypatch, tmp_path):
        """The token has another AES key, made earlier, which is not taken."""
        fill(tmp_path / "store", [make_keys(3)])
        for uri in tokens.uri("old", "kek"), tokens.uri("old", None, "%01"):
            set_uris(monkeypatch, uri)
            assert run("--dry-run", "store").counts["old"] == 3
        set_uris(monkeypatch, tokens.uri("old", "another"))
        assert run("--dry-run", "store") == 5

    @pytest.mark.parametrize(
        "token, label, key_id",
        [("old", "none", None), ("old", "ke", None), ("old", "kek", "%02")],
    )
    def test_no_such_key(self, tokens, monkeypatch, token, label, key_id):
        set_uris(monkeypatch, tokens.uri(token, label, key_id))
        done = run("--dry-run", "store")
        assert done == 3
        assert done.has("no such AES key")

    def test_no_such_token(self, tokens, monkeypatch):
        set_uris(monkeypatch, tokens.uri("other", "kek"))
        done = run("--dry-run", "store")
        assert done == 3
        assert done.has("no such token is there")

    def test_several_fit(self, tokens, monkeypatch):
        """Two keys of one label in a token, or two tokens that have the key."""
        tokens.add("twice")
        tokens.put("twice", "kek", KEK, "01")
        tokens.put("twice", "kek", NEW_KEK, "02")
        set_uris(monkeypatch, tokens.uri("twice", "kek"))
        done = run("--dry-run", "store")
        assert done == 3
        assert done.has("several keys fit")
        uri = tokens.uri("twice", "kek").replace("token=twice;", "")
        set_uris(monkeypatch, uri)
        done = run("--dry-run", "store")
        assert done == 3
        assert done.has("several tokens fit")

    def test_the_same_key_in_a_token_and_a_file(self, tokens, monkeypatch):
        set_uris(monkeypatch, tokens.uri("new", "kek"))
        done = run("--dry-run", "store")
        assert done == 2
        assert done.has("the same key")

    @pytest.mark.parametrize("which", ["old", "new"])
    def test_a_key_that_is_replaced_meanwhile(
        self, tokens, monkeypatch, tmp_path, which
    ):
        """Another key has the label: nothing is written under it, and the run ends."""
        token = f"change {which}"
        tokens.add(token)
        tokens.put(token, "kek", {"old": KEK, "new": NEW_KEK}[which])
        set_uris(monkeypatch, **{which: tokens.uri(token, "kek")})
        keys = [make_keys(100, seed) for seed in range(12)]
        fill(tmp_path / "store", keys)
        running = start("--jobs", 1, "--rate", 200, "store")
        wait_for(lambda: "new" in state(tmp_path / "store", keys))
        tokens.replace(token, "kek", bytes(range(200, 216)))
        done = end(running)
        assert done == 3, done
        assert done.has(token.replace(" ", "%20")), done
        assert {*state(tmp_path / "store", keys)} == {"old", "new"}


class TestPin:
    def test_wrong_pin(self, tokens, monkeypatch, tmp_path, shim):
        """One login is tried in all, since more would lock a token; no message has the PIN."""
        (tmp_path / "pin").write_text("wrong-pin-777\n")
        library = shim("C_Login 0 99 late 0")
        uri = tokens.uri("old", "kek", module=library, pin_file=tmp_path / "pin")
        set_uris(monkeypatch, uri)
        fill(tmp_path / "store", [make_keys(3)])
        done = run("--report", "report", "store")
        assert done == 3
        assert done.has("CKR_PIN_INCORRECT")
        assert "777" not in repr(done)
        assert len(calls("C_Login")) == 1

    def test_no_pin(self, tokens, monkeypatch):
        uri = tokens.uri("old", "kek").partition("&pin-source")[0]
        set_uris(monkeypatch, uri)
        done = run("--dry-run", "store")
        assert done == 3
        assert done.has("pin-source")

    def test_no_such_file(self, tokens, monkeypatch):
        set_uris(monkeypatch, tokens.uri("old", "kek", pin_file="/none/pin"))
        done = run("--dry-run", "store")
        assert done == 3
        assert done.has("/none/pin: No such file or directory")

    def test_a_pipe(self, tokens, monkeypatch, tmp_path):
        """It is read once, and every process has the PIN."""
        reader, writer = os.pipe()
        os.write(writer, softhsm.PIN.encode())
        os.close(writer)
        uri = tokens.uri("old", "kek", pin_file=f"/dev/fd/{reader}")
        set_uris(monkeypatch, uri)
        keys = [make_keys(10, seed) for seed in range(4)]
        fill(tmp_path / "store", keys)
        assert run("--jobs", 2, "store", pass_fds=[reader]) == 0
        os.close(reader)
        assert state(tmp_path / "store", keys) == ["new"] * 4


def calls(function):
    """The processes that called this function, and that had initialized the library."""
    with open(CALLS, encoding="ascii") as file:
        each = [line.split() for line in file]
    return [(int(pid), int(owner)) for name, pid, owner in each if name == function]


@pytest.fixture
def late(tokens, shim, monkeypatch):
    """late(RULES): both KEKs in tokens, by the library of these rules."""

    def install(*rules, **more):
        library = shim(*rules, **more)
        set_uris(
            monkeypatch,
            tokens.uri("old", "kek", module=library),
            tokens.uri("new", "kek", module=library),
        )

    return install


class TestFaults:
    """The token is lost, full, logged out, wrong or slow: each unit is tried again or named, and none is lost."""

    def test_each_process_has_sessions_of_its_own(self, late, tmp_path):
        late("C_Initialize 0 999 late 0", "C_OpenSession 0 999 late 0")
        fill(tmp_path / "store", [make_keys(10, seed) for seed in range(8)])
        running = start("--jobs", 3, "store")
        parent = running.pid
        assert end(running) == 0
        sessions = calls("C_OpenSession")
        assert len({pid for pid, _ in sessions}) >= 4
        assert all(pid == owner for pid, owner in sessions)
        assert parent not in {pid for pid, _ in sessions + calls("C_Initialize")}
        # A process opens one session for each KEK. It opens them again if a call failed, as SoftHSM's may on a busy
        # machine. Then it initializes the library again, too.
        assert len(sessions) <= 2 * len(calls("C_Initialize"))

    @pytest.mark.parametrize(
        "function, value",
        [
            ("C_EncryptInit", 0x32),  # the token is removed
            ("C_EncryptInit", 0x101),  # logged out
            ("C_EncryptInit", 0x60),  # the handle of the key is gone
            ("C_EncryptInit", 0x91),  # of no name here
            ("C_Encrypt", 0x30),  # an error of the device
            ("C_Encrypt", 0xB3),  # the session is gone
            ("C_Encrypt", 0x80000001),  # of a vendor
            ("C_DecryptInit", 0xB0),  # the session is closed
            ("C_DecryptInit", 0x190),  # the library is not initialized
            ("C_Decrypt", 0x05),
            ("C_Decrypt", 0x31),  # out of memory
        ],
        ids=lambda value: value if isinstance(value, str) else hex(value),
    )
    def test_one_call_fails(self, late, tmp_path, function, value):
        """It is made again in a new session."""
        late(f"{function} 150 150 return {value}", f"{function} 190 191 return {value}")
        keys = [make_keys(20, seed) for seed in range(2)]
        fill(tmp_path / "store", keys)
        done = run("--jobs", 1, "store")
        assert done == 0, done
        assert done.counts["refused"] == 0, done
        assert done.counts["pass"] == 2, "a later pass did what a new session can do"
        assert state(tmp_path / "store", keys) == ["new"] * 2

    @pytest.mark.parametrize(
        "function, value",
        [("C_Encrypt", 0x32), ("C_DecryptInit", 0xE0), ("C_Decrypt", 0x31)],
    )
    def test_a_token_that_stays_away(self, late, tmp_path, function, value):
        """The units are named with the URI and the cause; what was written stays, and a second run ends the work."""
        late(f"{function} 250 99999 return {value}")
        keys = [make_keys(20, seed) for seed in range(12)]
        fill(tmp_path / "store", keys)
        done = run("--jobs", 1, "--report", "report", "store", timeout=400)
        assert done == 6, done
        assert done.has(f"{function}: {pkcs11._NAMES[value]}"), done
        assert softhsm.PIN not in repr(done)
        assert softhsm.PIN not in (tmp_path / "report").read_text()
        assert {*state(tmp_path / "store", keys)} <= {"old", "new"}
        (tmp_path / SHIM_RULES).unlink()
        assert run("store") == 0
        assert state(tmp_path / "store", keys) == ["new"] * 12

    def test_a_token_without_room_for_sessions(self, late, tmp_path):
        """The processes that find no room name their units, and a later pass does them."""
        late(f"C_OpenSession 5 14 return {0xB1}")
        keys = [make_keys(10, seed) for seed in range(6)]
        fill(tmp_path / "store", keys)
        done = run("--jobs", 2, "store")
        assert done == 0, done
        assert done.has("C_OpenSession: CKR_SESSION_COUNT"), done
        assert state(tmp_path / "store", keys) == ["new"] * 6

    @pytest.mark.parametrize("function", ["C_Encrypt", "C_Decrypt"])
    @pytest.mark.parametrize("what", ["short 16", "short 1", "lie 0"])
    def test_wrong_answers(self, late, tmp_path, function, what):
        """A short result, or OK without a result, in every call from one on: no key is harmed."""
        late(f"{function} 120 99999 {what}")
        keys = [make_keys(20, seed) for seed in range(6)]
        fill(tmp_path / "store", keys)
        done = run("--jobs", 1, "store", timeout=400)
        assert done in (5, 6, 3), done
        if what.startswith("short"):
            assert done.has(f"{function}: "), done
            assert done.has(" bytes for "), done
        # The calls may go wrong in the midst of a file: its keys of one length are new then, and the others old.
        for number, batch in enumerate(keys):
            lines = (tmp_path / "store" / str(number)).read_text().splitlines()
            stored = [bytes.fromhex(line) for line in lines]
            assert [
                unwrapped(KEK, key) or unwrapped(NEW_KEK, key) for key in stored
            ] == batch
        (tmp_path / SHIM_RULES).unlink()
        assert run("store") == 0
        assert state(tmp_path / "store", keys) == ["new"] * 6

    @pytest.mark.parametrize("most, number", [(16, 10), (48, 30), (2000, 300)])
    def test_a_token_that_takes_few_blocks(self, late, tmp_path, most, number):
        """A smartcard or a small HSM: the blocks go in parts, and each comes back in its place."""
        late(
            f"C_Encrypt 0 99999 most {most}",
            f"C_Decrypt 0 99999 most {most}",
            counts=False,
        )
        keys = [make_keys(number)]
        fill(tmp_path / "store", keys)
        assert run("store") == 0
        assert state(tmp_path / "store", keys) == ["new"]

    def test_no_answer_at_all(self, late, tmp_path, monkeypatch):
        """A process that waits for its token is given up. Its units are named."""
        late("C_DecryptInit 200 99999 late 99000000")
        keys = [make_keys(20, seed) for seed in range(4)]
        fill(tmp_path / "store", keys)
        done = run("--jobs", 1, "--timeout", 2, "store", timeout=120)
        assert done == 6, done
        assert done.has("its process died"), done
        assert {*state(tmp_path / "store", keys)} <= {"old", "new"}


def table_of_keys(count):
    """A table of keys of 32 bytes, and these keys. OpenSSL wraps the ones that a test compares."""
    import keywrap

    keys = [at.to_bytes(4, "big") * 8 for at in range(count)]
    with sqlite3.connect("keys.db") as database:
        database.execute("CREATE TABLE keys (id INTEGER PRIMARY KEY, key BLOB)")
        wrapped = keywrap.wrap_many(KEK, keys)
        rows = enumerate(wrapped)
        database.executemany("INSERT INTO keys VALUES (?, ?)", rows)
    for at in range(0, count, count // 50):
        assert wrapped[at] == wrapped_under(KEK, keys[at])
    return keys


OPERATIONS = "C_EncryptInit", "C_Encrypt", "C_DecryptInit", "C_Decrypt"


def rotate_table(keys):
    """Rotates the table, and returns how many seconds that took."""
    began = time.monotonic()
    done = run("--table", "keys", "keys.db")
    seconds = time.monotonic() - began
    assert done == 0
    assert done.counts["rewrapped"] == len(keys)
    with sqlite3.connect("keys.db") as database:
        found = database.execute("SELECT key FROM keys ORDER BY id").fetchall()
    for at in range(0, len(keys), len(keys) // 200):
        assert unwrapped(NEW_KEK, found[at][0]) == keys[at]
    return seconds


def test_calls_for_a_table(late):
    """For each 2,000 keys 144 operations of two calls rewrap and check, and 24 verify: 10,000 keys take 840."""
    late(*(f"{name} 0 99999 late 0" for name in OPERATIONS))
    rotate_table(table_of_keys(10000))
    number = sum(len(calls(name)) for name in OPERATIONS)
    # The other calls compare the KEKs.
    assert 2 * 840 <= number <= 2 * 840 + 250, number


@evidence
def test_a_token_that_is_a_millisecond_late(late):
    """100,000 keys in at most 60 seconds, each call of the token a millisecond late."""
    late(*(f"{name} 0 1 late 1000" for name in OPERATIONS), counts=False)
    seconds = rotate_table(table_of_keys(100000))
    print(f"{seconds:.0f} seconds")
    assert seconds <= 60, seconds


@evidence
def test_rate_of_steps(tokens, monkeypatch):
    """At least 50,000 rewraps a second of processor time, from a token to another one."""
    import keywrap
    from keywrap import steps

    old, new = (
        pkcs11.TokenKek(parsed(tokens.uri(token, "kek")), softhsm.PIN.encode())
        for token in ("old", "new")
    )
    keys = [os.urandom(32) for _ in range(5000)]
    wrapped = keywrap.wrap_many(KEK, keys)
    rates = []
    for _ in range(5):
        began = time.process_time()
        results = steps.rewrap_many(old.decrypt, new.encrypt, wrapped)
        rates.append(5000 / (time.process_time() - began))
    assert results[::50] == [wrapped_under(NEW_KEK, key) for key in keys[::50]]
    print(f"{max(rates):.0f} rewraps a second")
    assert max(rates) >= 50000
