"""KEKs: their files, pipes and challenges, several in one store, by their names, and texts before keys."""

import base64
import csv
import itertools
import json
import os
import pathlib
import pickle
import sqlite3
import subprocess
import sys
import threading

import pytest
from rotation_help import (
    KEK,
    NEW_KEK,
    ROTATE,
    evidence,
    make_keys,
    pyca,
    rotate,
    secrets_in,
    set_keks,
    wrapped_under,
    write_lines,
)

from keywrap_rotate import WrongKeks, challenges, rewrap_all
from keywrap_rotate.options import keks_of, parse

KEYS = make_keys(12)
OTHERS = [bytes([number]) * length for number, length in ((1, 32), (2, 16), (3, 24))]
OF_TABLE = {"a": OTHERS[0], "b c": OTHERS[1], "ü": OTHERS[2]}
NEW_OF_TABLE = {name: bytes([200 + at]) * 32 for at, name in enumerate(OF_TABLE)}


@pytest.fixture(autouse=True)
def others(keks):
    for number, kek in enumerate(OTHERS):
        (keks / f"{number}.hex").write_text(kek.hex())


def rotated(*words, **more):
    return rotate("--jobs", "2", *words, **more)


def hexes(kek, keys=KEYS):
    return [wrapped_under(kek, key).hex() for key in keys]


def read(name):
    return pathlib.Path(name).read_text(encoding="utf-8").splitlines()


class TestKeks:
    @pytest.mark.parametrize(
        "content, why",
        [
            (KEK, "not hex: --raw-kek reads a KEK of raw bytes"),
            (KEK.hex().encode()[:30], "the KEK is 15 bytes long"),
            (b"", "the KEK is 0 bytes long"),
            (base64.b64encode(KEK), "not hex"),
        ],
    )
    def test_a_wrong_kek_file_is_named_without_its_content(self, keks, content, why):
        (keks / "kek").write_bytes(content)
        write_lines("store", hexes(KEK))
        done = rotated("--kek", "kek", "store")
        assert done.status == 3
        assert done.messages[0].startswith(
            f"keywrap-rotate: the KEK: {keks}/kek: {why}"
        )
        assert not content or content.decode("latin1") not in done.messages[0]

    def test_a_kek_in_the_place_of_its_file_is_not_shown(self):
        done = rotated("--kek", KEK.hex(), "store")
        assert done.status == 3
        assert done.messages == [
            "keywrap-rotate: the KEK: it: No such file or directory"
        ]

    def test_raw_keks(self, keks):
        """And a KEK of digits may have blanks and line ends."""
        (keks / "kek.hex").write_text(
            f" {KEK.hex()[:10]}\r\n{KEK.hex()[10:].upper()}\t\n"
        )
        (keks / "kek").write_bytes(KEK)
        (keks / "new").write_bytes(NEW_KEK)
        write_lines("store", hexes(KEK))
        assert rotated(
            "--raw-kek", "--kek", "kek.hex", "--new-kek", "new", "store"
        ).has("kek.hex: looks like hex: omit --raw-kek to read it as hex")
        assert rotated("--raw-kek", "--kek", "kek", "--new-kek", "new", "store") == 0
        assert read("store") == hexes(NEW_KEK)
        write_lines("store", hexes(KEK))
        assert rotated("store") == 0
        assert read("store") == hexes(NEW_KEK)

    def test_keks_of_pipes(self):
        """They are read once, and the processes of each pass have them."""
        write_lines("store", hexes(KEK))
        line = f"{' '.join(ROTATE)} --jobs 2 --kek <(cat kek.hex) --new-kek <(cat new-kek.hex) store"
        assert subprocess.run(["bash", "-c", line]).returncode == 0
        assert read("store") == hexes(NEW_KEK)
        os.mkfifo("fifo")
        thread = threading.Thread(target=write_lines, args=["fifo", [NEW_KEK.hex()]])
        thread.start()
        assert rotated("--verify", "--new-kek", "fifo", "store") == 0
        thread.join()

    def test_swapped_keks_are_refused_by_a_challenge(self, keks):
        """Without one a second rotation with swapped KEKs undoes the first one, and cannot know it."""
        done = rotated("--make-challenges")
        assert done.status == 0
        assert done.printed.split() == [
            f"{keks}/kek.challenge",
            f"{keks}/new-kek.challenge",
        ]
        for kek, name in (KEK, "kek.challenge"), (NEW_KEK, "new-kek.challenge"):
            assert len(pyca.aes_key_unwrap(kek, bytes.fromhex(read(name)[0]))) == 32
        made = read("kek.challenge")
        os.unlink("new-kek.challenge")
        assert rotated("--make-challenges") == 0
        assert read("kek.challenge") == made
        assert os.path.exists("new-kek.challenge")
        write_lines("store", hexes(KEK))
        assert rotated("--new-challenge", "new-kek.challenge", "store") == 0
        swapped = [
            "--new-challenge",
            "new-kek.challenge",
            "--kek",
            "new-kek.hex",
            "--new-kek",
            "kek.hex",
            "store",
        ]
        for words in (swapped, ["--verify", *swapped], ["--dry-run", *swapped]):
            done = rotated(*words)
            assert done == 3
            assert done.has("the new KEK is not that of --new-challenge")
        assert read("store") == hexes(NEW_KEK)
        assert rotated("--verify", "--new-challenge", "new-kek.challenge", "store") == 0

    @pytest.mark.parametrize(
        "changed, lines", [("kek.hex", [OTHERS[0].hex()]), ("kek.challenge", [])]
    )
    def test_challenge_of_another_kek_is_refused(self, keks, changed, lines):
        """As an earlier rotation leaves one, and a killed process an empty file."""
        assert rotated("--make-challenges") == 0
        write_lines(changed, lines)
        done = rotated("--make-challenges")
        assert done == 3
        assert done.printed == ""
        assert done.has(
            f"kek.challenge is not a challenge of {keks}/kek.hex: remove it"
        )

    @pytest.mark.parametrize(
        "other", [(KEK, bytes(32)), (bytes(16), NEW_KEK), (NEW_KEK, KEK)]
    )
    def test_other_keks_than_at_the_beginning(self, keks, monkeypatch, other):
        pair = challenges()
        assert rewrap_all({"a": wrapped_under(KEK, KEYS[0])}, pair) == {
            "a": wrapped_under(NEW_KEK, KEYS[0])
        }
        set_keks(keks, monkeypatch, *other)
        with pytest.raises(
            WrongKeks,
            match="the KEKs of this machine are not those that the rotation began with",
        ):
            rewrap_all({"a": wrapped_under(KEK, KEYS[0])}, pair)

    def test_no_kek_is_sent(self):
        pair = challenges()
        assert secrets_in(pickle.dumps(pair)) == []
        assert pickle.loads(pickle.dumps(pair)).rings() == pair.rings()
        with pytest.raises(TypeError, match="KEKs are not sent"):
            pickle.dumps(pair.rings())


SEVERAL = ["--kek", "kek.hex", "--kek", "0.hex", "--kek", "1.hex"]


def test_a_key_under_any_of_several_keks(keks):
    mixed = []
    for at, key in enumerate(KEYS):
        kek = [KEK, *OTHERS[:2], NEW_KEK][at % 4]
        mixed.append(wrapped_under(kek, key).hex())
    foreign = hexes(OTHERS[2])[0]
    write_lines("store", [*mixed, foreign])
    dry = rotated("--dry-run", *SEVERAL, "store")
    labels = sorted(f"{keks}/{name}.hex" for name in ("0", "1", "kek"))
    assert [line for line in dry.messages if "keys are under" in line] == [
        f"keywrap-rotate: 3 keys are under {label}" for label in labels
    ]
    done = rotated(*SEVERAL, "store")
    assert read("store") == [*hexes(NEW_KEK), foreign]
    assert done.status == 5
    assert done.messages[0].endswith("store: line 13: under no KEK of this rotation")
    assert done.messages[1:4] == [
        f"keywrap-rotate: 3 keys were under {label}" for label in labels
    ]
    assert done.counts["keys"] == 13
    assert done.counts["rewrapped"] == 9
    assert done.counts["refused"] == 1


@pytest.mark.parametrize("kek", [0, 1, 2])
def test_lines_of_one_length_under_one_of_several_keks(keks, kek):
    """All lines at once: they are counted under the KEK that fits."""
    plain = [bytes([at]) * 32 for at in range(50)]
    write_lines("store", hexes([KEK, *OTHERS][kek], plain))
    done = rotated(*SEVERAL, "store")
    assert done.status == 0
    assert read("store") == hexes(NEW_KEK, plain)
    name = ("kek", "0", "1")[kek]
    assert done.messages[0] == f"keywrap-rotate: 50 keys were under {keks}/{name}.hex"


def tables():
    os.makedirs("keks")
    for table, of in (("table", OF_TABLE), ("new-table", NEW_OF_TABLE)):
        for at, kek in enumerate(of.values()):
            write_lines(f"keks/{table}{at}.hex", [kek.hex()])
        write_lines(
            f"keks/{table}", [f"{name}={table}{at}.hex" for at, name in enumerate(of)]
        )
    return ["--keks", "keks/table", "--new-keks", "keks/new-table"]


def named(at):
    return [*OF_TABLE][at % 3]


def in_csv(of, keys=KEYS):
    lines = ["id,owner,wrapped"]
    for at, key in enumerate(keys):
        name = named(at)
        lines.append(f"{at},{name},{wrapped_under(of[name], key).hex()}")
    return lines


def in_json(of):
    lines = []
    for at, key in enumerate(KEYS):
        name = named(at)
        members = {"owner": name, "wrapped": wrapped_under(of[name], key).hex()}
        lines.append(json.dumps(members, ensure_ascii=False))
    return lines


NAMED = {
    "csv": (["--csv", "wrapped", "--kek-name", "owner"], in_csv),
    "json": (["--json", "wrapped", "--kek-name", "owner"], in_json),
}


class TestNames:
    @pytest.mark.parametrize("kind", NAMED)
    @pytest.mark.parametrize(
        "one", [False, True], ids=["a new KEK for each name", "one new KEK"]
    )
    def test_names_choose_the_kek(self, kind, one):
        words, content = NAMED[kind]
        of_keks = tables()
        challenge = "keks/new"
        new = NEW_OF_TABLE
        if one:
            of_keks = of_keks[:2]
            challenge = "new-kek.challenge"
            new = dict.fromkeys(OF_TABLE, NEW_KEK)
        assert rotated("--make-challenges", *words, *of_keks) == 0
        challenges = [
            f"{name}=new-table{at}.challenge" for at, name in enumerate(OF_TABLE)
        ]
        write_lines("keks/new", challenges)
        guard = ["--new-challenge", challenge]
        write_lines("store", content(OF_TABLE))
        for again in (False, True):
            done = rotated(*words, *guard, *of_keks, "store")
            assert done.status == 0
            assert read("store") == content(new)
            assert done.counts["rewrapped"] == (0 if again else 12)
            if not again:
                assert done.messages[:3] == [
                    f"keywrap-rotate: 4 keys were under {name}" for name in OF_TABLE
                ]
            if not one:
                exchanged = ["--keks", "keks/new-table", "--new-keks", "keks/table"]
                assert rotated(*words, *guard, *exchanged, "store") == 3
        os.unlink("keks/table0.hex")  # To verify, nobody reads the old ones.
        assert rotated("--verify", *words, *of_keks, "store") == 0
        write_lines("store", content(OF_TABLE))
        assert rotated("--verify", *words, *of_keks, "store") == 5

    def test_names_in_a_column_of_sqlite(self):
        def content(of):
            return [
                (named(at), wrapped_under(of[named(at)], key))
                for at, key in enumerate(KEYS)
            ]

        connection = sqlite3.connect("keys.db", isolation_level=None)
        connection.execute("CREATE TABLE keys (owner TEXT, key BLOB)")
        connection.executemany("INSERT INTO keys VALUES (?, ?)", content(OF_TABLE))
        words = [*tables(), "--table", "keys", "--kek-name", "owner"]
        assert rotated(*words, "keys.db") == 0
        assert connection.execute("SELECT * FROM keys").fetchall() == content(
            NEW_OF_TABLE
        )
        connection.execute(
            "UPDATE keys SET owner = CASE rowid WHEN 2 THEN 'stranger' END WHERE rowid IN (2, 3)"
        )
        connection.close()
        done = rotated(*words, "keys.db")
        assert done.status == 5
        assert [line.split("keys.db: ")[1] for line in done.messages[:2]] == [
            "row 2: no KEK for the name 'stranger'",
            "row 3: it has no name of a KEK",
        ]
        assert rotated(*words[:-1], "ownr", "keys.db").has(
            "no such column (table keys, column key, ownr)"
        )

    def test_a_name_does_not_try_other_keks(self):
        """A key that is under the KEK of another name is refused."""
        lines = in_csv(OF_TABLE)
        moved = lines[2].replace("b c,", "a,")
        write_lines("store", [lines[0], lines[1], moved, *lines[3:]])
        done = rotated(*NAMED["csv"][0], *tables(), "store")
        assert done.status == 5
        assert done.messages[0].endswith("line 3: under no KEK of this rotation")
        assert read("store") == [
            *in_csv(NEW_OF_TABLE)[:2],
            moved,
            *in_csv(NEW_OF_TABLE)[3:],
        ]

    @pytest.mark.parametrize(
        "table, lines, why",
        [
            ("table", ["a=table0.hex", "b c"], "line 2 is not NAME="),
            ("table", ["=table0.hex"], "line 1 is not NAME="),
            (
                "table",
                ["a=table0.hex", "a=table1.hex"],
                "line 2 is not NAME=FILE, or has the name of an earlier line",
            ),
            ("table", [], "line 1 is not NAME="),
            (
                "table",
                ["a=none.hex", "b c=table1.hex", "ü=table2.hex"],
                "none.hex: No such file or directory",
            ),
            (
                "table",
                ["a=table", "b c=table1.hex", "ü=table2.hex"],
                "the KEK of 'a': {}/keks/table: not hex",
            ),
            (
                "table",
                ["a=table0.hex", "b c=new-table1.hex", "ü=table2.hex"],
                "the KEK and the new KEK are the same key",
            ),
            ("new-table", ["a=new-table0.hex"], "only one of them has 'b c'"),
        ],
    )
    def test_a_wrong_table_is_refused_before_anything_is_written(
        self, keks, table, lines, why
    ):
        words = tables()
        write_lines("store", in_csv(OF_TABLE))
        write_lines(f"keks/{table}", lines)
        done = rotated(*NAMED["csv"][0], *words, "store")
        assert done.status in (2, 3), done
        assert why.format(keks) in done.messages[0], done
        assert read("store") == in_csv(OF_TABLE)

    def test_a_table_that_changes_meanwhile(self):
        """It is read once. KEKs that change are refused."""
        options = parse([*tables(), "--csv", "key", "--kek-name", "owner", "store"])
        pair = keks_of(options).challenged()
        write_lines("keks/table", [])
        assert pair.rings().keys() == OF_TABLE.keys()
        write_lines("keks/table1.hex", [OTHERS[0].hex()])
        pytest.raises(WrongKeks, pair.rings)

    @pytest.mark.parametrize("count", [10_000, pytest.param(1_000_000, marks=evidence)])
    def test_a_thousand_keks(self, count):
        """Right, and in constant memory."""
        of = {f"tenant-{at}": (at + 1).to_bytes(4, "big") * 4 for at in range(1000)}
        os.makedirs("many")
        for name, kek in of.items():
            write_lines(f"many/{name}", [kek.hex()])
            write_lines(f"many/{name}.new", [kek[::-1].hex()])
        write_lines("many/table", [f"{name}={name}" for name in of])
        write_lines("many/new-table", [f"{name}={name}.new" for name in of])
        known = [*of]

        def lines():
            yield "tenant,key"
            for at in range(count):
                name = known[at * 7919 % 1000]
                key = at.to_bytes(16, "big")
                yield f"{name},{pyca.aes_key_wrap(of[name], key).hex()}"

        write_lines("keys.csv", lines())
        words = "--csv key --kek-name tenant --keks many/table --new-keks many/new-table keys.csv".split()
        measured = [
            sys.executable,
            "-c",
            "import resource, subprocess, sys; done = subprocess.run(sys.argv[1:]); "
            "print(resource.getrusage(resource.RUSAGE_CHILDREN).ru_maxrss); sys.exit(done.returncode)",
        ]
        done = rotate(*words, program=[*measured, *ROTATE], timeout=3000)
        assert done.status == 0
        assert done.counts["keys"] == count
        assert done.counts["rewrapped"] == count
        assert int(done.printed) < 70_000
        with open("keys.csv", newline="") as file:
            records = csv.reader(file)
            next(records)
            step = max(1, count // 10_000)
            for at, (name, wrapped) in enumerate(records):
                if at % step == 0:
                    new_kek = of[name][::-1]
                    key = pyca.aes_key_unwrap(new_kek, bytes.fromhex(wrapped))
                    assert key == at.to_bytes(16, "big")


PREFIX = [
    "--base64",
    "--prefix",
    "vault:v2:",
    "--prefix",
    "vault:v3:",
    "--new-prefix",
    "vault:v4:",
]


def prefixed(kek, version, keys=KEYS):
    texts = []
    for key in keys:
        text = base64.b64encode(wrapped_under(kek, key)).decode()
        texts.append(f"vault:v{version}:{text}")
    return texts


class TestPrefixes:
    def test_a_prefix_is_read_and_written_anew(self):
        lines = prefixed(KEK, 3)[:5]
        lines += prefixed(KEK, 2)[5:10]
        lines += prefixed(NEW_KEK, 4)[10:]
        write_lines("store", lines)
        done = rotated(*PREFIX, "store")
        assert done.status == 0
        assert read("store") == prefixed(NEW_KEK, 4)
        assert done.counts["rewrapped"] == 10
        assert rotated("--verify", *PREFIX, "store") == 0

    def test_a_key_under_the_new_kek_with_an_old_prefix(self):
        """A dry run says what the rotation then does; to verify, it is refused."""
        write_lines("store", [*prefixed(NEW_KEK, 3)[:6], *prefixed(NEW_KEK, 4)[6:]])
        dry = rotated("--dry-run", *PREFIX, "store")
        assert dry.status == 6
        assert dry.counts["new"] == 6
        assert dry.has("6 keys are under an old prefix")
        assert rotated("--verify", *PREFIX, "store").has(
            "line 1: it does not have the prefix of new keys"
        )
        assert rotated(*PREFIX, "store") == 0
        assert read("store") == prefixed(NEW_KEK, 4)

    @pytest.mark.parametrize(
        "line",
        [
            "vault:v3",
            "vault:v3:",
            "vault:w3:AAAA",
            "",
            "vault:é:AA",
            "other:v3:{}",
            "{}",
        ],
    )
    def test_refuses_what_has_no_prefix(self, line):
        line = line.format(prefixed(KEK, 3)[0].split(":")[2])
        write_lines("store", [line, *prefixed(KEK, 3)])
        for mode in ["--dry-run"], [], []:
            done = rotated(*mode, *PREFIX, "store")
            assert done.status == 5
            assert done.counts["refused"] == 1
            assert done.has("line 1: ")
        assert read("store") == [line, *prefixed(NEW_KEK, 4)]

    def test_a_prefix_in_a_text_column(self):
        connection = sqlite3.connect("keys.db", isolation_level=None)
        connection.execute("CREATE TABLE keys (key)")
        connection.executemany(
            "INSERT INTO keys VALUES (?)",
            [*((text,) for text in prefixed(KEK, 3)), (wrapped_under(KEK, KEYS[0]),)],
        )
        assert rotated(*PREFIX, "--table", "keys", "keys.db") == 0
        found = [key for (key,) in connection.execute("SELECT key FROM keys")]
        assert found == [*prefixed(NEW_KEK, 4), wrapped_under(NEW_KEK, KEYS[0])]
