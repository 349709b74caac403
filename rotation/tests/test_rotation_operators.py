"""A rotation for its operators: progress, the summary, refusals, the report, and the options that they may set."""

import contextlib
import hashlib
import json
import os
import pathlib
import signal
import socket
import sqlite3
import subprocess
import sys
import time

import pytest
from rotation_help import (
    KEK,
    NEW_KEK,
    ROTATE,
    SLOWLY,
    children,
    end,
    fill,
    lines_under,
    make_keys,
    patched,
    pyca,
    rotate,
    start,
    state,
    wait_for,
    wrapped_under,
    write_lines,
)

KEYS = make_keys(30)


@pytest.fixture
def store(tmp_path):
    """A directory with one file of 30 keys."""
    fill(tmp_path / "store", [KEYS])
    return tmp_path / "store"


def report_of(path):
    return [json.loads(line) for line in pathlib.Path(path).read_text().splitlines()]


def make_table(keys, more=""):
    """A database with a table of keys in hex, with the ids from 1 on."""
    with contextlib.closing(sqlite3.connect("keys.db")) as database, database:
        database.execute("CREATE TABLE keys (id INTEGER PRIMARY KEY, key TEXT)")
        rows = [(wrapped_under(KEK, key).hex(),) for key in keys]
        database.executemany("INSERT INTO keys (key) VALUES (?)", rows)
        database.executescript(more)


def rows_of_table():
    with contextlib.closing(sqlite3.connect("keys.db")) as database:
        return [key for (key,) in database.execute("SELECT key FROM keys ORDER BY id")]


class TestProgress:
    def test_a_line_for_a_signal(self, store):
        slow = {**os.environ, "SLOW": "0.2"}
        running = start("--jobs", "1", store, program=SLOWLY, env=slow)
        wait_for(lambda: children(running))
        running.send_signal(signal.SIGUSR1)
        done = end(running)
        assert done == 0
        assert done.has("keywrap-rotate: pass 1: ")
        assert done.has(" % read in ")

    def test_a_line_once_in_an_interval(self, store):
        lines = "from keywrap_rotate import console; console.INTERVAL = 0.1\n"
        slow = lines + SLOWLY[-1].split("from keywrap_rotate import main")[0]
        done = rotate("--jobs", "1", store, program=patched(slow))
        assert done == 0
        assert len([line for line in done.messages if " % read" in line]) >= 1

    def test_no_line_in_a_short_run(self, store):
        assert len(rotate(store).messages) == 1


class TestSummary:
    def test_the_last_line_as_one_object(self, store):
        done = rotate("--summary-json", "--report", "report", store)
        summary = json.loads(done.printed)
        last = report_of("report")[-1]
        assert {"time": last["time"], **summary} == last
        assert summary["status"] == 0
        assert summary["keys"] == 30
        assert summary["new"] == 30
        assert summary["units"] == 1
        assert summary["passes"] == 2
        assert summary["rewrapped"] == 30

    def test_a_run_that_does_not_begin(self, store):
        done = rotate("--summary-json", "--kek", "none", store)
        summary = json.loads(done.printed)
        assert done.status == 3
        assert summary["status"] == 3
        assert "No such file or directory" in summary["error"]

    def test_a_summary_that_cannot_be_printed(self, store):
        with open("/dev/full", "w") as full:
            words = [*ROTATE, "--summary-json", store]
            done = subprocess.run(words, stdout=full, stderr=subprocess.DEVNULL)
        assert done.returncode == 4
        assert state(store, [KEYS]) == ["new"]


class TestHeadingOfAReport:
    def test_host_store_and_options(self, store):
        rotate("--jobs", "2", "--report", "report", store)
        heading = report_of("report")[0]
        assert heading["host"] == socket.gethostname()
        assert heading["store"] == "lines"
        assert heading["options"]["jobs"] == 2
        assert heading["options"]["files"] == [str(store)]

    def test_ids_of_keks(self, store):
        """An id is the digest of a known key that is wrapped under the KEK, here by OpenSSL."""
        rotate("--report", "report", store)
        old, new = (
            hashlib.sha256(pyca.aes_key_wrap(kek, bytes(32))).hexdigest()[:16]
            for kek in (KEK, NEW_KEK)
        )
        keks = report_of("report")[0]["keks"]
        assert keks == [{"name": None, "old": [old], "new": new}]

    def test_no_kek_in_the_place_of_its_file(self, store):
        pathlib.Path(KEK.hex()).write_text(KEK.hex())
        assert rotate("--kek", KEK.hex(), "--report", "report", store) == 0
        assert KEK.hex() not in pathlib.Path("report").read_text()

    def test_a_report_of_a_rotation_is_a_record(self, store):
        assert rotate("--report", "report", store) == 0
        assert rotate("--verify", "--verify-record", "report", store) == 0

    def test_a_name_of_an_earlier_pass_is_not_missed(self, store):
        """The first pass had the file by another name."""
        assert rotate("--report", "report", store) == 0
        heading, *lines = pathlib.Path("report").read_text().splitlines(keepends=True)
        assert f"{store}/0" in lines[0]
        lines[0] = lines[0].replace(f"{store}/0", f"{store}/before")
        pathlib.Path("record").write_text("".join([heading, *lines]))
        assert rotate("--verify", "--verify-record", "record", store) == 0


class TestRefused:
    def test_twenty_are_shown_and_the_report_has_all(self, store):
        (store / "0").write_bytes(b"zz\n" * 2500 + lines_under(KEK, KEYS))
        done = rotate("--report", "report", store)
        assert done.status == 5
        assert done.counts["refused"] == 2500
        assert sum("not in the notation" in line for line in done.messages) == 20
        assert done.has("more is refused: --report names all of it")
        units = [line for line in report_of("report") if "named" in line]
        places = {place for place, _ in units[-1]["named"]}
        assert places == {f"line {number}" for number in range(1, 2501)}

    @pytest.mark.parametrize("how", ["2>&-", "2>/dev/full", "2>&1 | head -c 0"])
    def test_nobody_reads_standard_error(self, store, how):
        """The status is that of the rotation."""
        line = f'"$@" {how}; exit ${{PIPESTATUS[0]}}'
        done = subprocess.run(["bash", "-c", line, "bash", *ROTATE, store])
        assert done.returncode == 0
        assert state(store, [KEYS]) == ["new"]


TRIGGER = """CREATE TRIGGER frozen BEFORE UPDATE ON keys WHEN NEW.id = 7
    BEGIN SELECT RAISE(ABORT, 'frozen'); END;"""


class TestRowsThatCannotBeWritten:
    def test_sqlite(self):
        """They are named; all others are written and counted."""
        make_table(KEYS, TRIGGER)
        before = rows_of_table()
        done = rotate("--table", "keys", "keys.db")
        assert done == 5
        assert done.has("row 7: it cannot be written: IntegrityError")
        counts = done.counts["new"], done.counts["old"], done.counts["rewrapped"]
        assert counts == (29, 1, 29)
        new = [wrapped_under(NEW_KEK, key).hex() for key in KEYS]
        assert rows_of_table() == [*new[:6], before[6], *new[7:]]

    def test_postgresql(self, server):
        server.fill({at: wrapped_under(KEK, key) for at, key in enumerate(KEYS)})
        server.sql(
            """CREATE OR REPLACE FUNCTION frozen() RETURNS trigger LANGUAGE plpgsql AS
            $$ BEGIN IF NEW.id = 7 THEN RAISE 'frozen'; END IF; RETURN NEW; END $$;
            CREATE TRIGGER frozen BEFORE UPDATE ON keys FOR EACH ROW EXECUTE FUNCTION frozen();"""
        )
        done = rotate("--postgresql", "keys")
        assert done == 5
        assert done.has(": it cannot be written: RaiseException")
        counts = done.counts["new"], done.counts["old"], done.counts["rewrapped"]
        assert counts == (29, 1, 29)
        keks = {at: KEK if at == 7 else NEW_KEK for at in range(30)}
        assert server.held() == {
            at: wrapped_under(keks[at], key) for at, key in enumerate(KEYS)
        }


def json_line(key, kek=KEK):
    return json.dumps({"data": {"key": wrapped_under(kek, key).hex()}})


class TestRecordsWithoutAKey:
    def write(self):
        write_lines("keys.json", [json_line(KEYS[0]), '{"data": {}}', "", "{}"])

    def test_they_are_counted(self):
        self.write()
        for words in [], ["--verify"]:
            done = rotate(*words, "--json-pointer", "/data/key", "keys.json")
            assert done == 0
            assert done.messages[-1].endswith("; 2 records have no key")

    def test_all_refuses_them(self):
        self.write()
        done = rotate("--all", "--json-pointer", "/data/key", "keys.json")
        assert done == 5
        assert done.has("keys.json: line 2: it has no key")
        assert done.has("keys.json: line 4: it has no key")

    def test_null_in_a_table(self):
        make_table(KEYS[:3], "INSERT INTO keys (key) VALUES (NULL);")
        done = rotate("--table", "keys", "keys.db")
        assert done == 0
        assert done.messages[-1].endswith("; 1 records have no key")
        done = rotate("--all", "--table", "keys", "keys.db")
        assert done == 5
        assert done.has("row 4: it has no key")


class TestNestedMembers:
    def test_a_key_in_a_member_of_a_member(self):
        write_lines("keys.json", [json_line(key) for key in KEYS])
        assert rotate("--json-pointer", "/data/key", "keys.json") == 0
        expected = [json_line(key, NEW_KEK) for key in KEYS]
        assert pathlib.Path("keys.json").read_text().splitlines() == expected

    def test_names_with_a_slash_and_a_tilde(self):
        texts = [wrapped_under(kek, KEYS[0]).hex() for kek in (KEK, NEW_KEK)]
        before, after = (json.dumps({"a/b": [{"~": text}]}) for text in texts)
        write_lines("keys.json", [before])
        assert rotate("--json-pointer", "/a~1b/0/~0", "keys.json") == 0
        assert pathlib.Path("keys.json").read_text() == after + "\n"

    def test_a_text_that_is_twice_in_a_line(self):
        """Only the member changes."""
        old, new = (wrapped_under(kek, KEYS[0]).hex() for kek in (KEK, NEW_KEK))
        write_lines("keys.json", [json.dumps({"copy": old, "data": {"key": old}})])
        assert rotate("--json-pointer", "/data/key", "keys.json") == 0
        found = json.loads(pathlib.Path("keys.json").read_text())
        assert found == {"copy": old, "data": {"key": new}}

    def test_what_is_no_pointer(self, store):
        done = rotate("--json-pointer", "data", store)
        assert done == 2
        assert done.has("a JSON pointer begins with /")


@pytest.mark.parametrize("name, character", [(";", ";"), ("tab", "\t"), ("|", "|")])
def test_delimiter_of_csv(name, character):
    def lines(kek):
        keys = [f"a,b{character}{wrapped_under(kek, key).hex()}" for key in KEYS]
        return [f"name{character}key", *keys]

    write_lines("keys.csv", lines(KEK))
    assert rotate("--csv", "key", "keys.csv") == 5
    assert rotate("--csv", "key", "--delimiter", name, "keys.csv") == 0
    assert pathlib.Path("keys.csv").read_text().splitlines() == lines(NEW_KEK)


CLOCK = """import time
from keywrap_rotate import signs
signs.limit(50)
began = time.monotonic()
for _ in range(4):
    signs.pace(25)
print(time.monotonic() - began)"""


class TestRate:
    """A rate is kept within a unit: after the first second's keys each second has as many."""

    def test_the_clock(self):
        """The first keys wait for nothing, and the others half a second each: also on a busy machine no less."""
        words = [sys.executable, "-B", "-c", CLOCK]
        done = subprocess.run(words, capture_output=True, text=True, check=True)
        assert float(done.stdout) >= 1.5

    def test_one_database(self):
        make_table(KEYS)
        began = time.monotonic()
        assert rotate("--rate", "10", "--table", "keys", "keys.db") == 0
        assert time.monotonic() - began >= 2

    def test_keys_become_new_one_after_the_other(self):
        make_table(KEYS)
        new = {wrapped_under(NEW_KEK, key).hex() for key in KEYS}
        running = start("--rate", "5", "--table", "keys", "keys.db")
        wait_for(lambda: new & {*rows_of_table()})
        time.sleep(0.5)
        assert len(new & {*rows_of_table()}) < 30
        running.send_signal(signal.SIGINT)
        began = time.monotonic()
        assert end(running) == 130
        assert time.monotonic() - began < 60
        assert rotate("--table", "keys", "keys.db") == 0
        assert {*rows_of_table()} == new

    def test_several_processes_together(self, tmp_path):
        keys = [make_keys(5, seed) for seed in range(8)]
        fill(tmp_path / "store", keys)
        began = time.monotonic()
        assert rotate("--rate", "20", "--jobs", "4", tmp_path / "store") == 0
        assert time.monotonic() - began >= 1.5
        assert state(tmp_path / "store", keys) == ["new"] * 8


class TestPipeWithoutAWriter:
    SHORT = patched("from keywrap_rotate import keks; keks.PIPE_SECONDS = 1")

    def test_a_kek_that_never_comes(self, store):
        os.mkfifo("pipe")
        done = rotate("--kek", "pipe", store, program=self.SHORT, timeout=60)
        assert done == 3
        assert done.has("nobody wrote into it for 1 seconds")
        assert state(store, [KEYS]) == ["old"]

    def test_a_kek_that_comes_later(self, store):
        os.mkfifo("pipe")
        running = start("--kek", "pipe", store)
        time.sleep(0.5)
        pathlib.Path("pipe").write_text(KEK.hex())
        assert end(running) == 0
        assert state(store, [KEYS]) == ["new"]
