"""Objects in a store with compare-and-swap, whose commands fail, hang, are killed, or meet writers."""

import os
import pathlib
import sys

import pytest
from rotation_help import (
    KEK,
    NEW_KEK,
    make_keys,
    rotate,
    wait_for,
    wrapped_under,
    write_lines,
)

NAMES = [
    "a",
    "b b",
    "-n",
    "-e",
    "d'\"$d`touch done`;x",
    "é",
    "{version}",
    "../bucket/up",
]
KEYS = make_keys(len(NAMES))
# A version is the digest of the content. `meanwhile` runs before each call.
STORE = """
import hashlib, os, shutil, sys, time
call, name, file, *version = sys.argv[1:]
path = os.path.join("bucket", name.replace("/", "%"))
exec(open("meanwhile").read())
found = hashlib.sha256(open(path, "rb").read()).hexdigest()
if call == "get":
    shutil.copy(path, file)
    print(found)
elif [found] != version:
    sys.exit(3)
else:
    shutil.copy(file, path)
"""
COMMANDS = [
    "--get",
    f"{sys.executable} store.py get {{name}} {{file}}",
    "--put",
    f"{sys.executable} store.py put {{name}} {{file}} {{version}}",
]
FROM = ["--files-from", "manifest"]


def path_of(name):
    return pathlib.Path("bucket", name.replace("/", "%"))


def hexes(kek, *keys):
    return [wrapped_under(kek, key).hex() + "\n" for key in keys]


@pytest.fixture(autouse=True)
def bucket(tmp_path, monkeypatch):
    pathlib.Path("store.py").write_text(STORE)
    write_lines("manifest", [*NAMES, "", "a"])
    for name in ("bucket", "temporary"):
        os.mkdir(name)
    monkeypatch.setenv("TMPDIR", str(tmp_path / "temporary"))
    for name, content in under(KEK).items():
        path_of(name).write_text(content)


def rotated(*words, meanwhile="", commands=(*FROM, *COMMANDS)):
    """No temporary directory is left."""
    pathlib.Path("meanwhile").write_text(meanwhile)
    done = rotate(*commands, *words)
    assert os.listdir("temporary") == []
    assert not os.path.exists("done")
    return done


def held():
    return {name: path_of(name).read_text() for name in NAMES if path_of(name).exists()}


def under(kek):
    return dict(zip(NAMES, hexes(kek, *KEYS)))


class TestObjects:
    @pytest.mark.parametrize("jobs", ["1", "4"])
    def test_each_name_of_an_object(self, jobs):
        for rewrapped, act in (8, ""), (0, 'call == "put" and sys.exit(1)'):
            done = rotated("--jobs", jobs, meanwhile=act)
            assert done.status == 0
            assert held() == under(NEW_KEK)
            assert done.counts["rewrapped"] == rewrapped

    def test_dry_run_verify_and_a_record(self):
        before = held()
        assert rotated("--dry-run") == 6
        assert rotated("--verify") == 5
        assert held() == before
        rotated()
        os.unlink("kek.hex")
        assert rotated("--verify", "--record", "record") == 0
        assert rotated("--verify", "--verify-record", "record") == 0
        os.rename(path_of("a"), path_of("é"))
        done = rotated("--verify", "--verify-record", "record")
        assert done == 5
        assert done.has("é: missing or changed since")
        assert done.has("a: get ended with status 1")

    def test_a_refused_object(self):
        path_of("a").write_text("00" * 40)
        done = rotated()
        assert done.status == 5
        assert (
            done.messages[0]
            == "keywrap-rotate: a: its key: under no KEK of this rotation"
        )
        assert held() == {**under(NEW_KEK), "a": "00" * 40}

    def test_an_object_without_a_version_is_not_put(self):
        done = rotated(
            meanwhile='call == "get" and name == "a" and (shutil.copy(path, file), sys.exit())'
        )
        assert done.status == 5
        assert done.messages[0] == "keywrap-rotate: a: get printed no version"
        assert held() == {**under(NEW_KEK), "a": under(KEK)["a"]}

    @pytest.mark.parametrize("call", ["get", "put"])
    @pytest.mark.parametrize(
        "how, message",
        [
            ("sys.exit(255)", "status 255"),
            ("os.kill(os.getpid(), 9)", "status -9"),
            ("time.sleep(100)", "did not end in 6 seconds"),
        ],
    )
    def test_a_failed_call_leaves_its_object(self, call, how, message):
        """The object of a failed call is left as it is, and all others are rotated."""
        done = rotated(
            "--timeout",
            "8",
            "--jobs",
            "8",
            meanwhile=f'if (call, name) == ("{call}", "b b"): {how}',
        )
        is_lost = call == "put" or "did not" in message
        assert done.status == (6 if is_lost else 5), done
        assert done.has(f"b b: {call} "), done
        assert done.has(message), done
        assert held() == {**under(NEW_KEK), "b b": under(KEK)["b b"]}
        assert rotated() == 0
        assert held() == under(NEW_KEK)

    @pytest.mark.parametrize("how", ["time.sleep(100)", "sys.exit(1)"])
    def test_a_put_that_happens_and_fails_is_counted(self, how):
        """Its key is not one that was new before: this run wrote it. Each of these objects is put once."""
        act = f"""if call == "put" and name in ("a", "b b"):
    shutil.copy(file, path)
    {how}"""
        done = rotated("--timeout", "4", meanwhile=act)
        assert done.status == 0, done
        assert held() == under(NEW_KEK)
        assert done.counts["rewrapped"] == len(NAMES), done


ADDED, NEW_ADDED = (hexes(kek, bytes(32))[0] for kek in (KEK, NEW_KEK))


class TestChanges:
    def test_an_object_that_changes_each_time_is_kept(self):
        change = f'if call == "put" and name == "a": open(path, "w").write({ADDED!r} + " " * (time.time_ns() % 1000))'
        done = rotated(meanwhile=change)
        assert done.status == 6
        assert held()["a"].strip() == ADDED.strip()
        assert done.has(
            "a: put ended with status 3: somebody else may have written it, in each of 4 attempts"
        )

    @pytest.mark.parametrize("call", ["put", "get"])
    def test_an_object_that_changes_before_put_or_after_get(self, call):
        """Its version is the one that get printed, and no later one."""
        change = f"""if call == "{call}" and name == "a" and not os.path.exists("once"):
    import atexit
    def act():
        open("once", "w"), open(path, "w").write({ADDED!r})
    act() if call == "put" else atexit.register(act)"""
        assert rotated(meanwhile=change) == 0
        assert held() == {**under(NEW_KEK), "a": NEW_ADDED}

    @pytest.mark.parametrize(
        "words, status, message",
        [
            (
                ["--files-from", "none", *COMMANDS],
                5,
                "--files-from: none: No such file or directory",
            ),
            (
                [*FROM, *COMMANDS[:2]],
                2,
                "--get, --put and --files-from go together",
            ),
            (
                [*FROM, *COMMANDS, "FILE"],
                2,
                "FILE does not go with --get",
            ),
            (
                [*FROM, *COMMANDS[:2], "--put", "put {name} {file}"],
                2,
                "--put: it needs {name}, {file}, {version}",
            ),
            (
                [*FROM, "--get", "get {name}", *COMMANDS[2:]],
                2,
                "--get: it needs {name}, {file}",
            ),
            (
                [*FROM, "--get", "'x {name} {file}", *COMMANDS[2:]],
                2,
                "No closing quotation",
            ),
            (
                [*FROM, "--get", "none {name} {file}", *COMMANDS[2:]],
                5,
                "get: none: No such file or directory",
            ),
        ],
    )
    def test_refuses_arguments(self, words, status, message):
        done = rotated(commands=words)
        assert done.status == status, done
        assert done.has(message), done
        assert held() == under(KEK)


def test_a_command_that_does_not_end_is_killed_with_what_it_has_started(tmp_path):
    """So that nothing is put after the run."""
    script = tmp_path / "hang"
    script.write_text(
        "#!/bin/sh\necho $$ > parent\nsleep 98765 & echo $! > child\nwait\n"
    )
    script.chmod(0o755)
    write_lines("one", ["a"])
    words = [
        "--get",
        f"{script} {{name}} {{file}}",
        "--put",
        "true {name} {file} {version}",
    ]
    done = rotate("--timeout", "2", "--files-from", "one", *words)
    assert done == 6, done
    for name in "parent", "child":
        pid = int((tmp_path / name).read_text())
        wait_for(lambda: not is_running(pid))


def is_running(pid):
    try:
        stat = pathlib.Path(f"/proc/{pid}/stat").read_text()
    except FileNotFoundError:
        return False
    return stat.rpartition(")")[2].split()[0] != "Z"
