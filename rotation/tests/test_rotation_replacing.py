"""A file is replaced by an exchange: writers in each moment of it, killed runs, and systems without an exchange."""

import contextlib
import ctypes
import errno
import fcntl
import hashlib
import os
import pathlib
import shutil
import stat
import subprocess
import sys
import types

import pytest
from rotation_help import wait_for

from keywrap_rotate import replace
from keywrap_rotate import replacing
from keywrap_rotate.found import Changed, Refused, Unanswered
from keywrap_rotate.listing import FileListing, Names
from keywrap_rotate.replacing import base_of

OLD = b"old\n"
NEW = b"new\n"
OTHER = b"written by another program\n"
THIRD = b"and by a third\n"


@pytest.fixture
def file(tmp_path):
    (tmp_path / "store").mkdir()
    path = tmp_path / "store/file"
    path.write_bytes(OLD)
    return path


def write_by_rename(path, content):
    path.with_name("their").write_bytes(content)
    os.rename(path.with_name("their"), path)


def contents(directory):
    return sorted(path.read_bytes() for path in directory.iterdir())


@pytest.fixture
def at_exchange(monkeypatch):
    """at_exchange(before, after): runs these at the first exchange of two names, before and after it."""

    def install(before=lambda: None, after=lambda: None):
        real = replacing.exchange
        acts = [after, before]

        def exchange(one, other):
            acts.pop()() if acts else None
            real(one, other)
            acts.pop()() if acts else None

        monkeypatch.setattr(replacing, "exchange", exchange)

    return install


def refuses(file, new=NEW, old=OLD, why="read it again", error=Refused):
    with pytest.raises(error, match=why):
        replace(str(file), new, old_bytes=old)


class TestReplace:
    def test_replaces_what_was_read(self, file):
        file.chmod(0o640)
        replace(str(file), bytearray(NEW), old_bytes=memoryview(OLD))
        assert file.read_bytes() == NEW
        assert stat.S_IMODE(file.stat().st_mode) == 0o640
        refuses(file)
        refuses(file, b"", NEW, "empty")
        assert contents(file.parent) == [NEW]

    def test_keeps_extended_attributes(self, file):
        try:
            os.setxattr(file, "user.tenant", b"ada")
        except OSError:
            pytest.skip("no extended attributes in this file system")
        replace(str(file), NEW, old_bytes=OLD)
        assert os.getxattr(file, "user.tenant") == b"ada"

    def test_an_attribute_that_cannot_be_kept(self, file, monkeypatch):
        def failing(*words):
            raise OSError(errno.ENOSPC, "no space")

        attributes = [{}, {"user.tenant": b"ada", "security.label": b"x"}]
        monkeypatch.setattr(
            replacing, "_attributes", lambda descriptor: attributes.pop(0)
        )
        monkeypatch.setattr(os, "setxattr", failing)
        refuses(file, why="its attribute user.tenant cannot be kept")
        assert contents(file.parent) == [OLD]

    def test_does_not_replace_a_link(self, file):
        link = file.with_name("link")
        other = file.with_name("other")
        link.symlink_to(file)
        refuses(link, why="symbolic link")
        os.link(file, other)
        refuses(file, why="2 hard links")
        assert file.read_bytes() == OLD

    @pytest.mark.parametrize(
        "content",
        [
            b"",
            b"one\n",
            b"one\ntwo\nthre",
            b"one\ntwo\nthree\n\n",
            b"One\ntwo\nthree\n",
            b"one\ntwo\nthref\n",
            b"one\ntwo\nthree\0",
        ],
    )
    def test_what_was_read_is_compared_to_its_end(self, file, content):
        file.write_bytes(content)
        refuses(file, old=b"one\ntwo\nthree\n")
        assert contents(file.parent) == [content]


class TestWriters:
    @pytest.mark.parametrize("write", [write_by_rename, pathlib.Path.write_bytes])
    @pytest.mark.parametrize(
        "tick", [False, True], ids=["later", "in the same tick of the clock"]
    )
    def test_a_write_right_before_the_exchange_is_put_back(
        self, file, at_exchange, monkeypatch, write, tick
    ):
        if tick:
            monkeypatch.setattr(
                replacing, "identity", lambda status: str(status.st_ino)
            )
        at_exchange(before=lambda: write(file, OTHER))
        refuses(file)
        assert contents(file.parent) == [OTHER]

    def test_a_write_right_after_the_exchange_is_newer(self, file, at_exchange):
        at_exchange(after=lambda: write_by_rename(file, OTHER))
        replace(str(file), NEW, old_bytes=OLD)
        assert contents(file.parent) == [OTHER]

    def test_two_writes_around_the_exchange_are_both_kept(self, file, at_exchange):
        """The later one was made from the new file and may lack the earlier one, which is named."""
        at_exchange(
            before=lambda: write_by_rename(file, OTHER),
            after=lambda: write_by_rename(file, THIRD),
        )
        refuses(file, why="compare it with .rotating.")
        assert file.read_bytes() == THIRD
        assert contents(file.parent) == sorted([THIRD, OTHER])

    @pytest.mark.parametrize("when", ["before", "after"])
    def test_a_file_that_is_removed_at_the_exchange(self, file, at_exchange, when):
        at_exchange(**{when: file.unlink})
        if when == "before":
            refuses(file)
        else:
            replace(str(file), NEW, old_bytes=OLD)
        assert contents(file.parent) == []

    @pytest.mark.parametrize("count", [1, 3])
    def test_writers_that_wait_for_the_lock_at_the_exchange_go_first(
        self, file, at_exchange, count
    ):
        """They opened the file before, and do not look at its name again."""
        program = """import fcntl, os, sys
with open(sys.argv[1], "r+b") as file:
    fcntl.flock(file, fcntl.LOCK_EX)
    file.seek(0, 2)
    file.write(b"written\\n")
"""
        writers = []

        def begin():
            inode = f":{file.stat().st_ino} "
            for number in range(1, count + 1):
                writers.append(subprocess.Popen([sys.executable, "-c", program, file]))
                wait_for(
                    lambda: sum(
                        "->" in line and inode in line
                        for line in pathlib.Path("/proc/locks").read_text().splitlines()
                    )
                    == number
                )

        at_exchange(before=begin)
        refuses(file)
        assert [writer.wait() for writer in writers] == [0] * count
        assert contents(file.parent) == [OLD + b"written\n" * count]

    def test_another_run_that_finishes_the_exchange_first(self, file, monkeypatch):
        """While the lock is free."""

        def finish(*words):
            for path in file.parent.glob(".rotating.*"):
                path.unlink()

        monkeypatch.setattr(replacing, "let_others_write", finish)
        replace(str(file), NEW, old_bytes=OLD)
        assert contents(file.parent) == [NEW]

    def test_a_locked_file_is_waited_for(self, file, monkeypatch):
        monkeypatch.setattr(replacing, "LOCK_SECONDS", 0.1)
        with open(file, "rb") as other:
            fcntl.flock(other, fcntl.LOCK_EX)
            refuses(file, why="another program has locked it", error=Unanswered)
        replace(str(file), NEW, old_bytes=OLD)


NAME = ".rotating.0123abcd.{}.{}.file"


def digest(content):
    return hashlib.blake2b(content).hexdigest()[:24]


def killed(file, left, current):
    """The state that a killed run leaves: its temporary name and the file, with these contents."""
    path = file.with_name(NAME.format(digest(OLD), digest(NEW)))
    path.write_bytes(left)
    if current is None:
        file.unlink()
    else:
        file.write_bytes(current)
    return path


def later(directory, may_write=True):
    """Returns the files that a later run lists and names, and the files that are there afterwards."""
    listing = FileListing(Names([str(directory)]), may_write=may_write)
    names = [os.path.basename(unit.name) for unit in listing.units]
    assert not any(base_of(os.fsencode(name)) for name in names)
    return (
        names,
        [f"{place}: {why}" for place, why in listing.found.named],
        contents(directory),
    )


class TestKilledRuns:
    @pytest.mark.parametrize(
        "left, current, after",
        [
            (NEW, OLD, OLD),
            (NEW, OTHER, OTHER),
            (OLD, NEW, NEW),
            (OLD, OTHER, OTHER),
            (OTHER, NEW, OTHER),
        ],
        ids=[
            "before the exchange",
            "before the exchange, and written since",
            "after the exchange",
            "after the exchange, and written since",
            "between two exchanges",
        ],
    )
    def test_a_later_run_finishes_what_a_killed_run_began(
        self, file, left, current, after
    ):
        """Only if it may write. Else it names it, and changes nothing."""
        path = killed(file, left, current)
        note = f"{path}: a killed run left it: a rotation finishes it"
        assert later(file.parent, may_write=False) == (
            ["file"],
            [note],
            sorted([left, current]),
        )
        assert later(file.parent) == (["file"], [], [after])

    def test_an_unfinished_new_file_is_removed(self, file):
        file.with_name(NAME.format("0" * 24, "0" * 24)).write_bytes(b"part of it")
        assert later(file.parent) == (["file"], [], [OLD])

    @pytest.mark.skipif(os.geteuid() != 0, reason="not root")
    def test_nobody_puts_a_file_in_the_place_of_another_owners(self, file):
        os.chown(killed(file, OTHER, NEW), 12, 34)
        names, notes, after = later(file.parent)
        assert names == ["file"]
        assert len(notes) == 1
        assert after == sorted([NEW, OTHER])

    @pytest.mark.parametrize(
        "make", [os.mkfifo, os.mkdir, lambda path: os.symlink("file", path)]
    )
    @pytest.mark.parametrize("may_write", [True, False])
    def test_what_has_a_temporary_name_and_is_no_file(self, file, make, may_write):
        make(file.with_name(NAME.format(digest(OLD), digest(NEW))))
        listing = FileListing(Names([str(file.parent)]), may_write=may_write)
        assert listing.found.refused == 1
        assert listing.number == 1

    @pytest.mark.parametrize("current", [OTHER, OLD, None])
    def test_a_later_run_names_what_it_cannot_decide(self, file, current):
        path = killed(file, THIRD, current)
        there = [] if current is None else [current]
        for _ in range(2):
            names, (note,), after = later(file.parent)
            assert names == ["file"] * len(there)
            assert after == sorted([THIRD, *there])
            assert note.startswith(f"{path}: a run left it, and ")

    def test_a_write_while_a_later_run_decides(self, file, at_exchange):
        """The newest content has the name, and the earlier one is named."""
        path = killed(file, OTHER, NEW)
        at_exchange(before=lambda: write_by_rename(file, THIRD))
        names, (note,), after = later(file.parent)
        assert file.read_bytes() == THIRD
        assert path.read_bytes() == OTHER
        assert after == sorted([THIRD, OTHER])
        assert note.startswith(
            f"{path}: other programs wrote it twice meanwhile: compare it with "
        )

    def test_one_file_by_its_name_is_finished_too(self, file):
        killed(file, OTHER, NEW)
        pathlib.Path("list").write_text(f"{file}\n")
        listing = FileListing(Names([], (), "list"), may_write=True)
        assert [unit.name for unit in listing.units] == [str(file)]
        assert contents(file.parent) == [OTHER]

    def test_a_run_that_lives_is_left_alone(self, file):
        path = killed(file, OTHER, NEW)
        with open(path, "rb") as held:
            fcntl.flock(held, fcntl.LOCK_EX)
            note = f"{path}: another program has locked it"
            assert later(file.parent) == (["file"], [note], sorted([OTHER, NEW]))
            assert (
                FileListing(Names([str(file.parent)]), may_write=True).found.lost == 1
            )

    @pytest.mark.parametrize(
        "name",
        [".rotating.mine", ".rotating.abcdefgh", ".rotating.0123abcd.00.00.file", "x."],
    )
    def test_a_name_that_only_begins_like_a_temporary_one_is_a_file(self, file, name):
        file.rename(file.with_name(name))
        assert later(file.parent) == ([name], [], [OLD])


def failing_call(*words):
    ctypes.set_errno(errno.ENOSYS)
    return -1


class TestSystem:
    @pytest.mark.parametrize("number", [1, 2])
    def test_an_exception_in_the_exchange_keeps_what_came_out(
        self, file, monkeypatch, number
    ):
        """As an interrupt between the exchange and the comparison: the file that came out is not removed uncompared."""
        real = replacing.exchange

        def exchange(one, other):
            if number == 2:
                real(one, other)
            raise KeyboardInterrupt

        with monkeypatch.context() as patch:
            patch.setattr(replacing, "exchange", exchange)
            refuses(file, why="", error=KeyboardInterrupt)
        assert contents(file.parent) == sorted([OLD, NEW])
        assert later(file.parent) == (["file"], [], [NEW if number == 2 else OLD])

    @pytest.mark.parametrize(
        "libc",
        [
            types.SimpleNamespace(),
            types.SimpleNamespace(renameat2=failing_call),
            types.SimpleNamespace(renamex_np=failing_call),
        ],
    )
    def test_without_an_exchange(self, file, monkeypatch, libc):
        monkeypatch.setattr(replacing, "_libc", libc)
        refuses(
            file, why="cannot exchange two files: stop all writers, then use --quiesced"
        )
        assert contents(file.parent) == [OLD]
        with replacing.opened(os.fsencode(file)) as (old, before), contextlib.closing(
            replacing.Successor(os.fsencode(file), before)
        ) as successor:
            successor.write(NEW)
            with pytest.raises(Changed):
                successor.replace(old, digest(OTHER), quiesced=True)
            successor.replace(old, digest(OLD), quiesced=True)
        assert contents(file.parent) == [NEW]

    def test_syncs_before_and_after_it_replaces(self, file):
        if shutil.which("strace") is None:
            pytest.skip("no strace (apt-get install strace)")
        if os.geteuid() == 0:
            os.chown(file, 12, 34)
        log = pathlib.Path("calls").absolute()
        program = f"from keywrap_rotate import replace; replace({str(file)!r}, {NEW!r}, old_bytes={OLD!r})"
        calls = "fchown,fchmod,fsync,rename,renameat2,unlink"
        command = [
            "strace",
            "-f",
            "-y",
            "-o",
            log,
            "-e",
            f"trace={calls}",
            sys.executable,
            "-B",
            "-c",
            program,
        ]
        done = subprocess.run(command, check=False, capture_output=True)
        if b"ptrace" in done.stderr:
            pytest.skip("strace is not allowed here")
        kinds = []
        for line in log.read_text().splitlines():
            if "= 0" in line:
                _, call = line.split(None, 1)
                kind, _, arguments = call.partition(")")[0].partition("(")
                is_of_directory = f"<{file.parent}>" in arguments
                if is_of_directory and not kind.startswith("rename"):
                    kind += " directory"
                kinds.append(kind)
        # The owner before the mode: otherwise others could read the new file meanwhile.
        assert kinds == [
            "fchown",
            "fchmod",
            "fsync",
            "rename",
            "renameat2",
            "unlink",
            "fsync directory",
        ]
