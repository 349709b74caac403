"""The file of --output: its contents after success and after each refusal; the names that are refused; and its owner,
group and mode, which are kept. A new file, and a file with an unwrapped key, is only for its owner. A file whose owner,
group or mode cannot be kept is refused."""

import os
import pathlib
import pwd
import random
import re
import stat
import subprocess

import pytest

from checks import DONE, FLUSH_FAULT, NO_OUTPUT, fresh, held, keeps, lands, no_output
from commands import CHECK, FILES, JOBS, REFUSALS, REWRAP, UNWRAP, WRAP, chosen
from program import CLOSED, Ended, refused, sh, words
from vectors import FULL

INTO = "-o to/file"
WRAP_FILE = f"{WRAP} -i key.hex {INTO}"
UNWRAP_FILE = f"{UNWRAP} -i wrapped.hex {INTO}"
WRAPPED = FILES["wrapped.hex"]
WRAPPED32 = FILES["wrapped32.hex"]
KEY = FILES["key.hex"]
EACH = pytest.mark.parametrize(
    "args, answer",
    [
        (WRAP_FILE, WRAPPED),
        (UNWRAP_FILE, KEY),
        (f"{CHECK} -i wrapped.hex {INTO}", FILES["plain"]),
        (f"{REWRAP} -i wrapped.hex {INTO}", WRAPPED32),
    ],
    ids=["wrap", "unwrap", "check", "rewrap"],
)
ME = (os.getuid(), os.getgid())
NOBODY = pwd.getpwnam("nobody")[2:4]
OTHER_GROUP = 54321
ONLY_ROOT = pytest.mark.skipif(os.getuid() != 0, reason="only root can try owners")


class TestContent:
    # Below: one job for each way to write an answer, and one refusal for each step that can refuse.
    @pytest.mark.parametrize(
        "command",
        chosen(
            JOBS,
            [
                "wrap",
                "raw wrap",
                "padded wrap",
                "unwrap",
                "check",
                "rewrap",
                "raw rewrap",
                "rewrap in base64url",
            ],
        ),
    )
    def test_each_job(self, keywrap, command):
        """A new file, an old one, the input file by three names, and closed streams. A hard link keeps the old file."""
        args = command.args
        answer = command.stdout
        fresh()
        os.umask(0)
        lands(keywrap, [*args, "--output", "to/file"], answer, stdin=command.given)
        os.umask(0o077)
        pathlib.Path("to/file").write_bytes(b"old\n")
        os.link("to/file", "to/link")
        lands(keywrap, [*args, "-o", "to/file", "-i", command.stdin], answer)
        assert pathlib.Path("to/link").read_bytes() == b"old\n"
        os.symlink("file", "to/name")
        for given in "to/file", "to/name", "to/other":
            pathlib.Path("to/file").write_bytes(command.given)
            sh("ln -f to/file to/other")
            lands(keywrap, [*args, f"--input={given}", "--output=to/file"], answer)
        args = [*args, "--input", command.stdin, "--output", "to/new"]
        lands(keywrap, args, answer, "to/new", stdin=CLOSED, stdout=CLOSED)

    @pytest.mark.parametrize(
        "command",
        chosen(
            REFUSALS,
            [
                "IV of 15 digits",
                "no KEK file",
                "KEK file too long",
                "KEK of 15 bytes",
                "no new KEK file",
                "bad digit",
                "new KEK of 15 bytes",
                "rewrap of a wrong byte",
                "rewrap of 7 bytes",
                "input too long",
                "bad base64",
                "key of 7 bytes",
                "wrong byte",
                "no input file",
                "directory as input file",
            ],
        ),
    )
    def test_refusal(self, keywrap, command):
        """The file is unchanged, also if it is the input, and no other file is left."""
        refusal = Ended(command.status, "", command.stderr)
        given = command.stdin or "nothing"
        fresh()
        keeps(
            keywrap,
            [*command.args, "--output", "to/file"],
            refusal,
            stdin=command.given,
        )
        ways = [(b"old\n", ["-i", given]), (command.given, ["-i", "to/file"])]
        for content, args in [(b"old\n", [])] if "--input" in command.args else ways:
            pathlib.Path("to/file").write_bytes(content)
            os.chmod("to/file", 0o6640)
            keeps(keywrap, [*command.args, "-o", "to/file", *args], refusal)

    @pytest.mark.parametrize(
        "name, args",
        [
            ("file", ["--output", "file"]),
            ("file", ["-ofile"]),
            ("a\nkey", ["--output=a\nkey"]),
            ("-x", ["--output=-x"]),
            ("--raw", ["--output=--raw"]),
            ("-x", ["-o", "./-x"]),
            ("-", ["-o", "./-"]),
            ("a directory/a", ["-oa directory/a"]),
            *[
                (name, ["-o", name])
                for name in ("a key", ".file", "file.part0", "*", "é")
            ],
            *[
                ("file", ["-o", path])
                for path in ("a directory/../file", "..//linked/file", "{}/to/file")
            ],
            ("0" * 249, ["-o", "0" * 249]),
        ],
        ids=lambda value: repr(value)[:20],
    )
    def test_names(self, keywrap, files, name, args):
        """The answer is in the file that the arguments name, in the directory `to`."""
        fresh()
        os.mkdir("to/a directory")
        os.symlink("to", "linked")
        args = [arg.format(files) for arg in args]
        for kek, answer in ("../kek16.hex", WRAPPED), ("../kek32.hex", WRAPPED32):
            lands(
                keywrap,
                ["wrap", "--kek", kek, *args],
                answer,
                f"to/{name}",
                cwd="to",
                stdin=KEY,
            )

    # Directories, links, pipes and what is not there; then KEK files, by whatever names of theirs.
    @pytest.mark.parametrize(
        "args, names",
        [
            (
                f"{WRAP} -i key.hex",
                [
                    "to/directory",
                    "to/directory/",
                    "to/directory/.",
                    "to/directory/inner/..",
                    ".",
                    "/",
                    "",
                    "to/fifo",
                    "to/link",
                    "to/dangling",
                    "to/linked",
                    "to/linked/",
                    "to/loop",
                    "/proc/self/fd/1",
                    "to/file/",
                    "to/file/file",
                    "to/missing/file",
                    "to/missing/",
                    "to/" + "0" * 256,
                    "to/" + "0" * 250,
                    "to/" + "0" * 5000,
                    "/proc/keywrap",
                    "/proc/version",
                    "to/null",
                ],
            ),
            *[
                (
                    f"wrap -i key.hex --kek {kek}",
                    [
                        "to/kek16.hex",
                        "./to/../to/kek16.hex",
                        "{}/to/kek16.hex",
                        "to/hard.kek16.hex",
                    ],
                )
                for kek in (
                    "to/kek16.hex",
                    "to/hard.kek16.hex",
                    "to/soft.kek16.hex",
                    "/dev/stdin",
                )
            ],
            *[
                (args, args.split()[-1:])
                for args in (
                    "unwrap -i wrapped.hex --kek to/kek16.hex",
                    "check -i wrapped.hex --kek to/kek16.hex",
                    "wrap -i to/kek16.hex --kek to/kek16.hex",
                    "wrap -i key.hex --raw-kek --kek to/kek16.raw",
                    "wrap -i key.hex --kek to/kek15.hex",
                )
            ],
            *[
                (
                    f"rewrap --kek to/kek16.hex --new-kek to/{new} -i wrapped.hex",
                    [
                        "to/kek16.hex",
                        "to/hard.kek16.hex",
                        "to/kek32.hex",
                        "to/hard.kek32.hex",
                        "to/soft.kek32.hex",
                    ],
                )
                for new in ("kek32.hex", "soft.kek32.hex", "hard.kek32.hex")
            ],
        ],
    )
    def test_names_that_are_refused(self, keywrap, files, args, names):
        fresh(b"old\n")
        sh(
            """cp kek16.hex kek32.hex kek16.raw kek15.hex to && cd to && mkdir -p directory/inner && mkfifo fifo
            for kek in kek*; do ln $kek hard.$kek; ln -s $kek soft.$kek; done
            ln -s file link; ln -s missing dangling; ln -s directory linked; ln -s loop loop
            mknod null c 1 3 2>&- || mkfifo null"""
        )
        for name in names:
            keeps(
                keywrap,
                [*words(args), "-o", name.format(files)],
                NO_OUTPUT,
                stdin=pathlib.Path("to/kek16.hex"),
            )

    @ONLY_ROOT
    def test_kek_file_that_only_standard_input_still_reads(self, as_nobody):
        """The file cannot be opened by its name, since its mode became 0 after standard input was opened."""
        sh("chown nobody: . kek16.hex")
        with open("kek16.hex", "rb") as kek:
            os.chmod("kek16.hex", 0)
            assert (
                as_nobody("wrap --kek /dev/stdin -i key.hex -o kek16.hex", stdin=kek)
                == NO_OUTPUT
            )
        assert pathlib.Path("kek16.hex").read_bytes() == FILES["kek16.hex"]

    @pytest.mark.parametrize(
        "args",
        [
            "wrap -i key.hex",
            "unwrap -i wrapped.hex",
            "wrap -i given",
            "wrap --raw -i given",
            "check -i wrapped.hex",
            "rewrap --new-kek kek32.hex -i wrapped.hex",
        ],
    )
    def test_full_disk(self, keywrap, args):
        """First there is no room for the answer, then there is. Other tests check standard output."""
        raw = random.Random(2048).randbytes(2048)
        args = f"{args} --kek kek16.hex"
        pathlib.Path("given").write_bytes(
            raw if "--raw" in args else raw.hex().encode()
        )
        answer = keywrap(args, text=False).stdout
        fresh(b"old\n")
        for taken in 0, 1, min(1024, len(answer) - 2), len(answer) - 1:
            keeps(
                keywrap,
                f"{args} {INTO}",
                refused(6, FULL.format(taken)),
                limits={"FSIZE": taken},
            )
        lands(keywrap, f"{args} {INTO}", answer, limits={"FSIZE": len(answer)})

    @pytest.mark.parametrize(
        "others, args",
        [
            *[
                (others, WRAP)
                for others in (
                    "ln -s target to/file.part0",
                    "mkdir to/file.part0",
                    "mkfifo to/file.part0",
                    "echo part >to/file.part0",
                    "touch $(seq -f to/file.part%.0f 0 98)",
                    "touch $(seq -f to/file.part%.0f 0 99); rm to/file.part50",
                )
            ],
            ("cp key.hex to/file.part0", f"{WRAP} -i to/file.part0"),
            ("cp kek16.hex to/file.part0", "wrap --kek to/file.part0"),
            ("cp kek16.hex to/file", WRAP),
        ],
    )
    def test_others_stay(self, keywrap, others, args):
        """The new file is FILE.part0 until it is renamed, or the next free name. A file of this name stays."""
        fresh(b"old\n")
        sh(others)
        lands(keywrap, f"{args} {INTO}", WRAPPED, stdin=KEY)

    def test_a_hundred_others(self, keywrap):
        fresh(b"old\n")
        sh("touch $(seq -f to/file.part%.0f 0 99)")
        reason = "to/file: files of its name with .part0 to .part99 are there"
        keeps(keywrap, f"{WRAP_FILE} --verbose", no_output(reason))


def replaces(program, args, owner, mode, answer=WRAPPED, **options):
    """The answer replaces to/file, with this owner, group and mode. No other file is left."""
    assert program(args, **options) == DONE
    found = os.stat("to/file")
    assert (found.st_uid, found.st_gid, oct(stat.S_IMODE(found.st_mode))) == (
        *owner,
        oct(mode),
    )
    os.chmod("to/file", 0o600)
    assert held() == answer


@pytest.mark.parametrize(
    "owner, mode, mask",
    [
        *[
            (ME, mode, mask)
            for mode, mask in (
                (0o000, 0),
                (0o600, 0),
                (0o640, 0o077),
                (0o666, 0o022),
                (0o777, 0o077),
                (0o444, 0o022),
                (0o6755, 0o022),
                (None, 0o000),
                (None, 0o077),
            )
        ],
        *[
            pytest.param(owner, mode, 0o022, marks=ONLY_ROOT)
            for owner in (NOBODY, (12345, OTHER_GROUP))
            for mode in (0o400, 0o666)
        ],
    ],
)
@EACH
def test_owner_and_mode(keywrap, args, answer, owner, mode, mask):
    """A mode of None means a new file. Set-user-id and set-group-id are not kept, the owner is, in place, too."""
    fresh(None if mode is None else WRAPPED, mode)
    os.umask(mask)
    if owner is not ME:
        os.chown("to/file", *owner)
    wanted = (
        (ME, 0o600) if mode is None or args is UNWRAP_FILE else (owner, mode & 0o777)
    )
    replaces(
        keywrap,
        args if owner is ME else args.replace("-i wrapped.hex", "-i to/file"),
        *wanted,
        answer,
    )


@pytest.mark.needs("strace")
@pytest.mark.parametrize("args, skipped", [(WRAP_FILE, []), (UNWRAP_FILE, ["copy"])])
def test_steps_of_the_picture(keywrap, args, skipped):
    """The system calls come in the order of docs/pictures/output.svg."""
    picture = (
        pathlib.Path(__file__).resolve().parent.parent / "docs/pictures/output.svg"
    )
    fresh(b"old\n", 0o644)
    strace = "strace -f -o calls -e trace=openat,fchown,fchmod,read,write,fsync,rename".split()
    assert keywrap(args, prefix=strace) == DONE
    calls = pathlib.Path("calls").read_text()
    names = re.findall(
        r'(?m)^\d+ +(openat\(.*O_CREAT.* 0600\)|\w+)(?!.*"to/")',
        calls[calls.index('"kek16.hex"') :],
    )
    verbs = {
        "fchown": "copy",
        "fchmod": "copy",
        "read": "compute",
        "write": "write",
        "fsync": "sync",
        "rename": "rename",
        "openat": "open",
    }
    steps = ["open", *(verbs.get(name, "create") for name in names)]
    steps = [step for step, before in zip(steps, ["", *steps]) if step != before]
    assert steps == [
        step
        for step in re.findall(r">\d  (\w+)", picture.read_text())
        if step not in skipped
    ]


@pytest.mark.needs("setfacl")
@pytest.mark.parametrize(
    "args, mode, answer",
    [(WRAP_FILE, None, WRAPPED), (UNWRAP_FILE, None, KEY), (WRAP_FILE, 0o604, WRAPPED)],
)
def test_directory_whose_files_others_may_read(keywrap, args, mode, answer):
    """The directory has a default access control list."""
    fresh(b"old\n" if mode else None, mode)
    setfacl = ["setfacl", "-d", "-m", "u::rwx,g::rwx,o::rwx,u:nobody:rwx", "to"]
    if subprocess.run(setfacl).returncode:
        pytest.skip("no access control lists on this file system")
    replaces(keywrap, args, ME, mode or 0o600, answer)
    listed = subprocess.run(
        ["getfacl", "-cE", "to/file"], capture_output=True, text=True
    ).stdout
    assert mode or "mask::---" in listed.splitlines()


@pytest.mark.parametrize("name", ["to/new", "to/file"])
def test_directory_that_cannot_be_written(as_nobody, name):
    fresh(b"old\n")
    os.chmod("to", 0o555)
    keeps(as_nobody, f"{WRAP} -i key.hex -o {name}", NO_OUTPUT)


@ONLY_ROOT
class TestOwner:
    def test_directory_that_hands_its_group_on(self, keywrap, as_nobody):
        fresh(b"old\n")
        os.chown("to", NOBODY[0], OTHER_GROUP)
        os.chmod("to", 0o2775)
        replaces(keywrap, WRAP_FILE, (0, 0), 0o644)
        os.remove("to/file")
        replaces(keywrap, WRAP_FILE, (0, OTHER_GROUP), 0o600)
        os.chown("to/file", *NOBODY)
        os.chmod("to/file", 0o640)
        replaces(as_nobody, WRAP_FILE, NOBODY, 0o640)

    @pytest.mark.parametrize(
        "owner",
        [NOBODY, (NOBODY[0], OTHER_GROUP), (0, 0), (NOBODY[0], 0)],
        ids=["its own", "of another of its groups", "of root", "of the group root"],
    )
    @EACH
    def test_nobody_over_a_file(self, as_nobody, args, answer, owner):
        """It cannot give a file to root. An unwrapped key needs no owner or group of the old file."""
        mode = 0o666 if 0 in owner else 0o444
        fresh(b"old\n", mode)
        os.chown("to", *NOBODY)
        os.chown("to/file", *owner)
        if 0 in owner and args is not UNWRAP_FILE:
            reason = "to/file: owner, group or mode can't be kept: Operation not permitted (os error 1)"
            keeps(as_nobody, f"{args} --verbose", no_output(reason))
        else:
            wanted = (NOBODY, 0o600) if args is UNWRAP_FILE else (owner, mode)
            replaces(as_nobody, args, *wanted, answer, extra_groups=[OTHER_GROUP])

    def test_sticky_directory(self, as_nobody):
        """Users may replace only their own files, as in /tmp."""
        fresh(b"old\n")
        os.chmod("to", 0o1777)
        keeps(as_nobody, UNWRAP_FILE, FLUSH_FAULT)
        keeps(as_nobody, WRAP_FILE, NO_OUTPUT)
        os.remove("to/file")
        lands(as_nobody, WRAP_FILE, WRAPPED)
