"""Random command lines over good and bad files: words from commands, options, values, file names and garbage.

Each run ends in time, never by a signal, with a status of README's table, and writes no more than that
status allows. Only an answer changes a file: one, which is the answer, in the mode of the file that it replaces or for
its owner only. KEYWRAP_RANDOM='N SEED' tries N command lines of this seed."""

import os
import pathlib
import random
import re
import shutil
import stat
from typing import NamedTuple, Optional

import pytest

from commands import FILES, INTO_FILES, MAX_FILE, table, unescaped
from vectors import BAD_LENGTH, INTEGRITY, KEK16, KEK_LENGTH, MEMORY, WRAPPED20, zeros

COUNT, SEED = (
    int(word) for word in os.environ.get("KEYWRAP_RANDOM", "1000 3394").split()
)
PARTS = 10


def words_of(kind):
    """The words of this kind in random_arguments.txt."""
    lines = [line for line, in table("random_arguments", kind)]
    words = " ".join(lines).split()
    return [unescaped(word.replace("''", "")) for word in words]


KINDS = (
    "commands",
    "options",
    "names",
    "values",
    "garbage",
    "inputs",
    "outputs",
    "flags",
)
WORDS = {kind: words_of(kind) for kind in KINDS}
WORDS["values"] += [zeros(4096), zeros(4097), zeros(32769)]
WORDS["garbage"] += [zeros(3000)]
# The lines of a refusal, for each status.
REFUSALS = {
    3: f"(new )?{KEK_LENGTH}",
    4: rf"(line \d+: )?{BAD_LENGTH}|no lines",
    5: rf"(line \d+: )?{INTEGRITY}",
    6: r"((new )?key file|input|output): cannot be opened|((new )?key file|input|line \d+): (cannot be read|too long"
    r"|odd number of hex digits|no (hex digit|base64 character) at byte \d+|base64 goes on after its padding at byte"
    r" \d+|length is not that of base64|last base64 character has bits of no byte)",
    7: MEMORY,
}


class Lines(random.Random):
    """Command lines, the same for the same seed."""

    def one(self, kind):
        return self.choice(WORDS[kind])

    def word(self):
        kinds = "commands", "options", "names", "values", "garbage"
        (kind,) = self.choices(kinds, [2, 3, 2, 2, 1])
        return self.one(kind)

    def likely(self):
        """A command with files and flags that it may accept."""
        job = self.choice(["wrap", "unwrap", "rewrap", "check", "drill", "vectors"])
        if job in ("drill", "vectors"):
            arguments = ["--padded", "--unwrap", self.one("values")]
            return [job, *self.choices(arguments, k=self.randrange(3))]
        words = [job, "--kek", self.choice(["kek16.hex", self.one("names")])]
        new_kek = self.choice(["kek32.hex", self.one("names")])
        if job == "rewrap":
            words += ["--new-kek", new_kek]
        words += self.choice([[], ["-i", self.one("inputs")]])
        words += self.choice([[], ["-o", self.one("outputs")]])
        words += self.sample(WORDS["flags"], self.choice([0, 0, 1, 2, 3]))
        return words

    def line(self):
        """Any words, a command that is right, or one that may be, with one word left out or changed; and the input."""
        kind = self.randrange(16)
        given = self.one("inputs")
        if kind < 4:
            words = [self.word() for _ in range(self.randrange(8))]
            return words, given
        if kind < 7:
            command = self.choice(INTO_FILES)
            output = self.one("outputs")
            words = [word.replace("to/file", output) for word in command.args]
            return words, command.stdin or given
        words = self.likely()
        at = self.randrange(8)
        left_out = []
        changed = [self.word()]
        kept = words[at : at + 1]
        words[at : at + 1] = self.choice([left_out, changed, kept])
        return words, given


FILES_HERE = {
    **FILES,
    "wrapped20.hex": WRAPPED20.encode(),
    "long": bytes(MAX_FILE + 1),
    "most": bytes(MAX_FILE),
    "largest.hex": zeros(1048576).encode(),
    "blank": b" \t\r\n",
    "mark": b"\xef\xbb\xbf00",
    "name\udcff": KEK16.encode(),
    "file": b"old\n",
    "new.part0": b"part\n",
}


def make_files():
    """Makes the directory `here`, in which the command lines run."""
    shutil.rmtree("here", ignore_errors=True)
    os.makedirs("here/directory")
    for name, content in FILES_HERE.items():
        pathlib.Path("here", name).write_bytes(content)
    os.symlink("kek16.hex", "here/link")
    os.symlink("loop", "here/loop")
    os.link("here/kek16.hex", "here/kek16.link")
    os.chmod("here/file", 0o640)


class FileState(NamedTuple):
    """The parts of a file that a run may not change. Only a regular file has a size and a time."""

    mode: int
    inode: int
    size: Optional[int]
    time: Optional[int]


def state_of(path):
    now = path.lstat()
    if stat.S_ISREG(now.st_mode):
        return FileState(now.st_mode, now.st_ino, now.st_size, now.st_mtime_ns)
    return FileState(now.st_mode, now.st_ino, None, None)


def state():
    """The state of each file by its path."""
    return {path: state_of(path) for path in pathlib.Path("here").rglob("*")}


def answer_of(words, ended, before, after):
    """The answer: on standard output, or the one file that changed. The run may change nothing else."""
    assert before.keys() <= after.keys()
    changed = [path for path in after if after[path] != before.get(path)]
    if not changed:
        return ended.stdout
    (answer,) = changed
    assert ended.stdout == b""
    is_check_of_none = ended.status == 5 and words[0] == "check"
    assert ended.status == 0 or is_check_of_none or "--keep-going" in words

    mode = 0o600
    if answer in before and words[0] != "unwrap":
        mode = stat.S_IMODE(before[answer].mode)
    assert oct(after[answer].mode) == oct(stat.S_IFREG | mode)
    return answer.read_bytes()


def is_refusal_of_arguments(words, error):
    """Whether this is what a run with status 2 writes on standard error."""
    if words in ([], ["--"]):
        return error.startswith("Wraps and unwraps keys ")
    if error.startswith("error: "):
        return True
    return re.fullmatch("keywrap: --(new-)?iv is .*\n", error) is not None


def is_right(words, ended, answer):
    """Whether the run wrote what its status allows."""
    status, stdout, error = ended
    has_more_lines = "--keep-going" in words or "--verbose" in words
    if status == 0:
        if error and "--verbose" not in words:
            return False
        return answer != b"" and not answer.startswith(b"none")
    if status == 2:
        return stdout == b"" and is_refusal_of_arguments(words, error)
    if status == 5 and words[0] == "check" and b"none" in answer:
        return error == "" or has_more_lines
    first, *others = error.splitlines()
    if others and not has_more_lines:
        return False
    if answer and "--lines" not in words:
        return False
    return re.fullmatch(f"keywrap: ({REFUSALS[status]})", first) is not None


@pytest.mark.parametrize("part", range(PARTS))
def test_random_command_lines(keywrap, part):
    lines = Lines(SEED + part)
    make_files()
    before = state()
    for _ in range(COUNT // PARTS):
        words, name = lines.line()
        given = pathlib.Path("here", name)
        ended = keywrap(words, cwd="here", stdin=given, text=False)
        after = state()
        answer = answer_of(words, ended, before, after)
        assert is_right(words, ended, answer), (words, name, ended)
        if after != before:
            make_files()
            before = state()
