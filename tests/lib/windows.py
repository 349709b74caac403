"""Windows by mingw and wine: a Windows of its own for the tests, and programs in it that run as those of Linux do."""

import contextlib
import os
import shutil
import subprocess

import pytest

from builds import ROOT, run
from program import Program, wait_for, words
from tools import need

COMPILER = "x86_64-w64-mingw32-gcc"
STRICT = ["-O1", "-Wall", "-Wextra", "-Werror"]
MUST_WORK = "-DKEYWRAP_AES_INSTRUCTIONS_MUST_WORK"
# Without the parts for .NET and HTML, which would have to be installed. Names of files are UTF-8.
SETTINGS = {
    "WINEDEBUG": "-all",
    "WINEDLLOVERRIDES": "mscoree,mshtml=",
    "LC_ALL": "C.UTF-8",
}
# A program that ends when its input does.
WAITING = """#include <stdio.h>
int main(void) {
    puts("runs");
    fflush(stdout);
    return getchar() == EOF ? 0 : 1;
}
"""


class Windows:
    """A Windows in a directory."""

    def __init__(self, directory):
        self.env = {**os.environ, **SETTINGS, "WINEPREFIX": str(directory)}

    def run(self, *command, **options):
        """The standard output of a program of Windows that succeeds."""
        return run("wine", *command, env=self.env, **options)

    def script(self, program):
        """Writes a script beside the program that runs it, and returns its path."""
        path = program.with_suffix(".sh")
        lines = ["#!/bin/sh"]
        for name in [*SETTINGS, "WINEPREFIX"]:
            lines.append(f"export {name}='{self.env[name]}'")
        lines.append(f"exec wine '{program}' \"$@\"")
        path.write_text("\n".join(lines) + "\n")
        path.chmod(0o755)
        return path

    @contextlib.contextmanager
    def running(self, program):
        """Keeps this Windows running. The first program would start it, and its services would hold that program's
        standard output open."""
        waiting = subprocess.Popen(
            ["wine", program],
            env=self.env,
            stdin=subprocess.PIPE,
            stdout=subprocess.PIPE,
            stderr=subprocess.DEVNULL,
        )
        assert waiting.stdout.readline().startswith(b"runs")
        yield
        waiting.stdin.close()
        waiting.wait()


def may_write_a_file(arguments):
    """Whether one of these is an option for the output: `--output`, `--output=FILE`, `-o` or `-oFILE`."""
    return any(word.startswith(("-o", "--output")) for word in arguments)


class OnWine(Program):
    """A program that wine starts. Of some hundreds of starts one ends with 1 before the program runs, or prints
    nothing. So a run that wine may have lost is started again. keywrap has no status 1.

    A run that may have written a file is not started again: the file could be its own input.
    """

    def __call__(self, args=(), *more, **options):
        ended = super().__call__(args, *more, **options)
        is_silent = not ended.stdout and not ended.stderr
        prints = not may_write_a_file([*words(args), *more])
        if is_silent and (ended.status == 1 or prints):
            return super().__call__(args, *more, **options)
        return ended


@pytest.fixture(scope="session")
def windows(once):
    """A running `Windows`."""
    need(COMPILER, "wine")

    def build(directory):
        (directory / "waiting.c").write_text(WAITING)
        run(COMPILER, "-o", directory / "waiting.exe", directory / "waiting.c")
        start = ["wine", "wineboot", "--init"]
        env = Windows(directory / "prefix").env
        quiet = subprocess.DEVNULL
        subprocess.run(start, env=env, stdout=quiet, stderr=quiet, check=True)

    directory = once("windows", build)
    made = Windows(directory / "prefix")
    with made.running(directory / "waiting.exe"):
        yield made


@pytest.fixture(scope="session")
def windows_objects(once):
    """A directory with dist/command and its objects for Windows. The program ends where it cannot use the processor's
    AES."""
    need(COMPILER)

    def build(directory):
        shutil.copytree(ROOT / "dist/command", directory, dirs_exist_ok=True)
        for source in directory.glob("*.c"):
            options = [*STRICT, MUST_WORK]
            run(COMPILER, *options, "-c", source, "-o", source.with_suffix(".o"))

    return once("objects for windows", build)


def linked(directory, objects, *edits):
    """Makes keywrap.exe in this directory of the objects, and of host_windows.c after edits, each an old text that the
    file has once and a new one."""
    host = (objects / "host_windows.c").read_text()
    for old, new in edits:
        assert host.count(old) == 1, old
        host = host.replace(old, new)
    directory.mkdir(exist_ok=True)
    (directory / "host_windows.c").write_text(host)
    others = [path for path in objects.glob("*.o") if path.stem != "host_windows"]
    program = directory / "keywrap.exe"
    options = ["-O1", f"-I{objects}"]
    run(COMPILER, *options, "-o", program, directory / "host_windows.c", *others)
    return program
