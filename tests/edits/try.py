#!/usr/bin/env python3
"""Tries all must-fail edits, those of the gate and of tests/edits, on a clone of the last commit. rt ci ends with
status 0 although an edit does not fit its file, or does not compile: here this is a failure."""

import pathlib
import subprocess
import sys
import tempfile

TOP = pathlib.Path(__file__).resolve().parents[2]
sys.path.insert(0, str(TOP / "tests/lib"))

import edits  # noqa: E402


def write(edit, tree):
    directory = pathlib.Path(tree, "crates", edit.crate, "must-fail")
    directory.mkdir(exist_ok=True)
    (directory / f"{edit.name}.edit").write_text(edit.as_rt_reads_it())


def main():
    with tempfile.TemporaryDirectory() as tree:
        subprocess.run(["git", "clone", "-q", TOP, tree], check=True)
        for edit in edits.of_release():
            write(edit, tree)
        done = subprocess.run(
            ["rt", "ci"], cwd=tree, capture_output=True, text=True, check=False
        )
    output = "\n".join((done.stdout + done.stderr).splitlines()[-2:])
    print(output)
    return 1 if done.returncode or " bad" in output else 0


sys.exit(main())
