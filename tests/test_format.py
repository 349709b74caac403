"""Python, C and bash have the layout that scripts/format.sh gives them."""

import pathlib
import shutil
import subprocess

import pytest

from builds import ROOT


@pytest.mark.needs("git", "black", "clang-format", "shfmt")
def test_layout():
    ended = subprocess.run(
        ["scripts/format.sh", "--check"], cwd=ROOT, capture_output=True, text=True
    )
    assert ended.returncode == 0, ended.stdout + ended.stderr


RIGHT = {
    "one.py": "x = 1\n",
    "one.c": "int x;\n",
    "one.sh": "#!/bin/bash\nif true; then\n    echo\nfi\n",
}
WRONG = {
    "one.py": "x  = 1\n",
    "one.c": "int  x;\n",
    "one.sh": "#!/bin/bash\nif true; then\n  echo\nfi\n",
}


@pytest.mark.needs("git", "black", "clang-format", "shfmt")
def test_another_layout():
    """One file that a formatter would change fails, of Python, C and bash."""

    def check():
        command = ["bash", "scripts/format.sh", "--check"]
        ended = subprocess.run(
            command, capture_output=True, text=True, stdin=subprocess.DEVNULL
        )
        return ended.returncode, ended.stdout + ended.stderr

    pathlib.Path("scripts").mkdir()
    shutil.copy(ROOT / "scripts/format.sh", "scripts")
    shutil.copy(ROOT / ".clang-format", ".")
    for name, text in RIGHT.items():
        pathlib.Path(name).write_text(text)
    subprocess.run(["git", "init", "-q"], check=True)
    subprocess.run(["git", "add", "."], check=True)
    status, output = check()
    assert status == 0, output
    for name, text in WRONG.items():
        pathlib.Path(name).write_text(text)
        status, output = check()
        assert status == 1, (name, output)
        pathlib.Path(name).write_text(RIGHT[name])
