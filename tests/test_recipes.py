"""Each recipe of docs/RECIPES.md and the first lines of README, unchanged: their output is as shown."""

import os
import pathlib
import re
import subprocess

import pytest

from tools import need

ROOT = pathlib.Path(__file__).resolve().parent.parent
RECIPES = (ROOT / "docs/RECIPES.md").read_text()
SECTIONS = dict(
    section.split("\n", 1) for section in re.split("^## ", RECIPES, flags=re.M)[1:]
)
PARTS = re.split("^#: after ", (ROOT / "tests/lib/recipes.sh").read_text(), flags=re.M)[
    1:
]
PARTS = dict(part.split("\n", 1) for part in PARTS)
TOOLS = "openssl", "xxd", "jq"


def typed_and_shown(section):
    """The typed lines and the shown output of a section, without indentation."""
    typed = ""
    shown = ""
    indent = 4
    for line in section.splitlines(keepends=True):
        if prompt := re.match(r"    (?: {1,3})?[$>] ", line):
            indent = len(prompt[0]) - 2
            typed += line[len(prompt[0]) :]
        elif line.startswith("    "):
            shown += line[indent:]
    return typed, shown


def follow(keywrap, files, script):
    """Runs the lines in an empty directory, and returns their output."""
    need(*[tool for tool in TOOLS if re.search(rf"\b{tool}\b|_{tool}\.", script)])
    environment = {**os.environ, "PATH": f"{files}/bin:{os.environ['PATH']}"}
    if re.search("wrap-pad|cipher-pad", script):
        ciphers = subprocess.run(
            ["openssl", "enc", "-list"], capture_output=True, text=True
        ).stdout
        if "id-aes256-wrap-pad" not in ciphers:
            pytest.skip("no openssl with id-aes256-wrap-pad (apt-get install openssl)")
    for name in "bin", "here":
        os.mkdir(name)
    os.symlink(keywrap.path, "bin/keywrap")
    pathlib.Path("script").write_text(script)
    ended = subprocess.run(
        ["bash", "-u", "../script"],
        cwd="here",
        env=environment,
        stdin=subprocess.DEVNULL,
        stdout=subprocess.PIPE,
        stderr=subprocess.STDOUT,
        text=True,
        timeout=1200,
    )
    assert ended.returncode == 0, ended.stdout
    return ended.stdout


# Two kinds are tested elsewhere: recipes with the Python package in rotation/tests, the recipe that
# compiles a program with the C library in tests/test_hardware.py.
@pytest.mark.parametrize(
    "name",
    [
        name
        for name, section in SECTIONS.items()
        if not re.search(r"-m keywrap\.|pkg-config", typed_and_shown(section)[0])
    ],
)
def test_recipe(keywrap, files, name):
    script, shown = typed_and_shown(SECTIONS[name])
    assert follow(keywrap, files, script + PARTS.get(name, "")) == shown


def test_names_of_recipes():
    """Each part of recipes.sh has the name of a recipe."""
    assert PARTS.keys() <= SECTIONS.keys()


def test_readme(keywrap, files):
    """README's lines before its first section, in one directory, but for `make test`. tests/fresh.sh runs the launcher
    and `make test` as they are."""
    typed, shown = typed_and_shown((ROOT / "README.md").read_text().split("\n## ")[0])
    without_test = re.sub("^make test .*\n", "", typed, flags=re.M)
    assert without_test != typed
    script = f"ln -s '{keywrap.path}' keywrap\n{without_test}"
    assert follow(keywrap, files, script) == shown
