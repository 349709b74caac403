"""The suites of bash, whose rows are counted with the others: make.sh, launcher.sh, shells.sh, and what
fresh.sh runs if it is asked to. And scripts/evidence.sh."""

import os
import pathlib
import re
import shutil
import subprocess

import pytest

import counting
from program import all_of

HERE = pathlib.Path(__file__).resolve().parent


@pytest.mark.parametrize(
    "name",
    all_of(
        sorted(path.stem for path in HERE.glob("*.sh")), ["fresh", "launcher", "shells"]
    ),
)
def test_rows(name, program_path, record_property):
    env = {"KEYWRAP": str(program_path)}
    for key, value in os.environ.items():
        if not key.startswith("PYTEST_"):
            env.setdefault(key, value)
    ended = subprocess.run(
        ["bash", HERE / f"{name}.sh"],
        stdin=subprocess.DEVNULL,
        stdout=subprocess.PIPE,
        text=True,
        stderr=subprocess.STDOUT,
        env=env,
    )
    passed, failed, reasons = counting.of_script(ended.stdout, ended.returncode)
    record_property("passed", passed)
    for reason in reasons:
        record_property("skipped", reason)
    if failed:
        record_property("failed", failed)
        pytest.fail(f"status {ended.returncode}\n{ended.stdout}", pytrace=False)


def test_evidence():
    """A line that fails ends it with 1, after the others have run. What was changed since is stale."""
    for name in "scripts", "tests":
        os.mkdir(name)
    shutil.copy(HERE.parent / "scripts/evidence.sh", "scripts")
    pathlib.Path("tests/evidence.txt").write_text(
        "bad | tried | false\ngood | tried | echo fine\n"
    )
    pathlib.Path("VERSION").write_text("1.9.0-dev\n")

    def evidence(*words):
        ended = subprocess.run(
            ["bash", "scripts/evidence.sh", *words], capture_output=True, text=True
        )
        return ended.returncode, ended.stdout.splitlines()

    pathlib.Path("tried").write_text("one\n")
    assert evidence()[0] == 1
    assert pathlib.Path("docs/evidence/1.9.0/good").read_text().endswith("\nfine\n")
    assert evidence("--stale") == (0, ["bad"])
    pathlib.Path("tried").write_text("two\n")
    assert evidence("--stale") == (0, ["bad", "good"])


def test_status_of_packages():
    """It is 1 if a tool is missing, here one that no package has."""
    assert (
        subprocess.run(
            ["bash", HERE.parent / "scripts/packages.sh", "no such tool"]
        ).returncode
        == 1
    )


def tools_of_installed_packages():
    """The tools of packages.txt whose Debian packages are installed here, and that are looked for by their name or
    path. Others are found by a program that has to run: that may need more than the packages.
    """
    query = ["dpkg-query", "-W", "-f", "${Package} ${db:Status-Status}\n"]
    listed = subprocess.run(query, stdout=subprocess.PIPE, text=True, check=True).stdout
    installed = {*re.findall(r"^(\S+) installed$", listed, re.M)}
    runs = re.compile("(?:compiles|sanitizes|strace|valgrind) ")
    found = []
    for line in (HERE / "packages.txt").read_text().splitlines():
        if not line or line.startswith("#"):
            continue
        cells = [cell.strip() for cell in line.split("|", 2)]
        tool, packages, command = (cells + [""])[:3]
        is_by_name = not tool.startswith(("import ", "<")) and not runs.match(command)
        if packages and is_by_name and installed.issuperset(packages.split()):
            found.append(tool)
    return found


def test_tools_of_installed_packages():
    """They are found: with a wrong name of a tool its rows would be skipped on every machine."""
    tools = tools_of_installed_packages()
    assert tools
    ended = subprocess.run(
        ["bash", HERE / "lib/tools.sh", *tools], stdout=subprocess.PIPE, text=True
    )
    assert ended.stdout == ""
