"""Installations, archives and the packages for Python and npm have the files, modes and links of handed_out.txt, and no
others. The packages, also Debian's, have the fields there."""

import email
import fnmatch
import json
import pathlib
import re
import stat
import subprocess

import pytest

from builds import NAMES, ROOT, package_of, run
from commands import table
from program import slow

pytestmark = slow

LIB = (
    "lib/"
    + subprocess.run(
        ["cc", "-dumpmachine"], capture_output=True, text=True
    ).stdout.strip()
)
THINGS = [
    "command",
    "library",
    "hardware",
    "provider",
    "dist",
    "portable",
    "go",
    "npm",
    "wheel",
    "wheel-rotate",
]
HEADERS = "".join(
    (ROOT / "dist" / name).read_text() for name in ("keywrap.h", "keywrap_steps.h")
)


def rows(section):
    return table("handed_out", section, **NAMES, LIB=LIB)


def listed(root):
    """The files below the directory, each with its mode or the target of its link. All directories have mode 755."""
    found = {}
    for path in root.rglob("*"):
        name = str(path.relative_to(root))
        mode = stat.S_IMODE(path.lstat().st_mode)
        if path.is_symlink():
            found[name] = f"-> {path.readlink()}"
        elif path.is_dir():
            assert mode & 0o7777 == 0o755, f"{name}: {mode:o}"
        else:
            found[name] = f"{mode:o}"
    return found


def expected(section):
    """The files of a section, as `listed` returns them."""
    found = {}
    for name, mode in rows(section):
        if not name.endswith("/"):
            found[name] = mode
            continue
        tracked = run(
            "git",
            "-C",
            ROOT,
            "ls-files",
            "--cached",
            "--others",
            "--exclude-standard",
            mode,
        ).split()
        assert tracked
        for path in tracked:
            found[name + str(pathlib.Path(path).relative_to(mode))] = (
                "755" if path.endswith(".sh") else "644"
            )
    return found


@pytest.mark.parametrize("name", THINGS)
def test_files(handed_out, name):
    assert listed(handed_out(name)) == expected(f"files of {name}")


@pytest.mark.parametrize(
    "name, readme", [("command", "README"), ("library", "README.library")]
)
def test_files_of_archive(handed_out, name, readme):
    """The archive has the files that make installs, with README at the top, and keywrap.pc that finds them there."""
    archive = handed_out(f"archive of {name}")
    installed = handed_out(name)
    assert listed(archive) == {**expected(f"files of {name}"), "README": "644"}
    for path in listed(installed):
        if path != "lib/pkgconfig/keywrap.pc":
            assert (archive / path).read_bytes() == (
                installed / path
            ).read_bytes(), path
    text = (archive / "README").read_text()
    assert text == (archive / "share/doc/keywrap" / readme).read_text()
    assert text.startswith(f"keywrap {NAMES['VERSION']}:")


def fields(request, name):
    """The fields of a package, as names and values."""
    if name.startswith("deb "):
        return dict(
            email.message_from_string(
                run("dpkg-deb", "-f", package_of(request.getfixturevalue("debs"), name))
            ).items()
        )
    handed_out = request.getfixturevalue("handed_out")
    if name == "npm":
        return {
            key: str(value)
            for key, value in json.loads(
                (handed_out(name) / "package.json").read_text()
            ).items()
        }
    if name == "library":
        return dict(
            re.findall(
                "^(.*): (.*)$",
                (handed_out(name) / "lib/pkgconfig/keywrap.pc").read_text(),
                re.M,
            )
        )
    if name == "java":
        manifest = handed_out("library") / "share/doc/keywrap/java/META-INF/MANIFEST.MF"
        return dict(re.findall("^(.*): (.*)$", manifest.read_text(), re.M))
    files = (
        [handed_out(name) / "PKG-INFO"]
        if name == "sdist"
        else handed_out(name).glob("*.dist-info/[MW]*")
    )
    messages = [email.message_from_string(file.read_text()) for file in files]
    return {
        key: "; ".join(message.get_all(key)) for message in messages for key in message
    }


@pytest.mark.usefixtures("program_path")
@pytest.mark.parametrize("name, field, value", rows("fields"))
def test_field(request, name, field, value):
    assert fnmatch.fnmatchcase(fields(request, name).get(field, "(none)"), value)


@pytest.mark.parametrize("name, path, soname, needed, shown", rows("objects"))
def test_object(handed_out, name, path, soname, needed, shown):
    """The soname, what is needed, which names are shown, and that tables are read-only once it is loaded."""
    file = handed_out(name) / path
    if name == "deb libkeywrap1":
        file = file.parent / file.readlink()
    elf = run("readelf", "-dlW", file)
    assert (
        re.findall(r"\(SONAME\).*\[(.*)\]", elf) or ["(none)"],
        re.findall(r"\(NEEDED\).*\[(.*)\]", elf),
    ) == ([soname], [needed])
    # pip and its compiler choose the options for the source distribution.
    assert (
        name == "sdist built"
        or "BIND_NOW" in elf
        and "GNU_RELRO" in elf
        and "TEXTREL" not in elf
    )
    names = {
        line.split()[-1].partition("@")[0]
        for line in run("nm", "-D", "--defined-only", file).splitlines()
        if line.split()[-2] != "A"
    }
    calls = set(
        re.findall(
            r"^(?:u?int(?:32|64)_t|size_t|void) (keywrap_[a-z_]*)\(", HEADERS, re.M
        )
    )
    assert names == (calls if shown == "the header's" else {shown} - {"(none)"})
