"""The RPM packages: they have what make install, the wheel and the provider have, each file once, and the program in
them runs."""

import os
import pathlib
import re

import pytest

from builds import NAMES, copied_tree, run
from program import slow
from test_handed_out import expected


@slow
@pytest.mark.needs(
    "rpmbuild",
    "import build",
    "import cffi",
    "import setuptools",
    "import wheel",
    "Python.h",
    "<openssl/evp.h>",
)
def test_packages(built, program_path, tmp_path):
    packages = built_packages(built, program_path, tmp_path)
    assert packages.keys() == {
        "keywrap",
        "libkeywrap",
        "libkeywrap-devel",
        "python3-keywrap",
        "keywrap-rotate",
        "keywrap-openssl-provider",
    }
    for file in packages.values():
        assert queried(file, "--qf", "%{VERSION}") == NAMES["DEBIAN"]
    listed = {name: queried(file, "-l") for name, file in packages.items()}
    listed = {name: text.splitlines() for name, text in listed.items()}
    each_file_is_in_one_package(listed)
    has_command_and_library(listed)
    has_python_packages(listed)
    has_provider(listed)
    depends_on_others(packages)
    run("rpm2archive", packages["keywrap"])
    run("tar", "-C", tmp_path, "-xzf", f"{packages['keywrap']}.tgz")
    printed = run(tmp_path / "usr/bin/keywrap", "--version")
    assert printed == f"keywrap {NAMES['VERSION']}\n"


def built_packages(built, program_path, tmp_path):
    """Builds the packages in a copy of the tree. Returns their files by their names."""
    tree = copied_tree(tmp_path, program_path, built("llvm.a"))
    options = [
        *("--define", f"of_rpm {NAMES['DEBIAN']}"),
        *("--define", f"_topdir {tmp_path}/rpm"),
    ]
    env = {
        **os.environ,
        "PATH": f"{tmp_path}/bin:/usr/sbin:/usr/bin:/sbin:/bin",
        "HW_ARCHIVE": str(built("hw.a")),
    }
    command = ["rpmbuild", "-bb", "--build-in-place", *options]
    run(*command, "packaging/keywrap.spec", cwd=tree, env=env)
    packages = {}
    for file in tmp_path.glob("rpm/RPMS/*/*.rpm"):
        name = re.match(r"(.*?)-\d", file.name)[1]
        packages[name] = file
    return packages


def queried(file, *words):
    return run("rpm", "-qp", *words, file)


def each_file_is_in_one_package(listed):
    files = []
    for names in listed.values():
        files += names
    assert len(files) == len({*files})


def has_command_and_library(listed):
    """They have the files that make install writes."""
    files = [
        *listed["keywrap"],
        *listed["libkeywrap"],
        *listed["libkeywrap-devel"],
    ]
    assert "/usr/share/doc/keywrap" in files
    assert "/usr/lib64/cmake/keywrap" in files
    installed = set()
    for file in files:
        name = file.removeprefix("/usr/").replace("lib64/", "lib/", 1)
        installed.add(name)
    wanted = {*expected("files of command"), *expected("files of library")}
    assert wanted <= installed
    # The others are only the directories of documents.
    for extra in installed - wanted:
        assert any(name.startswith(f"{extra}/") for name in wanted), extra


def has_python_packages(listed):
    modules = modules_of(listed["python3-keywrap"])
    # The command keywrap is in a package of its own.
    wheel = {name for name in expected("files of wheel") if ".data/" not in name}
    assert wheel <= modules
    assert "/usr/bin/keywrap-rotate" in listed["keywrap-rotate"]
    modules = modules_of(listed["keywrap-rotate"])
    assert expected("files of wheel-rotate").keys() <= modules


def modules_of(files):
    return {name.partition("-packages/")[2] for name in files}


def has_provider(listed):
    files = listed["keywrap-openssl-provider"]
    assert {pathlib.Path(name).name for name in files} == {
        "keywrap.so",
        "keywrap-openssl-provider",
        "OPENSSL.md",
        "openssl.cnf",
    }


def depends_on_others(packages):
    conflicts = queried(packages["keywrap-rotate"], "--conflicts")
    assert conflicts == "python3-keywrap < 1.3.0~\n"
    headers_need = queried(packages["libkeywrap-devel"], "--requires")
    assert "libkeywrap = " in headers_need
    python_needs = queried(packages["python3-keywrap"], "--requires")
    assert "python3-cffi\n" in python_needs
