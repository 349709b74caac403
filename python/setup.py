"""The extension, the command keywrap in C, and the version. `make wheel` and `make sdist` put VERSION, the header, the
library and the command's C here. In a clone of the repository they are in the directory above, and in dist/."""

import os
import shlex
import subprocess
from pathlib import Path

from setuptools import (
    setup,
)  # noqa: I001 (it comes first: it has the distutils of the next line)
from distutils.command.build_scripts import build_scripts


def beside_or_above(name, above):
    """A file that make put here, or in a clone the one of the repository."""
    here = Path(name)
    return here if here.exists() else Path(above)


version = beside_or_above("VERSION", "../VERSION")
command = beside_or_above("command", "../dist/command")


def words_of(variable, default):
    """The words of a variable of the environment."""
    return shlex.split(os.environ.get(variable, default))


class BuildCommand(build_scripts):
    """Compiles the command. COMMAND_LDFLAGS are for it only."""

    def run(self):
        directory = Path(self.build_dir)
        directory.mkdir(parents=True, exist_ok=True)
        compiler = [
            *words_of("CC", "cc"),
            *words_of("CPPFLAGS", ""),
            *words_of("CFLAGS", "-O1"),
            *words_of("COMMAND_LDFLAGS", ""),
        ]
        sources = sorted(command.glob("*.c"))
        subprocess.run([*compiler, "-o", directory / "keywrap", *sources], check=True)

    def get_source_files(self):
        return []  # MANIFEST.in has them


setup(
    # Python writes -dev as .dev0, and so does build_ffi.py.
    version=version.read_text(encoding="utf-8").strip().replace("-dev", ".dev0"),
    cffi_modules=["build_ffi.py:ffi"],
    scripts=["keywrap"],
    cmdclass={"build_scripts": BuildCommand},
    # Objects of an earlier build may have been built with other flags.
    options={"bdist_wheel": {"py_limited_api": "cp39"}, "build_ext": {"force": True}},
)
