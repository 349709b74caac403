"""The version, the version of keywrap that it needs, and the page. `make wheel-rotate` puts VERSION and the page beside
this file. In a clone of the repository they are in the directory above, and in docs/."""

from pathlib import Path

from setuptools import (
    setup,
)  # noqa: I001 (it comes first: it has the distutils of the next line)
from setuptools.command.build_py import build_py

VERSION = next(path for path in (Path("VERSION"), Path("../VERSION")) if path.exists())
# Python writes -dev as .dev0.
version = VERSION.read_text(encoding="utf-8").strip().replace("-dev", ".dev0")


class BuildModules(build_py):
    """Adds the page for operators."""

    def run(self):
        super().run()
        page = next(
            path
            for path in (Path("ROTATION.md"), Path("../docs/ROTATION.md"))
            if path.exists()
        )
        self.copy_file(str(page), f"{self.build_lib}/keywrap_rotate/ROTATION.md")


# Calls of keywrap that are not public have the names of this version only.
setup(
    version=version,
    install_requires=[f"keywrap=={version}"],
    cmdclass={"build_py": BuildModules},
)
