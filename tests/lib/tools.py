"""Looks for the tools of packages.txt, and skips the tests that need one which is not here."""

import functools
import os
import pathlib
import subprocess
import sys

import pytest


@functools.cache
def missing(*tools):
    """The tools that are not here and their packages, as the reason of a skip. Modules are this Python's."""
    script = pathlib.Path(__file__).with_name("tools.sh")
    looked = subprocess.run(
        ["bash", script, *tools],
        stdout=subprocess.PIPE,
        text=True,
        env={**os.environ, "python": sys.executable},
    )
    assert looked.returncode == 0, looked.stdout
    return looked.stdout.rstrip()


def need(*tools):
    """Skips the test, or the rest of a file that is being imported, if one of the tools is not here. A test that knows
    its tools before it runs has the mark `pytest.mark.needs` instead."""
    if tools and (reason := missing(*tools)):
        pytest.skip(reason, allow_module_level=True)
