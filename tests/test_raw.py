"""The program in C with --raw and --raw-kek, for all KEKs and keys of some lengths: tests/command/raw.py."""

import importlib.util
import shutil

import pytest

from builds import ROOT
from program import slow
from tools import need

PROGRAM = ROOT / "dist/command"
MODULE_H = '#include "module.h"\n'
# The function that writes to standard output.
WRITE = "std::io::stdio::PrinterWrite::write"


def module_of(name):
    """Returns a module of tests/command. Other tests have modules with these names on Python's path."""
    path = ROOT / f"tests/command/{name}.py"
    spec = importlib.util.spec_from_file_location(f"command_{name}", path)
    module = importlib.util.module_from_spec(spec)
    spec.loader.exec_module(module)
    return module


raw = module_of("raw")
planted = module_of("planted")


@pytest.fixture(scope="session")
def program(once):
    """The program for wasm32."""
    need("clang", "wasm-ld")

    def build(directory):
        raw.build(directory / "program.wasm", PROGRAM)

    return raw.Module(once("raw-program", build) / "program.wasm")


@pytest.mark.parametrize("name", [name for name, *_ in raw.all_commands()])
def test_command_is_right_for_all_inputs(program, name):
    statuses = [0, raw.INTEGRITY] if name.startswith("unwrap") else [0]
    assert raw.performed(program, name) == statuses


# The code that is inserted before a write to standard output, at l1, and why `wrap 16 16` is refused.
BUGS = {
    "a byte of the output is another one": (
        "i32_store8(0u, l1, i32_load8_u(0u, l1) ^ 1u);",
        "byte 0 of the output differs",
    ),
    "a byte of the output is on standard error": (
        "host_write(2u, l1, 1ull);",
        "standard error depends on the KEK or the input",
    ),
    "a branch on a byte of the output": (
        "if (i32_load8_u(0u, l1) == 7u) host_write(2u, l1, 0ull);",
        "1 branches",
    ),
    "an address that depends on a byte of the output": (
        "i32_store8(0u, l1, i32_load8_u(0u, 1048576ull + i32_load8_u(0u, l1)));",
        "a secret address",
    ),
    "a line more on standard error": (
        'host_write(2u, ADDRESS("done"), 4ull);',
        "standard error has b'done'",
    ),
}


@pytest.fixture(scope="session")
def program_with_bugs(once):
    """The program with all of these bugs, of which the module runs one."""
    need("clang", "wasm-ld")

    def build(directory):
        sources = directory / "sources"
        shutil.copytree(PROGRAM, sources)
        text = (sources / "program.c").read_text()
        text = text.replace(MODULE_H, f"{MODULE_H}extern u32 planted;\n", 1)
        for number, (name, (code, _)) in enumerate(BUGS.items(), 1):
            inserted = f"if (planted == {number}u) {{ {code} }}"
            bug = planted.Bug(name, WRITE, r"t0 = host_write", inserted, "")
            text = planted.with_bug(text, bug)
        (sources / "program.c").write_text(text)
        raw.build(directory / "program.wasm", sources)

    return raw.Module(once("raw-program-with-bugs", build) / "program.wasm")


@slow
@pytest.mark.parametrize("number", range(1 + len(BUGS)))
def test_bug_is_refused(program_with_bugs, number):
    """Without one of the bugs the same program passes."""
    program_with_bugs.planted = number
    if number == 0:
        assert raw.performed(program_with_bugs, "wrap 16 16") == [0]
        return
    _, reason = [*BUGS.values()][number - 1]
    with pytest.raises(raw.Refused, match=reason):
        raw.performed(program_with_bugs, "wrap 16 16")
