"""Compiles keywrap.c for wasm32 by clang, with the exports of the headers.

usage: wasm32.py OUTPUT [SOURCE..]        of other sources than dist/keywrap.c. Needs clang, wasm-ld"""

import pathlib
import re
import subprocess
import sys
import tempfile

ROOT = pathlib.Path(__file__).resolve().parent.parent.parent
NO_LIBRARY = pathlib.Path(__file__).with_name("without_a_library")
MEMORY = NO_LIBRARY / "memory.c"
# With -O2 an address depends on the outcome of a check, in rewrap_steps 16 24 16 10: the checker stops there.
COMPILE = [
    "clang",
    "--target=wasm32",
    "-Os",
    "-mbulk-memory",
    "-mmutable-globals",
    "-ffreestanding",
    "-w",
    f"-I{NO_LIBRARY}",
    f"-I{ROOT / 'dist'}",
    "-DKEYWRAP_TRAP()=__builtin_trap()",
]


def exported_names():
    """Returns the names of the calls, of the heap and of the stack pointer."""
    headers = ""
    for name in "keywrap.h", "keywrap_steps.h":
        headers += (ROOT / "dist" / name).read_text()
    declaration = r"^(?:u?int32_t|uint64_t|size_t|void) (keywrap_\w+)\("
    calls = sorted({*re.findall(declaration, headers, re.M)})
    return [*calls, "__heap_base", "__stack_pointer"]


def main(output, *sources):
    # clang would have wasm-opt change the module if it is installed, and leave out the names of functions.
    with tempfile.TemporaryDirectory() as directory:
        objects = []
        for source in [*(sources or [ROOT / "dist/keywrap.c"]), MEMORY]:
            objects.append(pathlib.Path(directory, f"{len(objects)}.o"))
            subprocess.run([*COMPILE, "-c", source, "-o", objects[-1]], check=True)
        exports = [f"--export={name}" for name in exported_names()]
        subprocess.run(
            ["wasm-ld", "--no-entry", *exports, *objects, "-o", output], check=True
        )


if __name__ == "__main__":
    main(*sys.argv[1:])
