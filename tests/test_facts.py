"""The fact sheet of docs/C_LIBRARY.md agrees with what was built: code and stack of each call, registers, the red zone,
writable data, and a program without a C library."""

import collections
import os
import re
import shlex

import pytest

from builds import ROOT, run
from program import all_of
from tools import need

PAGE = (ROOT / "docs/C_LIBRARY.md").read_text()
CALLS = re.findall(
    r"^int32_t (keywrap_[a-z_]*)\(", (ROOT / "dist/keywrap.h").read_text(), re.M
)
# Neither vector registers nor abort.
SMALL = ["-DKEYWRAP_NO_AES_INSTRUCTIONS", "-DKEYWRAP_TRAP()=__builtin_trap()"]


def cells(line):
    """The cells of a row of a table."""
    return [cell.strip(" `") for cell in line.split("|")[1:-1]]


def sheet(machine):
    """The documented bytes of each call: code and stack."""
    _, _, rest = PAGE.partition("## Fact sheet")
    section, _, _ = rest.partition("\n## ")
    table = [cells(line) for line in section.splitlines() if line.startswith("|")]
    head, _, *rows = table
    column = head.index(machine)
    documented = {}
    for row in rows:
        call, *_ = row[0].split("`")
        numbers = row[column].replace(",", "").split(" / ")
        documented[call] = tuple(int(number) for number in numbers)
    return documented


class Library:
    """An archive or an object of the library, of a machine."""

    def __init__(self, machine, file, tools="", cc=("cc",), runner=(), options=()):
        self.machine = machine
        self.file = file
        self.tools = tools
        self.cc = [*cc, *options]
        self.runner = runner

    def code(self, call):
        """Bytes of code and constants in a program that has only this call."""
        run(
            f"{self.tools}ld",
            "--gc-sections",
            "-e",
            call,
            "-u",
            call,
            "--unresolved-symbols=ignore-all",
            self.file,
            "-o",
            "only",
        )
        sections = re.findall(
            r"^\.(?:text|rodata)\S*\s+(\d+)",
            run(f"{self.tools}size", "-A", "only"),
            re.M,
        )
        return sum(map(int, sections))

    def stacks(self):
        """The most bytes that each call takes of the stack."""
        source = ROOT / "tests/secrets/stack.c"
        run(
            *self.cc,
            "-std=c99",
            "-O1",
            f"-I{ROOT}/c/include",
            source,
            self.file,
            "-Wl,-z,now",
            "-o",
            "stack",
        )
        most = collections.Counter()
        for words in map(str.split, run(*self.runner, "./stack").splitlines()):
            name = "keywrap_" + words[0].split(",")[0]
            most[name] = max(most[name], int(words[7]))
        return most

    def instructions(self):
        return run(f"{self.tools}objdump", "-d", "--no-show-raw-insn", self.file)

    def writable(self):
        """The sections that can be written and have bytes."""
        listed = run(f"{self.tools}objdump", "-h", self.file)
        sections = re.findall(
            r"^ +\d+ (\.t?(?:data|bss)\S*) +([0-9a-f]+)", listed, re.M
        )
        return [name for name, size in sections if int(size, 16)]


@pytest.fixture(scope="session")
def facts(once, request):
    """facts("aarch64") is the library of the machine, by the name of its column in the page."""

    def portable_object(directory):
        portable = request.getfixturevalue("portable")
        flags = shlex.split(
            re.search("is built for Thumb-2 with `(.*?)`", " ".join(PAGE.split()))[1]
        )
        run(
            "arm-linux-gnueabihf-gcc",
            *flags,
            "-c",
            portable / "keywrap.c",
            "-o",
            directory / "thumb.o",
        )

    def find(machine):
        # pytest fails if a request asks again for a fixture that was skipped.
        if machine != "portable C on 32-bit Arm":
            need("rt")
        if machine == "x86-64":
            need("cc")
            return Library(machine, request.getfixturevalue("library") / "libkeywrap.a")
        if machine == "aarch64":
            need("aarch64-linux-gnu-gcc", "qemu-aarch64")
            return Library(
                machine,
                request.getfixturevalue("built")("arm64") / "libkeywrap.a",
                "aarch64-linux-gnu-",
                ["aarch64-linux-gnu-gcc", "-static"],
                ["qemu-aarch64"],
            )
        need("arm-linux-gnueabihf-gcc", "qemu-arm")
        return Library(
            machine,
            once("facts-portable", portable_object) / "thumb.o",
            "arm-linux-gnueabihf-",
            ["arm-linux-gnueabihf-gcc", "-static"],
            ["qemu-arm"],
        )

    return find


@pytest.mark.parametrize(
    "machine", all_of(["x86-64", "aarch64", "portable C on 32-bit Arm"], ["x86-64"])
)
class TestEachMachine:
    def test_code_and_stack(self, facts, machine):
        """The smallest call, the largest and two others take at most what the sheet has, and at least four fifths."""
        library = facts(machine)
        documented = sheet(machine)
        sizes = {call: library.code(call) for call in CALLS}
        smallest, *two, largest = documented
        assert two == ["keywrap_wrap", "keywrap_rewrap"]
        assert largest == max(sizes, key=sizes.get)
        assert sizes[smallest] <= 1.02 * min(sizes.values())
        stacks = library.stacks()
        for call, (code, stack) in documented.items():
            assert 0.8 * code <= sizes[call] <= code, call
            assert 0.8 * stack <= stacks[call] <= stack, call

    def test_no_data(self, facts, machine):
        assert facts(machine).writable() == []


def test_registers_of_x86_64(facts):
    """The general registers and xmm; the red zone is used."""
    instructions = facts("x86-64").instructions()
    assert "%xmm" in instructions
    assert not re.search(r"%[yz]mm|%st|%mm[0-7]|%k[0-7]", instructions)
    assert re.search(r"-0x[0-9a-f]+\(%rsp", instructions)


def test_registers_of_aarch64(facts):
    """x18 is used, and nothing below the stack pointer."""
    instructions = facts("aarch64").instructions()
    assert re.search(r"\b[xw]18\b", instructions)
    assert not re.search(r"\[sp, #-[0-9]+\](?!!)", instructions)


@pytest.mark.needs("arm-none-eabi-gcc")
def test_code_of_thumb_1(portable):
    """The most that a call for a Cortex-M0 has beyond the column for Thumb-2."""
    run(
        "arm-none-eabi-gcc",
        "-mcpu=cortex-m0",
        "-mthumb",
        "-Os",
        "-ffunction-sections",
        "-fdata-sections",
        *SMALL,
        "-c",
        portable / "keywrap.c",
        "-o",
        "cortex.o",
    )
    library = Library("Cortex-M0", "cortex.o", "arm-none-eabi-")
    most = max(
        library.code(call) / code
        for call, (code, _) in sheet("portable C on 32-bit Arm").items()
    )
    (percent,) = re.findall(r"up\s+to\s+(\d+) % more code", PAGE)
    assert int(percent) - 4 <= 100 * (most - 1) <= int(percent)


@pytest.mark.needs("cc")
def test_registers_for_a_kernel(portable):
    """Portable C compiles with the general registers only, and without the red zone."""
    run(
        "cc",
        "-O2",
        "-mno-red-zone",
        "-mgeneral-regs-only",
        *SMALL,
        "-c",
        portable / "keywrap.c",
        "-o",
        "kernel.o",
    )
    instructions = Library("kernel", "kernel.o").instructions()
    assert len(instructions) > 100000
    assert not re.search(r"%[xyz]mm|%st|%mm[0-7]", instructions)
    assert not re.search(r"-0x[0-9a-f]+\(%rsp", instructions)


@pytest.mark.needs("cc")
@pytest.mark.parametrize("machine", ["x86-64", "portable"])
def test_without_a_c_library(request, machine):
    bare = [
        "cc",
        "-std=c99",
        "-O2",
        "-ffreestanding",
        "-nostdlib",
        "-static",
        ROOT / "tests/portable/freestanding.c",
    ]
    if machine == "x86-64":
        run(
            *bare,
            f"-I{ROOT}/c/include",
            request.getfixturevalue("library") / "libkeywrap.a",
            "-o",
            "bare",
        )
    else:
        portable = request.getfixturevalue("portable")
        run(
            *bare,
            f"-I{portable}",
            *SMALL,
            "-fno-tree-loop-distribute-patterns",
            portable / "keywrap.c",
            "-o",
            "bare",
        )
    assert os.path.getsize("bare") > 1000
