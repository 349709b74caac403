"""dist/check/all_inputs: its own tests, its lists over each object, planted bugs that it must refuse, and the second
standard. The lists of one object are independent, and each is one process."""

import hashlib
import itertools
import pathlib
import re
import shutil
import subprocess
import sys

import pytest

from all_inputs import bugs, planted, wasm32
from builds import VERSION, run
from program import all_of, slow
from tools import missing, need

ROOT = pathlib.Path(__file__).resolve().parent.parent
CHECKER = ROOT / "dist/check/all_inputs"
MODULE = ROOT / "dist/keywrap.wasm"
# PyPy takes less than half the time.
PYTHON = sys.executable if missing("pypy3") else "pypy3"


def check(*words):
    """The output of the checker, which must exit with 0."""
    return run(PYTHON, "-B", CHECKER / "check.py", *words)


def checker(*words):
    """How the checker ended."""
    return subprocess.run(
        [sys.executable, "-B", CHECKER / "check.py", *map(str, words)],
        capture_output=True,
        text=True,
    )


@pytest.fixture
def made(once, built):
    """made(NAME) is an object that the checker reads."""

    def build(directory, name):
        if name == "keywrap.c by gcc":
            need("gcc")
            for file in "Makefile", "keywrap.c", "keywrap.h", "keywrap_steps.h":
                shutil.copy(ROOT / "dist" / file, directory)
            run("make", "-s", "-C", directory, "shared", "CC=gcc")
            (directory / "libkeywrap.so.1").rename(directory / "object")
        elif name in planted.OBJECTS:
            need("gcc")
            planted.main(directory / "object", name)
        elif name == "keywrap.c by clang for wasm32":
            need("clang", "wasm-ld")
            wasm32.main(directory / "object")
        else:
            run(
                "make",
                "-s",
                "-C",
                ROOT,
                "library",
                f"LIBRARY={directory}",
                f"ARCHIVE={built('llvm.a')}",
                f"HW_ARCHIVE={built('hw.a')}",
                "HARDWARE=1",
            )
            (directory / f"{name}.so.1").rename(directory / "object")

    def find(name):
        if name == "keywrap.wasm":
            return MODULE
        return (
            once(
                f"all-inputs-{name}".replace(" ", "-"),
                lambda directory: build(directory, name),
            )
            / "object"
        )

    return find


# Each object, and the files of its longest lists, which docs/evidence has for each version.
OBJECTS = {
    "keywrap.wasm": "all-inputs",
    "keywrap.c by gcc": "all-inputs-c",
    "keywrap.c by clang for wasm32": "all-inputs-wasm32",
    "libkeywrap": "all-inputs-library",
    "libkeywrap_hw": "all-inputs-hardware all-inputs-lanes",
}
# SECURITY.md: the check of an unwrap or a rewrap; whether an initial value is reserved; whether a kept KEK is marked.
BRANCHING = set(
    """
unwrap unwrap_in_place unwrap_padded unwrap_padded_in_place unwrap_any unwrap_many kind kind_many rewrap
rewrap_in_place rewrap_same_kek unwrap_of_kek rewrap_steps rewrap_many end_unwrap end_unwrap_padded
end_unwrap_any end_unwrap_many wrap_with unwrap_with begin_wrap begin_wrap_many unmarked""".split()
)


def test_needs_only_python():
    """The checker imports only the standard library and itself."""
    own = {path.stem for path in CHECKER.glob("*.py")}
    for path in CHECKER.glob("*.py"):
        for name in re.findall(r"^(?:from|import) (\w+)", path.read_text(), re.M):
            assert name in own | sys.stdlib_module_names, (path, name)


def test_what_must_be_believed_is_counted():
    """README.md names every file and says, to the nearest hundred, how many lines they have."""
    text = (CHECKER / "README.md").read_text()
    believed = text[text.index("## What you have to believe") :]
    rows = re.findall(r"^\| ([^|]*`[^|]*) \|", believed, re.M)
    files = [name for row in rows for name in re.findall("`([^`]*)`", row)]
    only_to_test = {"hints.py", "second.py", "test_checker.py"}
    assert {*files} | only_to_test == {path.name for path in CHECKER.glob("*.py")}
    count = 0
    for name in files:
        lines = (CHECKER / name).read_text().splitlines()
        count += len([line for line in lines if line.strip()])
    stated = re.search(r"about ([\d,]+) lines", believed)[1].replace(",", "")
    assert abs(count - int(stated)) <= 50


@pytest.mark.parametrize("name", all_of(list(OBJECTS), [], in_gate=["keywrap.wasm"]))
def test_checker(made, name):
    """Operations, equations and decisions against numbers; the instructions of an object against the processor."""
    assert "the checker passes its tests" in run(
        sys.executable, "-B", CHECKER / "test_checker.py", made(name)
    )


def branching(output):
    """The calls that branch on input bytes, by the lines of the output."""
    found = set()
    for line in output.splitlines():
        if line.startswith("[") and "branches: none" not in line:
            name = line.split()[1].removesuffix(":")
            for suffix in bugs.check.SUFFIXES:
                name = name.removesuffix(suffix)
            found.add(name)
    return found


def test_short_list():
    """As dist/README has it."""
    output = run("make", "-s", "-C", ROOT / "dist", "check-all-inputs")
    passed, listed = re.search(r"^(\d+) of (\d+) calls pass", output, re.M).groups()
    assert passed == listed
    names = {name for name, *_ in bugs.lists.short_list()}
    assert names == {*bugs.calls.CALLS}
    # The module does not have these two.
    assert branching(output) == BRANCHING - {"begin_wrap_many", "end_unwrap_many"}


def test_short_list_has_every_kek_and_all_flags():
    """README.md of the checker says which calls at every length a pass of the short list is about."""
    every_kek = {16, 24, 32, 184, 216, 248}
    listed = set(bugs.lists.short_list())
    for name, kek in itertools.product(bugs.lists.FOR_ONE_KEY, every_kek):
        assert (f"{name}_at_every_length", kek) in listed
    for flags in range(16):
        for name, is_legal in (
            ("rewrap", flags in (0, 1, 2, 3, 4, 8, 9, 10, 11, 12)),
            ("rewrap_in_place", flags in (0, 1, 2, 3)),
        ):
            is_listed = (f"{name}_at_every_length", 16, 24, flags) in listed
            assert is_listed == is_legal
    rewraps = [call for call in listed if call[0] == "rewrap_at_every_length"]
    assert {old for _, old, _, _ in rewraps} == every_kek
    assert {new for _, _, new, _ in rewraps} == every_kek


@pytest.mark.parametrize(
    "name", all_of([*OBJECTS][1:], [], in_gate=["keywrap.c by gcc", "libkeywrap_hw"])
)
def test_short_list_of_each_object(made, name):
    """AES by instructions or shuffles looks up no table, and AES by instructions shuffles no secret."""
    output = check(made(name))
    assert branching(output) <= BRANCHING
    has_no_tables = name in ("keywrap.c by gcc", "libkeywrap", "libkeywrap_hw")
    tables = "none" if has_no_tables else ".*"
    assert re.search(f"^look-ups in tables: {tables}$", output, re.M)
    with_aes = [
        line for line in output.splitlines() if ", a processor that" not in line
    ]
    shuffles = r"^\[\S+ (\w+).* [1-9]\d* in registers"
    shuffling = re.findall(shuffles, "\n".join(with_aes), re.M)
    assert name != "libkeywrap_hw" or shuffling == []


@pytest.mark.parametrize("name", all_of(list(OBJECTS), ["keywrap.wasm"]))
def test_evidence_is_of_this_object(made, name):
    """The list of a version has the SHA-256 of the object. Between two versions it may not have run for the next."""
    lists = [
        ROOT / "docs/evidence" / VERSION.removesuffix("-dev") / file
        for file in OBJECTS[name].split()
    ]
    if VERSION.endswith("-dev") and not any(map(pathlib.Path.exists, lists)):
        pytest.skip(f"make evidence has not run: {OBJECTS[name]}")
    for output in lists:
        assert (
            hashlib.sha256(made(name).read_bytes()).hexdigest() in output.read_text()
        ), f"of another object: run scripts/evidence.sh {output.name}"


@pytest.mark.parametrize(
    "name", all_of(["keywrap.wasm", "libkeywrap_hw"], [], in_gate=["libkeywrap_hw"])
)
def test_long_list(made, name):
    check(made(name), "long")
    if name == "libkeywrap_hw":  # a lane of 48, and the slot after them
        for place in 47, 48:
            check(made(name), *f"rewrap_many 16 32 24 12 49 {place}".split())


@pytest.mark.needs("wasm2wat")
@pytest.mark.parametrize(
    "name",
    all_of(
        list(bugs.BUGS),
        ["decision: the other way round"],
        in_gate=[
            "wrap: a length not a multiple of 8",
            "a store after the text",
            "a store of a byte of the key in its place",
            "leak: a branch on a byte of the key",
            *list(bugs.BUGS)[::5],
        ],
    ),
)
def test_bug_is_refused(tmp_path, name):
    assert bugs.refused_by(bugs.wasm.Module(bugs.planted(MODULE, name, tmp_path)))


@pytest.mark.needs("wasm2wat")
@pytest.mark.parametrize(
    "name",
    all_of(
        list(bugs.AT_SOME_LENGTHS),
        ["wrap: a key of 4,000 bytes"],
        in_gate=[*bugs.AT_SOME_LENGTHS][::3],
    ),
)
def test_bug_at_some_lengths_is_refused(tmp_path, name):
    """Most of them pass every list of lengths."""
    call = name.split(":")[0]
    checked = bugs.Loaded(bugs.planted(MODULE, name, tmp_path))
    assert checked.refusals(f"{call}_at_every_length 16")


@pytest.mark.needs("wasm2wat")
def test_loop_that_is_not_recognised_is_named(tmp_path):
    name = "wrap: the third byte of t"
    checked = bugs.Loaded(bugs.planted(MODULE, name, tmp_path))
    (refusal,) = checked.refusals("wrap_at_every_length 16")
    assert re.match(r"the loop at function \d+, \d+ is not recognised: ", refusal)


@slow
@pytest.mark.parametrize("name", bugs.lists.FOR_ONE_KEY)
def test_every_length_of_c(made, name):
    """The short list of this object has more KEKs."""
    checked = bugs.Loaded(made("keywrap.c by clang for wasm32"))
    for call in f"{name}_at_every_length 16", f"{name}_of_any_other_kek":
        assert checked.refusals(call) == []


REWRAPS_OF_C = [
    "rewrap_at_every_length 16 24 0",
    "rewrap_in_place_at_every_length 32 16 1",
    "rewrap_of_any_other_flags 16 24",
    "rewrap_in_place_of_any_other_flags 16 24",
]


@slow
@pytest.mark.parametrize("call", REWRAPS_OF_C)
def test_rewrap_at_every_length_of_c(made, call):
    """The short list of this object has more KEKs and flags."""
    checked = bugs.Loaded(made("keywrap.c by clang for wasm32"))
    assert checked.refusals(call) == []


def test_way_back_is_under_the_same_kek():
    """A wrap of what an unwrap has left ends with the text, but under another KEK the checker refuses to say so."""
    lengths = bugs.every_length.lengths
    bugs.calls.terms.forget()
    lengths.begin(lengths.Facts(bugs.every_length.LEGAL))
    text = lengths.Content("text")

    def unwrap(kek):
        words = bugs.calls.standard.key_expansion(bugs.calls.any_bytes(kek, 16))
        return lengths.Process(words, text.bytes(0, 8), text, 8, True)

    way_back = unwrap("kek").before_the_end().way_back()
    a, registers = way_back.before_the_end().after()
    assert a == text.bytes(0, 8)
    size = 8 * lengths.N_REGISTERS
    wanted = lengths.Content("none").with_copy(0, size, text, 8)
    assert lengths.first_difference(registers, wanted, size) is None
    way_back.back = unwrap("another")
    with pytest.raises(bugs.Refused):
        way_back.before_the_end()


# A call of the checker, and when the call of keywrap.c does something else: at legal lengths or at others.
IN_C_AT_SOME_LENGTHS = [
    ("wrap_at_every_length 16", "wrapped_len == 1000000"),
    ("wrap_in_place_at_every_length 16", "wrapped_len == 4008"),
    ("wrap_in_place_at_every_length 16", "wrapped_len == 4001"),
    ("wrap_padded_at_every_length 16", "key_len == 9"),
    ("wrap_padded_at_every_length 16", "key_len > 65536"),
    ("unwrap_at_every_length 16", "wrapped_len == 24"),
    ("unwrap_at_every_length 24", "wrapped_len == 4008"),
    ("unwrap_padded_at_every_length 16", "wrapped_len == 24"),
    ("unwrap_any_at_every_length 184", "wrapped_len == 32"),
    ("kind_at_every_length 16", "room == 777"),
    ("wrap_of_any_other_kek", "kek_len == 20"),
]


BUG = "return KEYWRAP_OK;"
HARMLESS = '__asm__ volatile("");'  # an answer that the compiler does not leave out


def object_with_a_question(directory, call, question, answer):
    """Returns keywrap.c for wasm32 with the function of a call that asks something about its arguments first."""
    call = re.sub("_(at_every_length|of_any_other_).*", "", call)
    header = (ROOT / "dist/keywrap.h").read_text().replace("KEYWRAP_RESTRICT ", "")
    declaration = rf"^int32_t keywrap_{call}\(([^;]*)\);"
    parameters = re.search(declaration, header, re.M)[1]
    arguments = ", ".join(re.findall(r"(\w+)(?:,|$)", parameters))
    source = directory / "asks.c"
    source.write_text(
        f"""
        #define keywrap_{call} asked_{call}
        #include "keywrap.c"
        #undef keywrap_{call}
        int32_t keywrap_{call}({parameters}) {{
            if ({question}) {{ {answer} }}
            return asked_{call}({arguments});
        }}"""
    )
    wasm32.main(directory / "asks.wasm", source)
    return bugs.Loaded(directory / "asks.wasm")


@slow
@pytest.mark.needs("clang", "wasm-ld")
@pytest.mark.parametrize("call, question", IN_C_AT_SOME_LENGTHS)
def test_bug_at_some_lengths_in_c_is_refused(tmp_path, call, question):
    """keywrap.c for wasm32 does nothing at these lengths."""
    checked = object_with_a_question(tmp_path, call, question, BUG)
    assert checked.refusals(call)


@slow
@pytest.mark.needs("clang", "wasm-ld")
@pytest.mark.parametrize(
    "call, question",
    [
        ("wrap_padded_at_every_length 16", "key_len == 9"),
        ("unwrap_at_every_length 16", "wrapped_len == 24"),
        ("kind_at_every_length 16", "room == 777"),
        ("wrap_of_any_other_kek", "kek_len == 20"),
    ],
)
def test_question_about_a_length_in_c_is_no_bug(tmp_path, call, question):
    """It does the same for each answer: the refusals above are of the bugs."""
    checked = object_with_a_question(tmp_path, call, question, HARMLESS)
    assert checked.refusals(call) == []


IS_IN_THE_SHORT_LIST = {
    " ".join(map(str, call)) for call in bugs.lists.short_list()
} | {"load", "exports"}


@pytest.mark.needs("wasm2wat")
@pytest.mark.parametrize(
    "name",
    all_of(
        list(bugs.MODULES),
        ["a start function"],
        in_gate=[*bugs.MODULES][::6],
    ),
)
def test_changed_module_is_refused(tmp_path, name):
    """A call of the list that runs by default refuses it."""
    call = bugs.MODULES[name][3]
    checked = bugs.Loaded(bugs.planted(MODULE, name, tmp_path))
    assert call in IS_IN_THE_SHORT_LIST
    assert checked.refusals(call)


@slow
@pytest.mark.needs("wasm2wat")
@pytest.mark.parametrize("name", bugs.HARMLESS)
def test_question_about_a_length_is_no_bug(tmp_path, name):
    """A module that asks for a length and does the same for each passes: refusals are of the bugs."""
    checked = bugs.Loaded(bugs.planted(MODULE, name, tmp_path))
    assert checked.refusals(bugs.HARMLESS[name][3]) == []


@pytest.mark.parametrize(
    "name", all_of(list(planted.OBJECTS), [], in_gate=["back doors"])
)
def test_back_doors_in_machine_code_are_refused(made, name):
    """Code that could tell a check from a run, and bugs of few lengths, by calls of the list that runs by default."""
    checked = bugs.Loaded(made(name))
    missed = []
    for bug in planted.OBJECTS[name]:
        assert bug.call in IS_IN_THE_SHORT_LIST
        refusals = checked.refusals(bug.call)
        if not any(re.search(bug.refusal, text) for text in refusals):
            missed.append((bug.name, refusals))
    assert not missed


# In portable C: the call that refuses it, what it says, the export, code at its beginning, and an edit.
IN_C = [
    (
        "wrap 16 16",
        "a variable that depends on the inputs",
        "wrap",
        "static volatile uint8_t last; last = kek[0];",
        None,
    ),
    # A caller may leave anything above the 32 bits of the flags.
    (
        "rewrap 16 24 24 9",
        "",
        "rewrap",
        "if (flags > 15) wrapped_len = 1;",
        (r"(int32_t keywrap_rewrap\([^;{]*)uint32_t flags", r"\1uint64_t flags"),
    ),
]


@slow
@pytest.mark.needs("gcc")
@pytest.mark.parametrize(
    "call, message, export, begins, edit", IN_C, ids=["a variable", "flags of 64 bits"]
)
def test_bug_in_machine_code_is_refused(tmp_path, call, message, export, begins, edit):
    for name in "keywrap.c", "keywrap.h", "keywrap_steps.h":
        text = (ROOT / "dist" / name).read_text()
        if name == "keywrap.c":
            text = planted.with_code(text, export, begins)
        if edit:
            text = re.sub(*edit, text)
        (tmp_path / name).write_text(text)
    run(
        "gcc",
        "-O2",
        "-shared",
        "-fPIC",
        tmp_path / "keywrap.c",
        "-o",
        tmp_path / "bug.so",
    )
    ended = checker(tmp_path / "bug.so", *call.split())
    assert ended.returncode == 1 and f"REFUSED: {message}" in ended.stdout, ended.stdout


@pytest.fixture
def addresses(made):
    """The addresses of the exports of keywrap.c by gcc."""
    output = run("nm", "-D", "--defined-only", made("keywrap.c by gcc"))
    return {name: int(at, 16) for at, _, name in map(str.split, output.splitlines())}


@slow
def test_exports_are_what_the_loader_finds(made, addresses, tmp_path):
    """The table of all symbols, which the loader does not read, still has the right address."""
    names = "keywrap_wrap", "keywrap_unwrap"
    content = made("keywrap.c by gcc").read_bytes()
    path = tmp_path / "object.so"
    path.write_bytes(planted.with_other_symbol(content, *map(addresses.get, names)))
    ended = checker(path, "wrap", "16", "24")
    assert ended.returncode == 1 and "REFUSED" in ended.stdout


@slow
def test_code_is_what_the_loader_takes(made, addresses, tmp_path):
    """The sections still show the right code, which objdump prints."""
    at = addresses["keywrap_wrap"]
    content = made("keywrap.c by gcc").read_bytes()
    relocated = run("objdump", "-R", made("keywrap.c by gcc"))
    place = int(re.search(r"^(\w+) R_X86_64_RELATIVE", relocated, re.M)[1], 16)
    path = tmp_path / "object.so"
    for changed, message in (
        (
            planted.with_other_code(content, at, b"\x31\xc0\xc3"),
            "the loader puts there",
        ),
        (
            planted.with_relocated_code(content, place, at),
            "a relocation of code or constants",
        ),
    ):
        path.write_bytes(changed)
        ended = checker(path, "wrap", "16", "16")
        assert ended.returncode == 2 and message in ended.stderr, ended


@slow
def test_reads_a_stripped_library(made, tmp_path):
    path = tmp_path / "object.so"
    run("strip", "-o", path, made("keywrap.c by gcc"))
    assert "REFUSED" not in check(path, "wrap", "16", "16")


@pytest.mark.needs("wasm2wat")
def test_names_unknown_and_missing_exports(tmp_path):
    """An export that has another name is missed, and its name is in no header."""
    text = run("wasm2wat", MODULE).replace('"keywrap_kind"', '"keywrap_kinds"')
    (tmp_path / "other.wat").write_text(text)
    run("wat2wasm", tmp_path / "other.wat", "-o", tmp_path / "other.wasm")
    module = bugs.wasm.Module(tmp_path / "other.wasm")
    wrong = bugs.check.wrong_exports(module)
    assert wrong == [
        "keywrap_kind: not exported",
        "keywrap_kinds: an export that is not in the headers",
    ]


@pytest.mark.needs("gcc")
def test_library_has_the_steps_for_many_keys(made, tmp_path):
    """Each of them is missed if the object has it by another name."""
    assert (
        bugs.check.wrong_exports(bugs.check.x86.Module(made("keywrap.c by gcc"))) == []
    )
    renamed = [f"-D{name}=no_{name}" for name in bugs.check.MANY_STEPS]
    path = tmp_path / "renamed.so"
    run("gcc", "-O1", "-shared", "-fPIC", *renamed, ROOT / "dist/keywrap.c", "-o", path)
    wrong = bugs.check.wrong_exports(bugs.check.x86.Module(path))
    missing = [f"{name}: not exported" for name in sorted(bugs.check.MANY_STEPS)]
    assert wrong[: len(missing)] == missing and len(wrong) == 2 * len(missing)


def test_call_without_a_path_is_refused(monkeypatch):
    """A call that the checker did not follow to its end is not checked."""

    def makes_no_call(given):
        given.result.variables = given.module.variables

    monkeypatch.setitem(bugs.calls.CALLS, "version", makes_no_call)
    assert bugs.Loaded(MODULE).refusals("version") == [
        "no path of it comes to an end",
        "no path of it comes to an end",
    ]


def test_lengths_that_do_not_exist_are_refused(monkeypatch):
    """A call at every length whose facts contradict each other would pass without a run."""
    legal = bugs.every_length.LEGAL
    contradiction = [*legal, -1 * legal[0] - 1]
    monkeypatch.setattr(bugs.every_length, "LEGAL", contradiction)
    assert bugs.Loaded(MODULE).refusals("wrap_at_every_length 16") == [
        "the checker has a fault: no numbers of these lengths"
    ]


def test_calls_that_were_not_made_do_not_pass(capsys):
    """The summary counts the calls that passed, not those of the list."""
    checked = bugs.Loaded(MODULE).checked
    todo = bugs.check.all_todo(checked.module, "version", [])
    report = bugs.check.Report(len(todo), None)
    report.add(todo[0], *checked.tried(todo[0]))
    report.summary()
    assert "\n1 of 2 calls pass" in capsys.readouterr().out
    assert not report.all_pass()


def test_look_ups_can_be_refused():
    """Without the option they are counted. With it, a call that is not named may not have them."""
    for options, status in ([], 0), (["--look-ups=none"], 1), (["--look-ups=wrap"], 0):
        assert checker(MODULE, "wrap", "16", "16", *options).returncode == status


def test_same_seed_same_places():
    """A run with the seed that another one printed has its lines, but for their seconds."""
    output = check(MODULE, "unwrap", "16", "16")
    seed = re.search("--seed=\\d+", output)[0]
    again = check(MODULE, "unwrap", "16", "16", seed)
    without_seconds = [
        re.sub(r"[\d.]+ s( of|$)", "", text, flags=re.M) for text in (output, again)
    ]
    assert without_seconds[0] == without_seconds[1]


@pytest.mark.needs("wasm2wat")
def test_status_of_a_list_with_a_refusal(tmp_path, monkeypatch):
    bugs.planted(MODULE, "wrap: a length not a multiple of 8", tmp_path)
    monkeypatch.setitem(
        bugs.lists.LISTS, "short", lambda: [("wrap", 16, 16), ("wrap", 16, 20)]
    )
    assert bugs.check.main([str(tmp_path / "bug.wasm")]) == 1


@pytest.mark.needs("wasm2wat")
def test_status_of_a_list_with_a_wrong_export(tmp_path, monkeypatch, capsys):
    """Each call passes, but an export is in no header."""
    bugs.planted(MODULE, "one export more", tmp_path)
    monkeypatch.setitem(bugs.lists.LISTS, "short", lambda: [("version",)])
    assert bugs.check.main([str(tmp_path / "bug.wasm")]) == 1
    assert "1 of 1 calls pass" in capsys.readouterr().out


# Arguments that are wrong, and what the checker says of them. OBJECT is the module.
WRONG_ARGUMENTS = {
    "a file that is not an object": ("TEXT", "not a shared object"),
    "a file that is missing": ("MISSING", "No such file"),
    "an unknown call": ("OBJECT encrypt 16", "neither a list nor a call: encrypt"),
    "too few numbers": ("OBJECT wrap 16", "missing a required argument"),
    "too many numbers": ("OBJECT wrap 16 16 16 16 16", "too many positional arguments"),
    "a text for a number": ("OBJECT wrap 16 x", "invalid int value: 'x'"),
    "two numbers of processes": ("OBJECT short 1 1", "a list has one number"),
    "a text for the processes": ("OBJECT short x", "invalid int value: 'x'"),
    "look-ups of an unknown call": (
        "OBJECT wrap 16 16 --look-ups=encrypt",
        "not a call: encrypt",
    ),
    "a seed that is not a number": ("OBJECT wrap 16 16 --seed=x", "invalid int value"),
    "nothing": ("", "the following arguments are required: OBJECT"),
    "a call that the object lacks": (
        "OBJECT step_wrap_many 16 3 2 2",
        "keywrap_step_wrap_many is not exported",
    ),
}


@pytest.mark.parametrize("name", WRONG_ARGUMENTS)
def test_wrong_arguments(tmp_path, name):
    """They end with status 2, and not with 1 as a refusal does, and with a reason."""
    text = tmp_path / "text"
    text.write_text("no object")
    paths = {"OBJECT": MODULE, "TEXT": text, "MISSING": tmp_path / "missing"}
    line, message = WRONG_ARGUMENTS[name]
    ended = checker(*(paths.get(word, word) for word in line.split()))
    assert ended.returncode == 2
    assert ended.stdout == ""
    assert message in ended.stderr
    assert "Traceback" not in ended.stderr


@slow
@pytest.mark.needs("gcc")
def test_machine_code_has_no_call_at_every_length(made):
    ended = checker(made("keywrap.c by gcc"), "wrap_at_every_length", "16")
    assert ended.returncode == 2
    assert "a call of WebAssembly modules only" in ended.stderr
