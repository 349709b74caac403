#!/usr/bin/env python3
"""Lists the definitions that the contract of a call rests on, computed from `use` lines, and the hashes of a release.

usage: generate/trust.py                  writes the tables of docs/TRUST.md, and the lines of C that dist/README counts
       generate/trust.py --check          fails if the tables or the lines in docs/TRUST.md are others
       generate/trust.py --hashes FILE    writes the hashes of SHA256SUMS, which `make dist` made, into docs/TRUST.md
       generate/trust.py --check-hashes FILE    fails if a line of SHA256SUMS is not there
       generate/trust.py --axioms FILE   writes what rt says of axioms: FILE is the output of rt check for keywrap,
                                         keywrap_c and keywrap_wasm

A development version has no hashes, and leaves the list of the last version on the page. SHA256SUMS may be of one
machine. So the bill of materials, which has the hashes of what was packed with it, is not compared.
"""

import re
import sys
import textwrap
from pathlib import Path

TOP = Path(__file__).resolve().parent.parent
CRATES = TOP / "crates"
PAGE = TOP / "docs" / "TRUST.md"

# The headlines: a name, and the source files whose functions make it, each with the names of these functions if they
# are not all of the file.
HEADLINES = [
    (
        "`keywrap_wrap` and `keywrap_unwrap` of C",
        {"keywrap_c/src/exports.rt": ["keywrap_wrap", "keywrap_unwrap"]},
    ),
    ("every call of C", {"keywrap_c/src/*.rt": None}),
    (
        "the command, from its arguments on",
        {
            "keywrap_cli/src/operation.rt": None,
            "keywrap_io/src/disk.rt": None,
            "keywrap/src/session.rt": None,
            "keywrap/src/program.rt": None,
            "keywrap/src/cli.rt": ["command"],
        },
    ),
]

USE = re.compile(
    r"^(?:ghost )?use Rattle\.([\w.]+?)(?:\.\{([^}]*)\}| as (\w+))?;?\s*$", re.MULTILINE
)


def imports(text):
    """The modules that a file uses, each with the words that it takes from it."""
    found = []
    for path, words, alias in USE.findall(text):
        taken = words or alias or path.rsplit(".", 1)[-1]
        found.append((path, [word.strip() for word in taken.split(",")]))
    return found


def function_text(text, name):
    """The source of a public function."""
    pattern = rf"^pub .*\bfn {name}\b.*?^}}"
    return re.search(pattern, text, re.MULTILINE | re.DOTALL).group()


def clauses(text, functions):
    """The contracts of these functions of a source file, or of all: the lines from `ensures` and `requires` to the
    body."""
    if functions:
        text = "\n".join(function_text(text, name) for name in functions)
    contract = r"^\s*(?:ensures|requires)\b.*?(?=^\s*\{\s*$)"
    return "\n".join(re.findall(contract, text, re.MULTILINE | re.DOTALL))


def spec_file(path):
    """The file in a directory specs/ of this repository for a module's path, or None."""
    crate, *rest = path.split(".")
    if rest[:1] != ["specs"] or len(rest) < 2 or rest[1] == "declared":
        return None
    file = CRATES / crate / "specs" / ("/".join(rest[1:]) + ".antt")
    return file if file.is_file() else None


def is_used(words, text):
    """Whether a text has one of these words; an operator counts as used."""
    return any(is_word_used(word, text) for word in words)


def is_word_used(word, text):
    if "◌" in word:
        return True
    name = re.escape(word.split(" ")[0])
    return re.search(rf"(?<!\w){name}(?!\w)", text) is not None


def used_by_contracts(source, functions):
    """The imports that the contracts of a source file use."""
    text = source.read_text(encoding="utf-8")
    contract = clauses(text, functions)
    return [(path, words) for path, words in imports(text) if is_used(words, contract)]


def closure(roots):
    """The files of definitions that the contracts of these source files rest on, and the words of std and the kit."""
    waiting = []
    for pattern, functions in roots.items():
        for source in sorted(CRATES.glob(pattern)):
            waiting += used_by_contracts(source, functions)
    files = set()
    outside = set()
    while waiting:
        path, words = waiting.pop()
        file = spec_file(path)
        if file is None:
            if ".specs.declared." not in path:
                outside.update((path, word) for word in words)
        elif file not in files:
            files.add(file)
            waiting += imports(file.read_text(encoding="utf-8"))
    return files, outside


def lines(file):
    """The lines of a file that state something: not blank, not a comment, not a `use`."""
    text = file.read_text(encoding="utf-8").splitlines()
    return sum(1 for line in text if states_something(line))


def states_something(line):
    is_comment = line.strip().startswith("--")
    return line.strip() != "" and not is_comment and not line.startswith("use ")


def summary(name, files, outside):
    """The row of a headline."""
    modules = {path for path, _ in outside}
    return (
        f"| {name} | {len(files)} | {sum(map(lines, files))} | "
        f"{len(outside)} words of {len(modules)} modules |"
    )


def by_crate(files):
    """The files of each crate, in the order of their names."""
    found = {}
    for file in sorted(files):
        crate, *_ = file.relative_to(CRATES).parts
        found.setdefault(crate, []).append(file)
    return sorted(found.items())


def crate_item(crate, files):
    """The item of a crate: its files with their lines. No line ends between a file and its number."""
    counts = ", ".join(f"`{file.stem}`\u00a0{lines(file)}" for file in files)
    item = textwrap.fill(
        f"- `{crate}/specs`: {counts}",
        118,
        subsequent_indent="  ",
        break_long_words=False,
    )
    return item.replace("\u00a0", " ")


def files_of_headline(title, files):
    items = [crate_item(crate, files) for crate, files in by_crate(files)]
    return [f"{title[0].upper()}{title[1:]}:\n", *items, ""]


def tables():
    """The tables of the page. The lists of later headlines have only what the first one does not have."""
    closures = [(name, *closure(roots)) for name, roots in HEADLINES]
    result = [
        "| Headline | Files | Lines | of std and the kit's crates |",
        "|---|---|---|---|",
    ]
    result += [summary(*headline) for headline in closures]
    result.append("")
    (name, first, _), *others = closures
    result += files_of_headline(name, first)
    for name, files, _ in others:
        title = f"{name}, beside {len(files & first)} of the first list"
        result += files_of_headline(title, files - first)
    return "\n".join(result)


def hashes(sums):
    """The lines of a SHA256SUMS, in order of their names."""
    found = Path(sums).read_text(encoding="utf-8").splitlines()
    found.sort(key=lambda line: line.split()[1])
    return "\n".join(f"    {line}" for line in found)


CODE = (".c", ".h", ".java", ".js", ".ts", ".go", ".py", ".rs")


def is_by_hand(path):
    """Whether a file is code of a program, not a test. program.* is generated."""
    is_test = path.stem.endswith("_test")
    return path.suffix in CODE and path.stem != "program" and not is_test


def written_lines(place):
    """The hundreds of lines of the programs below a directory or with these names."""
    files = TOP.glob(place) if "*" in place else (TOP / place).rglob("*")
    texts = (path.read_text(encoding="utf-8") for path in files if is_by_hand(path))
    return round(sum(len(text.splitlines()) for text in texts), -2)


def axioms(log):
    """A line for each crate: the axioms that its proof reached, of how many, and rt's own line."""
    text = Path(log).read_text(encoding="utf-8")
    checked = r"^crate (\w+):.*\n((?:axioms .*\n)+)(logic=proved .*)$"
    rows = {}
    for crate, reached, verdict in re.findall(checked, text, re.M):
        declared = sum(map(int, re.findall(r"of the (\d+) declared", reached)))
        count = re.search(r" axioms=(\d+)", verdict)
        number = count[1] if count else "none"
        rows[crate] = textwrap.fill(
            f"- `{crate}`: {number} of {declared} axioms reached. `{verdict}`",
            120,
            subsequent_indent="  ",
            break_on_hyphens=False,
        )
    return "\n".join(rows[crate] for crate in sorted(rows))


def are_listed(lines, listed):
    """Whether the page lists these lines."""
    compared = {line for line in lines.splitlines() if not line.endswith(".cdx.json")}
    return bool(compared) and compared <= set(listed.splitlines())


def with_part(page, edges, text):
    """The page with this text between its two comments, and the text that is there."""
    begin, end = edges
    head, rest = page.split(begin)
    old, tail = rest.split(end)
    return f"{head}{begin}\n{text}\n{end}{tail}", old


def with_counted_lines(page):
    """The page with the lines of C around the module, as dist/README counts them, and the lines of other programs."""
    readme = (TOP / "dist/README").read_text(encoding="utf-8")
    (by_hand,) = re.findall(r"the (\d+) lines\sof\skeywrap.c", readme)
    around = r"[\d,]+(?= lines of C around the module)"
    page = re.sub(around, f"{int(by_hand):,}", page)
    about = r"(?<=about )[\d,]+(?=\slines\sof\s`([a-z/.*]+)`)"
    return re.sub(about, lambda place: f"{written_lines(place[1]):,}", page)


def with_tools(page):
    """The page with the versions of the tools that made keywrap.c."""
    head = (TOP / "dist/keywrap.c").read_text(encoding="utf-8")[:2000]
    ((binaryen, wabt),) = re.findall(r"(binaryen \d+), (wabt [\d.]*\d)", head)
    return re.sub(r"binaryen \d+ and wabt [\d.]*\d", f"{binaryen} and {wabt}", page)


def is_development():
    version = (TOP / "VERSION").read_text(encoding="utf-8").strip()
    return version.endswith("-dev")


def main(arguments):
    option, *operands = arguments or [""]
    is_of_hashes = option in ("--hashes", "--check-hashes")
    if is_of_hashes and is_development():
        return 0
    part = ""
    text = ""
    if is_of_hashes:
        part = " --hashes"
        text = hashes(operands[0])
    elif option == "--axioms":
        part = " --axioms"
        text = axioms(operands[0])
    else:
        text = tables().strip()
    edges = [f"<!-- generate/trust.py{part}: {edge} -->" for edge in ("begin", "end")]

    page = PAGE.read_text(encoding="utf-8")
    wanted, old = with_part(page, edges, text)
    if option == "--check-hashes" and are_listed(text, old):
        return 0
    wanted = with_tools(with_counted_lines(wanted))
    if not option.startswith("--check"):
        PAGE.write_text(wanted, encoding="utf-8")
        return 0
    if page == wanted:
        return 0
    command = " ".join(["generate/trust.py", f"{part} {' '.join(operands)}".strip()])
    print(f"docs/TRUST.md: stale, run {command}".strip())
    return 1


if __name__ == "__main__":
    sys.exit(main(sys.argv[1:]))
