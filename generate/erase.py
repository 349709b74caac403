#!/usr/bin/env python3
"""Writes dist/src/proved: the crates of the library calls as Rust, without their contracts.

Rattle is Rust with contracts. What is deleted: clauses, ghosts, attributes of the prover, laws, and what only these
name. What is rewritten: paths, since each crate becomes a module, and what Rust 1.63 lacks. Nothing else changes.
A form that is not listed here ends the script, so that no unknown text of Rattle gets another meaning in Rust.
tests/erased_tokens.py compares what is written with the sources. It shares no code with this script.

usage: generate/erase.py [--check] [DIRECTORY]     (by default dist/src/proved)

With --check it writes nothing, and fails if DIRECTORY differs."""

import argparse
import pathlib
import re
import sys
import tempfile
from dataclasses import dataclass

ROOT = pathlib.Path(__file__).resolve().parent.parent
CRATES = ROOT / "crates"

# The crates of which the crate for Rust is made. They bring the crates that they use.
WANTED = ["aes_block", "keywrap_calls"]
# Crates of others: the crate for Rust has the calls of the first, and needs nothing of the second.
BY_HAND = {"byteorder"}
NOT_NEEDED = {"thiserror"}
# In these crates every function can be inlined: the rounds of a block are several functions, and rustc divides a crate
# into units, over which it inlines nothing else.
INLINED = {"aes_block"}

KEYWORDS = set(
    "as break const continue crate else enum false fn for if impl in let match mod mut pub ref return self Self static"
    " struct trait true type use where while".split()
)
# Words that Rust knows and no crate here uses, and names that mean something else in Rattle.
UNKNOWN = set(
    "abstract async await become box clone do dyn extern final into_iter iter loop macro macro_rules move once override"
    " priv spawn super try try_recv try_send typeof union unsafe unsized virtual yield".split()
)
# Reaching unreachable!() ends the thread in Rust. The proofs say that nothing does.
MACROS = {"matches", "unreachable"}
ATTRIBUTES = {"cfg", "derive", "error", "inline", "tactic"}
DERIVED = {"Clone", "Copy", "Debug", "Default", "Eq", "PartialEq"}
# Derived in Rattle only. Each type of Rust can be dropped, and the crate for Rust has messages of its own.
NOT_DERIVED = {"Drop", "Error"}
ITEMS = {"const", "enum", "fn", "impl", "static", "struct", "trait", "type"}

TOKEN = re.compile(
    r"""
    (?P<space>\s+)
  | (?P<comment>//[^\n]*)
  | (?P<string>b?"(?:\\.|[^"\\])*")
  | (?P<character>b?'(?:\\[^']+|[^'\\])'(?!\w))
  | (?P<lifetime>'[A-Za-z_]\w*)
  | (?P<number>[0-9]\w*)
  | (?P<word>[A-Za-z_]\w*)
  | (?P<sign>::|->|=>|\.\.=|\.\.|&&|\|\||[-+*/%^|&]=|<=|>=|==|!=|[-+*/%^|&!<>=.,;:#?@(){}\[\]])
  | (?P<logic>\S)
    """,
    re.VERBOSE | re.ASCII,
)
CLOSING = {"(": ")", "[": "]", "{": "}"}


@dataclass(frozen=True)
class Token:
    kind: str
    text: str
    line: int


class UnknownForm(Exception):
    """A form that the eraser does not know."""


def tokens_of(text):
    """The tokens of a text, which together are the text. A sign that only contracts have is of the kind `logic`."""
    found = []
    line = 1
    for match in TOKEN.finditer(text):
        found.append(Token(match.lastgroup, match.group(), line))
        line += match.group().count("\n")
    return found


def words_of(tokens):
    """How often each word occurs."""
    counts = {}
    for token in tokens:
        if token.kind == "word":
            counts[token.text] = counts.get(token.text, 0) + 1
    return counts


class Source:
    """The tokens of a file, with the places of code tokens: neither spaces nor comments."""

    def __init__(self, path, text):
        self.path = path
        self.tokens = tokens_of(text)

    def stop(self, at, why):
        line = self.tokens[min(at, len(self.tokens) - 1)].line
        raise UnknownForm(f"{self.path}:{line}: {why}")

    def text(self, at):
        return self.tokens[at].text if at < len(self.tokens) else ""

    def next(self, at):
        """The place of the next code token after this place."""
        at += 1
        while at < len(self.tokens) and self.tokens[at].kind in ("space", "comment"):
            at += 1
        return at

    def previous(self, at):
        """The place of the code token before this place, or -1."""
        at -= 1
        while at >= 0 and self.tokens[at].kind in ("space", "comment"):
            at -= 1
        return at

    def close(self, at):
        """The place of the bracket that closes the one at this place."""
        expected = []
        for place in range(at, len(self.tokens)):
            token = self.tokens[place]
            if token.kind != "sign":
                continue
            if token.text in CLOSING:
                expected.append(CLOSING[token.text])
            elif token.text in CLOSING.values():
                if expected.pop() != token.text:
                    self.stop(place, f"{token.text} closes another bracket")
                if not expected:
                    return place
        self.stop(at, "a bracket that is not closed")

    def find(self, at, *texts):
        """The place of the first of these tokens at or after this place, outside brackets."""
        while at < len(self.tokens):
            if self.text(at) in texts:
                return at
            if self.text(at) in CLOSING:
                at = self.close(at)
            at = self.next(at)
        self.stop(at, f"none of {' '.join(texts)}")

    def between(self, start, end):
        """The text from one place to before another."""
        return "".join(token.text for token in self.tokens[start:end])


class Eraser:
    """Erases one file: copies its tokens to `out`, but for what its methods leave out or write otherwise."""

    def __init__(self, source, crate, crates, gone):
        self.source = source
        self.crate = crate
        self.crates = crates
        self.gone = gone
        self.out = []
        self.at = 0
        self.is_example = False
        # The ends of values whose `else` is rewritten: the place, and what comes before it.
        self.before_else = {}

    def erased(self):
        """The text of the file in Rust."""
        while self.at < len(self.source.tokens):
            self.take()
        for token in self.out:
            if token.kind == "logic":
                raise UnknownForm(
                    f"{self.source.path}:{token.line}: {token.text} outside a contract"
                )
        return "".join(token.text for token in self.out)

    def emit(self, text):
        """Writes a text of the eraser's own."""
        self.out += tokens_of(text)

    def copy_to(self, end):
        """Copies the tokens before this place."""
        while self.at < end:
            self.take()

    def drop_lead(self):
        """Takes back the comments and attributes right before an item that is erased, and the space before them."""
        while self.out:
            token = self.out[-1]
            if token.kind == "space" and token.text.count("\n") > 1:
                break
            is_lead = token.kind in ("space", "comment") or token.text == "pub"
            if not is_lead or token.text.startswith("//!"):
                break
            self.out.pop()
        self.drop_space()

    def drop_space(self):
        """Takes back the space before something that is erased."""
        while self.out and self.out[-1].kind == "space":
            self.out.pop()

    def take(self):
        """Copies the next token, or does what its form asks for."""
        source = self.source
        at = self.at
        token = source.tokens[at]
        if at in self.before_else:
            self.emit(self.before_else.pop(at))
        if token.kind == "comment":
            self.comment(token)
        elif token.kind == "sign" and token.text == "#":
            self.attribute()
        elif token.kind == "sign" and token.text == "..":
            self.dots()
        elif token.kind != "word":
            self.copy()
        elif token.text == "ghost":
            self.ghost()
        elif token.text in ("requires", "ensures"):
            self.clause()
        elif token.text == "use":
            self.use()
        elif token.text == "impl":
            self.implementation()
        elif token.text == "mod":
            self.module()
        elif token.text in ("fn", "pub") and self.is_law():
            self.law()
        elif token.text == "fn":
            self.function()
        elif token.text == "let":
            self.let()
        elif token.text == "Drop":
            self.drop_bound()
        elif token.text == "next_multiple_of":
            self.multiple()
        elif token.text in UNKNOWN:
            source.stop(at, f"unknown word: {token.text}")
        elif source.text(at + 1) == "!" and token.text not in MACROS:
            source.stop(at, f"unknown macro: {token.text}!")
        elif source.text(at + 1) == "::" and source.text(at - 1) != "::":
            self.path()
        else:
            self.copy()

    def copy(self):
        self.out.append(self.source.tokens[self.at])
        self.at += 1

    def comment(self, token):
        """A comment stays. rustdoc does not run its example, whose crates are modules here."""
        text = token.text
        if re.fullmatch(r"//[/!] ```\w*", text):
            self.is_example = not self.is_example
            if self.is_example:
                text = text[: text.index("```")] + "```text"
        self.out.append(Token("comment", text, token.line))
        self.at += 1

    def attribute(self):
        """Leaves out attributes of the prover, and what is derived in Rattle only."""
        source = self.source
        start = self.at
        bracket = source.next(start)
        if source.text(bracket) == "!":
            bracket = source.next(bracket)
        if source.text(bracket) != "[":
            source.stop(start, "unknown attribute")
        name = source.next(bracket)
        end = source.close(bracket)
        if source.text(name) not in ATTRIBUTES:
            source.stop(start, f"unknown attribute: {source.text(name)}")
        if source.text(name) in ("tactic", "error"):
            self.drop_space()
            self.at = end + 1
        elif source.text(name) == "derive":
            self.derive(name, end)
        elif source.text(name) == "cfg":
            self.test_module(end)
        else:
            while self.at <= end:
                self.copy()

    def derive(self, name, end):
        names = [
            token.text
            for token in self.source.tokens[name + 1 : end]
            if token.kind == "word"
        ]
        for derived in names:
            if derived not in DERIVED | NOT_DERIVED:
                self.source.stop(name, f"unknown derive: {derived}")
        left = [derived for derived in names if derived in DERIVED]
        self.at = end + 1
        if left:
            self.emit(f"#[derive({', '.join(left)})]")
        else:
            self.drop_space()

    def test_module(self, end):
        """Leaves out `#[cfg(test)] mod NAME;`."""
        source = self.source
        if source.between(self.at, end + 1) != "#[cfg(test)]":
            source.stop(self.at, "unknown cfg")
        module = source.next(end)
        if source.text(module) != "mod":
            source.stop(module, "a test outside a module")
        self.drop_space()
        self.at = source.find(module, ";") + 1

    def dots(self):
        """A range or the rest of a pattern: not the rest of a struct, and no range without an end outside an index."""
        source = self.source
        at = self.at
        before = source.text(source.previous(at))
        after = source.text(source.next(at))
        if before == "," and after != "}" or before == "(" or after == ")":
            source.stop(at, "unknown form of ..")
        self.copy()

    def ghost(self):
        """Leaves out `ghost use ..;`, and a ghost member: `ghost NAME: {..};` or `ghost NAME = {..};`."""
        source = self.source
        at = self.at
        name = source.next(at)
        if source.text(name) == "use":
            self.drop_space()
            self.at = source.find(name, ";") + 1
            return
        sign = source.next(name)
        body = source.next(sign)
        if source.text(sign) not in (":", "=") or source.text(body) != "{":
            source.stop(at, "unknown ghost")
        end = source.next(source.close(body))
        if source.text(end) != ";":
            source.stop(end, "a ghost without an end")
        self.drop_lead()
        self.at = end + 1

    def clause(self):
        """Leaves out `requires NAME {..}` or `ensures NAME {..}`, with comments on the next one."""
        source = self.source
        at = self.at
        body = source.next(at)
        if source.tokens[body].kind == "word":
            body = source.next(body)
        if source.text(body) != "{":
            source.stop(at, "unknown clause")
        end = source.next(source.close(body))
        if source.text(end) not in ("{", ";", "requires", "ensures"):
            source.stop(end, "no body after a clause")
        while self.out[-1].kind in ("space", "comment"):
            self.out.pop()
        if source.text(end) == "{":
            self.emit(" ")
        self.at = end

    def use(self):
        """Leaves out names that are gone, and a `use` of nothing else."""
        source = self.source
        at = self.at
        end = source.find(at, ";")
        first = source.text(source.next(at))
        if first in NOT_NEEDED or first == "std":
            self.std_use(end)
            return
        opened = next((p for p in range(at, end) if source.text(p) == "{"), None)
        if opened is None:
            if source.text(source.previous(end)) in self.gone:
                self.drop_item(end)
            else:
                self.copy()
            return
        names = [t.text for t in source.tokens[opened + 1 : end] if t.kind == "word"]
        left = [name for name in names if name not in self.gone]
        if len(left) == len(names):
            self.copy()
        elif left:
            self.copy()
            self.copy_to(opened)
            self.emit(f"{{{', '.join(left)}}}")
            self.at = end
        else:
            self.drop_item(end)

    def std_use(self, end):
        """Leaves out what messages and models need."""
        known = (
            "std::marker::Model",
            "std::error::Error",
            "std::fmt",
            "thiserror::Error",
        )
        if self.source.between(self.at, end) not in [f"use {name}" for name in known]:
            self.source.stop(self.at, "unknown use of std")
        self.drop_item(end)

    def drop_item(self, end):
        self.drop_lead()
        self.at = end + 1

    def implementation(self):
        """Leaves out `impl Model`, and messages: `impl fmt::Display`, `impl Error`."""
        source = self.source
        at = self.at
        body = source.find(at, "{")
        head = source.between(at, body)
        if re.search(r"(^impl|>) (Model|fmt::Display|Error) for \w", head):
            self.drop_item(source.close(body))
        else:
            self.copy()

    def module(self):
        """Leaves out a module of which nothing is left."""
        source = self.source
        name = source.next(self.at)
        end = source.next(name)
        if source.text(end) != ";":
            source.stop(self.at, "a module in a file")
        if f"mod {source.text(name)}" in self.gone:
            self.drop_item(end)
        else:
            self.copy()

    def is_law(self):
        """Whether a function begins here whose name says that it is a law."""
        source = self.source
        at = self.at
        if source.text(at) == "pub":
            at = source.next(at)
        return source.text(at) == "fn" and source.text(source.next(at)).endswith("_law")

    def law(self):
        """Leaves out a function that does nothing, for its contract."""
        source = self.source
        body = source.find(self.at, "{")
        # The braces of clauses come before those of the body.
        while source.text(source.next(source.close(body))) in (
            "{",
            "requires",
            "ensures",
        ):
            body = source.find(source.next(source.close(body)), "{")
        if source.next(body) != source.close(body):
            source.stop(self.at, "a law that does something")
        self.drop_item(source.close(body))

    def function(self):
        """Makes a function of some crates known to be inlined."""
        if self.crate in INLINED and not self.has_inline():
            self.insert_inline()
        self.copy()

    def has_inline(self):
        """Whether an attribute right before the function says so."""
        line = "".join(token.text for token in self.out[-16:])
        return (
            re.search(r"#\[inline(\(\w+\))?\]\s+(pub(\(crate\))? )?$", line) is not None
        )

    def insert_inline(self):
        """Writes the attribute before `pub`, at its indentation."""
        start = len(self.out)
        while (
            self.out[start - 1].kind != "space" or "\n" not in self.out[start - 1].text
        ):
            start -= 1
        indent = self.out[start - 1].text.rpartition("\n")[2]
        self.out[start:start] = tokens_of(f"#[inline]\n{indent}")

    def let(self):
        """Rust before 1.65 has no `let P(x) = e else {..};`, which is `let x = if let P(x) = e { x } else {..};`."""
        source = self.source
        at = self.at
        self.copy()
        if source.text(source.previous(at)) in ("if", "while", "&&"):
            return
        equals = source.find(at, "=", ";")
        if source.text(equals) == ";":
            return
        end = source.find(equals, ";", "else", "{")
        if source.text(end) != "else":
            return
        pattern = source.between(source.next(at), equals).strip()
        match = re.fullmatch(r"\w+(\(.*\))", pattern)
        if match is None or re.search(r"[^\w(), ]", pattern):
            source.stop(at, "unknown pattern of a let with an else")
        inner = match[1]
        if re.fullmatch(r"\(\w+\)|\(\(.*\)\)", inner):
            inner = inner[1:-1]
        self.emit(f" {inner} = if let")
        self.before_else[end] = f"{{ {inner} }} "

    def drop_bound(self):
        """Leaves out the bound `Drop`, which each type of Rust has. Rust knows the size of a parameter or an associated
        type, but not that of a trait's Self: so `trait K: P + Drop` becomes `trait K: P + Sized`. A trait with no other
        bound is not known. tests/erased_tokens.py has the same two rewrites."""
        colon = self.source.previous(self.at)
        before = self.source.text(colon)
        self.drop_space()
        sign = self.out[-1].text
        if before == "+" and sign == "+":
            self.emit(" Sized")
        elif before == ":" and sign == ":" and not self.ends_a_trait(colon):
            self.out.pop()
        else:
            self.source.stop(self.at, "unknown Drop")
        self.at += 1

    def ends_a_trait(self, colon):
        """Whether a trait's name, or parameters that may be a trait's, are before this colon."""
        source = self.source
        name = source.previous(colon)
        return source.text(name) == ">" or source.text(source.previous(name)) == "trait"

    def multiple(self):
        """Rust before 1.73 has no `next_multiple_of`. The sum of the key's length cannot overflow."""
        source = self.source
        at = self.at
        if source.between(at, at + 5) != "next_multiple_of(8);":
            source.stop(at, "unknown form of next_multiple_of")
        self.emit("saturating_add(7) / 8 * 8")
        self.at += 4

    def path(self):
        """A path that begins with a crate."""
        text = self.source.text(self.at)
        if text == "crate":
            self.emit(f"crate::proved::{self.crate}")
        elif text in self.crates:
            self.emit(f"crate::proved::{text}")
        elif text in BY_HAND:
            self.emit(f"crate::{text}")
        elif text in ("std", "self", *NOT_NEEDED):
            self.source.stop(self.at, f"unknown path: {text}::")
        else:
            self.copy()
            return
        self.at += 1


def uses(crate):
    """The crates that a crate uses, as crates.txt has it."""
    for line in (ROOT / "crates.txt").read_text().splitlines():
        name, _, used = line.partition(":")
        if name.split(" ")[0] == crate and not line.startswith("#"):
            return used.split()
    raise UnknownForm(f"crates.txt: no {crate}")


def crates_of(wanted):
    """These crates and the crates that they use, lowest first."""
    found = []
    for crate in wanted:
        others = [
            used
            for used in uses(crate)
            if used not in BY_HAND and used not in NOT_NEEDED
        ]
        found += [used for used in crates_of(others) if used not in found]
        found += [crate] if crate not in found else []
    return found


def sources_of(crate):
    """The files of a crate without its tests."""
    for path in sorted((CRATES / crate / "src").rglob("*.rt")):
        inner = path.relative_to(CRATES / crate / "src")
        if inner.parts[0] not in ("tests", "tests.rt"):
            yield inner, path.read_text()


def laws_of(text):
    """The names of laws."""
    return set(re.findall(r"\bfn (\w+_law)\b", text))


def only_in_contracts(before, after):
    """The names that a `use` has, and otherwise only what was erased."""
    return {name for name, count in after.items() if count == 1 < before.get(name, 0)}


def used_names(tokens):
    """The names that the `use`s of a file bring."""
    names = set()
    in_use = False
    for token in tokens:
        if token.text == "use":
            in_use = True
        elif token.text == ";":
            in_use = False
        elif in_use and token.kind == "word":
            names.add(token.text)
    return names


def erase_file(crate, inner, text, crates, gone):
    """The file in Rust, or None if nothing but `use` is left."""
    path = f"crates/{crate}/src/{inner}"
    erased = Eraser(Source(path, text), crate, crates, gone).erased()
    after = tokens_of(erased)
    # A name that only contracts used is left in a `use`.
    unused = only_in_contracts(words_of(tokens_of(text)), words_of(after))
    unused &= used_names(after)
    if unused:
        erased = Eraser(Source(path, text), crate, crates, gone | unused).erased()
    kept = {token.text for token in after if token.kind == "word"}
    if inner.name != "lib.rt" and not kept & ITEMS:
        return None
    erased = re.sub(r"\n{3,}", "\n\n", erased).strip()
    return f"// Written by generate/erase.py from {path}, which has the contracts.\n\n{erased}\n"


def erase_crate(crate, crates):
    """The files of a crate in Rust: pairs of a path and a text."""
    sources = dict(sources_of(crate))
    gone = set().union(*(laws_of(text) for text in sources.values()))
    erased = {}
    # lib.rt comes last: it names the modules.
    for inner in sorted(sources, key=lambda inner: inner.name == "lib.rt"):
        text = erase_file(crate, inner, sources[inner], crates, gone)
        if text is None:
            gone.add(f"mod {inner.stem}")
            continue
        name = "mod.rs" if inner.name == "lib.rt" else inner.with_suffix(".rs")
        erased[pathlib.Path(crate, name)] = text
    return erased


TOP = """\
// Written by generate/erase.py.

//! The proved code: the crates of Rattle that make the calls, without their contracts. Each file names the file that
//! has them.

#![forbid(unsafe_code)]
// The calls use some of it only. The layout and the style are those of Rattle.
#![allow(dead_code, unused_imports, clippy::all)]

"""


def erase_all():
    """All files: a path for each text."""
    crates = crates_of(WANTED)
    erased = {}
    for crate in crates:
        erased.update(erase_crate(crate, crates))
    modules = "".join(f"pub(crate) mod {crate};\n" for crate in sorted(crates))
    erased[pathlib.Path("mod.rs")] = TOP + modules
    return erased


def read_all(directory):
    """The files of a directory: a path for each text."""
    paths = [path for path in directory.rglob("*") if path.is_file()]
    return {path.relative_to(directory): path.read_text() for path in paths}


def write_all(directory, erased):
    """Writes the files, and deletes others that it has written."""
    others = [item for item in read_all(directory).items() if item[0] not in erased]
    for path, text in others:
        if not text.startswith("// Written by generate/erase.py"):
            sys.exit(f"erase.py: {directory / path} is not of erase.py")
    for path, _ in others:
        (directory / path).unlink()
    for path, text in erased.items():
        (directory / path).parent.mkdir(parents=True, exist_ok=True)
        (directory / path).write_text(text)


def main():
    parser = argparse.ArgumentParser(usage="generate/erase.py [--check] [DIRECTORY]")
    parser.add_argument("--check", action="store_true")
    parser.add_argument(
        "directory", nargs="?", type=pathlib.Path, default=ROOT / "dist/src/proved"
    )
    options = parser.parse_args()
    try:
        erased = erase_all()
    except UnknownForm as unknown:
        sys.exit(f"erase.py: {unknown}")
    if not options.check:
        write_all(options.directory, erased)
    elif read_all(options.directory) != erased:
        sys.exit(f"erase.py: {options.directory} is not what the crates say")


if __name__ == "__main__":
    main()
