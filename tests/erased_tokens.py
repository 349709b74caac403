"""Compares dist/src/proved with the crates that generate/erase.py erased, and shares no code with it: this reads both
texts side by side, character by character, and knows where they may differ. A difference that is not in its list is a
fault, so the Rust has every token of the code, in its order, and no other.

usage: tests/erased_tokens.py [DIRECTORY]     (by default dist/src/proved)"""

import pathlib
import sys

ROOT = pathlib.Path(__file__).resolve().parent.parent
SIGNS = ("..=", "::", "->", "=>", "..", "&&", "||", "==", "!=", "<=", ">=")
PAIRS = {"(": ")", "[": "]", "{": "}"}
BY_HAND = ("byteorder",)
# The names of Rattle's std that a `use` may bring. They are for messages and for contracts.
NAMES_OF_STD = (
    "use std::error::Error;",
    "use std::fmt;",
    "use std::marker::Model;",
    "use thiserror::Error;",
)


class Fault(Exception):
    """The Rust is not the source without its contracts."""


def string_end(text, at):
    """Returns where the string literal that begins at this quote ends."""
    quote = text[at]
    at += 1
    while text[at] != quote:
        at += 2 if text[at] == "\\" else 1
    return at + 1


def is_character(text, at):
    """Whether a character literal begins at this quote, and not a lifetime or a name of logic."""
    return text[at + 1] == "\\" or text[at + 2 : at + 3] == "'"


def split(text):
    """The tokens of a text, and its comments."""
    tokens = []
    comments = []
    at = 0
    while at < len(text):
        start = at
        char = text[at]
        if char.isspace():
            at += 1
            continue
        if text.startswith("//", at):
            at = text.find("\n", at)
            comments.append(text[start:at].strip())
            continue
        if char == '"' or char == "'" and is_character(text, at):
            at = string_end(text, at)
        elif char == "b" and text[at + 1] in "\"'":
            at = string_end(text, at + 1)
        elif char == "_" or char.isalnum():
            while text[at] == "_" or text[at].isalnum():
                at += 1
        else:
            sign = next((sign for sign in SIGNS if text.startswith(sign, at)), char)
            at += len(sign)
        tokens.append(text[start:at])
    return tokens, comments


def closing(tokens, at):
    """The place after the bracket that closes the one at this place."""
    depth = 0
    while True:
        depth += tokens[at] in PAIRS
        depth -= tokens[at] in PAIRS.values()
        at += 1
        if depth == 0:
            return at


def without(tokens):
    """The tokens of a source without what the prover alone reads. Each form is known by how it begins, and ends at its
    own bracket or semicolon."""
    left = []
    at = 0
    while at < len(tokens):
        end = erased_end(tokens, at)
        if end is None:
            left.append(tokens[at])
            at += 1
        else:
            at = end
    return left


def erased_end(tokens, at):
    """The place after what the prover alone reads, if that begins here."""
    word = tokens[at]
    after = tokens[at + 1 : at + 5]
    if word == "ghost" and after[0] == "use":
        return tokens.index(";", at) + 1
    if word == "ghost":
        end = closing(tokens, at + 3)
        if after[1] not in (":", "=") or tokens[end] != ";":
            raise Fault(f"a ghost of another form: {' '.join(after)}")
        return end + 1
    if word in ("requires", "ensures"):
        end = closing(tokens, at + 1 if after[0] == "{" else at + 2)
        if tokens[end] not in ("{", ";", "requires", "ensures"):
            raise Fault(f"a clause before {tokens[end]}")
        return end
    if word == "#" and after[:2] in (["[", "tactic"], ["[", "error"]):
        return closing(tokens, at + 1)
    if word == "#" and after[:3] == ["!", "[", "tactic"]:
        return closing(tokens, at + 2)
    if tokens[at : at + 9] == ["#", "[", "cfg", "(", "test", ")", "]", "mod", "tests"]:
        return at + 10
    if word == "impl":
        return impl_end(tokens, at)
    if word in ("use", "mod"):
        text = " ".join(tokens[at : tokens.index(";", at) + 1])
        is_unused = text.replace(" :: ", "::").replace(" ;", ";") in NAMES_OF_STD
        return tokens.index(";", at) + 1 if is_unused else None
    return law_end(tokens, at)


def impl_end(tokens, at):
    """The same for an impl of a model, or of a message."""
    head = tokens[at : tokens.index("{", at)]
    names = head[: head.index("for")] if "for" in head else []
    if names and names[-1] in ("Model", "Display", "Error"):
        return closing(tokens, at + len(head))
    return None


def law_end(tokens, at):
    """The same for a law: a function with a body that is empty."""
    name = at + 2 if tokens[at] == "pub" else at + 1
    if "fn" not in (tokens[at], tokens[name - 1]) or not tokens[name].endswith("_law"):
        return None
    at = name
    while tokens[at] not in ("ensures", "requires", "{"):
        at += 1
    while tokens[at] in ("ensures", "requires"):
        at = erased_end(tokens, at)
    if tokens[at : at + 2] != ["{", "}"]:
        raise Fault(f"a law with a body: {tokens[name]}")
    return at + 2


class Comparison:
    """Two lists of tokens that are read side by side. `crate` is where the source is from."""

    def __init__(self, source, rust, crate, crates):
        self.source = [*source, *[""] * 8]
        self.rust = [*rust, *[""] * 8]
        self.crate = crate
        self.crates = crates
        self.s = self.r = 0
        # Text that must come before a token of the source: the rest of a `let` with an `else`.
        self.due = {}

    def takes(self, source, rust):
        """Whether these tokens come next, in a text with spaces or a list. If so, they are passed."""
        if isinstance(source, str):
            source = source.split()
        if isinstance(rust, str):
            rust = rust.split()
        source_end = self.s + len(source)
        rust_end = self.r + len(rust)
        if self.source[self.s : source_end] != source:
            return False
        if self.rust[self.r : rust_end] != rust:
            return False
        self.s = source_end
        self.r = rust_end
        return True

    def takes_same(self):
        """Whether the same token comes next in both."""
        word = self.source[self.s]
        return self.takes([word], [word])

    def run(self):
        while self.source[self.s] or self.rust[self.r]:
            if self.s in self.due and not self.takes("", self.due.pop(self.s)):
                self.fail()
            if not self.step():
                self.fail()

    def fail(self):
        found = " ".join(self.rust[self.r : self.r + 12])
        due = " ".join(self.source[self.s : self.s + 12])
        raise Fault(f"{found!r} for {due!r}")

    def step(self):
        """Passes what comes next, if it may be so."""
        return (
            self.shorter_use()
            or self.derive()
            or self.lost_module()
            or self.let_else()
            or self.takes("+ Drop", "+ Sized")
            or self.takes(": Drop", "")
            or self.takes("next_multiple_of ( 8 ) ;", "saturating_add ( 7 ) / 8 * 8 ;")
            or self.crate == "aes_block"
            and self.takes("", "# [ inline ]")
            or self.path_or_same()
        )

    def path_or_same(self):
        """A path whose first word is a crate, or else the same token."""
        word = self.source[self.s]
        is_first = self.s == 0 or self.source[self.s - 1] != "::"
        if self.source[self.s + 1] != "::" or not is_first:
            return self.takes_same()
        if word == "crate":
            return self.takes("crate", f"crate :: proved :: {self.crate}")
        if word in self.crates:
            return self.takes(word, f"crate :: proved :: {word}")
        if word in BY_HAND:
            return self.takes(word, f"crate :: {word}")
        return word not in ("std", "thiserror") and self.takes_same()

    def shorter_use(self):
        """A `use` without names that nothing else has, or none if no name is left."""
        start = self.s + 1 if self.source[self.s] == "pub" else self.s
        if self.source[start] != "use":
            return False
        end = self.source.index(";", start)
        if "{" not in self.source[start:end]:
            lost = self.lost_names(self.source[end - 1 : end], end)
            self.s = end + 1 if lost else self.s
            return bool(lost)
        opened = self.source.index("{", start)
        names = [name for name in self.source[opened:end] if name.isidentifier()]
        lost = self.lost_names(names, end)
        left = [name for name in names if name not in lost]
        if not left:
            self.s = end + 1
            return True
        if not lost:
            return False
        while self.s < opened:
            if not self.path_or_same():
                return False
        self.s = end + 1
        return self.takes("", f"{{ {' , '.join(left)} }} ;")

    def lost_names(self, names, end):
        """The laws among these names of a `use`, and those that the rest of the source and the Rust do not have."""
        others = self.source[: self.s] + self.source[end:]
        return {
            name
            for name in names
            if name.endswith("_law") or name not in others and name not in self.rust
        }

    def derive(self):
        """`#[derive(..)]` without what only Rattle derives."""
        if self.source[self.s : self.s + 3] != ["#", "[", "derive"]:
            return False
        end = closing(self.source, self.s + 1)
        names = [name for name in self.source[self.s + 3 : end] if name.isidentifier()]
        left = [name for name in names if name not in ("Drop", "Error")]
        due = f"# [ derive ( {' , '.join(left)} ) ]" if left else ""
        return self.takes(self.source[self.s : end], due)

    def lost_module(self):
        """A module of laws, which has no file in Rust."""
        name = self.source[self.s + 1]
        is_there = self.rust[self.r : self.r + 2] == ["mod", name]
        if self.source[self.s] != "mod" or is_there:
            return False
        source = ROOT / "crates" / self.crate / "src" / f"{name}.rt"
        if has_items(without(split(source.read_text())[0])):
            self.fail()
        return self.takes(f"mod {name} ;", "")

    def let_else(self):
        """`let P(x) = e else {..};` is `let x = if let P(x) = e { x } else {..};`."""
        is_condition = self.source[self.s - 1] in ("if", "while", "&&")
        if self.source[self.s] != "let" or is_condition:
            return False
        at = self.s
        while self.source[at] not in ("=", ";"):
            at += 1
        pattern = self.source[self.s + 1 : at]
        equals = at
        depth = 0
        while self.source[at] != ";" or depth:
            depth += self.source[at] in PAIRS
            depth -= self.source[at] in PAIRS.values()
            at += 1
            if self.source[at] == "else" and not depth:
                break
        if (
            self.source[at] != "else"
            or pattern[1:2] != ["("]
            or "}" == self.source[at - 1]
        ):
            return False
        inner = pattern[1:]
        if len(inner) == 3 or inner[1] == "(":
            inner = inner[1:-1]
        self.due[at] = f"{{ {' '.join(inner)} }}"
        rust = f"let {' '.join(inner)} = if let {' '.join(pattern)} ="
        return self.takes(self.source[self.s : equals + 1], rust)


def has_items(tokens):
    """Whether these tokens define something."""
    return not {"const", "enum", "fn", "impl", "static", "struct", "trait"}.isdisjoint(
        tokens
    )


def comments_are_kept(source, rust):
    """Whether each comment of the Rust is one of the source, in its order. Its first is the eraser's own."""
    left = iter(source)
    for comment in rust[1:]:
        written = comment.replace("```text", "```")
        if not any(one.replace("```rust", "```") == written for one in left):
            raise Fault(f"another comment: {comment}")


def compare(crate, inner, crates, rust_path):
    """Compares a file with its source. Without Rust the source must have no code."""
    source, of_source = split((ROOT / "crates" / crate / "src" / inner).read_text())
    source = without(source)
    if rust_path is None:
        if has_items(source):
            raise Fault("no such file")
        return 0
    rust, of_rust = split(rust_path.read_text())
    Comparison(source, rust, crate, crates).run()
    comments_are_kept(of_source, of_rust)
    return len(rust)


def faults(directory):
    """The faults of a directory, each with its file, and the number of tokens that were compared."""
    crates = sorted(path.name for path in directory.iterdir() if path.is_dir())
    total = 0
    # Each of the others is used by one of these, so its paths are missed if it is not there.
    wanted = ("aes_block", "keywrap_calls")
    found = [f"{name}: no such crate" for name in wanted if name not in crates]
    expected = {directory / "mod.rs"}
    for crate in crates:
        sources = ROOT / "crates" / crate / "src"
        for path in sorted(sources.rglob("*.rt")):
            inner = path.relative_to(sources)
            if inner.parts[0] in ("tests", "tests.rt"):
                continue
            name = "mod.rs" if inner.name == "lib.rt" else inner.with_suffix(".rs")
            rust = directory / crate / name
            expected.add(rust)
            try:
                total += compare(crate, inner, crates, rust if rust.exists() else None)
            except (Fault, ValueError, IndexError) as fault:
                found.append(f"{crate}/{name}: {fault}")
    others = {path for path in directory.rglob("*") if path.is_file()} - expected
    found += [f"{path.relative_to(directory)}: of no source" for path in sorted(others)]
    found += faults_of_top(directory, crates)
    return found, total


def faults_of_top(directory, crates):
    """The module above the crates has nothing but them, and forbids unsafe code."""
    tokens, _ = split((directory / "mod.rs").read_text())
    modules = [f"pub ( crate ) mod {crate} ;" for crate in crates]
    due = [
        "# ! [ forbid ( unsafe_code ) ] # ! [ allow ( dead_code , unused_imports , clippy :: all ) ]",
        *modules,
    ]
    return [] if tokens == " ".join(due).split() else ["mod.rs: another text"]


def main(arguments):
    directory = pathlib.Path(arguments[0]) if arguments else ROOT / "dist/src/proved"
    found, total = faults(directory)
    print(*found, f"{total} tokens", sep="\n")
    return 1 if found else 0


if __name__ == "__main__":
    sys.exit(main(sys.argv[1:]))
