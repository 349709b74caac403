"""The proved code of the Rust crate. generate/erase.py writes dist/src/proved from the crates, and erased_tokens.py
compares both: errors that are planted in the eraser must be refused there. The eraser stops at forms that it does not
know."""

import sys

import pytest

import erased_tokens
from builds import ROOT, run
from hardware.bugs import bugs_of, plant
from program import slow

sys.path.append(str(ROOT / "generate"))
import erase  # noqa: E402


def test_is_fresh():
    """dist/src/proved is what the crates say."""
    run("python3", ROOT / "generate/erase.py", "--check")


def test_tokens():
    """Beside what is listed there, each token of the code is in the Rust, and no other."""
    found, total = erased_tokens.faults(ROOT / "dist/src/proved")
    assert found == []
    assert total > 20000


@slow
@pytest.mark.parametrize("bug", bugs_of("erased"))
def test_error_of_the_eraser(tmp_path, bug):
    """The output of an eraser with an error is refused."""
    (tmp_path / "generate").mkdir()
    for name in "crates", "crates.txt":
        (tmp_path / name).symlink_to(ROOT / name)
    eraser = tmp_path / "generate/erase.py"
    eraser.write_text((ROOT / "generate/erase.py").read_text())
    plant("erased", bug, tmp_path)
    run("python3", eraser, tmp_path / "proved")
    found, _ = erased_tokens.faults(tmp_path / "proved")
    assert found != []


KNOWN = """\
//! A file.

pub fn two(one: u8) -> u16
    requires { one < 9 }
    ensures { result ≡ 2 * one }
{
    let sum = u16::from(one);
    sum + sum
}
"""
UNKNOWN = {
    "a sign of contracts in the code": ("sum + sum", "sum ≡ sum"),
    "a clause without a body": ("requires { one < 9 }", "requires one"),
    "a clause behind the body": ("sum + sum\n", "sum + sum\n} ensures { true }\n"),
    "a ghost of another form": ("let sum", "ghost sum"),
    "a macro": ("sum + sum", "format!(sum)"),
    "an attribute": ("pub fn", "#[repr(C)]\npub fn"),
    "a trait to derive": ("pub fn", "#[derive(Hash)]\nstruct S;\npub fn"),
    "a configuration": ("pub fn", "#[cfg(unix)]\npub fn"),
    "a loop without an end": ("let sum", "loop {}\nlet sum"),
    "unsafe code": ("sum + sum", "unsafe { sum }"),
    "an iterator": ("sum + sum", "[sum].iter().count()"),
    "a clone": ("sum + sum", "sum.clone() + sum"),
    "the rest of a struct": ("sum + sum", "S { a: 1, ..sum }"),
    "a range without an end": ("sum + sum", "f(sum..)"),
    "a path of std": ("sum + sum", "std::mem::take(sum)"),
    "a use of std": ("//! A file.", "use std::mem;"),
    "a pattern before else": (
        "let sum = u16",
        "let [sum] = x else { return 1; };\nlet y = u16",
    ),
    "a module in a file": ("pub fn", "mod m {}\npub fn"),
    "a bracket of another kind": ("u16::from(one)", "u16::from(one]"),
    "a law that does something": ("fn two", "fn two_law"),
    "a multiple of something else": ("sum + sum", "sum.next_multiple_of(4)"),
    "a bound that is no bound": ("sum + sum", "Drop"),
    "a trait of what is dropped": ("pub fn", "trait K: Drop {}\npub fn"),
    "such a trait with a parameter": ("pub fn", "trait K<T>: Drop {}\npub fn"),
}


def erased(text):
    return erase.Eraser(erase.Source("src/a.rt", text), "a", ["a", "b"], set()).erased()


def test_known_form():
    assert erased(KNOWN) == (
        "//! A file.\n\npub fn two(one: u8) -> u16 {\n"
        "    let sum = u16::from(one);\n    sum + sum\n}\n"
    )


@pytest.mark.parametrize("form", UNKNOWN)
def test_unknown_form(form):
    old, new = UNKNOWN[form]
    assert KNOWN.count(old) == 1
    with pytest.raises(erase.UnknownForm):
        erased(KNOWN.replace(old, new))
