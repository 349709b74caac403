"""Plants the bugs of bugs.txt in keywrap.wasm, one at a time, or of the other tables. Prints which call of the short
list refuses each.

usage: bugs.py KEYWRAP.WASM [NAME]        needs wabt"""

import pathlib
import re
import subprocess
import sys
import tempfile
import time

HERE = pathlib.Path(__file__).resolve().parent
sys.path.insert(0, str(HERE.parent.parent / "dist/check/all_inputs"))
# Python writes no cache beside what is handed out.
sys.dont_write_bytecode = True

import calls  # noqa: E402
import check  # noqa: E402
import every_length  # noqa: E402, F401
import lists  # noqa: E402
import wasm  # noqa: E402
from terms import Refused  # noqa: E402


def rows(name):
    """Returns the rows of a file, by their names."""
    found = {}
    for line in (HERE / name).read_text().splitlines():
        if line.strip() and not line.startswith("#"):
            name, *what = map(str.strip, line.split(" | "))
            found[name] = what
    return found


BUGS = rows("bugs.txt")
AT_SOME_LENGTHS = rows("lengths.txt")
MODULES = rows("modules.txt")
HARMLESS = rows("harmless.txt")
S_BOX = bytes.fromhex("637c777bf26b6fc53001672bfed7ab76")
FUNCTION = re.compile(
    r"  \(func \(;(\d+);\)((?:.*\n)*?)(?=  \((?:func|table|memory|global|export) )"
)


class Text:
    """The text of a module. Each function is one line of instructions."""

    def __init__(self, file):
        ended = subprocess.run(["wasm2wat", file], capture_output=True, check=True)
        self.text = ended.stdout.decode()
        self.functions = {}
        self.exports = {}
        for number, body in FUNCTION.findall(self.text):
            self.functions[int(number)] = on_one_line(body)
        exports = re.findall(r'\(export "(\w+)" \(func (\d+)\)', self.text)
        for name, number in exports:
            self.exports[name] = int(number)
        (self.aes,) = filter(self.is_aes, self.reached("wrap"))

    def is_aes(self, number):
        return "i32.const 14 i32.shr_u" in self.functions[number]

    def called_by(self, number):
        """Returns the numbers of the functions that a function calls."""
        return map(int, re.findall(r"\bcall (\d+)", self.functions[number]))

    def reached(self, export):
        waiting = [self.exports[f"keywrap_{export}"]]
        found = set()
        while waiting:
            number = waiting.pop()
            if number not in found:
                found.add(number)
                waiting += self.called_by(number)
        return found

    def chosen(self, where):
        if not where.startswith("@"):
            return self.reached(where)
        # An export sets the guard, calls the function that computes it, and resets the guard.
        called = self.called_by(self.exports[f"keywrap_{where[1:]}"])
        return {max(called, key=lambda number: len(self.functions[number]))}

    def with_bug(self, where, old, new):
        """Returns the text with the bug."""
        old = old.replace("AES", str(self.aes))
        functions = dict(self.functions)
        for number in self.chosen(where):
            functions[number] = function_with_bug(functions[number], old, new)
        if functions == self.functions:
            raise SystemExit(f"bugs.py: not found: {old}")

        def text_of(match):
            number = match[1]
            return f"  (func (;{number};) {functions[int(number)]}\n"

        return FUNCTION.sub(text_of, self.text)


def on_one_line(body):
    without_labels = re.sub(r";; label = @\d+|\(;@\d+;\)", "", body)
    return re.sub(r"\s+", " ", without_labels).strip()


def function_with_bug(body, old, new):
    """Returns a function with other code in the place of the first that is found, or at its beginning."""
    head = re.match(r"\(type \d+\)(?: \((?:param|result|local)[^)]*\))*", body)[0]
    code = body[len(head) :]
    if old == "ENTRY":
        changed = f" {new}{code}"
    else:
        changed = re.sub(old, new, code, count=1)
    if "NEW" in changed:
        parameters_and_locals = re.sub(r"\(result[^)]*\)", "", head)
        count = len(re.findall(r"\b[if]\d\d\b", parameters_and_locals))
        changed = changed.replace("NEW", str(count))
        head += " (local i64)"
    return head + changed


def address_of_the_s_box(file):
    constants = wasm.Module(file).constants
    first = min(constants)
    content = bytes(constants[at] for at in sorted(constants))
    return first + content.index(S_BOX)


def planted(file, name, directory):
    """Returns the module with this bug."""
    where, old, new = (BUGS | AT_SOME_LENGTHS | MODULES | HARMLESS)[name][:3]
    result = pathlib.Path(directory, "bug.wasm")
    if "SBOX" in new:
        new = new.replace("SBOX", str(address_of_the_s_box(file)))
    if where == "data":
        content = bytearray(pathlib.Path(file).read_bytes())
        before = bytes.fromhex(old)
        count = content.count(before)
        if count != 1:
            raise SystemExit(f"bugs.py: {count} times: {old}")
        at = content.index(before) + len(before)
        # `new` has the bits to flip in the bytes after `old`.
        for mask in bytes.fromhex(new):
            content[at] ^= mask
            at += 1
        result.write_bytes(content)
    else:
        wat = pathlib.Path(directory, "bug.wat")
        text = Text(file)
        if where == "module":
            changed, count = re.subn(old, new, text.text, count=1)
            if count == 0:
                raise SystemExit(f"bugs.py: not found: {old}")
        else:
            changed = text.with_bug(where, old, new)
        wat.write_text(changed)
        subprocess.run(["wat2wasm", wat, "-o", result], check=True)
    return result


def refused_by(module):
    """Returns the first call of one length in the short list that is refused and the reason, or None."""
    for name, *numbers in lists.parsed(lists.SHORT):
        if check.is_made(module, name, numbers):
            try:
                calls.perform(module, name, numbers)
            except Refused as reason:
                return f"{' '.join(map(str, [name, *numbers]))}: {reason}"
    return None


class Loaded:
    """An object with a bug, which may be refused when it is loaded."""

    def __init__(self, path):
        self.checked = self.refusal = None
        try:
            self.checked = check.load(path, seed=1)
        except Refused as reason:
            self.refusal = str(reason)

    def refusals(self, call):
        """Returns what it is refused for by a call, in each setting, or by "load", or for its "exports"."""
        if call == "load":
            return [self.refusal] if self.refusal else []
        if call == "exports":
            return check.wrong_exports(self.checked.module)
        name, *numbers = call.split()
        todo = check.all_todo(self.checked.module, name, list(map(int, numbers)))
        results = [result for result, _ in map(self.checked.tried, todo)]
        return [result for result in results if isinstance(result, str)]


def main(file, *names):
    missed = 0
    for name in names or BUGS:
        begun = time.time()
        with tempfile.TemporaryDirectory() as directory:
            reason = refused_by(wasm.Module(planted(file, name, directory)))
        missed += reason is None
        print(
            f"{name}: {reason or 'NOT REFUSED'} ({time.time() - begun:.0f} s)",
            flush=True,
        )
    return int(missed > 0)


if __name__ == "__main__":
    sys.exit(main(*sys.argv[1:]))
