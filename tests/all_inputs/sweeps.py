"""Leaves out each instruction that the short list runs, and flips each bit of the constants that it reads, one at a
time. If no call of the list refuses a change, then it must alter no result of these calls: each of them that uses the
place runs again with numbers, and has to pass. Otherwise the exit status is 1.

The calls begin with the variables as a call of the unchanged object left them: with AES instructions, their test has
passed.

usage: sweeps.py OBJECT [ONE_OF [SEED [PROCESSES]]]        a random one of ONE_OF of the changes"""

import collections
import itertools
import multiprocessing
import os
import random
import sys
import time
from unittest import mock

from bugs import calls, check, lists, wasm
from calls import standard, x86
from paths import Machine

# Instructions of WebAssembly (wasm.py) and what takes their place: as little as leaves the stack as high.
INSTEAD = {
    0x6A: [0x6A, lambda a, b: a],
    0x28: [0x45, lambda a: a],
    0x36: [0x36, 0, 0],
    0x21: [0x1A],
    0x24: [0x1A],
    0x0D: [0x1A],
    0x22: [1],
    0x0C: [1],
    0x0F: [1],
}


def noted(kind, what, met):
    """Returns a copy of a list or dictionary. It notes which places were read, in the set `met`."""

    class Noted(kind):
        def __getitem__(self, place):
            met.add(what(place))
            return kind.__getitem__(self, place)

    return Noted


class Sweep:
    def __init__(self, path):
        self.module = check.load(path, seed=0).module
        self.bodies = None
        if isinstance(self.module, wasm.Module):
            self.bodies = [body for _, body in self.module.code]
        self.steps = 0
        followed = []
        for call in lists.parsed(lists.SHORT):
            if check.is_made(self.module, call[0], call[1:]):
                followed.append(self.followed(call))
        followed.sort(key=lambda result: result[0])
        # (how, place): the calls that use it, the quickest first
        self.users = {}
        for _, call, met in followed:
            for use in met:
                self.users.setdefault(use, []).append(call)
        self.changes = [*self.flips(), *self.omissions()]

    def followed(self, call):
        """Returns the seconds of a call, the call, and the instructions and constants that it uses."""
        module = self.module
        met = set()
        cells = Machine.cells
        code = module.code
        constants = module.constants

        def noting(run, path, at, n):
            for place in range(at, at + n):
                if place in constants:
                    met.add(("flipped", place))
            return cells(run, path, at, n)

        Machine.cells = noting
        module.constants = noted(dict, lambda at: ("flipped", at), met)(constants)
        if self.bodies:
            module.code = []
            for function, (count, body) in enumerate(code):
                use = lambda pc, function=function: ("left out", (function, pc))
                module.code.append((count, noted(list, use, met)(body)))
        else:
            module.code = noted(dict, lambda at: ("left out", at), met)(code)
        begun = time.process_time()
        try:
            self.steps = max(self.steps, calls.perform(module, call[0], call[1:]).steps)
        finally:
            module.code = code
            module.constants = constants
            Machine.cells = cells
        return time.process_time() - begun, call, met

    def place(self, how, place):
        """Returns the list or dictionary of this place, and its key there."""
        if how == "flipped":
            return self.module.constants, place
        if self.bodies:
            function, number = place
            return self.bodies[function], number
        return self.module.code, place

    # Each change is (how, place, the new content, a text).

    def flips(self):
        """Yields the changes of one bit of a constant that a call reads."""
        for how, at in sorted(self.users, key=repr):
            if how == "flipped":
                byte = self.module.constants[at]
                for bit in range(8):
                    yield how, at, byte ^ 1 << bit, f"{how}: bit {bit} of {at:#x}"

    def omissions(self):
        """Yields the changes that leave out an instruction that a call runs."""
        for how, place in sorted(self.users, key=repr):
            if how == "flipped":
                continue
            where, key = self.place(how, place)
            old = where[key]
            if self.bodies and old[0] in INSTEAD:
                text = f"function {place[0]}, {place[1]}: {old[0]:#x}"
                yield how, place, INSTEAD[old[0]], f"{how}: {text}"
            elif not self.bodies and old[0] != "nop":
                name, operands, *following = old
                words = [getattr(operand, "text", str(operand)) for operand in operands]
                text = f"{self.module.place_of(place)}: {name} {','.join(words)}"
                yield how, place, ["nop", [], *following], f"{how}: {text}"

    def verdict(self, i):
        """Returns what the calls that use change i do: "refused", "no result differs", or "MISSED". An exception of the
        checker refuses the change, too."""
        how, place, instead, _ = self.changes[i]
        where, key = self.place(how, place)
        before = where[key]
        where[key] = instead
        verdict = "refused"
        try:
            for call in self.users[how, place]:
                calls.perform(self.module, call[0], call[1:])
            verdict = "MISSED"
            for seed, call in itertools.product(range(3), self.users[how, place]):
                given = Numbers(seed)
                numbers = {"any_bytes": given.any_bytes, "any_kek": given.any_kek}
                with mock.patch.multiple(calls, **numbers):
                    calls.perform(self.module, call[0], call[1:])
            return "no result differs"
        except Exception:
            return verdict
        finally:
            where[key] = before


class Numbers:
    """The bytes of a call's buffers, as numbers. For seed 0 a text is wrapped under the KEK, for seed 1 padded."""

    def __init__(self, seed):
        self.random = random.Random(seed)
        self.seed = seed
        self.kek = None
        self.iv = standard.DEFAULT_IV

    def any_kek(self, name, n):
        if n in calls.KEPT_KEKS:
            kek = calls.MARK + self.any_bytes(name, n - 8)
        else:
            kek = self.any_bytes(name, n)
        self.kek = self.kek or kek
        return kek

    def any_bytes(self, name, n):
        made = list(self.random.randbytes(n))
        if name == "iv" and n == 8:
            self.iv = made
        has_kek = calls.is_kek(len(self.kek or []))
        is_legal = n % 8 == 0 and 16 <= n < 400
        if name == "text" and self.seed < 2 and has_kek and is_legal:
            made = self.wrapped(made[8:])
        if self.seed == 0 and name == "block":
            made[:8] = self.iv
        return made

    def wrapped(self, key):
        """Returns a wrapped key. The plain form has none of one register."""
        if self.seed == 0 and len(key) > 8:
            return standard.wrapped(self.kek, key, self.iv)
        return standard.wrapped_padded(self.kek, key[:-1])


def main(path, one_of=1, seed=0, processes=os.cpu_count()):
    global sweep
    sweep = Sweep(path)
    wasm.STEPS = x86.STEPS = 4 * sweep.steps
    total = len(sweep.changes)
    chosen = random.Random(seed).sample(range(total), -(-total // one_of))
    counts = collections.Counter()
    with multiprocessing.get_context("fork").Pool(processes) as pool:
        for i, verdict in zip(chosen, pool.imap(tried, chosen)):
            counts[verdict] += 1
            number = f"[{counts.total()}/{len(chosen)}] "
            _, _, _, text = sweep.changes[i]
            before = "" if verdict == "MISSED" else number
            print(f"{before}{verdict}: {text}", flush=True)
    print(f"{len(chosen)} of {total} changes: {dict(counts)}")
    return int(counts["MISSED"] > 0)


def tried(i):
    return sweep.verdict(i)


if __name__ == "__main__":
    sys.exit(main(sys.argv[1], *map(int, sys.argv[2:])))
