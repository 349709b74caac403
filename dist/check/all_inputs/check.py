#!/usr/bin/env python3
"""Checks keywrap.wasm or libkeywrap for x86-64 against the standards, for all inputs of some lengths at once.

    check.py OBJECT [short | long | full | lanes] [PROCESSES] [OPTION..]     a list of calls (short)
    check.py OBJECT CALL NUMBER.. [OPTION..]                     one call, for instance: wrap 32 16

  --look-ups=CALL,..   only these calls may look up tables, or `none` may. Without it all of them may.
  --seed=NUMBER        places everything in memory as the run with this seed did

OBJECT is a WebAssembly module or a shared object (.so). README.md says what a pass shows. The exit status is 0 if all
calls pass, 1 if a call or an export is refused, and 2 if the arguments are wrong."""

import argparse
import enum
import hashlib
import inspect
import random
import sys
import textwrap
import time
from concurrent.futures import ProcessPoolExecutor
from pathlib import Path
from typing import NamedTuple

import lengths
import lists
import places
import wasm
import x86
from calls import CALLS, perform
from every_length import EVERY_LENGTH
from terms import Refused

CALLS |= EVERY_LENGTH


class Setting(enum.Enum):
    """How a call is made: its text in the output."""

    USUAL = ""  # the buffers are apart, and another call was made before
    FIRST = ", first call, buffers side by side"
    WITHOUT_AES = ", a processor that cpuid says nothing of"


class Todo(NamedTuple):
    name: str
    numbers: tuple
    setting: Setting

    def __str__(self):
        words = [self.name]
        for key, n in zip(names_of_numbers(self.name), self.numbers):
            words.append(f"{key}={n}")
        return " ".join(words) + self.setting.value


def names_of_numbers(name):
    """Returns the names of the numbers of a call."""
    _, *names = inspect.signature(CALLS[name]).parameters
    return names


# The exports

# A function of calls.py that makes calls of another export than keywrap_ and its name.
EXPORT_OF = {
    "rewrap_steps": "begin_rewrap",
    "unmarked": "wrap",
    "wrap_claiming": "wrap",
    "wrap_of_kek": "wrap",
    "unwrap_of_kek": "unwrap",
    "rewrap_same_kek": "rewrap",
}
# After the name of the export, in the names of every_length.py.
SUFFIXES = "_at_every_length", "_of_any_other_kek", "_of_any_other_flags"
MADE_WITH_OTHERS = {
    "keywrap_next_rewrap",
    "keywrap_next_rewrap_from",
    "keywrap_begin_unwrap_padded",
}
# The step calls for many keys. keywrap.wasm does not have them.
MANY_STEPS = {
    f"keywrap_{name}_many"
    for name in (
        "begin_wrap",
        "step_wrap",
        "end_wrap",
        "begin_unwrap",
        "step_unwrap",
        "end_unwrap",
    )
}
OF_A_MODULE = {"memory", "__heap_base", "__stack_pointer", "__in_call"}


def export_of(name):
    name = name.removeprefix("uneven_")
    for suffix in SUFFIXES:
        name = name.removesuffix(suffix)
    return "keywrap_" + EXPORT_OF.get(name, name)


def is_keywrap_wasm(module):
    """Whether it is the module of the JavaScript package. Another module is keywrap.c for wasm32."""
    return isinstance(module, wasm.Module) and module.size_bytes == 8


def why_not_made(module, name, numbers):
    """Returns why the checker does not make this call of the object, or None. A wasm32 module has no length of 2^32."""
    if export_of(name) not in module.exports:
        return f"{export_of(name)} is not exported"
    if name in EVERY_LENGTH and not isinstance(module, wasm.Module):
        return f"{name} is a call of WebAssembly modules only"
    if any(n >= 256**module.size_bytes for n in numbers):
        return "a number that the object cannot be given"
    return None


def is_made(module, name, numbers):
    return why_not_made(module, name, numbers) is None


def wrong_exports(module):
    """Returns what is wrong with the names that the object exports, as texts."""
    is_module = isinstance(module, wasm.Module)
    known = {export_of(name) for name in CALLS} | MADE_WITH_OTHERS
    exported = {*module.exports}
    missing = known - exported
    if is_keywrap_wasm(module):
        missing -= MANY_STEPS
    unknown = exported - known
    if is_module:
        unknown -= OF_A_MODULE
    wrong = [f"{name}: not exported" for name in sorted(missing)]
    for name in sorted(unknown):
        wrong.append(f"{name}: an export that is not in the headers")
    return wrong


# One object in each process


class Checked:
    """An object, and its variables as they can be between calls: for each setting those that a call finds, and those
    that it may leave."""

    def __init__(self, path, seed):
        self.seed = seed
        places.seed(seed)
        is_wasm = Path(path).read_bytes()[:4] == b"\0asm"
        self.module = (wasm if is_wasm else x86).Module(path)
        self.of_every_length = lengths.Module(path) if is_wasm else None
        loaded = self.module.variables
        self.refusal = None
        used = self.after_a_wrap(loaded, has_aes=True) if loaded else loaded
        without = self.after_a_wrap(loaded, has_aes=False) if loaded else loaded
        self.before = {
            Setting.USUAL: used,
            Setting.FIRST: loaded,
            Setting.WITHOUT_AES: without,
        }
        self.after = {
            Setting.USUAL: [used],
            Setting.FIRST: [used, loaded],
            Setting.WITHOUT_AES: [without],
        }
        self.use(Setting.USUAL)

    def after_a_wrap(self, loaded, has_aes):
        """Returns the variables that the first call of the object leaves, and keeps why it is refused."""
        self.module.variables = loaded
        self.set_processor(has_aes)
        try:
            return perform(self.module, "wrap", (16, 16)).variables
        except Refused as refused:
            self.refusal = f"wrap 16 16 as the first call: {refused}"
            return loaded

    def set_processor(self, has_aes):
        if isinstance(self.module, x86.Module):
            self.module.cpuid = x86.mask(32) if has_aes else 0

    def use(self, setting):
        self.module.variables = self.before[setting]
        self.set_processor(setting != Setting.WITHOUT_AES)

    def tried(self, todo):
        """Makes a call. Returns its Result or the reason of its refusal, and its seconds of a processor."""
        begun = time.process_time()
        places.seed(f"{self.seed} {todo}")
        self.use(todo.setting)
        gap = 0 if todo.setting == Setting.FIRST else 16
        module = self.of_every_length if todo.name in EVERY_LENGTH else self.module
        try:
            result = perform(module, todo.name, todo.numbers, gap)
            result = self.refusal_of(result, todo.setting) or result
        except Refused as refused:
            result = str(refused)
        except Exception as fault:
            result = f"the checker has a fault: {type(fault).__name__}: {fault}"
        return result, time.process_time() - begun

    def refusal_of(self, result, setting):
        """Returns why the result of a call without a refusal is refused nevertheless, or None."""
        if not result.paths:
            return "no path of it comes to an end"
        if result.variables not in self.after[setting]:
            return "it leaves a third state of the variables"
        return None


def load(path, seed):
    """Keeps the object for the calls of this process, and returns it."""
    global checked
    checked = Checked(path, seed)
    return checked


def tried(todo):
    return checked.tried(todo)


def all_todo(module, which, numbers):
    """Returns what is to be made: of a list, or one call."""
    is_module = isinstance(module, wasm.Module)
    if which in CALLS:
        calls = first = [(which, *numbers)]
    else:
        calls = list(dict.fromkeys(lists.LISTS[which]()))
        if is_module:
            listed_calls = {*calls}
            calls = [
                call
                for call in calls
                if lists.at_every_length(*call) not in listed_calls
            ]
        else:
            calls = [call for call in calls if call[0] not in EVERY_LENGTH]
        first = list(lists.short_list() if which == "full" else lists.one_of_each())
    settings = [(Setting.USUAL, calls)]
    if not is_module or which == "full" or which in CALLS:
        first = [call for call in first if call[0] not in EVERY_LENGTH]
        settings.append((Setting.FIRST, first))
    if getattr(module, "uses_cpuid", False):
        settings.append((Setting.WITHOUT_AES, first))
    todo = []
    for setting, listed in settings:
        for name, *numbers in listed:
            if is_made(module, name, numbers):
                todo.append(Todo(name, tuple(numbers), setting))
    return todo


# The output


class Report:
    """Prints a line for each call, and keeps what the summary needs."""

    def __init__(self, planned, may_look_up):
        self.planned = planned
        self.may_look_up = may_look_up
        self.done = 0
        self.paths = 0
        self.seconds = 0
        # Each call that passes, and how many paths it has.
        self.passed = []
        self.places = {}  # of branches on input bytes, with the names of the calls
        self.looking = set()

    def add(self, todo, result, took):
        self.done += 1
        self.seconds += took
        line = f"[{self.done}/{self.planned}] {todo}"
        refusal = self.refusal_of(todo, result)
        if refusal:
            print(f"{line}: REFUSED: {refusal}", flush=True)
            return
        statuses = {status for status, _ in result.paths}
        branches = {place for _, places_ in result.paths for place in places_}
        print(f"{line}: passes, {described(result, statuses, branches)}, {took:.1f} s")
        sys.stdout.flush()
        self.paths += len(result.paths)
        self.passed.append((todo, len(result.paths)))
        for place in branches:
            self.places.setdefault(place, set()).add(todo.name)
        if result.lookups and todo.setting != Setting.WITHOUT_AES:
            self.looking.add(todo.name)

    def refusal_of(self, todo, result):
        """Returns why a call is refused, or None if it passes."""
        if isinstance(result, str):
            return result
        if result.lookups and not self.may_use_tables(todo):
            return f"{result.lookups} look-ups in tables"
        return None

    def may_use_tables(self, todo):
        """Whether the call may look up tables. Without AES instructions it has to."""
        if self.may_look_up is None or todo.setting == Setting.WITHOUT_AES:
            return True
        return todo.name in self.may_look_up

    def all_pass(self):
        return len(self.passed) == self.planned

    def summary(self):
        print_folded(
            f"{len(self.passed)} of {self.planned} calls pass, {self.paths} paths, "
            f"{self.seconds:.0f} s of a processor"
        )
        for name in dict.fromkeys(todo.name for todo, _ in self.passed):
            print_folded(self.passed_calls(name))
        print_folded(f"look-ups in tables: {listed(self.looking)}")
        for place in sorted(self.places):
            names = listed(self.places[place])
            print_folded(f"branch on input bytes at {place}: {names}")

    def passed_calls(self, name):
        """Returns how many calls of this name pass, and with which numbers."""
        calls = [call for call in self.passed if call[0].name == name]
        paths = sum(count for _, count in calls)
        texts = []
        for i, key in enumerate(names_of_numbers(name)):
            given = {todo.numbers[i] for todo, _ in calls if i < len(todo.numbers)}
            if len(given) > 8:
                texts.append(f"{key} {min(given)} to {max(given)}")
            elif given:
                texts.append(" ".join(map(str, [key, *sorted(given)])))
        return f"{name}: {len(calls)} calls, {paths} paths; {', '.join(texts)}"


def described(result, statuses, branches):
    """Returns what a call did, for its line."""
    shown_statuses = ", ".join(map(str, sorted(statuses)))
    shown_branches = "; ".join(sorted(branches)) or "none"
    paths = f"status {shown_statuses}, {len(result.paths)} paths"
    tables = f"{result.lookups} look-ups in tables, {result.shuffles} in registers"
    size = f"{result.steps} instructions, {result.stack} bytes of stack"
    return f"{paths}, branches: {shown_branches}; {tables}, {size}"


def listed(names):
    return ", ".join(sorted(names)) or "none"


def print_folded(line):
    print(textwrap.fill(line, 118, subsequent_indent="    ", break_long_words=False))


# The arguments


def parser():
    """Returns the parser of the arguments."""
    made = argparse.ArgumentParser(
        description=__doc__,
        usage="check.py OBJECT [LIST [PROCESSES] | CALL NUMBER..] [OPTION..]",
        formatter_class=argparse.RawDescriptionHelpFormatter,
        allow_abbrev=False,
    )
    made.add_argument("path", metavar="OBJECT")
    made.add_argument("which", metavar="LIST or CALL", nargs="?", default="short")
    made.add_argument("numbers", metavar="NUMBER", nargs="*", type=int)
    made.add_argument("--look-ups", type=lambda names: names.split(","))
    made.add_argument("--seed", type=int)
    return made


def parsed(words):
    """Returns the arguments. Ends the program with status 2 if they are wrong."""
    made = parser()
    arguments = made.parse_intermixed_args(words)
    if arguments.seed is None:
        arguments.seed = random.SystemRandom().getrandbits(32)
    if arguments.which in lists.LISTS:
        if len(arguments.numbers) > 1:
            made.error("a list has one number, of its processes")
    elif arguments.which in CALLS:
        try:
            inspect.signature(CALLS[arguments.which]).bind(None, *arguments.numbers)
        except TypeError as error:
            made.error(f"{arguments.which}: {error}")
    else:
        made.error(f"neither a list nor a call: {arguments.which}")
    for name in arguments.look_ups or []:
        if name not in CALLS and name != "none":
            made.error(f"not a call: {name}")
    return arguments


def results_of(todo, arguments, processes):
    """Yields the result of each call, and its seconds of a processor."""
    if processes == 1:
        yield from map(tried, todo)
        return
    given = arguments.path, arguments.seed
    with ProcessPoolExecutor(processes, initializer=load, initargs=given) as pool:
        yield from pool.map(tried, todo)


def main(words):
    arguments = parsed(words)
    path, which, numbers = arguments.path, arguments.which, arguments.numbers
    try:
        module = load(path, arguments.seed).module
        content = Path(path).read_bytes()
    except Exception as error:  # not an object that this program can read
        print(f"{path}: {error}", file=sys.stderr)
        return 2
    if which in CALLS and not is_made(module, which, numbers):
        why = why_not_made(module, which, numbers)
        print(f"{path}: {why}", file=sys.stderr)
        return 2
    sha256 = hashlib.sha256(content).hexdigest()
    print(f"{sha256}  {Path(path).name}, --seed={arguments.seed}")
    refusals = []
    processes = 1
    if which in lists.LISTS:
        refusals += wrong_exports(module)
        processes = max([1, *numbers])
    if checked.refusal:
        refusals.append(checked.refusal)
    for text in refusals:
        print(f"REFUSED: {text}")
    todo = all_todo(module, which, numbers)
    report = Report(len(todo), arguments.look_ups)
    for each, (result, took) in zip(todo, results_of(todo, arguments, processes)):
        report.add(each, result, took)
    report.summary()
    return 0 if report.all_pass() and not refusals else 1


if __name__ == "__main__":
    sys.exit(main(sys.argv[1:]))
