"""Calls of a module at every length of the key: what calls.py says of one length, for all of them at once. KEK,
initial value and numbers are at known places, as there. Key and wrapped key are arrays at unknown places that do not
overlap."""

import lengths
import standard
import terms
from calls import (
    BAD_IV,
    BAD_KEK,
    BAD_LENGTH,
    CALLS,
    INTEGRITY,
    KEEP_FORM,
    KEPT_KEKS,
    KEY_NOT_PLAIN,
    NEW_PADDED,
    OK,
    OLD_PADDED,
    PADDED,
    PASS_NEW,
    PLAIN,
    STACK,
    Call,
    any_bytes,
    any_kek,
    forms_of,
    is_reserved,
    little,
)
from lengths import Array, Content, Process, Run, State, first_difference
from linear import Facts, Undecided, plus, times, unknown
from paths import Path, byte_of, cell_of
from terms import Known, Refused, xor

MEMORY = 2**32
MOST_CASES = 400
n = lengths.N_REGISTERS
LEGAL = [n - 2, lengths.MOST_REGISTERS - n]
key = unknown("key")
text = unknown("text")
z = unknown("z")
TEXT_FIRST = [key - text - 8 * n - 8]
ORDERS = [text - key - 8 * n], TEXT_FIRST
PADDED_ORDERS = [text - key - 8 * n + z], TEXT_FIRST


class LongCall(Call):
    """A call with arrays. `processes` are what the standard makes in its loops."""

    def __init__(self, given, name):
        super().__init__(given, name)
        self.arrays = []
        self.processes = []
        self.facts = []
        self.iv = None

    def array(self, name, size, may_change):
        size = lengths.with_few_registers(size)
        self.arrays.append(Array(name, size, may_change))
        self.args += [unknown(name), size]
        heap = self.module.heap
        self.facts += [unknown(name) - heap, MEMORY - 1 - unknown(name) - size]
        return self

    def wraps(self, kek, a, registers, offset):
        """The standard wraps these registers. `a` is the initial value, or a function that `begun` calls to make it."""
        self.processes.append((kek, a, registers, offset, False))
        return self

    def unwraps(self, kek, name):
        a = lambda: Content(name).bytes(0, 8)
        self.processes.append((kek, a, Content(name), 8, True))
        return self

    def begun(self):
        """Makes what the standard begins with, under the facts of the call."""
        # Of an equation the youngest unknown is replaced. So the bytes of a number are made first, and the bytes that
        # are compared with them afterwards.
        for k in range(8):
            if Facts.now.proves(n - 1):
                lengths.as_bytes(8 * n - k)
        self.processes = [
            Process(standard.key_expansion(kek), a() if callable(a) else a, *more)
            for kek, a, *more in self.processes
        ]

    def next_process(self, path):
        """Returns what the standard makes in the next loop of this path, or None."""
        done = len(path.state.done)
        return self.processes[done] if done < len(self.processes) else None

    def run(self, loops):
        return Run(
            self.module, self.inputs, STACK, self.arrays, loops, self.next_process
        )

    def ends_of(self, run):
        """Runs the call. Yields each path at its end, with the status."""
        contents = {array.name: Content(array.name) for array in self.arrays}
        path = Path(dict(self.writes), State([], list(self.module.globals), contents))
        run.keep_apart(self.writes)
        run.enter(path, self.module.exports[self.name][1], list(self.args))
        for path in run.ends(path):
            if path.state.globals != self.module.globals:
                raise Refused("the globals are not what they were")
            self.result.stack = max(self.result.stack, run.reached(path))
            yield path, run.place(path, path.results[0])
        self.result.steps += run.steps
        self.result.lookups += run.lookups
        self.result.variables = self.module.variables

    def expect(self, path, status, wanted, contents, numbers=()):
        """Compares the status, the contents of arrays that are not unchanged, and the numbers at known places."""
        if status != wanted:
            raise Refused(f"status {status} instead of {wanted}")
        Known.now = path.known
        for array in self.arrays:
            content = path.state.contents[array.name]
            if array.name in contents:
                place = first_difference(content, contents[array.name], array.size)
                if place is not None:
                    raise Refused(
                        f"at status {status}, byte {place} of {array.name} differs"
                    )
            elif content.writes:
                raise Refused(f"at status {status}, {array.name} is written")
        got = [lengths.byte_of_cell(path.memory[at]) for at in self.writes]
        unchanged = list(map(byte_of, self.writes.values()))
        self.compare(path, status, got, wanted, list(numbers) or unchanged)


def for_all(given, sums, build):
    """Proves a call for all numbers for which these sums are at least 0. `build` returns the call, and a function that
    checks a path at its end.

    The code or the check may ask what the facts do not answer. In a loop that enciphers, the call runs again and stops
    there: lengths.py has the proof of such a loop, by induction. Elsewhere it runs again for each answer.
    """
    loops = set()
    waiting = [Facts(sums)]
    if not waiting[0].are_possible():
        raise Refused("the checker has a fault: no numbers of these lengths")
    count = 0
    while waiting:
        facts = waiting.pop()
        if not facts.are_possible():
            continue
        count += 1
        if count > MOST_CASES:
            raise Refused("so many cases of lengths that it may not end")
        terms.forget()
        lengths.begin(facts)
        Known.now = Known()
        call, check = build()
        Facts.now = facts = facts.with_(*call.facts)
        run, paths = None, []
        try:
            call.begun()
            few = lengths.few_registers()
            run = call.run(frozenset() if few else frozenset(loops))
            for path, status in call.ends_of(run):
                check(path, status)
                paths.append((status, path.forks))
        except Undecided as question:
            loop = run.loop_of_steps() if run and not few else None
            if loop:
                loops.add(loop)
                waiting.append(facts)
            else:
                waiting += facts.cases(question.total)
            continue
        finally:
            Known.now = Known()
        if not paths:
            raise Refused("no path of it comes to an end")
        given.result.paths += paths


def cells(values):
    return list(map(cell_of, values))


def last_step(path, number=0):
    """Returns the last step of the loop with this number."""
    if number >= len(path.state.done):
        raise Refused("it does not make the steps of the standard")
    return path.state.done[number]


def wrapped_content(step):
    """Returns the wrapped key after the last step."""
    a, registers = step.after()
    content = Content("none").with_copy(8, 8 * n, registers, 0)
    return content.with_cells(0, cells(a))


def zeros(size):
    return Content("none").with_bytes(0, size, 0)


def number_cells(given, v):
    """Returns the bytes of a size_t."""
    return lengths.number_bytes(v)[::-1][: given.module.size_bytes]


def check_forks(path, most):
    if len(path.forks) > most:
        raise Refused(
            f"{len(path.forks)} branches on a secret: {'; '.join(path.forks)}"
        )


def aiv(length):
    """RFC 5649, 3, for a length that may be unknown."""
    return [*standard.aiv(0)[:4], *lengths.number_bytes(length)[4:]]


def padded_length(a, registers, is_zero):
    """Returns the length of the padded key, or None."""
    for k in range(7, -1, -1):
        wanted = [xor(v, b) for v, b in zip(a, aiv(8 * n - k))]
        if is_zero(wanted + registers.bytes(8 * n - k, k)):
            return 8 * n - k
    return None


def form_of(a, registers, is_zero, forms=(PLAIN, PADDED)):
    """Returns the form and the length of the key, or None if it has none of these forms."""
    if PLAIN in forms and standard.is_plain(a, is_zero):
        return PLAIN, 8 * n
    length = padded_length(a, registers, is_zero) if PADDED in forms else None
    return None if length is None else (PADDED, length)


# Plain


def wrap(given, kek_len, iv_len=None):
    """With any initial value of 8 bytes if its length is given."""

    def legal_call():
        kek = any_kek("kek", kek_len)
        iv = standard.DEFAULT_IV
        call = LongCall(
            given, "keywrap_wrap" if iv_len is None else "keywrap_wrap_with"
        )
        call.reads(kek)
        if iv_len is not None:
            iv = any_bytes("iv", iv_len)
            call.reads(iv)
        call.array("key", 8 * n, False).array("text", 8 * n + 8, True)
        call.wraps(kek, iv, Content("key"), 0)

        def check(path, status):
            check_forks(path, iv_len is not None)
            if iv_len is not None and is_reserved(iv, path.is_zero):
                call.expect(path, status, BAD_IV, {})
            else:
                call.expect(
                    path, status, OK, {"text": wrapped_content(last_step(path))}
                )

        return call, check

    for order in ORDERS:
        for_all(given, LEGAL + order, legal_call)


def unwrap(given, kek_len, iv_len=None):
    def legal_call():
        kek = any_kek("kek", kek_len)
        iv = standard.DEFAULT_IV
        call = LongCall(
            given, "keywrap_unwrap" if iv_len is None else "keywrap_unwrap_with"
        )
        call.reads(kek)
        if iv_len is not None:
            iv = any_bytes("iv", iv_len)
            call.reads(iv)
        call.array("text", 8 * n + 8, False).array("key", 8 * n, True)
        call.unwraps(kek, "text")

        def check(path, status):
            check_forks(path, 1 + (iv_len is not None))
            if iv_len is not None and is_reserved(iv, path.is_zero):
                check_forks(path, 1)
                call.expect(path, status, BAD_IV, {})
                return
            a, registers = last_step(path).after()
            if standard.is_plain(a, path.is_zero, iv):
                call.expect(path, status, OK, {"key": registers})
            else:
                call.expect(path, status, INTEGRITY, {"key": zeros(8 * n)})

        return call, check

    for order in ORDERS:
        for_all(given, LEGAL + order, legal_call)


def wrap_with(given, kek_len):
    wrap(given, kek_len, 8)


def unwrap_with(given, kek_len):
    unwrap(given, kek_len, 8)


def wrap_in_place(given, kek_len):
    def legal_call():
        kek = any_kek("kek", kek_len)
        call = LongCall(given, "keywrap_wrap_in_place").reads(kek)
        call.array("text", 8 * n + 8, True)
        call.wraps(kek, standard.DEFAULT_IV, Content("text"), 8)

        def check(path, status):
            check_forks(path, 0)
            call.expect(path, status, OK, {"text": wrapped_content(last_step(path))})

        return call, check

    for_all(given, LEGAL, legal_call)


def unwrap_in_place(given, kek_len):
    def legal_call():
        kek = any_kek("kek", kek_len)
        call = LongCall(given, "keywrap_unwrap_in_place").reads(kek)
        call.array("text", 8 * n + 8, True).unwraps(kek, "text")

        def check(path, status):
            check_forks(path, 1)
            a, registers = last_step(path).after()
            after = zeros(8 * n + 8)
            if standard.is_plain(a, path.is_zero):
                after = after.with_copy(8, 8 * n, registers, 0)
                call.expect(path, status, OK, {"text": after})
            else:
                call.expect(path, status, INTEGRITY, {"text": after})

        return call, check

    for_all(given, LEGAL, legal_call)


# Padded. The key has z bytes less than its registers.


def wrap_padded(given, kek_len, in_place=False):
    def legal_call():
        kek = any_kek("kek", kek_len)
        call = LongCall(given, "keywrap_wrap_padded" + "_in_place" * in_place).reads(
            kek
        )
        if in_place:
            call.array("text", 8 * n + 8, True).number(8 * n - z)
            key = Content("text")
            offset = 8
        else:
            call.array("key", 8 * n - z, False).array("text", 8 * n + 8, True)
            key = Content("key")
            offset = 0
        padded = zeros(8 * n).with_copy(0, 8 * n - z, key, offset)
        call.wraps(kek, lambda: aiv(8 * n - z), padded, 0)

        def check(path, status):
            check_forks(path, 0)
            call.expect(path, status, OK, {"text": wrapped_content(last_step(path))})

        return call, check

    for order in [[]] if in_place else PADDED_ORDERS:
        for_all(given, LEGAL + [z, 7 - z] + order, legal_call)


def wrap_padded_in_place(given, kek_len):
    wrap_padded(given, kek_len, True)


def unwrap_padded(given, kek_len):
    def legal_call():
        kek = any_kek("kek", kek_len)
        call = LongCall(given, "keywrap_unwrap_padded").reads(kek)
        call.array("text", 8 * n + 8, False).array("key", 8 * n, True)
        call.changes_numbers(given.size()).unwraps(kek, "text")

        def check(path, status):
            check_forks(path, 1)
            a, registers = last_step(path).after()
            length = padded_length(a, registers, path.is_zero)
            if length is None:
                call.expect(
                    path, status, INTEGRITY, {"key": zeros(8 * n)}, given.size(0)
                )
            else:
                call.expect(
                    path, status, OK, {"key": registers}, number_cells(given, length)
                )

        return call, check

    for order in ORDERS:
        for_all(given, LEGAL + order, legal_call)


def unwrap_padded_in_place(given, kek_len):
    def legal_call():
        kek = any_kek("kek", kek_len)
        call = LongCall(given, "keywrap_unwrap_padded_in_place").reads(kek)
        call.array("text", 8 * n + 8, True)
        call.changes_numbers(given.size()).unwraps(kek, "text")

        def check(path, status):
            check_forks(path, 1)
            a, registers = last_step(path).after()
            length = padded_length(a, registers, path.is_zero)
            after = zeros(8 * n + 8)
            if length is None:
                call.expect(path, status, INTEGRITY, {"text": after}, given.size(0))
            else:
                after = after.with_copy(8, 8 * n, registers, 0)
                call.expect(
                    path, status, OK, {"text": after}, number_cells(given, length)
                )

        return call, check

    for_all(given, LEGAL, legal_call)


# Either form


def unwrap_any(given, kek_len, name="keywrap_unwrap_any"):
    is_kind = name == "keywrap_kind"

    def legal_call():
        kek = any_kek("kek", kek_len)
        call = LongCall(given, name).reads(kek)
        call.array("text", 8 * n + 8, False).array("key", 8 * n, True)
        call.changes_numbers(any_bytes("form", 4)).changes_numbers(given.size())
        call.unwraps(kek, "text")

        def check(path, status):
            check_forks(path, 1)
            a, registers = last_step(path).after()
            found = form_of(a, registers, path.is_zero)
            if found is None:
                numbers = [0] * 4 + given.size(0)
                call.expect(path, status, INTEGRITY, {"key": zeros(8 * n)}, numbers)
                return
            numbers = [found[0], 0, 0, 0, *number_cells(given, found[1])]
            after = zeros(8 * n) if is_kind else registers
            call.expect(path, status, OK, {"key": after}, numbers)

        return call, check

    for order in ORDERS:
        for_all(given, LEGAL + order, legal_call)


def kind(given, kek_len):
    unwrap_any(given, kek_len, "keywrap_kind")


# Rewraps. The old and the new wrapped key are in one buffer.


class RewrapCall(LongCall):
    """A rewrap of `text`. It unwraps under the old KEK. Then it wraps the key that it found under the new KEK. If it
    found none, then it goes back to the text, by wrapping what it found under the old KEK again. With PASS_NEW it then
    unwraps under the new KEK, and goes back to the text."""

    def __init__(self, given, name, old_len, new_len, flags):
        super().__init__(given, name)
        self.old_kek = any_kek("kek", old_len)
        self.new_kek = any_kek("new", new_len)
        self.flags = flags
        self.reads(self.old_kek).reads(self.new_kek)
        self.array("text", 8 * n + 8, True).number32(flags)
        self.old_words = self.new_words = None

    def begun(self):
        super().begun()
        self.old_words = standard.key_expansion(self.old_kek)
        self.new_words = standard.key_expansion(self.new_kek)

    def next_process(self, path):
        done = path.state.done
        if len(done) == 0:
            return unwrap_of_text(self.old_words)
        found = self.found_under_old(path)
        if len(done) == 1:
            if found and self.new_iv(*found):
                return self.wrap_under_new(path, *found)
            return done[0].way_back()
        if found or not self.flags & PASS_NEW:
            return None
        if len(done) == 2:
            return unwrap_of_text(self.new_words)
        return done[2].way_back() if len(done) == 3 else None

    def found_under_old(self, path):
        """Returns the form and the length of the key under the old KEK, or None."""
        forms = forms_of(self.flags, OLD_PADDED)
        return form_of(*last_step(path).after(), path.is_zero, forms)

    def found_under_new(self, path):
        """Returns the same for a text that is under the new KEK already."""
        forms = forms_of(self.flags, NEW_PADDED)
        return form_of(*last_step(path, 2).after(), path.is_zero, forms)

    def new_iv(self, form, length):
        """Returns the initial value of the new wrapped key, or None if its form has no key of this length."""
        keeps_form = self.flags & KEEP_FORM
        is_padded = form == PADDED if keeps_form else self.flags & NEW_PADDED
        if is_padded:
            return aiv(length)
        return standard.DEFAULT_IV if length == 8 * n else None

    def wrap_under_new(self, path, form, length):
        _, registers = last_step(path).after()
        padding = 8 * n - length
        if padding:
            registers = registers.with_bytes(length, padding, 0)
        return Process(self.new_words, self.new_iv(form, length), registers, 0, False)

    def expected(self, path):
        """Returns the status, the content of the buffer afterwards, and whether it was new already."""
        text = Content("text")
        found = self.found_under_old(path)
        check_forks(path, 1 if found or not self.flags & PASS_NEW else 2)
        if found:
            if self.new_iv(*found):
                return OK, wrapped_content(last_step(path, 1)), 0
            return KEY_NOT_PLAIN, text, 0
        if self.flags & PASS_NEW and self.found_under_new(path):
            return OK, text, 1
        return INTEGRITY, text, 0


def unwrap_of_text(words):
    text = Content("text")
    return Process(words, text.bytes(0, 8), text, 8, True)


def rewrap(given, old_len, new_len, flags):
    def legal_call():
        call = RewrapCall(given, "keywrap_rewrap", old_len, new_len, flags)
        call.changes_numbers(any_bytes("form", 4))

        def check(path, status):
            wanted, after, already = call.expected(path)
            call.expect(path, status, wanted, {"text": after}, little(already, 4))

        return call, check

    for_all(given, LEGAL, legal_call)


def rewrap_in_place(given, old_len, new_len, flags):
    def legal_call():
        call = RewrapCall(given, "keywrap_rewrap_in_place", old_len, new_len, flags)

        def check(path, status):
            wanted, after, _ = call.expected(path)
            if wanted == KEY_NOT_PLAIN:
                wanted = BAD_LENGTH
            if wanted != OK:
                after = zeros(8 * n + 8)
            call.expect(path, status, wanted, {"text": after})

        return call, check

    for_all(given, LEGAL, legal_call)


# Lengths that are refused. Any length is 8m + r, another one 8u + v, where r and v are less than 8.

m, r, u, v = map(unknown, "mruv")
LENGTH, OTHER = 8 * m + r, 8 * u + v
MOST = lengths.MOST_REGISTERS


def refuse(given, cases, build, status=BAD_LENGTH, numbers=()):
    """Proves that a call with lengths of these cases returns the status, and changes nothing but the numbers."""

    def refused():
        call = build()
        # The lengths may be larger than any memory.
        call.facts = []
        for array in call.arrays:
            place = unknown(array.name)
            call.facts += [place - call.module.heap, MEMORY - 1 - place]

        def check(path, got):
            check_forks(path, call.iv is not None)
            if call.iv is not None and is_reserved(call.iv, path.is_zero):
                call.expect(path, got, BAD_IV, {})
            else:
                call.expect(path, got, status, {}, numbers)

        return call, check

    largest = 256**given.module.size_bytes - 1
    any_lengths = [m, r, 7 - r, largest - LENGTH, u, v, 7 - v, largest - OTHER]
    for case in cases:
        for_all(given, any_lengths + case, refused)


def other_than(length, other):
    return [length - 1 - other], [other - length - 1]


IS_WHOLE = -1 * r
# A length that is not the one of a key, and a wrapped key of another length.
NO_PLAIN_KEY = [[r - 1], [IS_WHOLE, 1 - m], [IS_WHOLE, m - MOST - 1]]
PLAIN_KEY = [IS_WHOLE, m - 2, MOST - m]
NOT_PLAIN = NO_PLAIN_KEY + [PLAIN_KEY + case for case in other_than(LENGTH + 8, OTHER)]
NO_PLAIN_TEXT = [[r - 1], [IS_WHOLE, 2 - m], [IS_WHOLE, m - MOST - 2]]
NO_PADDED_KEY = [[-1 * LENGTH], [LENGTH - 8 * MOST - 1]]
SHORTER, WHOLE = [r - 1, 8 * MOST - LENGTH], [IS_WHOLE, m - 1, MOST - m]
NOT_PADDED = [
    *NO_PADDED_KEY,
    *(WHOLE + case for case in other_than(8 * m + 8, OTHER)),
    *(SHORTER + case for case in other_than(8 * m + 16, OTHER)),
]
NO_TEXT = [[r - 1], [IS_WHOLE, 1 - m], [IS_WHOLE, m - MOST - 2]]
TEXT = [IS_WHOLE, m - 2, MOST + 1 - m]
OTHER_ROOM = [TEXT + case for case in other_than(LENGTH - 8, OTHER)]


class Refusal:
    """A call with any lengths of key and wrapped key. `begin` returns it with its KEK."""

    def __init__(self, given, name, begin):
        self.given = given
        self.name = name
        self.begin = begin

    def begun(self):
        call = self.begin()
        if self.name.endswith("_with"):
            call.iv = any_bytes("iv", 8)
            call.reads(call.iv)
        return call

    def build(self):
        """Returns the call with its buffers, and numbers of any value."""
        call = self.begun()
        if self.name == "wrap_padded_in_place":
            call.array("text", OTHER, True).number(LENGTH)
        elif self.name.endswith("_in_place"):
            call.array("text", LENGTH, True)
        elif self.name in WRAPS:
            call.array("key", LENGTH, False).array("text", OTHER, True)
        elif self.name in TELLS_A_LENGTH:
            call.array("text", LENGTH, False).array("key", OTHER, True)
        else:
            call.array("text", OTHER, False).array("key", LENGTH, True)
        if self.name in TELLS_A_FORM:
            call.changes_numbers(any_bytes("form", 4))
        if self.name in TELLS_A_LENGTH:
            call.changes_numbers(self.given.size())
        return call

    def numbers(self):
        """Returns the bytes of the numbers after a refusal: zeros."""
        zeros_of_form = [0] * 4 if self.name in TELLS_A_FORM else []
        zeros_of_length = self.given.size(0) if self.name in TELLS_A_LENGTH else []
        return zeros_of_form + zeros_of_length

    def check(self, cases, status):
        refuse(self.given, cases, self.build, status, self.numbers())


WRAPS = "wrap", "wrap_with", "wrap_padded"
TELLS_A_FORM = "unwrap_any", "kind"
TELLS_A_LENGTH = "unwrap_padded", "unwrap_padded_in_place", *TELLS_A_FORM


def refuse_lengths(given, name, kek_len):
    """Every call with a KEK that is legal and lengths that are not. Each pair of lengths is legal or in a case."""

    def begin():
        return LongCall(given, "keywrap_" + name).reads(any_kek("kek", kek_len))

    refusal = Refusal(given, name, begin)
    if name in ("wrap", "wrap_with", "unwrap", "unwrap_with"):
        refusal.check(NOT_PLAIN, BAD_LENGTH)
    elif name in ("wrap_in_place", "unwrap_in_place"):
        refusal.check(NO_PLAIN_TEXT, BAD_LENGTH)
    elif name in ("wrap_padded", "wrap_padded_in_place"):
        refusal.check(NOT_PADDED, BAD_LENGTH)
    elif name == "unwrap_padded_in_place":
        refusal.check(NO_TEXT, BAD_LENGTH)
    else:
        refusal.check(NO_TEXT, INTEGRITY if name == "kind" else BAD_LENGTH)
        refusal.check(OTHER_ROOM, BAD_LENGTH)


# A KEK of another length is refused, whatever the other lengths are.

k = unknown("k")
LEGAL_KEKS = 16, 24, 32, *KEPT_KEKS


def other_keks(largest):
    """Returns the cases of k: shorter than each legal length and longer than the one before, and the longest."""
    cases, least = [], 0
    for length in LEGAL_KEKS:
        cases.append([k - least, length - 1 - k])
        least = length + 1
    return [*cases, [k - least, largest - k]]


def refuse_keks(name):
    """Returns the call with any KEK of no legal length, at any place."""

    def call(given):
        def begin():
            return LongCall(given, "keywrap_" + name).array("kek", k, False)

        largest = 256**given.module.size_bytes - 1
        Refusal(given, name, begin).check(other_keks(largest), BAD_KEK)

    return call


# A padded key of one register is one block, without a loop. It has few lengths: calls.py has a call of each.

TEXT_OF_ONE_REGISTER = 16
KEYS_OF_ONE_REGISTER = {
    "wrap_padded": range(1, 9),
    "wrap_padded_in_place": range(1, 9),
    "unwrap_padded": [8],
    "unwrap_padded_in_place": [8],
    "unwrap_any": [8],
    "kind": [8],
}


def perform_known(given, name, *numbers):
    """Proves a call of calls.py, in which the lengths are known."""
    terms.forget()
    CALLS[name](given, *numbers)


# A rewrap is refused for a length, for flags or for one of its KEKs.

f = unknown("f")
LARGEST_FLAGS = 2**32 - 1
OTHER_FLAGS = {
    "rewrap": [[f - 5, 7 - f], [f - 13, LARGEST_FLAGS - f]],
    "rewrap_in_place": [[f - 4, LARGEST_FLAGS - f]],
}
ANY_FLAGS = [f, LARGEST_FLAGS - f]


def refuse_rewraps(given, name, with_keks, flags, cases, status):
    """Proves that a rewrap of a text of any length is refused in these cases. with_keks adds the KEKs to the call."""
    numbers = [0] * 4 if name == "rewrap" else []

    def build():
        call = with_keks(LongCall(given, "keywrap_" + name))
        call.array("text", LENGTH, True).number32(flags)
        return call.changes_numbers(any_bytes("form", 4)) if numbers else call

    refuse(given, cases, build, status, numbers)


def legal_keks(old_len, new_len):
    """Returns a function that adds two KEKs of these lengths to a call."""

    def with_keks(call):
        call.reads(any_kek("kek", old_len))
        return call.reads(any_kek("new", new_len))

    return with_keks


def accepts_one_register(flags):
    """Whether one of the unwraps of a rewrap is of the padded form."""
    forms = forms_of(flags, OLD_PADDED)
    if flags & PASS_NEW:
        forms += forms_of(flags, NEW_PADDED)
    return PADDED in forms


def rewrap_with_refusals(name, legal):
    """Returns the call with all lengths, legal or not."""

    def call(given, old_len, new_len, flags):
        if accepts_one_register(flags):
            perform_known(given, name, old_len, new_len, TEXT_OF_ONE_REGISTER, flags)
        legal(given, old_len, new_len, flags)
        cases = NO_TEXT if accepts_one_register(flags) else NO_PLAIN_TEXT
        keks = legal_keks(old_len, new_len)
        refuse_rewraps(given, name, keks, flags, cases, BAD_LENGTH)

    return call


def refuse_flags(name):
    """Returns the call with any flags that it does not have, for any length."""

    def call(given, old_len, new_len):
        keks = legal_keks(old_len, new_len)
        refuse_rewraps(given, name, keks, f, OTHER_FLAGS[name], BAD_LENGTH)

    return call


def refuse_keks_of_rewrap(name):
    """Returns the call with an old or a new KEK of no legal length, for any flags and any length of the text."""

    def call(given):
        largest = 256**given.module.size_bytes - 1
        cases = [case + ANY_FLAGS for case in other_keks(largest)]
        new = unknown("new_len")

        def with_other_old(call):
            return call.array("kek", k, False).array("new", new, False)

        with_any_new = [case + [new, largest - new] for case in cases]
        refuse_rewraps(given, name, with_other_old, f, with_any_new, BAD_KEK)
        for old_len in LEGAL_KEKS:

            def with_other_new(call):
                return call.reads(any_kek("kek", old_len)).array("new", k, False)

            refuse_rewraps(given, name, with_other_new, f, cases, BAD_KEK)

    return call


def with_refusals(name, legal):
    """Returns the call with all lengths, legal or not."""

    def call(given, kek_len):
        for length in KEYS_OF_ONE_REGISTER.get(name, ()):
            perform_known(given, name, kek_len, length)
        legal(given, kek_len)
        refuse_lengths(given, name, kek_len)

    return call


FOR_ONE_KEY = (
    wrap,
    unwrap,
    wrap_with,
    unwrap_with,
    wrap_in_place,
    unwrap_in_place,
    wrap_padded,
    unwrap_padded,
    wrap_padded_in_place,
    unwrap_padded_in_place,
    unwrap_any,
    kind,
)
EVERY_LENGTH = {}
for _call in FOR_ONE_KEY:
    _name = _call.__name__
    EVERY_LENGTH[f"{_name}_at_every_length"] = with_refusals(_name, _call)
    EVERY_LENGTH[f"{_name}_of_any_other_kek"] = refuse_keks(_name)
for _call in rewrap, rewrap_in_place:
    _name = _call.__name__
    EVERY_LENGTH[f"{_name}_at_every_length"] = rewrap_with_refusals(_name, _call)
    EVERY_LENGTH[f"{_name}_of_any_other_flags"] = refuse_flags(_name)
    EVERY_LENGTH[f"{_name}_of_any_other_kek"] = refuse_keks_of_rewrap(_name)
