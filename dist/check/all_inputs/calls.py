"""The calls of the library: what each returns and writes by keywrap.h and keywrap_steps.h, in terms of standard.py."""

import re
from pathlib import Path

import standard
import terms
import wasm
import x86
from paths import byte_of, cell_of
from places import place
from terms import Known, Refused, and_, input_byte, shl, xor
from turns import Turns

STACK = 40960
OK = 0
ALREADY_NEW = 1
BAD_IV = 2
BAD_KEK = 3
BAD_LENGTH = 4
INTEGRITY = 5
NO_MEMORY = 7
KEY_NOT_PLAIN = 8
KNOWN_STATUSES = OK, BAD_IV, BAD_KEK, BAD_LENGTH, INTEGRITY, NO_MEMORY, KEY_NOT_PLAIN
NO_STATUS = 6
OLD_PADDED = 1
NEW_PADDED = 2
KEEP_FORM = 4
PASS_NEW = 8
LONGEST = 1048576
PLAIN, PADDED = 0, 1
KEPT_KEKS = (184, 216, 248)
MARK = list(b"kept KEK")
HEADER = Path(__file__).resolve().parents[2] / "keywrap.h"


def any_bytes(name, n):
    """Returns n bytes of any value; or zeros, if they are so many that the call has to refuse them unread."""
    return [input_byte(name, i) for i in range(n)] if n <= LONGEST else [0] * n


def any_kek(name, n):
    """Returns a KEK of any value, or a kept KEK with any round keys."""
    return MARK + any_bytes(name, n - 8) if n in KEPT_KEKS else any_bytes(name, n)


def little(v, n=8):
    return list(v.to_bytes(n, "little"))


class Result:
    """What a call did: its paths, as (status, places of the branches), counts, and the variables it left."""

    def __init__(self):
        self.paths = []
        self.steps = 0
        self.lookups = 0
        self.shuffles = 0
        self.stack = 0
        self.variables = None


class Call:
    """A call of an export. Its arguments are added in the order of the header. At least `gap` bytes are between two
    buffers. If it is 0, then none is, and the first buffer is where the memory of a caller begins.
    """

    def __init__(self, given, name):
        self.module = given.module
        self.gap = given.gap
        self.result = given.result
        self.name = name
        self.args = []
        self.inputs = {}
        self.writes = {}
        self.result_bits = 32
        self.at = place(self.module.heap, 65536) if self.gap else self.module.heap

    def place(self, content, to, *numbers):
        to.update(enumerate(map(cell_of, content), self.at))
        self.args += [self.at, *numbers]
        self.at += len(content)
        if self.gap:
            self.at = place(self.at + self.gap, 64)
        return self

    def reads(self, content, sized=True):
        """If it is `sized`, then its length is the next argument."""
        return self.place(content, self.inputs, *[len(content)] * sized)

    def changes(self, content, sized=True):
        return self.place(content, self.writes, *[len(content)] * sized)

    def changes_numbers(self, content, *count):
        """Numbers of more than a byte, which C aligns."""
        self.at = -(-self.at // 8) * 8
        return self.place(content, self.writes, *count)

    def number(self, v):
        self.args.append(v)
        return self

    def number32(self, v):
        """A number of 32 bits. In a register of 64 bits the upper half may have any value."""
        if isinstance(self.module, x86.Module):
            for i, above in enumerate(any_bytes("above", 4)):
                v = xor(v, shl(above, 32 + 8 * i, 64))
        return self.number(v)

    def check(self, expected, forks=0):
        """Runs the call. `expected(is_zero)` returns the status, and all that the call may write, in order, as it is
        afterwards, or None if it is unchanged. On a path the code may branch `forks` times on bytes of any value, or
        forks(status) times."""
        for path, status, got in self.ends():
            want, contents = expected(path.is_zero)
            unchanged = [byte_of(cell) for cell in self.writes.values()]
            self.compare(
                path, status, got, want, unchanged if contents is None else contents
            )
            self.ended(path, status, forks(status) if callable(forks) else forks)

    def ends(self, before=None):
        """Runs the call, after the path of another call if one is given. Yields each path at its end, with the status
        and what it may write."""
        run = (x86 if isinstance(self.module, x86.Module) else wasm).Run(
            self.module, self.inputs, STACK
        )
        run.keep_apart(self.writes)
        for path, status in run.call(self.name, self.args, self.writes, before):
            self.result.stack = max(self.result.stack, run.reached(path))
            left = {
                at: path.memory.get(at, before)
                for at, before in self.module.variables.items()
            }
            if self.result.variables not in (None, left) or not all(
                isinstance(v, int) for v in left.values()
            ):
                raise Refused("a variable that depends on the inputs")
            self.result.variables = left
            if self.name == "keywrap_kek_clear":
                status = OK
            else:
                status = run.place(path, and_(status, (1 << self.result_bits) - 1))
            yield path, status, [byte_of(path.memory[at]) for at in self.writes]
        self.result.steps += run.steps
        self.result.lookups += run.lookups
        self.result.shuffles += run.shuffles

    @staticmethod
    def compare(path, status, got, want, contents):
        if status != want or len(got) != len(contents):
            raise Refused(f"status {status} instead of {want}")
        known = Known.now = path.known
        for i, (one, v) in enumerate(zip(got, contents)):
            if not known.are_equal(one, v):
                raise Refused(f"at status {status}, byte {i} of what it writes differs")

    def ended(self, path, status, forks):
        if len(path.forks) > forks:
            raise Refused(
                f'{len(path.forks)} branches on a secret: {"; ".join(path.forks)}'
            )
        self.result.paths.append((status, path.forks))


class Given:
    """An object, and how the buffers of its calls are placed."""

    def __init__(self, module, gap):
        self.module = module
        self.gap = gap
        self.result = Result()
        self.turns = None

    def standard(self, function, kek, text, *more):
        """Returns a function that returns what this function of standard.py computes."""
        if len(text) > 1024:
            self.turns = Turns(function, kek, text, *more)
            return self.turns.result
        computed = function(kek, text, *more)
        return lambda: computed

    def size(self, v=None):
        """Returns the bytes of a size_t, or room for one."""
        n = self.module.size_bytes
        return any_bytes("number", n) if v is None else little(v, n)


def perform(module, name, numbers, gap=16):
    """Makes a call of the list for all inputs, and returns its Result."""
    terms.forget()
    Known.now = Known()
    given = Given(module, gap)
    try:
        CALLS[name](given, *numbers)
    finally:
        if given.turns:
            given.turns.give_up()
    return given.result


def is_kek(n):
    return n in (16, 24, 32, *KEPT_KEKS)


def is_plain_key(n):
    return n % 8 == 0 and 16 <= n <= LONGEST


def is_padded_text(n):
    return n % 8 == 0 and 16 <= n <= LONGEST + 8


def room_of(n):
    return -(-n // 8) * 8


def is_reserved(iv, is_zero):
    return is_zero([xor(a, b) for a, b in zip(iv, standard.aiv(0)[:4])])


# Kept KEKs


def kek_init(given, kek_len, kept_len):
    kek = any_bytes("kek", kek_len)
    call = Call(given, "keywrap_kek_init")
    call.reads(kek)
    call.changes(any_bytes("old", kept_len))

    def expected(_):
        if not is_kek(kek_len) or kek_len in KEPT_KEKS:
            return BAD_KEK, None
        if kept_len != 4 * kek_len + 120:
            return BAD_LENGTH, None
        words = standard.key_expansion(kek)
        return OK, MARK + sum(words, [])

    call.check(expected)


def kek_clear(given, n):
    call = Call(given, "keywrap_kek_clear")
    call.changes(any_bytes("old", n))
    call.check(lambda _: (OK, [0] * n))


def unmarked(given, kek_len):
    """A wrap with any bytes that are as many as those of a kept KEK."""
    kek = any_bytes("kek", kek_len)
    key = any_bytes("key", 16)
    wrapped = standard.wrapped(kek, key)
    call = Call(given, "keywrap_wrap")
    call.reads(kek)
    call.reads(key)
    call.changes(any_bytes("old", 24))

    def expected(is_zero):
        if is_zero([xor(v, m) for v, m in zip(kek, MARK)]):
            return OK, wrapped
        return BAD_KEK, None

    call.check(expected, 1)


# Plain. The length of the buffer for the result is right if it is not given.


def refusal(kek_len):
    """Returns the status of a call whose lengths are not legal: the KEK's length is the first that counts."""
    return BAD_LENGTH if is_kek(kek_len) else BAD_KEK


def is_iv_refused(iv, is_zero):
    return len(iv) != 8 or is_reserved(iv, is_zero)


def wrap(given, kek_len, key_len, out_len=None, iv_len=None):
    if out_len is None:
        out_len = key_len + 8
    kek = any_kek("kek", kek_len)
    key = any_bytes("key", key_len)
    iv = standard.DEFAULT_IV
    call = Call(given, "keywrap_wrap" if iv_len is None else "keywrap_wrap_with")
    call.reads(kek)
    if iv_len is not None:
        iv = any_bytes("iv", iv_len)
        call.reads(iv)
    call.reads(key)
    call.changes(any_bytes("old", out_len))
    legal = is_kek(kek_len) and is_plain_key(key_len) and out_len == key_len + 8
    wrapped = None
    if legal and len(iv) == 8:
        wrapped = given.standard(standard.wrapped, kek, key, iv)

    def expected(is_zero):
        if iv_len is not None and is_iv_refused(iv, is_zero):
            return BAD_IV, None
        if not legal:
            return refusal(kek_len), None
        return OK, wrapped()

    call.check(expected, iv_len == 8)


def forks_with_iv(more):
    """Returns how often a call with an initial value may branch: whether it is reserved, and then `more` times."""
    return lambda status: 1 if status == BAD_IV else 1 + more


def wrap_claiming(given, kek_len, key_len, out_len):
    """A wrap with lengths that are not those of the buffers, and so long that the call has to refuse them unread."""
    call = Call(given, "keywrap_wrap")
    call.reads(any_bytes("kek", 16), False).number(kek_len)
    call.reads(any_bytes("key", 16), False).number(key_len)
    call.changes(any_bytes("old", 24), False).number(out_len)
    call.check(lambda _: (refusal(kek_len), None))


def wrap_of_kek(given, kek_len):
    """The key is the KEK, in the same buffer."""
    kek = any_bytes("kek", kek_len)
    call = Call(given, "keywrap_wrap")
    call.reads(kek)
    call.args += call.args
    call.changes(any_bytes("old", kek_len + 8))
    call.check(lambda _: (OK, standard.wrapped(kek, kek)))


def unwrap_of_kek(given, kek_len):
    """The wrapped key is the KEK, in the same buffer."""
    kek = any_bytes("kek", kek_len)
    a, key = standard.unwrap_process(kek, kek)
    call = Call(given, "keywrap_unwrap")
    call.reads(kek)
    call.args += call.args
    call.changes(any_bytes("old", len(key)))

    def expected(is_zero):
        if standard.is_plain(a, is_zero):
            return OK, key
        return INTEGRITY, [0] * len(key)

    call.check(expected, 1)


def unwrap(given, kek_len, key_len, text_len=None, iv_len=None):
    if text_len is None:
        text_len = key_len + 8
    kek = any_kek("kek", kek_len)
    text = any_bytes("text", text_len)
    iv = standard.DEFAULT_IV
    call = Call(given, "keywrap_unwrap" if iv_len is None else "keywrap_unwrap_with")
    call.reads(kek)
    if iv_len is not None:
        iv = any_bytes("iv", iv_len)
        call.reads(iv)
    call.reads(text)
    call.changes(any_bytes("old", key_len))
    legal = is_kek(kek_len) and is_plain_key(key_len) and text_len == key_len + 8
    unwrapped = None
    if legal:
        unwrapped = given.standard(standard.unwrap_process, kek, text)

    def expected(is_zero):
        if iv_len is not None and is_iv_refused(iv, is_zero):
            return BAD_IV, None
        if not legal:
            return refusal(kek_len), None
        a, key = unwrapped()
        if standard.is_plain(a, is_zero, iv):
            return OK, key
        return INTEGRITY, [0] * key_len

    call.check(expected, forks_with_iv(legal) if iv_len == 8 else legal)


def wrap_with(given, kek_len, key_len, iv_len=8):
    wrap(given, kek_len, key_len, None, iv_len)


def unwrap_with(given, kek_len, key_len, iv_len=8):
    unwrap(given, kek_len, key_len, None, iv_len)


def wrap_in_place(given, kek_len, key_len):
    kek = any_kek("kek", kek_len)
    text = any_bytes("old", key_len + 8)
    call = Call(given, "keywrap_wrap_in_place")
    call.reads(kek)
    call.changes(text)

    def expected(_):
        if not is_kek(kek_len) or not is_plain_key(key_len):
            return refusal(kek_len), None
        return OK, standard.wrapped(kek, text[8:])

    call.check(expected)


def unwrap_in_place(given, kek_len, key_len):
    kek = any_kek("kek", kek_len)
    text = any_bytes("text", key_len + 8)
    call = Call(given, "keywrap_unwrap_in_place")
    call.reads(kek)
    call.changes(text)
    legal = is_kek(kek_len) and is_plain_key(key_len)
    if legal:
        a, key = standard.unwrap_process(kek, text)

    def expected(is_zero):
        if not legal:
            return refusal(kek_len), None
        if standard.is_plain(a, is_zero):
            return OK, [0] * 8 + key
        return INTEGRITY, [0] * len(text)

    call.check(expected, legal)


# Padded. `room` is the length of the padded key.


def is_padded_key(key_len, text_len):
    return 1 <= key_len <= LONGEST and text_len == room_of(key_len) + 8


def wrap_padded(given, kek_len, key_len, out_len=None):
    if out_len is None:
        out_len = room_of(key_len) + 8
    kek = any_kek("kek", kek_len)
    key = any_bytes("key", key_len)
    call = Call(given, "keywrap_wrap_padded")
    call.reads(kek)
    call.reads(key)
    call.changes(any_bytes("old", out_len))
    legal = is_kek(kek_len) and is_padded_key(key_len, out_len)
    wrapped = None
    if legal:
        wrapped = given.standard(standard.wrapped_padded, kek, key)

    def expected(_):
        if not legal:
            return refusal(kek_len), None
        return OK, wrapped()

    call.check(expected)


def unwrap_padded(given, kek_len, room, text_len=None):
    if text_len is None:
        text_len = room + 8
    kek = any_kek("kek", kek_len)
    text = any_bytes("text", text_len)
    old = any_bytes("old", room)
    call = Call(given, "keywrap_unwrap_padded")
    call.reads(kek)
    call.reads(text)
    call.changes(old)
    call.changes_numbers(given.size())
    legal = is_kek(kek_len) and is_padded_text(text_len) and text_len == room + 8
    unwrapped = None
    if legal:
        unwrapped = given.standard(standard.unwrap_process, kek, text)

    def expected(is_zero):
        if not legal:
            return refusal(kek_len), old + given.size(0)
        a, key = unwrapped()
        length = standard.padded_length(a, key, is_zero)
        if length is None:
            return INTEGRITY, [0] * room + given.size(0)
        return OK, key + given.size(length)

    call.check(expected, 1)


def wrap_padded_in_place(given, kek_len, key_len, text_len=None):
    if text_len is None:
        text_len = room_of(key_len) + 8
    kek = any_kek("kek", kek_len)
    text = any_bytes("old", text_len)
    call = Call(given, "keywrap_wrap_padded_in_place")
    call.reads(kek)
    call.changes(text)
    call.number(key_len)

    def expected(_):
        if not is_kek(kek_len) or not is_padded_key(key_len, text_len):
            return refusal(kek_len), None
        return OK, standard.wrapped_padded(kek, text[8 : 8 + key_len])

    call.check(expected)


def unwrap_padded_in_place(given, kek_len, room):
    kek = any_kek("kek", kek_len)
    text = any_bytes("text", room + 8)
    call = Call(given, "keywrap_unwrap_padded_in_place")
    call.reads(kek)
    call.changes(text)
    call.changes_numbers(given.size())
    legal = is_kek(kek_len) and is_padded_text(len(text))
    if legal:
        a, key = standard.unwrap_process(kek, text)

    def expected(is_zero):
        if not legal:
            return refusal(kek_len), text + given.size(0)
        length = standard.padded_length(a, key, is_zero)
        if length is None:
            return INTEGRITY, [0] * len(text) + given.size(0)
        return OK, [0] * 8 + key + given.size(length)

    call.check(expected, 1)


# Either form


def form_of(a, key, is_zero, forms=(PLAIN, PADDED)):
    """Returns the form and the length of the key, or None."""
    if PLAIN in forms and len(key) >= 16 and standard.is_plain(a, is_zero):
        return PLAIN, len(key)
    if PADDED not in forms:
        return None
    length = standard.padded_length(a, key, is_zero)
    return None if length is None else (PADDED, length)


def either_form(name, given, kek_len, room, text_len):
    if text_len is None:
        text_len = room + 8
    kek = any_kek("kek", kek_len)
    text = any_bytes("text", text_len)
    old = any_bytes("old", room)
    call = Call(given, name)
    call.reads(kek)
    call.reads(text)
    call.changes(old)
    call.changes_numbers(any_bytes("form", 4))
    call.changes_numbers(given.size())
    is_kind = name == "keywrap_kind"
    no_numbers = little(0, 4) + given.size(0)
    legal = is_kek(kek_len) and is_padded_text(text_len) and text_len == room + 8
    if legal:
        a, key = standard.unwrap_process(kek, text)

    def expected(is_zero):
        if not legal:
            # No wrapped key has this length: for a kind that is an answer.
            is_answer = is_kind and is_kek(kek_len) and not is_padded_text(text_len)
            status = INTEGRITY if is_answer else refusal(kek_len)
            return status, old + no_numbers
        found = form_of(a, key, is_zero)
        if found is None:
            return INTEGRITY, [0] * room + no_numbers
        form, length = found
        after = [0] * room if is_kind else key
        return OK, after + little(form, 4) + given.size(length)

    call.check(expected, 1)


def unwrap_any(given, kek_len, room, text_len=None):
    either_form("keywrap_unwrap_any", given, kek_len, room, text_len)


def kind(given, kek_len, room, text_len=None):
    either_form("keywrap_kind", given, kek_len, room, text_len)


# Rewraps


def are_rewrap_flags(flags):
    return flags & ~PASS_NEW in range(KEEP_FORM + 1)


def forms_of(flags, padded):
    if flags & KEEP_FORM:
        return PLAIN, PADDED
    return (PADDED,) if flags & padded else (PLAIN,)


def is_text_of(text_len, forms):
    return is_padded_text(text_len) if PADDED in forms else is_plain_key(text_len - 8)


class Rewrap:
    """What a rewrap of one wrapped key returns and leaves."""

    def __init__(self, old_kek, new_kek, text, flags):
        self.new_kek = new_kek
        self.text = text
        self.flags = flags
        self.old_forms = forms_of(flags, OLD_PADDED)
        self.new_forms = forms_of(flags, NEW_PADDED)
        self.forks = 0
        are_keks = is_kek(len(old_kek)) and is_kek(len(new_kek))
        self.refusal = BAD_LENGTH if are_keks else BAD_KEK
        self.is_old_length = is_text_of(len(text), self.old_forms)
        is_new_length = bool(flags & PASS_NEW) and is_text_of(len(text), self.new_forms)
        is_text = self.is_old_length or is_new_length
        self.legal = are_keks and are_rewrap_flags(flags) and is_text
        self.old = self.new = None
        if self.legal:
            self.old = standard.unwrap_process(old_kek, text)
            if is_new_length:
                self.new = standard.unwrap_process(new_kek, text)

    def of(self, is_zero):
        """Returns the status, the buffer afterwards, and whether it was new already. Counts the checks as `forks`."""
        if not self.legal:
            return self.refusal, self.text, 0
        self.forks = 0
        found = None
        if self.is_old_length:
            self.forks += 1
            found = form_of(*self.old, is_zero, self.old_forms)
        if found is None:
            return self.of_another_text(is_zero)
        form, length = found
        key = self.old[1][:length]
        keeps_form = self.flags & KEEP_FORM
        is_padded = form == PADDED if keeps_form else self.flags & NEW_PADDED
        if is_padded:
            return OK, standard.wrapped_padded(self.new_kek, key), 0
        if not is_plain_key(length):
            return KEY_NOT_PLAIN, self.text, 0
        return OK, standard.wrapped(self.new_kek, key), 0

    def of_another_text(self, is_zero):
        """The same for a text that is not under the old KEK."""
        if self.new is not None:
            self.forks += 1
            if form_of(*self.new, is_zero, self.new_forms):
                return OK, self.text, 1
        return INTEGRITY if self.is_old_length else BAD_LENGTH, self.text, 0


def rewrap(given, old_len, new_len, text_len, flags):
    old_kek = any_kek("kek", old_len)
    new_kek = any_kek("new", new_len)
    rewrap_under(old_kek, new_kek, given, text_len, flags)


def rewrap_same_kek(given, kek_len, text_len, flags):
    """Both KEKs are the same buffer, as in a rewrap from form to form."""
    kek = any_kek("kek", kek_len)
    rewrap_under(kek, kek, given, text_len, flags)


def rewrap_under(old_kek, new_kek, given, text_len, flags):
    text = any_bytes("text", text_len)
    one = Rewrap(old_kek, new_kek, text, flags)
    call = Call(given, "keywrap_rewrap")
    call.reads(old_kek)
    if new_kek is old_kek:
        call.args += call.args
    else:
        call.reads(new_kek)
    call.changes(text)
    call.number32(flags)
    call.changes_numbers(any_bytes("form", 4))

    def expected(is_zero):
        status, after, already = one.of(is_zero)
        return status, after + little(already, 4)

    call.check(expected, lambda _: one.forks)


def rewrap_in_place(given, old_len, new_len, text_len, flags):
    old_kek = any_kek("kek", old_len)
    new_kek = any_kek("new", new_len)
    text = any_bytes("text", text_len)
    all_flags = ~0  # which no rewrap takes
    one = Rewrap(old_kek, new_kek, text, flags if flags < KEEP_FORM else all_flags)
    call = Call(given, "keywrap_rewrap_in_place")
    call.reads(old_kek)
    call.reads(new_kek)
    call.changes(text)
    call.number32(flags)

    def expected(is_zero):
        status, after, _ = one.of(is_zero)
        if status == OK or not one.legal:
            return status, after
        if status == KEY_NOT_PLAIN:
            status = BAD_LENGTH
        return status, [0] * text_len

    call.check(expected, 1)


class RewrapSteps:
    """begin_rewrap, and next_rewrap or next_rewrap_from until the phase is 0. Between them the steps are made here."""

    def __init__(self, given, keks, text, flags, from_copy):
        self.given = given
        self.text = text
        self.flags = flags
        self.from_copy = from_copy
        self.one = Rewrap(*keks, text, flags)
        self.schedules = [standard.key_expansion(kek) for kek in keks]

    def check(self):
        call = Call(self.given, "keywrap_begin_rewrap")
        call.number32(self.flags)
        call.reads(self.text)
        call.changes_numbers(any_bytes("form", 4))
        call.changes_numbers(any_bytes("number", 8))
        call.changes(any_bytes("block", 16), False)
        for path, status, got in call.ends():
            self.follow(call, path, status, self.text, got)

    def follow(self, call, path, status, now, numbers):
        """Goes on from a call. `now` is the text after it, `numbers` are phase, steps and block."""
        Known.now = path.known
        phase = little_number(path, numbers[:4])
        if phase == 0:
            self.check_end(call, path, status, now)
            return
        if status != OK:
            raise Refused(f"status {status} at phase {phase}")
        steps = little_number(path, numbers[4:12])
        registers, steps, block = self.made(phase, now[8:], steps, numbers[12:])
        call = self.next_call(now[:8] + registers, phase, steps, block)
        for path, status, got in call.ends(path):
            after = got[: len(now)]
            numbers = got[len(now) :]
            self.follow(call, path, status, after, numbers)

    def check_end(self, call, path, status, now):
        want, after, already = self.one.of(path.is_zero)
        if already:
            want = ALREADY_NEW
        call.compare(path, status, now, want, after)
        call.ended(path, status, self.one.forks)

    def made(self, phase, registers, steps, block):
        """Returns registers, number of steps and block after all steps of a phase."""
        undo = phase & 1
        words = self.schedules[phase >> 1 & 1]
        for _ in range(steps_of(len(registers))):
            if undo:
                block = standard.inv_cipher(words, block)
                t = steps
            else:
                block = standard.cipher(words, block)
                t = steps + 1
            registers, steps, block = stepped(registers, t, block, undo)
        return registers, steps, block

    def next_call(self, text, phase, steps, block):
        call = Call(self.given, "keywrap_next_rewrap" + "_from" * self.from_copy)
        call.number32(self.flags)
        if self.from_copy:
            call.reads(self.text)
        call.changes(text)
        call.changes_numbers(little(phase, 4))
        call.changes_numbers(little(steps))
        call.changes(block, False)
        return call


def rewrap_steps(given, old_len, new_len, text_len, flags, from_copy=0):
    keks = any_kek("kek", old_len), any_kek("new", new_len)
    text = any_bytes("text", text_len)
    RewrapSteps(given, keks, text, flags, from_copy).check()


def little_number(path, content):
    values = [path.known.reduced(v) for v in content]
    if not all(isinstance(v, int) for v in values):
        raise Refused("a number that depends on secrets")
    return int.from_bytes(values, "little")


# Many keys. With `only` the other slots and the KEKs are fixed: genuine, refused, new already. -1: genuine, any KEK.


def fixed(name, n):
    """Returns n bytes that depend on the name. No KEK begins with another one."""
    return [(37 * i + 11 * ord(name[0]) + 5) % 256 for i in range(n)]


def texts_of(name, text_len, count, only, flags, kek, new_kek=None):
    """Returns the slots. Without `only` each has any bytes. If it is -1, all are genuine. Else the slot of this number
    has any bytes, and the others are in turn genuine, refused and, in a rewrap, under the new KEK already.
    """
    if only is None:
        texts = any_bytes(name, text_len * count)
        return [texts[text_len * i : text_len * (i + 1)] for i in range(count)]
    are_genuine = only < 0
    slots = []
    for i in range(count):
        is_new = new_kek is not None and i % 3 == 2 and not are_genuine
        is_refused = i % 3 == 1 and not are_genuine
        if i == only:
            slot = any_bytes(name, text_len)
        elif is_new:
            slot = fixed_slot(i, text_len, flags, NEW_PADDED, new_kek)
        else:
            slot = fixed_slot(i, text_len, flags, OLD_PADDED, kek)
        if is_refused and i != only:
            slot[5] ^= 1
        slots.append(slot)
    return slots


def fixed_slot(i, text_len, flags, padded_flag, kek):
    """Returns a genuine slot under the KEK. `padded_flag` is the flag that says that its key is padded."""
    key = fixed("slot", text_len - 8)
    if flags & (OLD_PADDED | KEEP_FORM):
        key = key[: text_len - 11]
    key[0] = i
    is_kept_padded = flags & KEEP_FORM and i % 2
    if flags & padded_flag or is_kept_padded or len(key) % 8:
        return standard.wrapped_padded(kek, key)
    return standard.wrapped(kek, key)


def kek_of(name, n, only):
    return any_kek(name, n) if only in (None, -1) else fixed(name, n)


def forks_of(count, only):
    return count if only is None else int(only >= 0)


def joined(parts):
    """Returns the bytes of all parts, one behind the other."""
    return sum(parts, [])


def wrap_many(given, kek_len, key_len, flags, count, only=None):
    kek = kek_of("kek", kek_len, only)
    text_len = room_of(key_len) + 8
    texts = texts_of("old", text_len, count, only, 0, kek)
    wrapped = standard.wrapped_padded if flags else standard.wrapped
    is_key = 1 <= key_len if flags else is_plain_key(key_len)
    legal = is_kek(kek_len) and is_key and flags in (0, NEW_PADDED)
    call = Call(given, "keywrap_wrap_many")
    call.reads(kek)
    call.changes(joined(texts))
    call.number(key_len)
    call.number32(flags)
    call.changes(any_bytes("status", count))

    def expected(_):
        if not legal:
            return refusal(kek_len), None
        after = [wrapped(kek, text[8 : 8 + key_len]) for text in texts]
        return OK, joined(after) + [OK] * count

    call.check(expected)


def unwrap_many(given, kek_len, text_len, flags, count, only=None):
    kek = kek_of("kek", kek_len, only)
    texts = texts_of("text", text_len, count, only, flags, kek)
    forms = forms_of(flags, OLD_PADDED)
    legal = is_kek(kek_len) and is_text_of(text_len, forms) and flags in (0, OLD_PADDED)
    opened = [standard.unwrap_process(kek, text) for text in texts] if legal else []
    call = Call(given, "keywrap_unwrap_many")
    call.reads(kek)
    call.changes(joined(texts))
    call.number32(flags)
    call.changes_numbers(any_bytes("number", given.module.size_bytes * count), count)
    call.changes(any_bytes("status", count))

    def expected(is_zero):
        if not legal:
            return refusal(kek_len), None
        after, lengths, statuses = [], [], []
        for a, key in opened:
            found = form_of(a, key, is_zero, forms)
            if found is None:
                after += [0] * text_len
                lengths += given.size(0)
                statuses.append(INTEGRITY)
            else:
                after += [0] * 8 + key
                lengths += given.size(found[1])
                statuses.append(OK)
        return OK, after + lengths + statuses

    call.check(expected, forks_of(count, only))


def rewrap_many(given, old_len, new_len, text_len, flags, count, only=None):
    old_kek = kek_of("kek", old_len, only)
    new_kek = kek_of("new", new_len, only)
    texts = texts_of("text", text_len, count, only, flags, old_kek, new_kek)
    each = [Rewrap(old_kek, new_kek, text, flags) for text in texts]
    call = Call(given, "keywrap_rewrap_many")
    call.reads(old_kek)
    call.reads(new_kek)
    call.changes(joined(texts))
    call.number32(flags)
    call.changes(any_bytes("status", count))
    unknown_slots = each if only is None else each[max(only, 0) : only + 1]

    def expected(is_zero):
        texts_after, statuses = [], []
        for one in each:
            status, after, already = one.of(is_zero)
            texts_after += after
            statuses.append(ALREADY_NEW if already else status)
        if not each[0].legal:
            return each[0].refusal, None
        return OK, texts_after + statuses

    call.check(expected, lambda _: sum(one.forks for one in unknown_slots))


def kind_many(given, kek_len, text_len, count, only=None):
    kek = kek_of("kek", kek_len, only)
    texts = texts_of("text", text_len, count, only, KEEP_FORM, kek)
    legal = is_kek(kek_len) and is_padded_text(text_len)
    opened = [standard.unwrap_process(kek, text) for text in texts] if legal else []
    room = max(text_len - 8, 0)
    call = Call(given, "keywrap_kind_many")
    call.reads(kek)
    call.reads(joined(texts))
    call.changes(any_bytes("old", room))
    call.changes(any_bytes("form", count))
    call.changes_numbers(any_bytes("number", given.module.size_bytes * count), count)
    call.changes(any_bytes("status", count))

    def expected(is_zero):
        if not legal:
            return refusal(kek_len), None
        forms, lengths, statuses = [], [], []
        for a, key in opened:
            form, length = form_of(a, key, is_zero) or (0, None)
            forms.append(form)
            lengths += given.size(length or 0)
            statuses.append(INTEGRITY if length is None else OK)
        return OK, [0] * room + forms + lengths + statuses

    call.check(expected, forks_of(count, only))


def uneven_many(name, given, texts_len, lens, count, forms=None):
    """A call for many keys of 16 bytes, whose numbers of bytes, lengths and statuses do not fit each other."""
    call = Call(given, f"keywrap_{name}").reads(any_kek("kek", 16))
    texts = any_bytes("text", texts_len)
    if name == "rewrap_many":
        call.reads(any_kek("new", 16))
    if name == "kind_many":
        call.reads(texts).changes(any_bytes("old", 16)).changes(
            any_bytes("form", count if forms is None else forms)
        )
    else:
        call = (
            call.changes(texts).number(16)
            if name == "wrap_many"
            else call.changes(texts)
        )
        call.number32(0)
    if name in ("unwrap_many", "kind_many"):
        call.changes_numbers(any_bytes("number", given.module.size_bytes * lens), lens)
    call.changes(any_bytes("status", count)).check(lambda _: (BAD_LENGTH, None))


def uneven_wrap_many(given, texts_len, count):
    uneven_many("wrap_many", given, texts_len, 0, count)


def uneven_unwrap_many(given, texts_len, lens, count):
    uneven_many("unwrap_many", given, texts_len, lens, count)


def uneven_rewrap_many(given, texts_len, count):
    uneven_many("rewrap_many", given, texts_len, 0, count)


def uneven_kind_many(given, texts_len, lens, forms, count):
    uneven_many("kind_many", given, texts_len, lens, count, forms)


def self_test(given):
    Call(given, "keywrap_self_test").check(lambda _: (OK, None))


# Calls without keys


def version(given):
    numbers = [
        int(n)
        for n in re.findall(
            r"#define KEYWRAP_VERSION_(?:MAJOR|MINOR|PATCH) (\d+)", HEADER.read_text()
        )
    ]
    major, minor, patch = numbers
    Call(given, "keywrap_version").check(
        lambda _: (major << 16 | minor << 8 | patch, None)
    )


def step_count(given, n):
    call = Call(given, "keywrap_step_count").number(n)
    call.result_bits = 64
    call.check(lambda _: (steps_of(n), None))


def status_text(given, status, capacity):
    """keywrap.h does not say the texts: each is of 1 to 79 printable characters, and no two statuses share one."""
    texts = {}
    for each in KNOWN_STATUSES:
        length, content = written_text(each, given, 80)
        texts[each] = bytes(content[:length])
        if not (
            0 < length < 80
            and texts[each].isascii()
            and texts[each].decode().isprintable()
        ):
            raise Refused(f"the text of status {each}")
    if len({*texts.values()}) != len(texts):
        raise Refused("two statuses with the same text")
    unknown = written_text(NO_STATUS, given, 80)
    text = texts.get(status, bytes(unknown[1][: unknown[0]]))
    length, content = written_text(status, given, capacity)
    kept = text[: max(capacity - 1, 0)]
    old = any_bytes("old", capacity)
    if length != len(text) or content != [
        *kept,
        *[0] * (capacity > 0),
        *old[len(kept) + 1 :],
    ]:
        raise Refused(f"the text of status {status} in {capacity} bytes")
    given.result.paths.append((length, []))


def written_text(status, given, capacity):
    """Returns the length that the call returns, and what it leaves in the buffer."""
    call = (
        Call(given, "keywrap_status_text")
        .number32(status % 2**32)
        .changes(any_bytes("old", capacity))
    )
    call.result_bits = 8 * given.module.size_bytes
    ((_, length, content),) = call.ends()
    return length, content


# The steps. n is the length of the registers, `done` or `left` a number of steps.


def steps_of(n):
    return 1 if n == 8 else 6 * n // 8


def are_registers(n, least=8):
    return n % 8 == 0 and least <= n <= LONGEST


def stepped(r, t, block, undo=False):
    """Returns registers, number of steps and block after step t, or after step t is undone."""
    count = steps_of(len(r))
    n = len(r) // 8
    if n == 1:
        return block[8:], 0 if undo else 1, block
    if not 1 <= t <= count:
        raise Refused(f"step {t} of {count}")
    at, following = (t - 1) % n * 8, t - 1 if undo else t
    after = [*r[:at], *block[8:], *r[at + 8 :]]
    to = ((t - 2 if undo else t) % n) * 8
    return after, following, standard.with_t(block[:8], following) + after[to : to + 8]


def begin_wrap(given, n, iv_len=8):
    iv = any_bytes("iv", iv_len)
    r = any_bytes("key", n)
    call = Call(given, "keywrap_begin_wrap")
    call.reads(iv)
    call.reads(r)
    call.changes_numbers(any_bytes("number", 8))
    call.changes(any_bytes("block", 16), False)

    def expected(is_zero):
        if is_iv_refused(iv, is_zero):
            return BAD_IV, None
        if not is_plain_key(n):
            return BAD_LENGTH, None
        return OK, little(0) + iv + r[:8]

    call.check(expected, 1)


def begin_wrap_padded(given, key_len, n):
    r = any_bytes("key", n)
    padded = r[:key_len] + [0] * (n - key_len)
    call = Call(given, "keywrap_begin_wrap_padded")
    call.number(key_len)
    call.changes(r)
    call.changes_numbers(any_bytes("number", 8))
    call.changes(any_bytes("block", 16), False)

    def expected(_):
        if key_len < 1 or n != room_of(key_len):
            return BAD_LENGTH, None
        return OK, padded + little(0) + standard.aiv(key_len) + padded[:8]

    call.check(expected)


def step_wrap(given, n, done):
    r = any_bytes("key", n)
    block = any_bytes("block", 16)
    call = Call(given, "keywrap_step_wrap")
    call.changes(r)
    call.changes_numbers(little(done))
    call.changes(block, False)

    def expected(_):
        if not are_registers(n) or not done < steps_of(n):
            return BAD_LENGTH, None
        after, number, following = stepped(r, done + 1, block)
        return OK, after + little(number) + following

    call.check(expected)


def end_wrap(given, n, done):
    r = any_bytes("key", n)
    block = any_bytes("block", 16)
    call = Call(given, "keywrap_end_wrap")
    call.changes(any_bytes("old", 8), False)
    call.reads(r)
    call.number(done)
    call.reads(block, False)

    def expected(_):
        if not are_registers(n) or done != steps_of(n):
            return BAD_LENGTH, None
        return OK, block[:8]

    call.check(expected)


def begin_unwrap(given, n, padded=0):
    first = any_bytes("text", 8)
    r = any_bytes("key", n)
    count = steps_of(n)
    call = Call(given, "keywrap_begin_unwrap" + "_padded" * padded)
    call.reads(first, False)
    call.reads(r)
    call.changes_numbers(any_bytes("number", 8))
    call.changes(any_bytes("block", 16), False)

    def expected(_):
        if not are_registers(n, 8 if padded else 16):
            return BAD_LENGTH, None
        a = first if n == 8 else standard.with_t(first, count)
        return OK, little(count) + a + r[-8:]

    call.check(expected)


def step_unwrap(given, n, left):
    r = any_bytes("key", n)
    block = any_bytes("block", 16)
    call = Call(given, "keywrap_step_unwrap")
    call.changes(r)
    call.changes_numbers(little(left))
    call.changes(block, False)

    def expected(_):
        if not are_registers(n) or not 1 <= left <= steps_of(n):
            return BAD_LENGTH, None
        after, number, following = stepped(r, left, block, undo=True)
        return OK, after + little(number) + following

    call.check(expected)


def end_unwrap(given, n, left, iv_len=8):
    iv = any_bytes("iv", iv_len)
    r = any_bytes("key", n)
    block = any_bytes("block", 16)
    call = Call(given, "keywrap_end_unwrap")
    call.reads(iv)
    call.changes(r)
    call.number(left)
    call.changes(block, False)

    def expected(is_zero):
        if is_iv_refused(iv, is_zero):
            return BAD_IV, None
        if not is_plain_key(n) or left:
            return BAD_LENGTH, None
        if standard.is_plain(block[:8], is_zero, iv):
            return OK, r + [0] * 16
        return INTEGRITY, [0] * (n + 16)

    call.check(expected, forks_with_iv(1))


def end_unwrap_padded(given, n, left):
    r = any_bytes("key", n)
    block = any_bytes("block", 16)
    call = Call(given, "keywrap_end_unwrap_padded")
    call.changes(r)
    call.number(left)
    call.changes(block, False)
    call.changes_numbers(given.size())

    def expected(is_zero):
        if not are_registers(n) or left:
            return BAD_LENGTH, r + block + given.size(0)
        length = standard.padded_length(block[:8], r, is_zero)
        if length is None:
            return INTEGRITY, [0] * (n + 16) + given.size(0)
        return OK, r + [0] * 16 + given.size(length)

    call.check(expected, 1)


def end_unwrap_any(given, n, left):
    r = any_bytes("key", n)
    block = any_bytes("block", 16)
    call = Call(given, "keywrap_end_unwrap_any")
    call.changes(r)
    call.number(left)
    call.changes(block, False)
    call.changes_numbers(any_bytes("form", 4))
    call.changes_numbers(given.size())
    no_numbers = little(0, 4) + given.size(0)

    def expected(is_zero):
        if not are_registers(n) or left:
            return BAD_LENGTH, r + block + no_numbers
        found = form_of(block[:8], r, is_zero)
        if found is None:
            return INTEGRITY, [0] * (n + 16) + no_numbers
        form, length = found
        return OK, r + [0] * 16 + little(form, 4) + given.size(length)

    call.check(expected, 1)


# The steps of many keys: `count` texts, and blocks for `lanes` of them.


class Lanes:
    """Texts of the same length, the registers of each, and their blocks."""

    def __init__(self, text_len, count, lanes):
        self.texts = [any_bytes(f"text {i}", text_len) for i in range(count)]
        self.registers = [text[8:] for text in self.texts]
        self.blocks = [any_bytes(f"block {i}", 16) for i in range(lanes)]
        self.legal = is_plain_key(text_len - 8) and lanes == count
        self.text_len = text_len

    def all_texts(self):
        return sum(self.texts, [])

    def all_blocks(self):
        return sum(self.blocks, [])

    def texts_with(self, registers):
        """Returns all texts with other registers after their first 8 bytes."""
        made = []
        for text, r in zip(self.texts, registers):
            made += text[:8] + r
        return made


def begin_many(name, given, n, count, lanes):
    many = Lanes(n + 8, count, lanes)
    iv = any_bytes("iv", 8)
    unwraps = name == "keywrap_begin_unwrap_many"
    call = Call(given, name)
    if not unwraps:
        call.reads(iv)
    call.reads(many.all_texts())
    call.number(many.text_len)
    call.changes_numbers(any_bytes("number", 8))
    call.changes(many.all_blocks())

    def begun(text, r):
        if unwraps:
            return standard.with_t(text[:8], steps_of(n)) + r[-8:]
        return iv + r[:8]

    def expected(is_zero):
        if not unwraps and is_reserved(iv, is_zero):
            return BAD_IV, None
        if not many.legal:
            return BAD_LENGTH, None
        number = steps_of(n) if unwraps else 0
        blocks = map(begun, many.texts, many.registers)
        return OK, little(number) + sum(blocks, [])

    call.check(expected, 0 if unwraps else 1)


def step_many(name, given, n, number, count, lanes):
    many = Lanes(n + 8, count, lanes)
    undo = name == "keywrap_step_unwrap_many"
    call = Call(given, name)
    call.changes(many.all_texts())
    call.number(many.text_len)
    call.changes_numbers(little(number))
    call.changes(many.all_blocks())

    def expected(_):
        t = number if undo else number + 1
        if not many.legal or not 1 <= t <= steps_of(n):
            return BAD_LENGTH, None
        registers, blocks = [], []
        for r, block in zip(many.registers, many.blocks):
            after, following, block = stepped(r, t, block, undo)
            registers.append(after)
            blocks += block
        return OK, many.texts_with(registers) + little(following) + blocks

    call.check(expected)


def end_wrap_many(given, n, done, count, lanes):
    many = Lanes(n + 8, count, lanes)
    call = Call(given, "keywrap_end_wrap_many")
    call.changes(many.all_texts())
    call.number(many.text_len)
    call.number(done)
    call.reads(many.all_blocks())

    def expected(_):
        if not many.legal or done != steps_of(n):
            return BAD_LENGTH, None
        after = []
        for r, block in zip(many.registers, many.blocks):
            after += block[:8] + r
        return OK, after

    call.check(expected)


def end_unwrap_many(given, n, left, count, lanes):
    many = Lanes(n + 8, count, lanes)
    iv = any_bytes("iv", 8)
    call = Call(given, "keywrap_end_unwrap_many")
    call.reads(iv)
    call.changes(many.all_texts())
    call.number(many.text_len)
    call.number(left)
    call.changes(many.all_blocks())
    call.changes(any_bytes("status", count))

    def expected(is_zero):
        if is_reserved(iv, is_zero):
            return BAD_IV, None
        if not many.legal or left:
            return BAD_LENGTH, None
        registers, statuses = [], []
        for r, block in zip(many.registers, many.blocks):
            is_good = standard.is_plain(block[:8], is_zero, iv)
            registers.append(r if is_good else [0] * n)
            statuses.append(OK if is_good else INTEGRITY)
        return OK, many.texts_with(registers) + [0] * (16 * count) + statuses

    call.check(expected, forks_with_iv(count))


def begin_wrap_many(given, n, count, lanes):
    begin_many("keywrap_begin_wrap_many", given, n, count, lanes)


def begin_unwrap_many(given, n, count, lanes):
    begin_many("keywrap_begin_unwrap_many", given, n, count, lanes)


def step_wrap_many(given, n, done, count, lanes):
    step_many("keywrap_step_wrap_many", given, n, done, count, lanes)


def step_unwrap_many(given, n, left, count, lanes):
    step_many("keywrap_step_unwrap_many", given, n, left, count, lanes)


# Each function above whose first parameter is `given`.
CALLS = {
    name: f
    for name, f in list(globals().items())
    if getattr(f, "__code__", None) and f.__code__.co_varnames[:1] == ("given",)
}
