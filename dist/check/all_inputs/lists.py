"""The lists of calls: each is the name of a function of calls.py and its numbers."""

import itertools

from calls import LONGEST, is_plain_key

# The lengths of KEKs, and of kept KEKs.
KEKS = (16, 24, 32)
KEPT = (184, 216, 248)
SHORT = """
kek_init 16 184,kek_init 24 216,kek_init 32 248,kek_init 17 184,kek_init 16 183
kek_clear 184,kek_clear 216,kek_clear 248,unmarked 184
wrap 16 16,wrap 184 16,wrap 216 16,wrap 24 24,wrap 32 16,wrap 32 32,wrap 16 352,wrap 17 16,wrap 17 8 8,wrap 16 8
wrap 16 17,wrap 16 20,wrap 16 16 23,wrap_claiming 16 4294967312 24,wrap_claiming 4294967312 16 24
wrap_claiming 16 18446744073709551608 0,wrap_claiming 16 16 4294967320,wrap_of_kek 16
unwrap 16 16,unwrap 184 16,unwrap 24 24,unwrap 24 32,unwrap 32 16,unwrap 32 32,unwrap 16 352,unwrap 16 16 23,unwrap 16 8
unwrap_of_kek 24,wrap_with 16 16,unwrap_with 16 16
wrap_padded 16 1,wrap_padded 16 17,wrap_padded 32 9,wrap_padded 16 65,wrap_padded 16 0,wrap_padded 16 16 23
unwrap_padded 16 8,unwrap_padded 32 16,unwrap_padded 216 16,unwrap_padded 16 15,unwrap_padded 16 16 23
wrap_in_place 16 16,wrap_in_place 184 16,unwrap_in_place 16 16,unwrap_in_place 24 24
wrap_padded_in_place 16 9,wrap_padded_in_place 24 9,unwrap_padded_in_place 16 16
unwrap_any 16 16,unwrap_any 184 16,unwrap_any 248 16,kind 16 16,kind 248 16
rewrap 16 24 24 1,rewrap 16 24 24 5,rewrap 16 32 24 8,rewrap 32 32 40 8,rewrap 184 248 24 9,rewrap 16 24 24 65536
rewrap_same_kek 16 24 1,rewrap_in_place 16 16 24 2,rewrap_in_place 16 32 24 1
rewrap_steps 16 24 24 9,rewrap_steps 16 16 16 4 1,rewrap_steps 16 24 40 0
wrap_many 16 16 0 2,wrap_many 16 16 0 3,wrap_many 24 16 0 3,unwrap_many 16 24 0 2,rewrap_many 16 16 24 0 1
kind_many 16 16 1,uneven_wrap_many 49 2,uneven_unwrap_many 48 1 2,uneven_rewrap_many 49 2,uneven_kind_many 48 2 1 2
begin_wrap 16 8,begin_wrap_padded 5 8,step_wrap 16 3,step_wrap 8 0,step_wrap 87392 65535,end_wrap 16 12
begin_unwrap 16 0,begin_unwrap 88192,begin_unwrap 8 1,step_unwrap 16 3,step_unwrap 87392 65537,end_unwrap 16 0
end_unwrap_padded 16 0,end_unwrap_any 16 0,begin_wrap_many 16 2 2,step_wrap_many 16 3 2 2,end_wrap_many 16 12 2 2
begin_unwrap_many 16 2 2,step_unwrap_many 16 3 2 2,end_unwrap_many 16 0 2 2
version,status_text 5 80,status_text 0 3,status_text -1 0,self_test
step_count 8,step_count 16,step_count 4096,step_count 1048576
"""
FLAGS = (0, 1, 2, 3, 4, 8, 9, 10, 11, 12)
NO_FLAGS = (5, 6, 7, 13, 14, 15, *(1 << bit for bit in range(4, 32)))
IN_PLACE = (
    "wrap_in_place",
    "unwrap_in_place",
    "wrap_padded_in_place",
    "unwrap_padded_in_place",
)
FOR_ONE_KEY = (
    *IN_PLACE,
    "wrap",
    "unwrap",
    "wrap_with",
    "unwrap_with",
    "wrap_padded",
    "unwrap_padded",
    "unwrap_any",
    "kind",
)


# Numbers of steps of two bytes, in calls that count them themselves. Lanes of libkeywrap_hw.
MIDDLE = """
rewrap 16 24 360 0,rewrap 16 24 360 10,rewrap_in_place 16 24 360 0,rewrap_steps 16 24 360 0,wrap_many 16 352 0 2 1
unwrap_many 16 360 0 2 1,kind_many 16 360 2 1,rewrap_many 16 24 360 0 2 0,step_wrap_many 352 256 2 2
step_unwrap_many 352 257 2 2
"""
# Numbers of steps of two and of three bytes, first those that take longest. Round keys of any value are more than any
# KEK.
FAR = """
wrap 184 87392,wrap 16 4096,unwrap 16 4096,step_wrap 87392 255,step_wrap 87392 256,step_wrap 87392 257
step_wrap 87392 65535,step_wrap 87392 65536,step_wrap 87392 65537,step_unwrap 87392 255,step_unwrap 87392 256
step_unwrap 87392 257,step_unwrap 87392 65535,step_unwrap 87392 65536,step_unwrap 87392 65537,begin_unwrap 88192
"""
TOO_LONG = """
wrap 16 1048584,unwrap 16 1048584,wrap_in_place 16 1048584,unwrap_in_place 16 1048584,wrap_padded 16 1048584
unwrap_padded 16 1048584,unwrap_any 16 1048584,begin_wrap 1048584 8,begin_unwrap 1048584,step_wrap 1048584 8
step_unwrap 1048584 8,end_wrap 1048584 786438,end_unwrap 1048584 0,end_unwrap_padded 1048584 0
end_unwrap_any 1048584 0,rewrap 16 24 1048592 0
"""


def parsed(text):
    for line in text.replace("\n", ",").split(","):
        if line:
            name, *numbers = line.split()
            yield name, *map(int, numbers)


def every_length_list():
    """The calls for one key at every length, of a module, but rewraps."""
    for kek, name in itertools.product((*KEKS, *KEPT), FOR_ONE_KEY):
        yield f"{name}_at_every_length", kek
    for name in FOR_ONE_KEY:
        yield (f"{name}_of_any_other_kek",)


def rewraps_at_every_length(pairs, flags=FLAGS):
    """Rewraps with these pairs of KEKs, of a module."""
    for (old, new), flag in itertools.product(pairs, flags):
        yield "rewrap_at_every_length", old, new, flag
        if flag < 4:
            yield "rewrap_in_place_at_every_length", old, new, flag


def short_rewraps_at_every_length():
    """Rewraps with all flags, and with each KEK as the old one and as the new one."""
    yield from rewraps_at_every_length([(16, 24)])
    for pair, flag in zip(((24, 32), (32, 184), (184, 216), (216, 248)), (0, 1, 2, 3)):
        yield from rewraps_at_every_length([pair], [flag])
    yield from rewraps_at_every_length([(248, 16)], [4])
    for name in "rewrap", "rewrap_in_place":
        yield f"{name}_of_any_other_flags", 16, 24
        yield (f"{name}_of_any_other_kek",)


def at_every_length(name, *numbers):
    """Returns the call at every length that is about this call, too, or None. It is about the right lengths only, for
    a key of two registers or more."""
    if name in FOR_ONE_KEY and len(numbers) == 2:
        keks, length = numbers[:1], numbers[1]
    elif name in ("rewrap", "rewrap_in_place"):
        keks, length = (*numbers[:2], numbers[3]), numbers[2] - 8
    else:
        return None
    is_whole = name.startswith("wrap_padded") or length % 8 == 0
    if not is_whole or not 8 < length <= LONGEST:
        return None
    return f"{name}_at_every_length", *keks


def short_list():
    yield from parsed(SHORT)
    yield from every_length_list()
    yield from short_rewraps_at_every_length()


def one_of_each():
    """The first call of the short list for each name."""
    found = {}
    for name, *numbers in short_list():
        found.setdefault(name, (name, *numbers))
    return found.values()


def lengths_list(keks, most, most_in_place):
    """Every call for one key, at each length to `most`."""
    for kek in keks:
        for n in range(16, most + 1, 8):
            for name in "wrap", "unwrap", "wrap_with", "unwrap_with":
                yield name, kek, n
        for n in range(1, most + 1):
            yield "wrap_padded", kek, n
        for n in range(8, most + 1, 8):
            for name in "unwrap_padded", "unwrap_any", "kind":
                yield name, kek, n
        for n in range(1, most_in_place + 1):
            yield "wrap_padded_in_place", kek, n
            if n % 8 == 0:
                yield "unwrap_padded_in_place", kek, n
            if is_plain_key(n):
                yield "wrap_in_place", kek, n
                yield "unwrap_in_place", kek, n


def kept_list():
    lengths_of_kek = (0, 8, 15, *KEKS, 33, *KEPT)
    lengths_of_kept = (0, 183, 185, *KEPT, 384)
    for kek, kept in itertools.product(lengths_of_kek, lengths_of_kept):
        yield "kek_init", kek, kept
    for n in 0, 1, 16, 183, *KEPT, 1000:
        yield "kek_clear", n
    yield from parsed("unmarked 184,unmarked 216,unmarked 248")


def rewraps_list(pairs, texts, flags=FLAGS):
    for flag, text, (old, new) in itertools.product(flags, texts, pairs):
        yield "rewrap", old, new, text, flag
        if flag < 4 and text <= 32:
            yield "rewrap_in_place", old, new, text, flag


def rewrap_steps_list(texts):
    """These calls have no KEK."""
    for flags, text, from_copy in itertools.product(FLAGS, texts, (0, 1)):
        yield "rewrap_steps", 16, 24, text, flags, from_copy


def middle_list():
    for name in FOR_ONE_KEY:
        yield name, 16, 352
    yield from parsed(MIDDLE)


def many_list(keks, slots, places):
    """Calls for one key and for two, and for as many as there are slots, of which one is refused: at each place."""
    for kek, count in itertools.product(keks, (1, 2)):
        yield "wrap_many", kek, 16, 0, count
        yield "wrap_many", kek, 11, 2, count
        yield "wrap_many", kek, 5, 2, count
        yield "unwrap_many", kek, 24, 0, count
        yield "unwrap_many", kek, 16, 1, count
        yield "kind_many", kek, 16, count
        yield "kind_many", kek, 24, count
        yield "rewrap_many", kek, 24, 16, 11, count
        yield "rewrap_many", kek, 24, 24, 0, count
    for flags in FLAGS:
        yield "rewrap_many", 184, 216, 24, flags, 1
    yield from parsed(
        "wrap_many 184 16 0 48,wrap_many 184 16 0 49,rewrap_many 184 216 24 9 2,unwrap_many 16 24 0 9 -1,"
        "kind_many 16 24 9 -1,rewrap_many 16 24 24 0 9 -1"
    )
    for only in places:
        yield "unwrap_many", 16, 24, 0, slots, only
        yield "kind_many", 16, 24, slots, only
        yield "rewrap_many", 16, 32, 24, 12, slots, only
    for only in 0, slots - 1:
        yield "unwrap_many", 32, 24, 1, slots, only
        yield "rewrap_many", 16, 32, 24, 8, slots, only
        yield "rewrap_many", 16, 32, 24, 9, slots, only


def steps_list(most):
    """The calls of keywrap_steps.h, for keys of up to this length: each step, and one too far."""
    for n in range(most + 2):
        steps = 6 * n // 8
        for iv in 0, 7, 8, 9:
            yield "begin_wrap", n, iv
        yield "begin_unwrap", n, 0
        yield "begin_unwrap", n, 1
        for left in 0, 1:
            yield "end_unwrap", n, left
            yield "end_unwrap_padded", n, left
            yield "end_unwrap_any", n, left
        for key in range(n + 2):
            yield "begin_wrap_padded", key, n
        for done in range(steps + 2):
            yield "step_wrap", n, done
            yield "step_unwrap", n, done
            yield "end_wrap", n, done
    for n, count, lanes in itertools.product((8, 16, 17, 24), (1, 2), (1, 2)):
        steps = 6 * n // 8
        yield "begin_wrap_many", n, count, lanes
        yield "begin_unwrap_many", n, count, lanes
        for number in range(steps + 2):
            yield "step_wrap_many", n, number, count, lanes
            yield "step_unwrap_many", n, number, count, lanes
            yield "end_wrap_many", n, number, count, lanes
            yield "end_unwrap_many", n, number, count, lanes


def refused_lengths_list():
    """Lengths of a KEK, a key or a wrapped key and a result, and of the initial value."""
    for kek, n in itertools.product((0, 15, 16, 17, 24, 32, 33), (0, 1, 8, 15, 16, 17)):
        for out, name in itertools.product((0, 8, 16, 23, 24, 25), FOR_ONE_KEY):
            if name not in IN_PLACE and "with" not in name:
                yield name, kek, n, out
        for name in IN_PLACE:
            yield name, kek, n
        yield from refused_rewraps_list(kek, n)
    for kek, n, name in itertools.product(KEKS, range(34), FOR_ONE_KEY):
        if n % 8 and not name.startswith("wrap_padded"):
            yield name, kek, n
    for name, iv in itertools.product(("wrap_with", "unwrap_with"), (0, 7, 9)):
        yield name, 16, 16, iv


def refused_rewraps_list(old_kek, new_kek):
    """Rewraps with one KEK that is refused, or with a wrapped key that is."""
    has_one_bad_kek = (old_kek, new_kek) in ((17, 16), (16, 17))
    for text, flags in itertools.product((0, 8, 15, 16, 23), (0, 1, 4, 5, 8, 16)):
        is_bad_text = new_kek == 16 and text != 16
        if has_one_bad_kek or is_bad_text:
            yield "rewrap", old_kek, new_kek, text, flags
            yield "rewrap_in_place", old_kek, new_kek, text, flags


def refused_keks_list():
    """KEKs that are refused, in every call that has one."""
    for kek in 8, 20, 28, 40, 176, 208, 272:
        for name in FOR_ONE_KEY:
            yield name, kek, 16
        for old, new in (kek, 16), (16, kek):
            yield "rewrap", old, new, 24, 0
            yield "rewrap_in_place", old, new, 24, 0
            yield "rewrap_many", old, new, 24, 0, 2
        yield "wrap_many", kek, 16, 0, 2
        yield "unwrap_many", kek, 24, 0, 2
        yield "kind_many", kek, 24, 2


def refused_slots_list():
    """Buffers for many keys that are not as many slots as the others have, or have no length."""
    for n, count in (0, 0), (48, 0), (0, 2), (47, 2), (49, 2), (24, 2), (48, 3):
        yield "uneven_wrap_many", n, count
        yield "uneven_rewrap_many", n, count
        yield "uneven_unwrap_many", n, count, count
        yield "uneven_kind_many", n, count, count, count
    for n in 0, 1, 3:
        yield "uneven_unwrap_many", 48, n, 2
        yield "uneven_kind_many", 48, n, 2, 2
        yield "uneven_kind_many", 48, 2, n, 2
    for kek, n in (17, 24), (16, 0), (16, 23):
        yield "kind_many", kek, n, 2
        yield "rewrap_many", kek, 16, n, 0, 2
        yield "rewrap_many", 16, kek, n, 12, 2


def refused_flags_list():
    """Flags that no call has, and those that another call has."""
    for flags in NO_FLAGS:
        yield "rewrap", 16, 24, 24, flags
        yield "rewrap_steps", 16, 24, 24, flags
        yield "rewrap_many", 16, 24, 24, flags, 2
    for flags in *NO_FLAGS, 4, 8, 12:
        yield "rewrap_in_place", 16, 24, 24, flags
        yield "wrap_many", 16, 16, flags ^ 1, 2
        yield "unwrap_many", 16, 24, flags ^ 2, 2


def refused_many_list():
    """Calls for many keys with a KEK, a length or a flag that is refused."""
    for name, kek, n, flags in itertools.product(
        ("wrap_many", "unwrap_many"), (16, 17), (0, 8, 23, 24), (0, 1, 2, 4)
    ):
        is_refused_flag = flags == 4
        has_right_lengths = (kek, n) == (16, 24)
        is_padded_unwrap = (name, flags) == ("unwrap_many", 1)
        if is_refused_flag or not has_right_lengths and not is_padded_unwrap:
            yield name, kek, n, flags, 2


def refusals_list():
    """Lengths, KEKs and flags that are refused, and their neighbours."""
    yield from refused_lengths_list()
    yield from refused_many_list()
    yield from parsed(TOO_LONG)
    yield from refused_keks_list()
    yield from refused_slots_list()
    yield from refused_flags_list()


def long_list():
    yield from every_length_list()
    yield from short_rewraps_at_every_length()
    yield from middle_list()
    yield from kept_list()
    yield from lengths_list(KEKS, 24, 16)
    yield from lengths_list(KEPT, 16, 16)
    yield from rewraps_list(((16, 24),), (16, 24))
    yield from rewraps_list(((24, 32), (32, 16), (184, 248)), (24,), (0, 12))
    yield from rewrap_steps_list((16, 24))
    yield from many_list((16, 216), 7, (0, 3))
    yield from steps_list(24)
    yield from refusals_list()
    yield "self_test",


def full_list():
    yield from every_length_list()
    yield from short_rewraps_at_every_length()
    yield from rewraps_at_every_length(itertools.product((*KEKS, *KEPT), repeat=2))
    yield from parsed(FAR)
    yield from middle_list()
    yield from kept_list()
    yield from lengths_list(KEKS, 64, 24)
    yield from lengths_list(KEPT, 24, 16)
    yield from rewraps_list(itertools.product(KEKS, KEKS), (16, 24))
    yield from rewraps_list(
        (*zip(KEKS, KEPT), *zip(KEPT, KEKS), (184, 248)), (24,), (0, 12)
    )
    yield from rewraps_list(((184, 216),), range(32, 80, 8))
    yield from rewrap_steps_list((16, 24, 32))
    yield from many_list((*KEKS, *KEPT), 7, range(7))
    yield from steps_list(64)
    yield from refusals_list()
    yield "self_test",


def lanes_list():
    """For libkeywrap_hw, which works on 48 keys at once. It copies slots of at most 264 bytes."""
    yield from parsed(
        "rewrap_many 16 24 264 0 48 0,rewrap_many 16 24 272 8 48 0,rewrap_many 16 24 24 0 49 -1,"
        "kind_many 16 264 48 0,kind_many 16 272 48 0,kind_many 16 24 49 -1,unwrap_many 16 24 0 49 -1"
    )
    yield from many_list((16,), 49, range(49))


LISTS = {"short": short_list, "long": long_list, "full": full_list, "lanes": lanes_list}
