"""The rules of keywrap.h over OpenSSL's key wrap: the status of a call, and its output.

The arguments of a call are a dictionary: kek, new, iv and given are bytes, flags, room and key_len are numbers, and
what is not given is not there. What is due is a dictionary, too: status, out, len, form and already."""

import ctypes.util
import enum
import functools


class Status(enum.IntEnum):
    """The statuses of keywrap.h."""

    OK = 0
    ALREADY_NEW = 1
    BAD_IV = 2
    BAD_KEK = 3
    BAD_LENGTH = 4
    INTEGRITY = 5
    KEY_NOT_PLAIN = 8


class Form(enum.IntEnum):
    PLAIN = 0
    PADDED = 1


BOTH_FORMS = (Form.PLAIN, Form.PADDED)

# The flags of the calls that rewrap. Calls for many keys take the first two.
OLD_PADDED = 1
NEW_PADDED = 2
KEEP_FORM = 4
PASS_NEW = 8

MAX_KEY = 1 << 20
KEK_LENGTHS = (16, 24, 32)
DEFAULT_IV = b"\xa6" * 8
# How the initial values of the padded form begin.
RESERVED = bytes.fromhex("a65959a6")
# How a kept KEK begins. Behind it is the key schedule.
MARK = b"kept KEK"

CRYPTO = ctypes.CDLL(ctypes.util.find_library("crypto"))


# OpenSSL


@functools.cache
def key_schedule(kek, direction):
    """OpenSSL's AES_KEY, to "encrypt" or to "decrypt"."""
    words = (ctypes.c_uint32 * 61)()
    CRYPTO[f"AES_set_{direction}_key"](kek, 8 * len(kek), words)
    return words


def by_openssl(operation, direction, form, kek, given, iv):
    """The output of OpenSSL's CRYPTO_128_wrap, CRYPTO_128_unwrap_pad and so on, or None."""
    function = f"CRYPTO_128_{operation}"
    if form == Form.PADDED:
        function += "_pad"
        iv = None
    out = ctypes.create_string_buffer(len(given) + 16)
    size = CRYPTO[function](
        key_schedule(kek, direction),
        iv,
        out,
        given,
        ctypes.c_size_t(len(given)),
        CRYPTO[f"AES_{direction}"],
    )
    return out.raw[:size] if size else None


@functools.lru_cache(maxsize=20000)
def wrapped(form, kek, key, iv=DEFAULT_IV):
    """The wrapped key."""
    return by_openssl("wrap", "encrypt", form, kek, key, iv)


@functools.lru_cache(maxsize=20000)
def key_in(form, kek, text, iv=DEFAULT_IV):
    """The key whose wrapping in this form the text is, or None."""
    return by_openssl("unwrap", "decrypt", form, kek, text, iv)


def with_words_turned(content):
    words = (content[at : at + 4] for at in range(0, len(content), 4))
    return b"".join(word[::-1] for word in words)


@functools.cache
def kept_kek(kek):
    """The mark and the words of FIPS 197, 5.2. OpenSSL may hold each word in the order of this machine."""
    schedule = bytes(key_schedule(kek, "encrypt"))[: schedule_length(kek)]
    if not schedule.startswith(kek):
        schedule = with_words_turned(schedule)
    return MARK + schedule


def schedule_length(kek):
    return 4 * len(kek) + 112


def kept_length(kek):
    return len(MARK) + schedule_length(kek)


# Lengths


def is_raw_kek(kek):
    return len(kek) in KEK_LENGTHS


def is_kek(kek):
    """A KEK, or one that is kept: its length and its mark decide."""
    is_kept = len(kek) in (184, 216, 248) and kek.startswith(MARK)
    return is_raw_kek(kek) or is_kept


def is_initial_value(iv):
    return len(iv) == 8 and not iv.startswith(RESERVED)


def rounded(length):
    """The length with its padding."""
    return (length + 7) // 8 * 8


def is_key(form, length):
    """Whether a key of this length can be wrapped in this form."""
    if form == Form.PADDED:
        return 1 <= length <= MAX_KEY
    return 16 <= length <= MAX_KEY and length % 8 == 0


def is_text(form, length):
    """Whether a wrapped key in this form can have this length."""
    least = 16 if form == Form.PADDED else 24
    return least <= length <= MAX_KEY + 8 and length % 8 == 0


def unwrapped_room(text):
    """The length of the buffer that an unwrap writes."""
    return max(len(text) - 8, 0)


def are_flags(call, flags):
    """Whether a call takes these flags."""
    if call == "rewrap_in_place":
        return flags < KEEP_FORM
    if call.startswith("rewrap"):
        has_form_twice = flags & KEEP_FORM and flags & (OLD_PADDED | NEW_PADDED)
        return flags < 16 and not has_form_twice
    if call == "wrap_many":
        return flags in (0, NEW_PADDED)
    return flags in (0, OLD_PADDED)


# Calls


def due(call, arguments):
    """The status of a call for one key, and what it writes. The first refusal that applies is the one."""
    kek = arguments["kek"]
    if not is_initial_value(arguments.get("iv", DEFAULT_IV)):
        return {"status": Status.BAD_IV}
    if call == "kek_clear":
        return {"status": Status.OK, "out": bytes(len(arguments["given"]))}
    if call == "kek_init" and not is_raw_kek(kek):
        return {"status": Status.BAD_KEK}
    if not is_kek(kek) or not is_kek(arguments.get("new", kek)):
        return {"status": Status.BAD_KEK}
    return CALLS[call](arguments)


def kek_init(arguments):
    kek = arguments["kek"]
    if not has_room(arguments, kept_length(kek)):
        return {"status": Status.BAD_LENGTH}
    return {"status": Status.OK, "out": kept_kek(kek)}


def has_room(arguments, needed):
    """Whether the buffer that is written has the length that is needed. Without one it has."""
    return arguments.get("room", needed) == needed


def wrap(form, arguments):
    key = arguments["given"]
    if not is_key(form, len(key)) or not has_room(arguments, rounded(len(key)) + 8):
        return {"status": Status.BAD_LENGTH}
    iv = arguments.get("iv", DEFAULT_IV)
    return {"status": Status.OK, "out": wrapped(form, arguments["kek"], key, iv)}


def wrap_in_place(arguments):
    """Only of a buffer that has no room for a key. What is done follows from `wrap`."""
    assert not is_key(Form.PLAIN, len(arguments["given"]) - 8)
    return {"status": Status.BAD_LENGTH}


def wrap_padded_in_place(arguments):
    """Only of a key that the buffer has no room for. What is done follows from `wrap_padded`."""
    length = arguments["key_len"]
    has_room = len(arguments["given"]) == rounded(length) + 8
    assert not (is_key(Form.PADDED, length) and has_room)
    return {"status": Status.BAD_LENGTH}


def unwrap(forms, arguments):
    """In the one of these forms in which the text is a wrapping. An unwrap in either form names it."""
    text = arguments["given"]
    room = unwrapped_room(text)
    if not is_text(max(forms), len(text)) or not has_room(arguments, room):
        return {"status": Status.BAD_LENGTH}
    for form in forms:
        key = key_in(form, arguments["kek"], text, arguments.get("iv", DEFAULT_IV))
        if key is not None:
            found = {"status": Status.OK, "out": key}
            if len(forms) > 1:
                found["form"] = form
            if Form.PADDED in forms:
                found["len"] = len(key)
            return found
    return {"status": Status.INTEGRITY, "out": bytes(room)}


def kind(arguments):
    """As `unwrap_any`, but its scratch buffer ends with zeros, and nothing of another length is a wrapping."""
    text = arguments["given"]
    if not is_text(Form.PADDED, len(text)):
        return {"status": Status.INTEGRITY}
    found = unwrap(BOTH_FORMS, arguments)
    if "out" in found:
        found["out"] = bytes(unwrapped_room(text))
    return found


def old_forms(flags):
    """The forms in which a rewrap takes what it is given."""
    if flags & KEEP_FORM:
        return BOTH_FORMS
    return (Form.PADDED if flags & OLD_PADDED else Form.PLAIN,)


def new_forms(flags):
    """The forms in which a rewrap writes."""
    if flags & KEEP_FORM:
        return BOTH_FORMS
    return (Form.PADDED if flags & NEW_PADDED else Form.PLAIN,)


def wrapping_in(forms, kek, text):
    """The form of these in which the text is a wrapping under this KEK, and its key; or None."""
    for form in forms:
        if is_text(form, len(text)):
            key = key_in(form, kek, text)
            if key is not None:
                return form, key
    return None


def rewrap(arguments):
    """A refusal leaves the buffer as it was."""
    text = arguments["given"]
    flags = arguments["flags"]
    if not are_flags("rewrap", flags):
        return {"status": Status.BAD_LENGTH}
    found = wrapping_in(old_forms(flags), arguments["kek"], text)
    if found:
        form, key = found
        new_form = form if flags & KEEP_FORM else new_forms(flags)[0]
        if not is_key(new_form, len(key)):
            return {"status": Status.KEY_NOT_PLAIN}
        return {"status": Status.OK, "out": wrapped(new_form, arguments["new"], key)}
    if flags & PASS_NEW and wrapping_in(new_forms(flags), arguments["new"], text):
        return {"status": Status.OK, "already": 1}
    if not is_text(max(old_forms(flags)), len(text)):
        return {"status": Status.BAD_LENGTH}
    return {"status": Status.INTEGRITY}


def rewrap_of_version_1_0(arguments):
    """It has no later flags, no status of its own for a key that is not plain, and leaves zeros if a check fails."""
    if not are_flags("rewrap_in_place", arguments["flags"]):
        return {"status": Status.BAD_LENGTH}
    found = rewrap(arguments)
    zeros = bytes(len(arguments["given"]))
    if found["status"] == Status.INTEGRITY:
        return {"status": Status.INTEGRITY, "out": zeros}
    if found["status"] == Status.KEY_NOT_PLAIN:
        return {"status": Status.BAD_LENGTH, "out": zeros}
    return found


CALLS = {
    "kek_init": kek_init,
    "wrap": functools.partial(wrap, Form.PLAIN),
    "wrap_with": functools.partial(wrap, Form.PLAIN),
    "wrap_padded": functools.partial(wrap, Form.PADDED),
    "wrap_in_place": wrap_in_place,
    "wrap_padded_in_place": wrap_padded_in_place,
    "unwrap": functools.partial(unwrap, (Form.PLAIN,)),
    "unwrap_with": functools.partial(unwrap, (Form.PLAIN,)),
    "unwrap_padded": functools.partial(unwrap, (Form.PADDED,)),
    "unwrap_any": functools.partial(unwrap, BOTH_FORMS),
    "kind": kind,
    "rewrap": rewrap,
    "rewrap_in_place": rewrap_of_version_1_0,
}


# Calls for many keys


def is_slot_length(call, flags, length):
    """Whether a call for many keys takes slots with this content."""
    if call == "wrap_many":
        return is_key(Form.PADDED if flags else Form.PLAIN, length)
    takes_padded = call == "kind_many" or flags & (OLD_PADDED | KEEP_FORM)
    return is_text(Form.PADDED if takes_padded else Form.PLAIN, length)


def due_of_slots(call, flags, slots):
    """The statuses and the outputs of a call for many keys. `slots` has the content of each, at least one, and what is
    due of a call for that one key. `flags` is None for a call that has none."""
    contents = [content for content, _ in slots]
    alone = [due for _, due in slots]
    if alone[0]["status"] == Status.BAD_KEK:
        return {"status": Status.BAD_KEK}
    if flags is not None and not are_flags(call, flags):
        return {"status": Status.BAD_LENGTH}
    if not is_slot_length(call, flags, len(contents[0])):
        return {"status": Status.BAD_LENGTH}
    outputs = [slot_after(call, content, due) for content, due in slots]
    return {
        "status": Status.OK,
        "statuses": [slot_status(due) for due in alone],
        "out": outputs,
        "lens": [due.get("len", len(output)) for due, output in zip(alone, outputs)],
        "forms": [due.get("form", 0) for due in alone],
        "already": [due.get("already", 0) for due in alone],
    }


def slot_status(due):
    return Status.ALREADY_NEW if due.get("already") else due["status"]


def slot_after(call, content, due):
    """The content of a slot after the call. A refused slot has none, but a rewrap leaves it as it was."""
    if due["status"] == Status.OK or call == "rewrap_many":
        return due.get("out", content)
    return b""
