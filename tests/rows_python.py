"""Makes the calls of the lines that faces.py writes over the Python package, each with bytes, a bytearray and a
memoryview, and with a Kek. With `steps` by keywrap.steps and pyca's AES."""

import sys

import keywrap.steps
from keywrap import Kind

STATUSES = {
    keywrap.BadInitialValue: 2,
    keywrap.BadKekLength: 3,
    keywrap.BadLength: 4,
    keywrap.IntegrityFailed: 5,
    keywrap.KeyNotPlain: 8,
}


def bytes_of(text):
    return bytes.fromhex(text.replace("-", ""))


def fresh(content):
    """Other bytes with this content: a call that writes into what it reads changes only these."""
    return bytes(bytearray(content))


def flags_of(call, text):
    """The named flags of a call, from the number of the line."""
    number = 0 if text == "-" else int(text)
    if call.startswith("rewrap"):
        return {
            "old_padded": bool(number & 1),
            "new_padded": bool(number & 2),
            "keep_form": bool(number & 4),
            "pass_new": bool(number & 8),
        }
    if call in ("wrap_many", "unwrap_many"):
        return {"padded": bool(number & 15)}
    return {}


def ciphers(kek):
    """AES in both directions, over a KEK."""
    from cryptography.hazmat.primitives.ciphers import Cipher, algorithms, modes

    ecb = Cipher(algorithms.AES(kek), modes.ECB())
    encryptor = ecb.encryptor()
    decryptor = ecb.decryptor()
    return encryptor.update, decryptor.update


def by_steps(name, kek, new_kek, given, more):
    """Makes the call of keywrap.steps, with AES under these KEKs."""
    encrypt, decrypt = ciphers(kek)
    call = getattr(keywrap.steps, name)
    if name == "rewrap":
        new_encrypt, new_decrypt = ciphers(new_kek)
        more["pass_new"] = new_decrypt if more["pass_new"] else None
        return call(decrypt, new_encrypt, given, **more)
    cipher = encrypt if name.startswith("wrap") else decrypt
    return call(cipher, given, **more)


def made_kek(kind, content):
    """A KEK of this type. A KEK of another length cannot become a Kek."""
    if kind is keywrap.Kek and len(content) not in (16, 24, 32):
        return fresh(content)
    return kind(content)


def made_items(make, call, given):
    """The text of a call, or its texts, and a copy that `make` makes of each."""
    if not call.endswith("_many"):
        content = bytes_of(given)
        return content, make(content)
    items = []
    if given != "-":
        items = [bytes_of(item) for item in given.split(",")]
    return items, [make(item) for item in items]


def called(kind, call, kek, new, iv, flags, given):
    """Returns what the call returns or raises. Its arguments have this type, and the call leaves them unchanged."""
    # Only a KEK can be a Kek.
    make = fresh if kind is keywrap.Kek else kind
    items, made = made_items(make, call, given)
    texts = [bytes_of(kek)]
    if call.startswith("rewrap"):
        texts.append(bytes_of(new))
    keks = [made_kek(kind, text) for text in texts]
    more = flags_of(call, flags)
    if call.endswith("_with"):
        more["iv"] = make(bytes_of(iv))
    name = call.replace("kind", "check").removesuffix("_with")
    try:
        if sys.argv[1:] == ["steps"]:
            return by_steps(name, bytes_of(kek), bytes_of(new), made, more)
        if name == "check":
            name = "check_with_length"
        return getattr(keywrap, name)(*keks, made, **more)
    except keywrap.KeywrapError as error:
        return error
    finally:
        assert made == items, "an argument is changed"
        if kind is not keywrap.Kek:
            assert keks == texts, "a KEK is changed"


def status_of(result):
    if result is None:
        return 5
    return STATUSES.get(type(result), 0)


def answers_of_many(call, results):
    """The answers and statuses of a call for many keys."""
    statuses = ",".join(str(status_of(one)) for one in results)
    if call == "check_many":
        forms = ",".join(str(int(one is Kind.PADDED)) for one in results)
        return [("statuses", statuses), ("forms", forms)]
    texts = []
    for one in results:
        texts.append(one.hex() if isinstance(one, bytes) else "")
    return [("out", ",".join(texts)), ("statuses", statuses)]


def answers_of_one(result):
    """The bytes, the form and the length that a call for one key has returned."""
    parts = result if isinstance(result, tuple) else (result,)
    words = []
    for part in parts:
        if type(part) is bytes:
            words.append(("out", part.hex()))
        elif type(part) is Kind:
            words.append(("form", int(part is Kind.PADDED)))
        elif type(part) is int:
            words.append(("len", part))
    return words


def answer(call, result):
    """The returned bytes, kinds and refusals, and the message of the first refusal."""
    words = [("status", status_of(result))]
    if isinstance(result, list):
        words += answers_of_many(call, result)
        results = result
    else:
        words += answers_of_one(result)
        results = [result]
    refusals = [one for one in results if isinstance(one, Exception)]
    if refusals:
        words.append(("text", str(refusals[0])))
    return " ".join(f"{name}={value}" for name, value in words)


def main():
    for line in sys.stdin:
        call, kek, new, iv, flags, given, *_ = line.rstrip("\n").split(" ")
        kinds = [fresh, bytearray, memoryview, keywrap.Kek]
        # Steps of a long key take seconds.
        if len(given) > 10000:
            kinds = [fresh]
        answers = set()
        for kind in kinds:
            result = called(kind, call, kek, new, iv, flags, given)
            answers.add(answer(call.replace("kind", "check"), result))
        print(*answers)


main()
