"""Calls for a program that rotates a store of its own: kubernetes_secret.py is an example."""

from typing import Dict, Mapping

from .found import Found, Refused
from .keks import Keks
from .keys import Notation, rewrapped_texts
from .options import keks_of, parse


def challenges() -> Keks:
    """Reads the KEKs of the files that `KEYWRAP_KEK` and `KEYWRAP_NEW_KEK` name. Returns these names and a challenge,
    by which another machine sees whether its KEKs are the same. Raises `WrongKeks`."""
    return keks_of(parse(["any store"])).challenged()


def rewrap_all(keys: Mapping[str, bytes], keks: Keks) -> Dict[str, bytes]:
    """Rewraps wrapped keys, raw bytes each, in their form. A key that is under the new KEK already stays. The names are
    for refusals. `keks` is the result of `challenges` at the beginning of the rotation. Raises `WrongKeks` if this
    machine's KEKs are others, and `Refused` with the names of the keys that are under neither KEK.
    """
    names = list(keys)
    found = Found()
    fresh = rewrapped_texts(
        keks.rings(),
        Notation("raw"),
        [keys[name] for name in names],
        found,
        names.__getitem__,
    )
    if found.refused:
        raise Refused("; ".join(f"{name!r}: {why}" for name, why in found.named))
    return {name: fresh.get(at, keys[name]) for at, name in enumerate(names)}
