"""The KEKs of a rotation. Each process reads them from its own machine's files, or uses the tokens that have them, and
compares them by a challenge."""

import binascii
import errno
import hashlib
import os
import re
import resource
import select
import stat
import time
from typing import (
    Any,
    Callable,
    Dict,
    Iterator,
    List,
    Mapping,
    NamedTuple,
    Optional,
    Tuple,
    TypeVar,
)

import keywrap

from . import pkcs11
from .apart import apart
from .found import EqualKeks, Unanswered, WrongKeks
from .kek_calls import Kek, is_under, is_same, wrapped_under
from .linux import DUMPABLE, set_process
from .pkcs11_uri import is_uri, parsed

#: The most bytes that a KEK file has.
_KEK_FILE = 4096
#: The most bytes that a file with a PIN has.
_PIN_FILE = 256
#: The most bytes that a table of KEKs has.
_TABLE = 1 << 24
#: How long a KEK that is a pipe may take.
PIPE_SECONDS = 60.0
#: How long a token may take to compare its KEKs with others.
TOKEN_SECONDS = 60.0
#: The content of KEK files that are pipes: read once, before any process is forked.
_held: Dict[str, bytes] = {}


def protect_process() -> None:
    """No core file, and no other process of the user reads the memory of this one, nor of those that it forks."""
    resource.setrlimit(resource.RLIMIT_CORE, (0, 0))
    set_process(DUMPABLE, 0)


Result = TypeVar("Result")


class Ring(NamedTuple):
    """The KEKs themselves: those that a key may be under, by their labels, and the new one. Not for a pickle."""

    old: Tuple[Tuple[str, Kek], ...]
    new: Kek

    def has_token(self) -> bool:
        """Whether one of the KEKs is in a token."""
        keks = [self.new, *(kek for _, kek in self.old)]
        return any(isinstance(kek, pkcs11.TokenKek) for kek in keks)

    def __reduce__(self) -> Any:
        raise TypeError("KEKs are not sent")


#: The rings by the names that a store has for its KEKs, or the one for all keys by `None`.
Rings = Mapping[Optional[str], Ring]


def _content(path: str, what: str, most: int) -> bytes:
    """Reads a file. A name of hex digits is not shown: somebody may have given a KEK in its place."""
    shown = path
    if re.fullmatch("(?:[0-9A-Fa-f]{2}){16,}", os.path.basename(path)):
        shown = "it"
    if path in _held:
        return _held[path]
    try:
        # Opening a named pipe would wait for a writer.
        with open(path, "rb", opener=_at_once, buffering=0) as file:
            is_file = stat.S_ISREG(os.fstat(file.fileno()).st_mode)
            content = _read_within(file.fileno(), most + 1)
    except OSError as error:
        raise WrongKeks(f"{what}: {shown}: {error.strerror}") from None
    if len(content) > most:
        raise WrongKeks(f"{what}: {shown}: too long")
    return content if is_file else _held.setdefault(path, content)


def _at_once(path: str, flags: int) -> int:
    return os.open(path, flags | os.O_NONBLOCK)


def _read_within(descriptor: int, most: int) -> bytes:
    """Reads until the end, or this many bytes. Raises `TimeoutError` if a pipe has no writer, or one that waits."""
    content = b""
    poll = select.poll()
    poll.register(descriptor, select.POLLIN)
    until = time.monotonic() + PIPE_SECONDS
    while len(content) < most:
        left = max(0.0, until - time.monotonic())
        if not poll.poll(left * 1000):
            why = f"nobody wrote into it for {PIPE_SECONDS:g} seconds"
            raise TimeoutError(errno.ETIMEDOUT, why)
        block = os.read(descriptor, most - len(content))
        if not block:
            break
        content += block
    return content


def _digits(content: bytes) -> Optional[bytes]:
    try:
        return binascii.unhexlify(content.translate(None, b" \t\r\n"))
    except ValueError:
        return None


def _is_under(kek: Kek, challenge: Optional[bytes]) -> bool:
    return challenge is not None and is_under(kek, challenge)


def _token_kek(text: str, what: str) -> pkcs11.TokenKek:
    """Returns the KEK that a PKCS#11 URI names. Its token is not used yet."""
    uri = parsed(text)
    pin = None
    if uri.pin_file is not None:
        pin = _content(uri.pin_file, f"the PIN of {what}", _PIN_FILE)
        pin = re.sub(rb"\r?\n\Z", b"", pin)
    return pkcs11.token_kek(uri, pin)


def _read(path: str, what: str, is_raw: bool) -> Kek:
    """Reads a KEK. No error contains its bytes."""
    if is_uri(path):
        return _token_kek(path, what)
    content = _content(path, what, _KEK_FILE)
    digits = _digits(content)
    kek = content if is_raw else digits
    if kek is None:
        why = "not hex: --raw-kek reads a KEK of raw bytes"
    elif len(kek) in (16, 24, 32):
        return kek
    elif is_raw and digits:
        why = "looks like hex: omit --raw-kek to read it as hex"
    else:
        why = f"the KEK is {len(kek)} bytes long; it must be 16, 24 or 32 bytes"
    raise WrongKeks(f"{what}: {path}: {why}")


def table_of(path: str, option: str) -> Dict[str, str]:
    """Reads lines NAME=FILE or NAME=URI, of PKCS#11. A relative path begins at the directory of the table."""
    found: Dict[str, str] = {}
    lines = (
        _content(path, option, _TABLE)
        .decode("utf-8", "surrogateescape")
        .rstrip("\r\n")
        .split("\n")
    )
    for number, line in enumerate(lines, 1):
        name, _, file = line.rstrip("\r").partition("=")
        if not (name and file) or name in found:
            raise WrongKeks(
                f"{option}: {path}: line {number} is not NAME=FILE, or has the name of an earlier line"
            )
        found[name] = file
        if not is_uri(file):
            found[name] = os.path.join(os.path.dirname(path), file)
    return found


class Keks(NamedTuple):
    """The files, or PKCS#11 URIs, of the KEKs and of the new KEK, by the names that a store has next to its keys, or by
    `None` for all keys; and once `challenged`, a random key that is wrapped under a digest of all KEKs.
    """

    files: Mapping[Optional[str], Tuple[Tuple[str, ...], str]]
    is_raw: bool = False
    challenge: Optional[bytes] = None

    def _read(self) -> Rings:
        """Reads the KEKs anew. Tokens are not used yet."""
        rings: Dict[Optional[str], Ring] = {}
        for name, (paths, new) in self.files.items():
            of = "" if name is None else f" of {name!r}"
            old = (
                (name or path, _read(path, "the KEK" + of, self.is_raw))
                for path in paths
            )
            rings[name] = Ring(tuple(old), _read(new, "the new KEK" + of, self.is_raw))
        return rings

    def rings(self) -> Rings:
        """Reads the KEKs anew. Raises `WrongKeks` unless they are those that the rotation began with, and `Unanswered`
        if a token has no answer."""
        rings = self._read()
        if (
            self.challenge is not None
            and keywrap.check(_digest(rings), self.challenge) is None
        ):
            raise WrongKeks(
                "the KEKs of this machine are not those that the rotation began with"
            )
        return rings

    def _by_tokens(self, work: Callable[[], Result]) -> Result:
        """Does this work, in a process of its own if it needs a token. So this process can start others: no process
        may inherit a token's session. It also outlives a token that never answers.
        """
        # Here a KEK or a PIN that is a pipe is read, once for all processes.
        if not any(ring.has_token() for ring in self._read().values()):
            return work()

        def checked() -> Result:
            try:
                return work()
            except Unanswered as error:
                raise WrongKeks(str(error)) from None

        return apart(checked, TOKEN_SECONDS)

    def challenged(self, new_challenge: Optional[str] = None) -> "Keks":
        """Compares the KEKs with each other, and with a challenge of the new one."""
        return self._by_tokens(lambda: self._challenged(new_challenge))

    def _challenged(self, new_challenge: Optional[str]) -> "Keks":
        rings = self.rings()
        for ring in rings.values():
            if any(is_same(kek, ring.new) for _, kek in ring.old):
                raise EqualKeks("the KEK and the new KEK are the same key")
        if new_challenge is not None:
            one = _digits(_content(new_challenge, "--new-challenge", _TABLE))
            files = table_of(new_challenge, "--new-challenge") if one is None else {}
            for name, ring in rings.items():
                path = files.get(name or "")
                wrapped = (
                    one
                    if path is None
                    else _digits(_content(path, "--new-challenge", _KEK_FILE))
                )
                if not _is_under(ring.new, wrapped):
                    of = "" if name is None else f" of {name!r}"
                    raise WrongKeks(
                        f"the new KEK{of} is not that of --new-challenge {path or new_challenge}: "
                        "are the KEKs swapped?"
                    )
        return self._replace(challenge=keywrap.wrap(_digest(rings), os.urandom(32)))

    def has_several(self) -> bool:
        """Whether keys may be under several old KEKs."""
        return sum(len(old) for old, _ in self.files.values()) > 1

    def ids(self) -> List[Dict[str, Any]]:
        """Returns what names the KEKs in a report: for each name the ids of its old KEKs and of the new one."""
        return self._by_tokens(self._ids)

    def _ids(self) -> List[Dict[str, Any]]:
        found: List[Dict[str, Any]] = []
        for name, ring in self.rings().items():
            ids = [_id_of(kek) for _, kek in ring.old]
            of_name = {"name": name, "old": ids, "new": _id_of(ring.new)}
            old, new = self.files[name]
            uris = [path for path in (*old, new) if is_uri(path)]
            if uris:
                of_name["uris"] = uris
            found.append(of_name)
        return found

    def make_challenges(self) -> List[str]:
        """Writes a random key, wrapped under each KEK, beside its file, for `keywrap check`. Returns the names. A file
        that has one stays, and one of another KEK is refused: after a rotation it would be the old KEK's.
        """
        return self._by_tokens(lambda: [*self._make_challenges()])

    def _make_challenges(self) -> Iterator[str]:
        rings = self.rings()
        keks = {
            path: kek
            for name, (old, new) in self.files.items()
            for path, kek in zip(
                (*old, new), (*(kek for _, kek in rings[name].old), rings[name].new)
            )
        }
        for path, kek in keks.items():
            name = _challenge_name(path)
            # A token may fail: then no empty file is left.
            wrapped = wrapped_under(kek, os.urandom(32)).hex()
            try:
                with open(
                    os.open(name, os.O_WRONLY | os.O_CREAT | os.O_EXCL, 0o600),
                    "w",
                    encoding="ascii",
                ) as file:
                    print(wrapped, file=file)
            except FileExistsError:
                if not _is_under(
                    kek, _digits(_content(name, "--make-challenges", _KEK_FILE))
                ):
                    raise WrongKeks(
                        f"{name} is not a challenge of {path}: remove it"
                    ) from None
            except OSError as error:
                raise WrongKeks(f"{name}: {error.strerror}") from None
            yield name


def _challenge_name(path: str) -> str:
    """Returns the name of the challenge: in the directory of the file, or in this one for a key in a token."""
    if not is_uri(path):
        return os.path.splitext(path)[0] + ".challenge"
    uri = parsed(path)
    label = (uri.label or b"").decode("utf-8", "replace")
    if re.fullmatch(r"\w[\w.-]{0,99}", label):
        return f"{label}.challenge"
    if uri.key_id:
        return f"{uri.key_id.hex()[:64]}.challenge"
    raise WrongKeks(f"{path}: its object is no name of a file: give id, too")


def _id_of(kek: Kek) -> str:
    """Returns the id of a KEK: 16 hex digits of the SHA-256 digest of 32 zero bytes that are wrapped under it."""
    return hashlib.sha256(wrapped_under(kek, bytes(32))).hexdigest()[:16]


def _digest(rings: Rings) -> bytes:
    """A key that only who has all of these KEKs has."""
    digest = hashlib.sha256()
    for name, ring in rings.items():
        for kek in (*(kek for _, kek in ring.old), ring.new):
            secret = kek if isinstance(kek, bytes) else kek.proof()
            digest.update(
                f"{name!r} {len(ring.old)} {len(secret)} ".encode(
                    "utf-8", "surrogateescape"
                )
                + secret
            )
    return digest.digest()
