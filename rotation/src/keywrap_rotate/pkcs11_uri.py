"""PKCS#11 URIs (RFC 7512): which key of which token is a KEK, and which file has its PIN."""

import re
from typing import Dict, NamedTuple, Optional
from urllib.parse import unquote_to_bytes

from .found import Failure

_SCHEME = "pkcs11:"
#: The attributes that a token is compared by: fields of its CK_TOKEN_INFO.
TOKEN_FIELDS = ("token", "manufacturer", "model", "serial")
_PATH_NAMES = frozenset({*TOKEN_FIELDS, "object", "id", "type", "slot-id"})
_QUERY_NAMES = frozenset({"module-path", "pin-source"})
#: The characters of a value that RFC 7512 allows: others have to be percent-encoded.
_VALUE = r"(?:[A-Za-z0-9._~:\[\]@!$'()*+,=%s-]|%%[0-9A-Fa-f]{2})*"
_PATH_VALUE = re.compile(_VALUE % "&")
_QUERY_VALUE = re.compile(_VALUE % "/?|")


class BadUri(Failure):
    """The URI is refused. Its text is not shown: somebody may have written a PIN into it."""


class TokenUri(NamedTuple):
    """A key of a token."""

    #: The URI itself, which reports show.
    text: str
    #: The path of the PKCS#11 library.
    module: str
    #: The bytes that each of these fields of the token must have.
    fields: Dict[str, bytes]
    slot: Optional[int]
    #: CKA_LABEL and CKA_ID of the key. At least one of them is given.
    label: Optional[bytes]
    key_id: Optional[bytes]
    #: The path of the file that has the PIN. Without it there is no login.
    pin_file: Optional[str]


def is_uri(text: str) -> bool:
    """Whether this names a key in a token, and not a file."""
    return text[: len(_SCHEME)].lower() == _SCHEME


def parsed(text: str) -> TokenUri:
    """Reads a URI. Raises `BadUri`, whose message has names of attributes, and no values."""
    path, _, query = text[len(_SCHEME) :].partition("?")
    in_path = _attributes(path, ";", _PATH_NAMES, _PATH_VALUE)
    in_query = _attributes(query, "&", _QUERY_NAMES, _QUERY_VALUE)
    if "object" not in in_path and "id" not in in_path:
        raise BadUri("a PKCS#11 URI needs object, or id")
    if in_path.get("type", b"secret-key") != b"secret-key":
        raise BadUri("a PKCS#11 URI of a KEK has type=secret-key, or no type")
    return TokenUri(
        text=text,
        module=_module(in_query),
        fields={name: in_path[name] for name in TOKEN_FIELDS if name in in_path},
        slot=_slot(in_path),
        label=in_path.get("object"),
        key_id=in_path.get("id"),
        pin_file=_pin_file(in_query),
    )


def _attributes(
    text: str, separator: str, names: "frozenset[str]", legal: "re.Pattern[str]"
) -> Dict[str, bytes]:
    """Returns the decoded values of the attributes in one part of a URI."""
    found: Dict[str, bytes] = {}
    if not text:
        return found
    for attribute in text.split(separator):
        name, has_value, value = attribute.partition("=")
        if not has_value:
            raise BadUri("an attribute of a PKCS#11 URI is not NAME=VALUE")
        if name == "pin-value":
            raise BadUri(
                "pin-value is refused, since others see arguments: "
                "write the PIN into a file, and give pin-source=file:/PATH"
            )
        if name not in names:
            raise BadUri(f"PKCS#11 URI: unknown attribute {name!r}")
        if name in found:
            raise BadUri(f"PKCS#11 URI: {name} is there twice")
        if not legal.fullmatch(value):
            raise BadUri(f"PKCS#11 URI: {name} is not percent-encoded as RFC 7512 says")
        # A plus sign is a plus sign: this is no form of a web page.
        found[name] = unquote_to_bytes(value)
    return found


def _slot(in_path: Dict[str, bytes]) -> Optional[int]:
    digits = in_path.get("slot-id")
    if digits is None:
        return None
    if not re.fullmatch(b"[0-9]{1,19}", digits):
        raise BadUri("PKCS#11 URI: slot-id is not a decimal number")
    return int(digits)


def _absolute(path: bytes, name: str) -> str:
    if not path.startswith(b"/") or b"\0" in path:
        raise BadUri(f"PKCS#11 URI: {name} is not an absolute path")
    return path.decode("utf-8", "surrogateescape")


def _module(in_query: Dict[str, bytes]) -> str:
    if "module-path" not in in_query:
        raise BadUri("a PKCS#11 URI needs module-path, the library of the token")
    return _absolute(in_query["module-path"], "module-path")


def _pin_file(in_query: Dict[str, bytes]) -> Optional[str]:
    """Returns the path in pin-source: file:/PATH, file:///PATH or /PATH. No command is run."""
    source = in_query.get("pin-source")
    if source is None:
        return None
    for prefix in (b"file://", b"file:"):
        if source.startswith(prefix + b"/"):
            source = source[len(prefix) :]
            break
    return _absolute(source, "pin-source")
