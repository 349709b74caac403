"""KEKs in tokens, by the C interface of PKCS#11: a token encrypts and decrypts blocks by AES-ECB.

Each process initializes the library of a token by itself, and has sessions of its own: neither survives a fork. The
process that starts others never uses a token, so that none of them inherits a library that was initialized.
"""

import ctypes
import os
import threading
import time
from typing import Any, Callable, Dict, List, Optional, Tuple

from . import signs
from .found import Unanswered, WrongKeks
from .pkcs11_uri import TOKEN_FIELDS, TokenUri

_Ulong = ctypes.c_ulong
#: The waits before a call that failed is made again, each in a new session.
RETRY_SECONDS = (0.1, 1.0)
#: The most bytes that a token gets in one call. A token that takes less gets half as much, and so on.
MOST_BYTES = 1 << 17
_BLOCK = 16
#: The block that the KEK encrypts to show that it is still the same. Even the smallest token takes a block.
_PROBE = bytes(range(_BLOCK))

_CKM_AES_ECB = 0x1081
_CKF_SERIAL_SESSION = 4
_CKF_TOKEN_INITIALIZED = 0x400
_CKU_USER = 1
_CKA_CLASS = 0
_CKA_LABEL = 3
_CKA_KEY_TYPE = 0x100
_CKA_ID = 0x102
_CKO_SECRET_KEY = 4
_CKK_AES = 0x1F

_OK = 0
#: The return values that have a name here. Others are shown as numbers.
_NAMES = {
    0x02: "CKR_HOST_MEMORY",
    0x05: "CKR_GENERAL_ERROR",
    0x06: "CKR_FUNCTION_FAILED",
    0x07: "CKR_ARGUMENTS_BAD",
    0x21: "CKR_DATA_LEN_RANGE",
    0x30: "CKR_DEVICE_ERROR",
    0x31: "CKR_DEVICE_MEMORY",
    0x32: "CKR_DEVICE_REMOVED",
    0x41: "CKR_ENCRYPTED_DATA_LEN_RANGE",
    0x54: "CKR_FUNCTION_NOT_SUPPORTED",
    0x60: "CKR_KEY_HANDLE_INVALID",
    0x63: "CKR_KEY_TYPE_INCONSISTENT",
    0x68: "CKR_KEY_FUNCTION_NOT_PERMITTED",
    0x70: "CKR_MECHANISM_INVALID",
    0x82: "CKR_OBJECT_HANDLE_INVALID",
    0xA0: "CKR_PIN_INCORRECT",
    0xA1: "CKR_PIN_INVALID",
    0xA2: "CKR_PIN_LEN_RANGE",
    0xA3: "CKR_PIN_EXPIRED",
    0xA4: "CKR_PIN_LOCKED",
    0xB0: "CKR_SESSION_CLOSED",
    0xB1: "CKR_SESSION_COUNT",
    0xB3: "CKR_SESSION_HANDLE_INVALID",
    0xE0: "CKR_TOKEN_NOT_PRESENT",
    0xE1: "CKR_TOKEN_NOT_RECOGNIZED",
    0x100: "CKR_USER_ALREADY_LOGGED_IN",
    0x101: "CKR_USER_NOT_LOGGED_IN",
    0x102: "CKR_USER_PIN_NOT_INITIALIZED",
    0x190: "CKR_CRYPTOKI_NOT_INITIALIZED",
    0x191: "CKR_CRYPTOKI_ALREADY_INITIALIZED",
}
_VALUES = {name: value for value, name in _NAMES.items()}
#: No later call succeeds after these. A second login with a wrong PIN may lock the token.
_FINAL = frozenset(
    _VALUES[f"CKR_{name}"]
    for name in (
        "FUNCTION_NOT_SUPPORTED",
        "KEY_TYPE_INCONSISTENT",
        "KEY_FUNCTION_NOT_PERMITTED",
        "MECHANISM_INVALID",
        "PIN_INCORRECT",
        "PIN_INVALID",
        "PIN_LEN_RANGE",
        "PIN_EXPIRED",
        "PIN_LOCKED",
    )
)
#: The token takes fewer bytes at once.
_TOO_LONG = frozenset(
    _VALUES[f"CKR_{name}"]
    for name in (
        "HOST_MEMORY",
        "DATA_LEN_RANGE",
        "DEVICE_MEMORY",
        "ENCRYPTED_DATA_LEN_RANGE",
    )
)
#: The functions at the begin of CK_FUNCTION_LIST, in its order.
_FUNCTIONS = """
    C_Initialize C_Finalize C_GetInfo C_GetFunctionList C_GetSlotList C_GetSlotInfo C_GetTokenInfo C_GetMechanismList
    C_GetMechanismInfo C_InitToken C_InitPIN C_SetPIN C_OpenSession C_CloseSession C_CloseAllSessions C_GetSessionInfo
    C_GetOperationState C_SetOperationState C_Login C_Logout C_CreateObject C_CopyObject C_DestroyObject C_GetObjectSize
    C_GetAttributeValue C_SetAttributeValue C_FindObjectsInit C_FindObjects C_FindObjectsFinal C_EncryptInit C_Encrypt
    C_EncryptUpdate C_EncryptFinal C_DecryptInit C_Decrypt
""".split()


class _Version(ctypes.Structure):
    _fields_ = [("major", ctypes.c_ubyte), ("minor", ctypes.c_ubyte)]


class _FunctionList(ctypes.Structure):
    _fields_ = [
        ("version", _Version),
        *((name, ctypes.c_void_p) for name in _FUNCTIONS),
    ]


class _TokenInfo(ctypes.Structure):
    """CK_TOKEN_INFO."""

    _fields_ = [
        ("token", ctypes.c_char * 32),
        ("manufacturer", ctypes.c_char * 32),
        ("model", ctypes.c_char * 16),
        ("serial", ctypes.c_char * 16),
        ("flags", _Ulong),
        ("numbers", _Ulong * 10),
        ("hardware", _Version),
        ("firmware", _Version),
        ("time", ctypes.c_char * 16),
    ]


class _Mechanism(ctypes.Structure):
    _fields_ = [
        ("mechanism", _Ulong),
        ("parameter", ctypes.c_void_p),
        ("length", _Ulong),
    ]


class _Attribute(ctypes.Structure):
    _fields_ = [("type", _Ulong), ("value", ctypes.c_void_p), ("length", _Ulong)]


class _Failed(Exception):
    """The token is not there, or did not do what it should. A new session may help."""

    #: The value that a call returned, if it was not CKR_OK.
    value = _OK


class _CallFailed(_Failed):
    """A call of the library returned a value that is not CKR_OK."""

    def __init__(self, function: str, value: int) -> None:
        name = _NAMES.get(value, f"return value {value:#x}")
        super().__init__(f"{function}: {name}")
        self.value = value


class _Module:
    """The library of a token in this process."""

    def __init__(self, path: str) -> None:
        try:
            library = ctypes.CDLL(path)
            get_list = library.C_GetFunctionList
        except (OSError, AttributeError):
            raise WrongKeks(f"{path} is not a PKCS#11 library") from None
        self._functions = ctypes.POINTER(_FunctionList)()
        get_list.restype = _Ulong
        value = get_list(ctypes.byref(self._functions))
        if value != _OK:
            raise _CallFailed("C_GetFunctionList", value)
        self._calls: Dict[str, Callable[..., int]] = {}
        #: A session belongs to one initialization.
        self.generation = 0
        self._initialize()

    def call(self, function: str, *given: Any) -> None:
        """Calls a function of the library. Raises `_CallFailed` unless it returns CKR_OK."""
        value = self._call_of(function)(*given)
        if value != _OK:
            raise _CallFailed(function, value)

    def _call_of(self, function: str) -> Callable[..., int]:
        if function not in self._calls:
            # Each argument has a type of ctypes already, or is a pointer to one.
            address = getattr(self._functions.contents, function)
            self._calls[function] = ctypes.CFUNCTYPE(_Ulong)(address)
        return self._calls[function]

    def _initialize(self) -> None:
        self.generation += 1
        value = self._call_of("C_Initialize")(None)
        # Something else in this process may use the library, too.
        if value not in (_OK, _VALUES["CKR_CRYPTOKI_ALREADY_INITIALIZED"]):
            raise _CallFailed("C_Initialize", value)

    def begin_anew(self) -> None:
        """Ends all sessions. Some libraries do not see otherwise that a token is back."""
        self._call_of("C_Finalize")(None)
        self._initialize()

    def slots(self) -> List[int]:
        """Returns the slots that have a token."""
        count = _Ulong()
        is_present = ctypes.c_ubyte(1)
        self.call("C_GetSlotList", is_present, None, ctypes.byref(count))
        slots = (_Ulong * count.value)()
        self.call("C_GetSlotList", is_present, slots, ctypes.byref(count))
        return list(slots[: count.value])

    def token_info(self, slot: int) -> Optional[_TokenInfo]:
        """Returns what the token in this slot says of itself, or `None` if it is away, or has no PIN yet."""
        info = _TokenInfo()
        try:
            self.call("C_GetTokenInfo", _Ulong(slot), ctypes.byref(info))
        except _CallFailed:
            return None
        return info if info.flags & _CKF_TOKEN_INITIALIZED else None


class _Session:
    """A session with the one key that a URI names."""

    def __init__(self, module: _Module, uri: TokenUri, pin: Optional[bytes]) -> None:
        self._module = module
        self.generation = module.generation
        self._handle = _Ulong()
        module.call(
            "C_OpenSession",
            _Ulong(_slot_of(module, uri)),
            _Ulong(_CKF_SERIAL_SESSION),
            None,
            None,
            ctypes.byref(self._handle),
        )
        if pin is not None:
            self._log_in(pin)
        self._key = self._key_of(uri)

    def _log_in(self, pin: bytes) -> None:
        try:
            self._module.call(
                "C_Login", self._handle, _Ulong(_CKU_USER), pin, _Ulong(len(pin))
            )
        except _CallFailed as failure:
            # A login is for all sessions of the process.
            if failure.value != _VALUES["CKR_USER_ALREADY_LOGGED_IN"]:
                raise

    def _key_of(self, uri: TokenUri) -> Any:
        """Returns the handle of the key. Raises `WrongKeks` unless the URI fits exactly one AES key."""
        handles = (_Ulong * 2)()
        count = _Ulong()
        template, values = _template(uri)
        call = self._module.call
        call("C_FindObjectsInit", self._handle, template, _Ulong(len(values)))
        call("C_FindObjects", self._handle, handles, _Ulong(2), ctypes.byref(count))
        call("C_FindObjectsFinal", self._handle)
        if count.value == 0:
            why = "the token has no such AES key, or shows it only after a login"
            raise WrongKeks(f"{uri.text}: {why} (pin-source)")
        if count.value > 1:
            raise WrongKeks(f"{uri.text}: several keys fit: give object and id")
        return _Ulong(handles[0])

    def run(self, operation: str, blocks: bytes) -> bytes:
        """Encrypts or decrypts blocks, each by itself."""
        mechanism = _Mechanism(_CKM_AES_ECB, None, 0)
        pointer = ctypes.byref(mechanism)
        result = ctypes.create_string_buffer(len(blocks))
        length = _Ulong(len(blocks))
        call = self._module.call
        call(f"C_{operation}Init", self._handle, pointer, self._key)
        call(
            f"C_{operation}",
            self._handle,
            blocks,
            _Ulong(len(blocks)),
            result,
            ctypes.byref(length),
        )
        if length.value != len(blocks):
            raise _Failed(f"C_{operation}: {length.value} bytes for {len(blocks)}")
        return result.raw


def _slot_of(module: _Module, uri: TokenUri) -> int:
    """Returns the slot of the one token that the URI fits."""
    slots = [slot for slot in module.slots() if _fits(module, slot, uri)]
    if not slots:
        raise _Failed("no such token is there")
    if len(slots) > 1:
        raise WrongKeks(f"{uri.text}: several tokens fit: give token and serial")
    return slots[0]


def _fits(module: _Module, slot: int, uri: TokenUri) -> bool:
    if uri.slot is not None and uri.slot != slot:
        return False
    info = module.token_info(slot)
    if info is None:
        return False
    # A field ends in blanks.
    fields = {name: getattr(info, name).rstrip(b" ") for name in TOKEN_FIELDS}
    return all(fields[name] == value for name, value in uri.fields.items())


def _template(uri: TokenUri) -> Tuple[Any, List[Any]]:
    """Returns the attributes that the key must have, and the values that they point to, which have to live as long."""
    numbers = {_CKA_CLASS: _CKO_SECRET_KEY, _CKA_KEY_TYPE: _CKK_AES}
    texts = {_CKA_LABEL: uri.label, _CKA_ID: uri.key_id}
    values: List[Any] = []
    attributes = []
    for kind, number in numbers.items():
        values.append(_Ulong(number))
        attributes.append((kind, values[-1], ctypes.sizeof(_Ulong)))
    for kind, text in texts.items():
        if text is not None:
            values.append(ctypes.create_string_buffer(text, len(text) + 1))
            attributes.append((kind, values[-1], len(text)))
    template = (_Attribute * len(attributes))()
    for at, (kind, value, length) in enumerate(attributes):
        pointer = ctypes.cast(ctypes.byref(value), ctypes.c_void_p)
        template[at] = _Attribute(kind, pointer, length)
    return template, values


class _Process:
    """The modules and sessions that this process has opened. A process that was forked begins anew."""

    def __init__(self) -> None:
        self.pid = os.getpid()
        # A session does one operation at a time, and a library without locks one call.
        self.lock = threading.Lock()
        self.modules: Dict[str, _Module] = {}
        self.keks: Dict[Tuple[str, Optional[bytes]], "TokenKek"] = {}

    def module(self, path: str) -> _Module:
        if path not in self.modules:
            self.modules[path] = _Module(path)
        return self.modules[path]


_process = _Process()


def _this_process() -> _Process:
    global _process
    if _process.pid != os.getpid():
        _process = _Process()
    return _process


def token_kek(uri: TokenUri, pin: Optional[bytes]) -> "TokenKek":
    """Returns the KEK that a URI names. A process has one object for it, with one session."""
    keks = _this_process().keks
    return keks.setdefault((uri.text, pin), TokenKek(uri, pin))


class TokenKek:
    """A KEK in a token. A call that fails is made again in a new session, and then raises `Unanswered`: a later pass
    tries the unit again. Its session is opened by its first call.
    """

    def __init__(self, uri: TokenUri, pin: Optional[bytes]) -> None:
        self.uri = uri
        self._pin = pin
        self._session: Optional[_Session] = None
        self._proof: Optional[bytes] = None
        self._has_failed = False
        self._most = MOST_BYTES

    def __reduce__(self) -> Any:
        raise TypeError("KEKs are not sent")

    def encrypt(self, blocks: bytes) -> bytes:
        """Encrypts each block by itself."""
        return self._run("Encrypt", blocks)

    def decrypt(self, blocks: bytes) -> bytes:
        """Decrypts each block by itself."""
        return self._run("Decrypt", blocks)

    def proof(self) -> bytes:
        """Returns bytes that only this KEK gives, from the token as it is now."""
        return self.encrypt(_PROBE)

    def _run(self, operation: str, blocks: bytes) -> bytes:
        """Gives the token as many blocks at once as it takes."""
        parts = []
        at = 0
        while at < len(blocks):
            part = blocks[at : at + self._most]
            result = self._run_part(operation, part)
            if result is None:
                self._most = len(part) // 2 // _BLOCK * _BLOCK
                continue
            parts.append(result)
            at += len(part)
        return b"".join(parts)

    def _run_part(self, operation: str, part: bytes) -> Optional[bytes]:
        """Returns `None` if the token takes fewer blocks at once."""
        why = ""
        for wait in (*RETRY_SECONDS, 0.0):
            try:
                with _this_process().lock:
                    result = self._opened().run(operation, part)
                signs.beat()
                return result
            except _Failed as failure:
                self._session = None
                self._has_failed = True
                why = str(failure)
                if failure.value in _FINAL:
                    raise WrongKeks(f"{self.uri.text}: {why}") from None
                if failure.value in _TOO_LONG and len(part) > _BLOCK:
                    return None
            signs.beat()
            time.sleep(wait)
        raise Unanswered(f"{self.uri.text}: {why}")

    def _opened(self) -> _Session:
        """Returns the session, or opens it anew. Raises `WrongKeks` if the URI names another key than before."""
        module = _this_process().module(self.uri.module)
        session = self._session
        if session is not None and session.generation == module.generation:
            return session
        if self._has_failed:
            self._has_failed = False
            module.begin_anew()
        session = _Session(module, self.uri, self._pin)
        proof = session.run("Encrypt", _PROBE)
        if self._proof is not None and proof != self._proof:
            raise WrongKeks(f"{self.uri.text}: the token has another key now")
        self._proof = proof
        self._session = session
        return session
