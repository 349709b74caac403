"""A file is replaced by an exchange of two names. The replaced file is compared with the one that was read, so that no
write of others is lost.

The new file is written under a temporary name beside the old one. Before the exchange it gets a temporary name that has
the digests of what was read and of the new content, so that a later pass can finish what a killed one began.
"""

import contextlib
import ctypes
import errno
import fcntl
import hashlib
import os
import re
import secrets
import stat
import sys
import time
from typing import Any, Dict, Iterator, Optional, Tuple

from . import signs
from .found import Changed, Refused, Unanswered

#: How many seconds a rotation waits for another process that has locked a file.
LOCK_SECONDS = 60.0
#: How many bytes are read at once.
BLOCK = 1 << 17
#: How many seconds a process that is seen to wait for a lock gets to write.
AWAITED = 1.0
#: The same for a process that may be there, and is not seen.
UNSEEN = 0.0002
_DIGITS = 24
#: The longest name of a file, so that its temporary name is none too long.
LONGEST_NAME = 255 - len(f".rotating.{8 * '0'}.{_DIGITS * '0'}.{_DIGITS * '0'}.")
_NAME = re.compile(
    rb"\.rotating\.[0-9a-f]{8}\.([0-9a-f]{24})\.([0-9a-f]{24})\.(.+)", re.DOTALL
)
_AT_FDCWD = -100
_RENAME_EXCHANGE = 2
_RENAME_SWAP = 2
_libc = ctypes.CDLL(None, use_errno=True)


def _exchange_names(one: bytes, other: bytes) -> int:
    """Returns 0, or the number of an error. Linux and macOS have a call each. The one of macOS was never tried."""
    if hasattr(_libc, "renameat2"):
        failed = _libc.renameat2(_AT_FDCWD, one, _AT_FDCWD, other, _RENAME_EXCHANGE)
    elif hasattr(_libc, "renamex_np"):
        failed = _libc.renamex_np(one, other, _RENAME_SWAP)
    else:
        return errno.ENOSYS
    return ctypes.get_errno() if failed else 0


def exchange(one: bytes, other: bytes) -> None:
    """Exchanges two names in one step."""
    error = _exchange_names(one, other)
    if error == 0:
        return
    if error in (errno.ENOSYS, errno.EINVAL, errno.EOPNOTSUPP):
        raise Refused(
            "this file system cannot exchange two files: stop all writers, then use --quiesced"
        )
    raise OSError(error, os.strerror(error))


def at_once(path: Any, flags: int) -> int:
    """Opens a file to read it, or a pipe without waiting for its writer, but no link: an opener for `open`."""
    return os.open(path, flags | os.O_NOFOLLOW | os.O_NONBLOCK)


def blocks(descriptor: int, length: int = sys.maxsize) -> Iterator[bytes]:
    """Reads a file from its start, or its first bytes."""
    offset = 0
    while offset < length and (
        block := os.pread(descriptor, min(BLOCK, length - offset), offset)
    ):
        yield block
        offset += len(block)
        signs.beat()


def short(digest: Any) -> str:
    return str(digest.hexdigest()[:_DIGITS])


def _digest_of(descriptor: int) -> str:
    digest = hashlib.blake2b()
    for block in blocks(descriptor):
        digest.update(block)
    return short(digest)


def lock(descriptor: int, how: int, seconds: float) -> None:
    """Waits for the lock of a file. Raises `Unanswered`."""
    until = time.monotonic() + seconds
    while True:
        try:
            fcntl.flock(descriptor, how | fcntl.LOCK_NB)
            return
        except BlockingIOError:
            if time.monotonic() >= until:
                raise Unanswered("another program has locked it") from None
            time.sleep(0.02)


def _has_waiting_writer(descriptor: int) -> bool:
    """Whether a process waits for the exclusive lock of this file. Processes of other containers are not seen."""
    inode = f":{os.fstat(descriptor).st_ino} ".encode()
    with contextlib.suppress(OSError), open("/proc/locks", "rb") as locks:
        return any(
            b"-> FLOCK" in line and b"WRITE" in line and inode in line for line in locks
        )
    return False


def let_others_write(descriptor: int, before: os.stat_result) -> None:
    """Releases the lock of a file that has lost its name, so that everybody who waits for it writes now, and takes it
    once more. A writer that asks for it later has to see that the name belongs to another file.
    """

    def is_written() -> bool:
        return identity(os.fstat(descriptor)) != identity(before)

    has_waiting_writer = True
    while has_waiting_writer and not is_written():
        has_waiting_writer = _has_waiting_writer(descriptor)
        fcntl.flock(descriptor, fcntl.LOCK_UN)
        time.sleep(UNSEEN)
        # A writer that is woken takes the lock as soon as it gets a processor. It need not write.
        until = time.monotonic() + AWAITED
        while has_waiting_writer and not is_written() and time.monotonic() < until:
            time.sleep(0.001)
        lock(descriptor, fcntl.LOCK_EX, LOCK_SECONDS)


def _attributes(descriptor: int) -> Dict[str, bytes]:
    """The extended attributes of a file, ACLs too. Attributes that describe its content are not kept."""
    found: Dict[str, bytes] = {}
    with contextlib.suppress(OSError):  # The file system has none.
        for name in os.listxattr(descriptor):
            if name not in ("security.ima", "security.evm"):
                found[name] = os.getxattr(descriptor, name)
    return found


def _copy_attributes(old: int, new: int) -> None:
    """Raises `Refused` if one that programs see cannot be kept. The system decides on its own."""
    has = _attributes(new)
    for name, value in _attributes(old).items():
        if has.get(name) != value:
            try:
                os.setxattr(new, name, value)
            except OSError:
                if name.startswith(("user.", "system.")):
                    raise Refused(f"its attribute {name} cannot be kept") from None


@contextlib.contextmanager
def opened(
    path: bytes, is_shared: bool = False, wait: bool = True
) -> Iterator[Tuple[int, os.stat_result]]:
    """Opens and locks a regular file with one name. Raises `Changed`, `Refused` or `Unanswered`."""
    before = os.lstat(path)
    if not stat.S_ISREG(before.st_mode):
        raise Refused(
            "a symbolic link" if stat.S_ISLNK(before.st_mode) else "not a regular file"
        )
    if before.st_nlink != 1:
        raise Refused(f"the file has {before.st_nlink} hard links")
    descriptor = at_once(path, os.O_RDONLY)
    try:
        lock(
            descriptor,
            fcntl.LOCK_SH if is_shared else fcntl.LOCK_EX,
            LOCK_SECONDS if wait else 0.0,
        )
        if identity(os.fstat(descriptor)) != identity(before) or not has_name(
            path, before
        ):
            raise Changed
        yield descriptor, before
    finally:
        os.close(descriptor)


def identity(status: os.stat_result) -> str:
    """Everything that a write changes. The time of the last change of the inode is not in it: a rename changes it."""
    return (
        f"{status.st_dev} {status.st_ino} {status.st_mode} {status.st_uid} {status.st_gid} {status.st_size} "
        f"{status.st_mtime_ns}"
    )


def has_name(path: bytes, status: os.stat_result) -> bool:
    """Whether this name belongs to this file, unwritten."""
    with contextlib.suppress(FileNotFoundError):
        return identity(os.lstat(path)) == identity(status)
    return False


def _is(path: bytes, descriptor: int) -> bool:
    return os.path.samestat(os.lstat(path), os.fstat(descriptor))


def sync_directory(directory: bytes) -> None:
    """Keeps a crash of the machine from giving a name in it back to an old file."""
    try:
        descriptor = os.open(directory, os.O_RDONLY | os.O_DIRECTORY)
        try:
            os.fsync(descriptor)
        finally:
            os.close(descriptor)
    except FileNotFoundError:
        pass  # It was renamed or removed: the listings differ.
    except OSError as error:
        raise Unanswered(
            f"{os.fsdecode(directory)}: it was not synced: {error.strerror}"
        ) from None


class Successor:
    """A new file that takes the place of another one."""

    def __init__(self, path: bytes, before: os.stat_result) -> None:
        self.path = path
        self.before = before
        self.digest = hashlib.blake2b()
        self.directory = os.path.dirname(path) or b"."
        self.base = os.path.basename(path)
        self.name: Optional[bytes] = self._temporary("0" * _DIGITS, "0" * _DIGITS)
        self.descriptor = os.open(self.name, os.O_CREAT | os.O_EXCL | os.O_RDWR, 0o600)
        fcntl.flock(self.descriptor, fcntl.LOCK_EX)

    def _temporary(self, old: str, new: str) -> bytes:
        return os.path.join(
            self.directory,
            f".rotating.{secrets.token_hex(4)}.{old}.{new}.".encode() + self.base,
        )

    def write(self, content: bytes) -> None:
        self.digest.update(content)
        view = memoryview(content)
        while view:
            view = view[os.write(self.descriptor, view) :]

    def copy(self, descriptor: int, length: int, digest: str) -> None:
        """Copies the begin of the old file, which had this digest when it was read. Raises `Changed`."""
        for block in blocks(descriptor, length):
            self.write(block)
        if short(self.digest) != digest:
            raise Changed

    def close(self) -> None:
        """Removes the new file unless it has taken its place."""
        if self.name is not None:
            with contextlib.suppress(FileNotFoundError):
                os.unlink(self.name)
        os.close(self.descriptor)

    def replace(
        self, old: int, digest: str, *, quiesced: bool = False
    ) -> os.stat_result:
        """Puts the new file in the place of the old one, whose content had this digest, or raises `Changed`."""
        with contextlib.suppress(OSError):  # Some file systems ignore it.
            os.fchown(self.descriptor, self.before.st_uid, self.before.st_gid)
        _copy_attributes(old, self.descriptor)
        with contextlib.suppress(OSError):
            os.fchmod(self.descriptor, stat.S_IMODE(self.before.st_mode))
        after = os.fstat(self.descriptor)
        if any(
            getattr(after, part) != getattr(self.before, part)
            for part in ("st_uid", "st_gid", "st_mode")
        ):
            raise Refused("its owner, group or mode cannot be kept")
        signs.sync(self.descriptor)
        assert self.name is not None
        name = self._temporary(digest, short(self.digest))
        os.rename(self.name, name)
        self.name = name
        if (
            not has_name(self.path, self.before)
            or quiesced
            and _digest_of(old) != digest
        ):
            raise Changed
        # Whatever happens in the exchange, nobody removes what may have come out of it uncompared.
        self.name = None
        try:
            if quiesced:
                os.rename(name, self.path)
            else:
                exchange(name, self.path)
        except (OSError, Refused):
            if _is(name, self.descriptor):
                self.name = name
            raise
        if not quiesced:
            self._remove_old(name, old, digest)
        return os.fstat(self.descriptor)

    def _remove_old(self, name: bytes, old: int, digest: str) -> None:
        """Removes the old file at its temporary name. If it has another content, it gets its name back."""
        if has_name(name, self.before):
            let_others_write(old, self.before)
            if not os.path.lexists(name):
                return  # Another run had its lock, and finished this exchange.
        if not has_name(name, self.before) or _digest_of(old) != digest:
            _put_back(name, self.path, self.descriptor)
            raise Changed
        os.unlink(name)


def _put_back(came_out: bytes, path: bytes, new: int) -> None:
    """Gives its name back to a file that somebody else wrote, and removes the new file, which took its place."""
    with contextlib.suppress(OSError):  # As if somebody removed the new file.
        exchange(came_out, path)
        if _is(came_out, new):
            return os.unlink(came_out)
        # Somebody replaced the new file, too: theirs is the newest, and stays.
        exchange(came_out, path)
    raise Refused(
        f"other programs wrote it twice meanwhile: compare it with {os.fsdecode(os.path.basename(came_out))}"
    )


def base_of(name: bytes) -> Optional[bytes]:
    """The name of the file whose temporary name this is: a killed run may have left it. `None` for any other name."""
    return bytes(found[3]) if (found := _NAME.fullmatch(name)) else None


def recover(path: bytes, may_write: bool) -> None:
    """Finishes what a killed run began at this temporary name, or raises why it cannot: another run is at work on it,
    or only a person can finish it."""
    directory, name = os.path.split(path)
    read, new, base = _NAME.fullmatch(name).groups()  # type: ignore[union-attr]
    with contextlib.suppress(FileNotFoundError), opened(path, wait=False) as (
        left,
        status,
    ):
        if not may_write:
            raise Refused("a killed run left it: a rotation finishes it")
        let_others_write(left, status)
        if not has_name(path, status):
            return  # It was written just now, or the run lives: the next listing has it.
        # The names were not exchanged, or what came out is what was read.
        if new == b"0" * _DIGITS or _digest_of(left).encode() in (read, new):
            os.unlink(path)
            return
        file = os.path.join(directory, base)
        try:
            # A wait could be for this process: another run may have given `left` its name back by now.
            with opened(file, wait=False) as (current, its_status):
                if (
                    _digest_of(current).encode() != new
                    or its_status.st_uid != status.st_uid
                ):
                    raise Refused(
                        "a run left it, and others wrote the file since: compare it with the file"
                    )
                _put_back(path, file, current)
        except FileNotFoundError:
            raise Refused("a run left it, and the file of that name is gone") from None
