"""Objects, by two commands: one gets an object and its version, one puts it if it still has this version."""

import argparse
import contextlib
import functools
import os
import re
import shlex
import signal
import subprocess
import tempfile
from typing import ContextManager, Counter, Dict

from .files import Files, one_key
from .found import Changed, Failure, Found, Gone, Refused, Unanswered
from .keks import Rings
from .keys import Notation
from .listing import Listing, Names, Unit


class _ObjectListing(Listing):
    """The objects of a pass. It notes each put that had no answer: a later pass, in other processes, may find that the
    put happened all the same."""

    def __init__(self, names: Names, tried: Dict[str, Counter[str]]) -> None:
        super().__init__(
            lambda found: ((name, 1, name.hex(), 0) for name in names.listed(found))
        )
        self._tried = tried

    def take(self, unit: Unit, found: Found) -> None:
        super().take(unit, found)
        if found.unwritten:
            self._tried[unit.name] = found.old
        elif not found.lost:
            # It was read. If the put had happened, its keys are counted now.
            self._tried.pop(unit.name, None)


class Objects:
    """The objects whose names are the lines of a file. `files` rotates their copies."""

    noun = "objects"

    def __init__(self, files: Files, get: str, put: str, timeout: float) -> None:
        self.files = files
        self.timeout = timeout
        #: The keys that failed puts may have written all the same, by the names of the objects.
        self._tried: Dict[str, Counter[str]] = {}
        try:
            self.words = {"get": shlex.split(get), "put": shlex.split(put)}
        except ValueError as error:
            raise Failure(f"--get, --put: {error}") from None
        for command, needed in (
            ("get", ("{name}", "{file}")),
            ("put", ("{name}", "{file}", "{version}")),
        ):
            if not all(
                any(part in word for word in self.words[command]) for part in needed
            ):
                raise Failure(f"--{command}: it needs {', '.join(needed)}")

    def listed(self, may_write: bool) -> ContextManager[Listing]:
        return contextlib.nullcontext(_ObjectListing(self.files.names, self._tried))

    def do(self, unit: Unit, rings: Rings, may_write: bool, found: Found) -> None:
        own = Found()
        with tempfile.TemporaryDirectory(prefix="keywrap-rotate.") as room:
            values = {
                "name": unit.name,
                "file": os.path.join(room, "object"),
                "version": "",
            }
            values["version"] = self._run("get", values)
            if not values["version"]:
                raise Refused("get printed no version")
            try:
                copy = unit._replace(name=values["file"])
                self.files.do(copy, rings, may_write, own)
            except (Changed, Gone):
                raise Refused("get left no file") from None
            own.identity = unit.identity
            if may_write and own.old:
                self._put(values, own, found)
        before = self._tried.pop(unit.name, None)
        if before and own.new >= sum(before.values()):
            # This object is new because a put that failed happened all the same: this run wrote it.
            own.new -= sum(before.values())
            own.old.update(before)
        found.become(own)

    def _put(self, values: Dict[str, str], own: Found, found: Found) -> None:
        try:
            self._run("put", values)
        except Refused as refusal:
            self._tried[values["name"]] = own.old
            raise Changed(f"{refusal}: somebody else may have written it") from None
        except Unanswered:
            found.become(own)
            found.unwritten = sum(own.old.values())
            raise

    def _run(self, command: str, values: Dict[str, str]) -> str:
        """Returns what the command prints. Its standard error is dropped: it may contain anything. No shell runs it."""
        place = re.compile(r"\{(name|file|version)\}")
        words = [
            place.sub(lambda found: values[str(found[1])], word)
            for word in self.words[command]
        ]
        try:
            running = subprocess.Popen(
                words,
                stdin=subprocess.DEVNULL,
                stdout=subprocess.PIPE,
                stderr=subprocess.DEVNULL,
                start_new_session=True,
            )
        except OSError as error:
            raise Refused(
                f"{command}: {self.words[command][0]}: {error.strerror}"
            ) from None
        with running:
            try:
                printed, _ = running.communicate(timeout=self.timeout)
            except BaseException as error:
                os.killpg(running.pid, signal.SIGKILL)  # And whatever it has started.
                if not isinstance(error, subprocess.TimeoutExpired):
                    raise
                why = f"{command} did not end in {self.timeout:g} seconds"
                raise Unanswered(why) from None
        if running.returncode:
            raise Refused(f"{command} ended with status {running.returncode}")
        return printed.decode("utf-8", "surrogateescape").strip()


def open_store(
    options: argparse.Namespace, notation: Notation, names: Names
) -> Objects:
    """Makes the store of objects. A command is given up before the process that waits for it would be."""
    copies = Files(functools.partial(one_key, notation), names, quiesced=True)
    return Objects(copies, options.get, options.put, 0.75 * options.timeout)
