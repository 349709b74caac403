"""The results of a unit of a store in a pass: counts, or the reason why there are none."""

import collections
import time
from typing import Callable, Counter, Dict, List, Optional, Tuple

#: The exit statuses.
DONE = 0
ARGUMENTS = 2
KEKS = 3
REPORT = 4
REFUSED = 5
UNFINISHED = 6
INTERRUPTED = 130
#: How many refused keys of a unit are named. The others are counted.
NAMED = 50000
#: How often a unit is read in one pass, if others change it.
ATTEMPTS = 4
_COUNTED = (
    "keys",
    "new",
    "refused",
    "unwritten",
    "unwritable",
    "moved",
    "lost",
    "nulls",
    "others",
)


class Failure(Exception):
    """Ends a run with a status, and a text that has no key in it: an argument is wrong, and nothing was touched."""

    status = ARGUMENTS


class Refused(Failure):
    """A unit, or the whole store, cannot be rotated. It is as it was."""

    status = REFUSED


class Unanswered(Failure):
    """The unit is locked, or its database is not reached: a later pass tries it again."""

    status = UNFINISHED


class PassEnds(Unanswered):
    """Somebody waits for what the pass holds: it ends, and a later one begins."""


class Interrupted(Failure):
    """Somebody asked for the end while no unit was at work."""

    status = INTERRUPTED


class WrongKeks(Failure):
    """This machine's KEKs cannot be read, or are others than the rotation began with."""

    status = KEKS


class EqualKeks(WrongKeks):
    """A KEK and its new KEK are the same key."""

    status = ARGUMENTS


class Changed(Exception):
    """Somebody else wrote the unit meanwhile. It is there, and has to be read again."""


class Gone(Exception):
    """The unit is not there any more. If it was renamed, a later listing has it."""


class Found:
    """The counts of a unit. Only their sum over a whole pass decides anything."""

    #: Keys; keys that were under the new KEK before; refused keys and units; rewrapped keys that were not written.
    keys = new = refused = unwritten = 0
    #: Rewrapped keys that the store does not take. They are refused, too.
    unwritable = 0
    #: Units that others moved or wrote; units that are there and were not read; rows without a key; others' units.
    moved = lost = nulls = others = 0
    #: The digest of a unit that was read, its identity when it was read, and its identity now.
    digest: Optional[str] = None
    read_identity: Optional[str] = None
    identity: Optional[str] = None
    #: Whether somebody waits for what the pass holds.
    ends_pass = False

    def __init__(self, lost: Optional[str] = None) -> None:
        #: How many keys were under each other KEK: what a rotation wrote, or would write.
        self.old: Counter[str] = collections.Counter()
        #: The first places of keys that are refused, and of units that are lost, with their reasons.
        self.named: List[Tuple[str, str]] = []
        if lost is not None:
            self.lose("", lost)

    def lose(self, place: str, why: str) -> None:
        self.lost += 1
        self.named.append((place, why))

    def refuse(self, place: str, why: str) -> None:
        self.refused += 1
        if len(self.named) < NAMED:
            self.named.append((place, why))

    def refuse_write(self, place: str, why: str) -> None:
        """Names a key that is old, and that the store does not let us write."""
        self.unwritten -= 1
        self.unwritable += 1
        self.refuse(place, why)

    def miss(self, place: str, needs_keys: bool) -> None:
        """Counts a record without a key, or refuses it."""
        if needs_keys:
            self.refuse(place, "it has no key")
        else:
            self.nulls += 1

    def add(self, other: "Found") -> None:
        for name in _COUNTED:
            setattr(self, name, getattr(self, name) + getattr(other, name))
        self.old.update(other.old)

    def become(self, other: "Found") -> None:
        """Takes the counts of a unit that is written as a whole or not at all."""
        self.__dict__.update(other.__dict__)

    def counts(self) -> Dict[str, int]:
        return {
            **{name: getattr(self, name) for name in _COUNTED},
            "old": sum(self.old.values()),
        }


def found_by(work: Callable[[Found], None]) -> Found:
    """Does the work of a unit, again after a change by somebody else, and returns what it found.

    What it found before an exception stays: its exceptions become refusals and losses.
    """
    why = ""
    for attempt in range(ATTEMPTS):
        found = Found()
        try:
            work(found)
            return found
        except Changed as changed:
            why = str(changed) or "somebody else wrote it"
            time.sleep(0.02 * attempt)
            continue
        except Gone:
            found.moved += 1
        except WrongKeks:
            raise  # It ends the run.
        except (Refused, OSError) as error:
            why = str(error)
            if isinstance(error, OSError):
                why = error.strerror
            found.refuse("", why or type(error).__name__)
            # With the unit, its keys that were not written are refused.
            found.unwritable += found.unwritten
            found.unwritten = 0
        except Unanswered as error:
            found.ends_pass = isinstance(error, PassEnds)
            found.lose("", str(error))
        except (
            Exception
        ) as error:  # A driver and a defect fail in many ways. The text may have anything in it.
            found.lose("", f"unexpected {type(error).__name__}")
        return found
    return Found(f"{why}, in each of {ATTEMPTS} attempts")
