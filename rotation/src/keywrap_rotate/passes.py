"""Passes over a store. Only the last one decides the status."""

import collections
import functools
import time
from typing import Counter, Iterator, List, Optional

from .found import (
    DONE,
    INTERRUPTED,
    REFUSED,
    UNFINISHED,
    Found,
    Unanswered,
    found_by,
)
from .keks import Keks
from .listing import Listing, Unit
from .pool import Pool
from .report import Comparison, Report
from .stores import Store

#: How many passes there are at most.
PASSES = 10
#: How many passes in a row may write nothing and not settle.
IDLE = 3
#: How often a pass lists again at its end.
LISTINGS = 8


def do(
    store: Store, keks: Keks, may_write: bool, number: int, units: List[Unit]
) -> List[Found]:
    """Does some units of a pass, in any process on any machine that has the KEKs. It may run twice, at once, and be
    killed at any point. The number of the pass keeps an executor from answering by what it has.
    """
    try:
        rings = keks.rings()
    except Unanswered as error:
        return [Found(str(error)) for _ in units]
    return [
        found_by(lambda found: store.do(unit, rings, may_write, found))
        for unit in units
    ]


class Passes:
    """Lists the store anew, and does every unit, until a pass had nothing to do: nothing that was written, lost or
    left, and nothing that moved, or not in the pass before it either. A key that two passes miss was moved in both.
    """

    def __init__(
        self,
        store: Store,
        keks: Keks,
        pool: Pool,
        report: Report,
        may_write: bool,
        comparison: Optional[Comparison] = None,
        name: str = "",
    ) -> None:
        self.store = store
        self.keks = keks
        self.pool = pool
        self.report = report
        self.may_write = may_write
        self.comparison = comparison
        #: The name of the store, if the run has several.
        self.name = name
        self.number = self.rewrapped = self.units = 0
        self.last = Found()
        self.is_settled = False
        self.left_out: List[str] = []
        self.warnings: List[str] = []
        self.old: Counter[str] = collections.Counter()

    def run(self) -> None:
        idle = 0
        was_still = False
        while (
            not self.is_settled
            and self.number < PASSES
            and idle < IDLE
            and not self.pool.stopped
        ):
            self.number += 1
            is_quiet = self._pass()
            wrote = 0
            if self.may_write:
                wrote = sum(self.last.old.values()) - self.last.unwritable
            self.rewrapped += wrote - self.last.unwritten
            self.old.update(self.last.old)
            is_still = not (
                wrote or self.last.unwritten or self.last.lost or self.pool.stopped
            )
            has_all = is_quiet or (was_still and not self.left_out)
            self.is_settled = is_still and has_all
            was_still = is_still
            idle = 0 if wrote > self.last.unwritten or is_still else idle + 1
            time.sleep(0.3 * idle)

    def _pass(self) -> bool:
        """One pass. Returns whether nothing moved: every key that there was at some moment of it was read."""
        if self.comparison is not None:
            self.comparison.begin()
        self.last = Found()
        self.units = 0
        with self.store.listed(self.may_write) as listed:
            self.report.console.begin(listed.weight)
            self._take("", listed.found)
            units = listed.units
            number = listed.number
            for _ in range(LISTINGS):
                self._units(listed, units, number)
                units, number = (iter(()), 0) if self.pool.stopped else listed.rest()
                if not number:
                    break
            is_quiet = listed.is_quiet(self.last) and not self.last.moved
            self.left_out = [] if is_quiet else listed.left_out()
            self.warnings = listed.warnings()
            return is_quiet

    def _units(self, listed: Listing, units: Iterator[Unit], number: int) -> None:
        work = functools.partial(do, self.store, self.keks, self.may_write, self.number)
        answered = 0
        for unit, found in self.pool(work, units, number):
            answered += 1
            self._take(unit.name, found)
            listed.take(unit, found)
            if self.comparison is not None and found.digest is not None:
                self.comparison.add(unit.name, found.keys, found.digest)
        self.units += number
        self.last.lost += max(0, number - answered)

    def _take(self, name: str, found: Found) -> None:
        self.last.add(found)
        if found.ends_pass:
            # It concerns the store, and each unit at work would say so.
            self.report.console.name("", found)
        elif found.refused or found.lost:
            self.report.console.name(name, found)
        if name:
            of_store = {"store": self.name} if self.name else {}
            self.report.line(
                **of_store,
                number=self.number,
                unit=name,
                **found.counts(),
                digest=found.digest,
                named=found.named,
            )

    def status(self) -> int:
        """A shard may be empty, but no store."""
        if self.pool.stopped:
            return INTERRUPTED
        if not self.is_settled or self.last.lost:
            return UNFINISHED
        if self.last.refused or not (
            self.last.keys or self.last.others and not self.units
        ):
            return REFUSED
        return DONE if self.last.new == self.last.keys else UNFINISHED
