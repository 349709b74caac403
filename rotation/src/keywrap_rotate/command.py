"""The command keywrap-rotate: a run over the passes of a store, and what it says at its end."""

import argparse
import contextlib
import json
import os
import re
import signal
import socket
from typing import Any, Dict, Iterator, Mapping, Optional, Sequence

import keywrap

from . import signs
from .console import SHOWN, Console, shown
from .found import (
    ARGUMENTS,
    DONE,
    INTERRUPTED,
    REFUSED,
    UNFINISHED,
    Failure,
    Refused,
    Unanswered,
)
from .keks import Keks, protect_process
from .options import keks_of, parse
from .passes import PASSES, Passes
from .pool import Pool
from .replacing import base_of
from .report import Comparison, Report, ReportFailed
from .stores import Store, kind_of, open_store


def main(words: Optional[Sequence[str]] = None) -> int:
    """Does what the arguments say, and returns the exit status."""
    _open_closed_streams()
    # Without a handler this signal ends a process.
    signal.signal(signal.SIGUSR1, signal.SIG_IGN)
    options = parse(words)
    protect_process()
    try:
        return _run(options)
    except Failure as error:
        status = error.status
        why = str(error)
    except KeyboardInterrupt:
        status = INTERRUPTED
        why = "interrupted: run it again"
    except ImportError as error:
        status = ARGUMENTS
        why = "a module, or a library that it needs, cannot be loaded"
        if error.name is not None:
            why = f"{error.name} is missing (apt-get install python3-{error.name})"
    except Exception as error:
        # Of the system, of Dask, or a defect: its text may have anything in it.
        unexpected = f"unexpected {type(error).__name__}"
        status = UNFINISHED
        why = getattr(error, "strerror", None) or unexpected
    Console().say(why)
    if options.summary_json and status != INTERRUPTED:
        with contextlib.suppress(ReportFailed):
            _print_json({"status": status, "error": why})
    return status


def _open_closed_streams() -> None:
    """Opens standard streams that are closed: no file of the store may get their numbers."""
    for descriptor in range(3):
        try:
            os.fstat(descriptor)
        except OSError:
            # It gets the lowest number, which is this one.
            os.open(os.devnull, os.O_RDWR)


def _run(options: argparse.Namespace) -> int:
    keks = keks_of(options)
    if options.make_challenges:
        print(*map(shown, keks.make_challenges()), sep="\n")
        return DONE
    keks = keks.challenged(options.new_challenge)
    stores = [open_store(each) for each in options.stores]
    if options.config is not None:
        _look_at(stores, options.stores)
    comparison = None
    if options.verify_record is not None:
        comparison = Comparison(options.verify_record)
    report = Report(options.report)
    report.line(**_heading(options, keks))
    if options.rate is not None and options.dask is None:
        signs.limit(options.rate)
    tick = report.console.tick
    pool = Pool(options.jobs, options.dask, options.timeout, tick, options.rate)
    _handle_signals(pool, report.console)
    summaries = []
    for its_options, store in zip(options.stores, stores):
        may_write = not (options.verify or options.dry_run)
        passes = Passes(
            store, keks, pool, report, may_write, comparison, its_options.name
        )
        summaries.append(_run_store(passes, its_options))
        if pool.stopped:
            break
    summary = summaries[0]
    if options.config is not None:
        summary = _total(summaries)
        if len(summaries) < len(stores):
            # Somebody asked for the end after the last pass of a store.
            summary["status"] = INTERRUPTED
        report.console.say(_total_line(summary, len(summaries)))
    report.line(**summary)
    if options.summary_json:
        _print_json(summary)
    status: int = summary["status"]
    if status == INTERRUPTED:
        raise KeyboardInterrupt
    return status


def _look_at(stores: Sequence[Store], options: Sequence[argparse.Namespace]) -> None:
    """Lists each store once. Raises `Refused` if one is not there: then none was touched."""
    for store, its_options in zip(stores, options):
        try:
            with store.listed(False) as listed:
                missing = [
                    f"{path}: {why}"
                    for path, why in listed.found.named
                    if base_of(os.path.basename(os.fsencode(path))) is None
                ]
        except (Refused, Unanswered) as error:
            raise Refused(f"{its_options.name}: {error}: nothing was touched") from None
        if missing:
            raise Refused(f"{its_options.name}: {missing[0]}: nothing was touched")


def _run_store(passes: Passes, options: argparse.Namespace) -> Dict[str, Any]:
    """Rotates one store, and says what came of it. Returns the summary. Of several stores, one that fails does not stop
    the others."""
    console = passes.report.console
    place = ""
    if options.name:
        place = f"{options.name}: "
    try:
        passes.run()
        status = passes.status()
    except (Refused, Unanswered) as error:
        if not options.name:
            raise
        status = error.status
        console.say(f"{place}{error}")
    finally:
        console.end()
    comparison = passes.comparison
    for difference in comparison.differences() if comparison is not None else ():
        console.say(difference)
        status = status or REFUSED
    for line in _last_lines(passes, status, options):
        console.say(f"{place}{line}")
    summary = _summary(passes, status)
    if options.name:
        summary = {"store": options.name, **summary}
        passes.report.line(**summary)
    return summary


def _total(summaries: Sequence[Dict[str, Any]]) -> Dict[str, Any]:
    """Returns the sums over all stores, the worst status, and the summary of each store."""
    total: Dict[str, Any] = {"status": max(each["status"] for each in summaries)}
    for name in summaries[0]:
        if name not in ("status", "store"):
            total[name] = sum(each[name] for each in summaries)
    return {**total, "stores": list(summaries)}


def _total_line(total: Mapping[str, Any], stores: int) -> str:
    counts = (
        "{keys} keys: {new} new, {old} old, {refused} refused; {rewrapped} rewrapped"
    )
    return f"stores: {stores}; " + counts.format(**total)


def _handle_signals(pool: Pool, console: Console) -> None:
    """The first SIGINT or SIGTERM lets the units at work end, the second one does not. SIGUSR1 asks for a line."""

    def stop(number: int, frame: Any) -> None:
        if pool.stopped:
            raise KeyboardInterrupt
        pool.stopped = True
        signs.stop()

    signal.signal(signal.SIGINT, stop)
    signal.signal(signal.SIGTERM, stop)
    signal.signal(signal.SIGUSR1, lambda number, frame: console.say_progress())


def _heading(options: argparse.Namespace, keks: Keks) -> Dict[str, Any]:
    """Returns the first line of a report: where and how the rotation runs, and between which KEKs."""
    heading = {
        "version": keywrap.__version__,
        "host": socket.gethostname(),
        "store": kind_of(options).option.lstrip("-") or "lines",
        "options": _given(options),
        "keks": keks.ids(),
    }
    if options.config is not None:
        heading["store"] = "several"
        heading["stores"] = [_given(each) for each in options.stores]
    return heading


def _given(options: argparse.Namespace) -> Any:
    """Returns the options that were given, as a report has them."""
    unset: Sequence[Any] = (None, False, [], "")
    given = {}
    for name, value in vars(options).items():
        if value not in unset and name != "stores":
            given[name] = value
    if options.files:
        given["files"] = options.files[:20]
    return json.loads(_without_keks(json.dumps(given)))


def _without_keks(text: str) -> str:
    """Hides names of many hex digits: somebody may have given a KEK in the place of its file."""
    return re.sub("(?:[0-9A-Fa-f]{2}){16,}", "..", text)


def _last_lines(
    passes: Passes, status: int, options: argparse.Namespace
) -> Iterator[str]:
    """Yields what people have to know at the end of a run. The last line has the counts."""
    last = passes.last
    if status in (DONE, REFUSED) and not last.refused and not last.keys:
        yield "no key was found" + (" in this shard" if status == DONE else "")
    if status == UNFINISHED and not passes.is_settled:
        if passes.number == PASSES:
            yield "it did not come to an end: do all writers use the new KEK?"
        else:
            yield "keys are locked, could not be written, or have no answer: run it again"
    if status == UNFINISHED:
        for name in passes.left_out[:SHOWN]:
            yield f"{name}: it was listed, and never read: another program moves it"
    yield from passes.warnings
    if options.dry_run:
        for label, count in sorted(last.old.items()):
            yield f"{count} keys are under {label}"
    elif passes.keks.has_several():
        for label, count in sorted(passes.old.items()):
            yield f"{count} keys were under {label}"
    if status == DONE and passes.may_write and not passes.old and last.keys:
        yield "no key was under the KEK: this rotation ran before, or the KEKs are swapped"
    yield _counts(passes, options)


def _counts(passes: Passes, options: argparse.Namespace) -> str:
    last = passes.last
    numbers = [f"{last.keys} keys: {last.new} new"]
    if not options.verify:
        numbers.append(f"{sum(last.old.values())} old")
    numbers.append(f"{last.refused} refused")
    parts = [
        f"{passes.store.noun}: {passes.units}",
        "1 pass" if passes.number == 1 else f"{passes.number} passes",
        ", ".join(numbers),
    ]
    if passes.may_write:
        parts.append(f"{passes.rewrapped} rewrapped")
    if last.nulls:
        parts.append(f"{last.nulls} records have no key")
    return "; ".join(parts)


def _summary(passes: Passes, status: int) -> Dict[str, Any]:
    """Returns the last line as one object."""
    return {
        "status": status,
        "units": passes.units,
        "passes": passes.number,
        "rewrapped": passes.rewrapped,
        **passes.last.counts(),
    }


def _print_json(content: Dict[str, Any]) -> None:
    try:
        print(json.dumps(content), flush=True)
    except OSError as error:
        raise ReportFailed(f"standard output: {error.strerror}") from None
