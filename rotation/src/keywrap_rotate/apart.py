"""Work in a process of its own, which is killed if it takes too long."""

import contextlib
import multiprocessing
import os
import signal
from typing import Any, Callable, TypeVar

from .found import Failure, WrongKeks
from .linux import PDEATHSIG, set_process

Result = TypeVar("Result")


def apart(work: Callable[[], Result], seconds: float) -> Result:
    """Returns what the work returns, or raises the `Failure` that it raises. It takes at most this time, and leaves
    nothing in this process."""
    context = multiprocessing.get_context("fork")
    ours, theirs = context.Pipe(duplex=False)
    process = context.Process(target=_answer, args=(work, theirs), daemon=True)
    process.start()
    theirs.close()
    answer: Any = None
    try:
        # A process that dies closes its end.
        if ours.poll(seconds):
            with contextlib.suppress(EOFError):
                answer = ours.recv()
        else:
            raise WrongKeks(f"a token has no answer in {seconds:g} seconds")
    finally:
        process.kill()
        process.join()
        ours.close()
    if answer is None:
        raise WrongKeks("the library of a token ended its process")
    result, failure = answer
    if failure is not None:
        raise failure
    return result  # type: ignore[no-any-return]


def _answer(work: Callable[[], Any], answers: Any) -> None:
    """Sends the result, or the failure, as the pair of both."""
    set_process(PDEATHSIG, signal.SIGKILL)
    try:
        answers.send((work(), None))
    except Failure as failure:
        answers.send((None, failure))
    except Exception as error:  # Its text may have anything in it.
        why = f"unexpected {type(error).__name__}"
        answers.send((None, WrongKeks(why)))
    finally:
        # The library of a token may hang at the end of its process.
        answers.close()
        os._exit(0)
