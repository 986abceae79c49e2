"""One function on many items, on all processors, with a progress bar on a terminal."""

import concurrent.futures
import itertools
import os
import time
import typing

from . import run_program
from .say import show

Item = typing.TypeVar("Item")
Result = typing.TypeVar("Result")
BAR = 30
# a bar is first shown after so many seconds
SHOWN_AFTER = 0.5


def processors() -> int:
    """How many processors this process may use."""
    return len(os.sched_getaffinity(0)) if hasattr(os, "sched_getaffinity") else os.cpu_count() or 1


def show_bar(what: str, seconds: float, done: int, items: int) -> None:
    """Shows how many items were done in so many seconds, on standard error, where that is a terminal."""
    if what and seconds > SHOWN_AFTER:
        full, left = BAR * done // items, round(seconds * (items - done) / done)
        show(f"simdram: {what} [{'#' * full}{'.' * (BAR - full)}] {done} of {items}{f', about {left} s left' if left else ''}")


def in_parallel(work: typing.Callable[[Item], Result], items: typing.Sequence[Item], what: str = "",
                stop: typing.Callable[[], None] = lambda: None) -> list[Result]:
    """The results of all items, in their order. The first fault, or Ctrl-C, stops what has not ended yet; `stop` is called then."""
    began, workers = time.monotonic(), processors()
    left, found = iter(enumerate(items)), {}
    pool = concurrent.futures.ThreadPoolExecutor(workers)
    try:
        waiting = {pool.submit(work, item): k for k, item in itertools.islice(left, 2 * workers)}
        while waiting:
            for future in concurrent.futures.wait(waiting, return_when=concurrent.futures.FIRST_COMPLETED).done:
                found[waiting.pop(future)] = future.result()
                show_bar(what, time.monotonic() - began, len(found), len(items))
                waiting.update((pool.submit(work, item), k) for k, item in itertools.islice(left, 1))
    except BaseException:
        stop()
        pool.shutdown(wait=False, cancel_futures=True)
        run_program.stop_all()
        raise
    finally:
        pool.shutdown()
        if what:
            show("")  # the bar's line is empty again
    return [found[k] for k in range(len(items))]
