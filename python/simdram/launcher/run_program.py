"""Finds the program, builds it if necessary, and runs it. No other module runs it."""

import contextlib
import math
import os
import pathlib
import resource
import shutil
import signal
import subprocess
import sys
import typing

from . import build
from .faults import Fault, NoProgram
from .places import TOP
from .say import is_new_here, say
from .settings import Settings, taken

PASSED_ON = (signal.SIGINT, signal.SIGTERM, signal.SIGHUP, signal.SIGQUIT)


def given() -> str | None:
    """The program that SIMDRAM_PROGRAM names."""
    if not (name := os.environ.get("SIMDRAM_PROGRAM")):
        return None
    if (found := shutil.which(name)) is None:
        raise NoProgram(f"SIMDRAM_PROGRAM is {name}, which is not a program")
    return str(pathlib.Path(found).resolve())


def kinds(settings: Settings) -> tuple[str, ...]:
    """Which built programs may run, the preferred one first."""
    if settings.unproved:
        return (build.UNPROVED,)
    return (build.PROVED,) if settings.proved else (build.PROVED, build.UNPROVED)


def standing(settings: Settings) -> str | None:
    """The program, if it is already built from the sources as they are."""
    if (found := given()) or TOP is None:
        return found
    return next((str(build.out_folder() / name) for name in kinds(settings)
                 if not build.is_old(build.out_folder() / name, build.SOURCES[name])), None)


def program(settings: Settings) -> str:
    """The program, built first if necessary: without proofs, since a proof takes long and is asked for by `simdram prove`."""
    if (found := standing(settings)) is None:
        if settings.proved:
            state = "is older than its sources" if (build.out_folder() / build.PROVED).exists() else "is not built"
            raise NoProgram(f"the proved program {state}: simdram prove")
        build.compile_unproved()
        found = str(build.out_folder() / build.UNPROVED)
    if pathlib.Path(found).name == build.UNPROVED and not given() and not settings.quiet and is_new_here("unproved"):
        say("this program was compiled without proofs; `simdram prove` builds the proved one")
    return found


def environment() -> dict[str, str]:
    """Ours; and large pages for the program's memory, unless the C library is told otherwise: fewer page faults on a large image."""
    return {"GLIBC_TUNABLES": "glibc.malloc.hugetlb=1", **os.environ}


def follow(path: str, words: list[str], ended: typing.Callable[[], None] = lambda: None) -> int:
    """Runs the program with our streams, open files and signals, and returns its status; a signal that ends it ends us too.

    `ended` is called after the program has ended.
    """
    with subprocess.Popen([path, *words], close_fds=False, env=environment()) as running:
        def pass_on(number, _frame):
            running.send_signal(number)

        before = {number: signal.signal(number, pass_on) for number in PASSED_ON}
        try:
            status = running.wait()
        finally:
            for number, handler in before.items():
                signal.signal(number, handler)
    ended()
    if status < 0:
        signal.signal(-status, signal.SIG_DFL)
        os.kill(os.getpid(), -status)
    return status


class Ended(typing.NamedTuple):
    """How a call ended: its status, and what it printed on standard output and standard error."""

    status: int
    out: str
    err: str

    def check(self, what: str, right: typing.Container[int] = (0,)) -> None:
        """Raises what it said last where it did not end with a right status."""
        if self.status not in right:
            raise Fault(f"{what} ended with status {self.status}: {(self.out.splitlines() or [self.err.strip()])[-1]}")


# the calls of the program that have not ended, of all threads
_running: set[subprocess.Popen] = set()


def limit(running: subprocess.Popen, processor_seconds: float | None) -> None:
    """Lets a call take no more than so many processor seconds, rounded up, where the system can limit it."""
    if processor_seconds is not None and hasattr(resource, "prlimit"):
        most = max(1, math.ceil(processor_seconds))
        with contextlib.suppress(OSError, ValueError):
            resource.prlimit(running.pid, resource.RLIMIT_CPU, (most, most))


def run(words: typing.Sequence, folder=None, settings: Settings | None = None, seconds: float | None = None,
        path: str | None = None, processor_seconds: float | None = None) -> Ended:
    """Runs the program in a folder and returns how it ended; its standard error is passed on. A call that takes more processor
    seconds than it may is ended by a signal.

    A caller that runs it many times finds the program once and gives its path.
    """
    found = path or program(settings if settings is not None else taken([])[0])
    with subprocess.Popen([found, *map(str, words)], cwd=folder, stdin=subprocess.DEVNULL, stdout=subprocess.PIPE,
                          stderr=subprocess.PIPE, text=True, errors="backslashreplace", env=environment()) as running:
        _running.add(running)
        limit(running, processor_seconds)
        try:
            out, err = running.communicate(timeout=seconds)
        except BaseException:
            running.kill()
            raise
        finally:
            _running.discard(running)
    sys.stderr.write(err)
    return Ended(running.returncode, out, err)


def stop_all() -> None:
    for running in list(_running):
        running.terminate()
