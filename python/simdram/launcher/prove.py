"""Proves every crate that is not proved yet, lowest first, builds the proved program, and prints its path.

It shows crate by crate what is being proved and about how long it still takes. Ctrl-C stops it; the next call goes on.
"""

import os
import subprocess
import sys
import time

from .build import PROVED, SOURCES, home, is_old, need_rt, out_folder
from .faults import NoProgram
from .minutes import OTHER, SECONDS
from .say import say, show
from .tool_parser import Asked, tool

INTERRUPTED = 130
# a crate that took less was proved before
KEPT_SECONDS = 4
# how much faster than one processor a proof goes at first, before a crate was measured
FIRST_RATE = 1.2


def crates_below(name: str) -> list[str]:
    """A crate and those of the repository that it stands on, lowest first."""
    below = {}
    for line in (home() / "crates.txt").read_text(encoding="utf-8").splitlines():
        crate, colon, others = line.partition(":")
        if colon and not line.startswith("#"):
            below[crate] = others.split()
    found: list[str] = []

    def visit(crate: str) -> None:
        if crate in below and crate not in found:
            for other in below[crate]:
                visit(other)
            found.append(crate)

    visit(name)
    return found


class Progress:
    """What is shown while crates are proved: which one, how long it may still take, what rt says."""

    def __init__(self, names: list[str]) -> None:
        self.names = names
        self.at = 0
        self.spent = 0.0
        self.expected = 0.0

    def left(self) -> str:
        """About how long it still takes, from the table and from how fast it went so far."""
        seconds = sum(SECONDS.get(name, OTHER) for name in self.names[self.at:])
        rate = self.spent / self.expected if self.expected else 1 / FIRST_RATE
        minutes = round(seconds * rate / 60)
        return f"about {minutes} minute{'s' * (minutes != 1)} left" if minutes else "less than a minute left"

    def begin(self, name: str) -> None:
        self.line = f"proving {name}, {self.at + 1} of {len(self.names)}, {self.left()}"
        if not sys.stderr.isatty():
            say(self.line)
        self.show("")

    def show(self, text: str) -> None:
        """A line of rt, in the place of the last one."""
        show(f"simdram: {self.line}{': ' if text else ''}{text}")

    def heard(self, line: str) -> None:
        """A line that rt printed: a proved function is shown, and what rt waits for."""
        if "waiting for" in line:
            show("")
            say(line.partition("rt: ")[2] or line)
        elif line.startswith("so far:"):
            self.show(line.partition(";")[0])
        elif line.startswith("fn ") and line.endswith(": proved"):
            self.show(line.rpartition(": ")[0].partition("::")[2])

    def done(self, name: str, seconds: float) -> None:
        """A crate is proved; where it was not proved before, how fast is known."""
        if seconds >= KEPT_SECONDS:
            self.spent += seconds
            self.expected += SECONDS.get(name, OTHER)
        self.at += 1


def rt_in(crate: str, verb: str, progress: Progress) -> None:
    """Runs a command of rt on a crate; a fault if it fails, after what it printed."""
    lines: list[str] = []
    with subprocess.Popen(["rt", verb], cwd=home() / "crates" / crate, stdin=subprocess.DEVNULL, stdout=subprocess.PIPE,
                          stderr=subprocess.STDOUT, text=True, errors="replace") as running:
        try:
            for line in running.stdout:
                lines.append(line)
                progress.heard(line.rstrip("\n"))
        except KeyboardInterrupt:
            running.terminate()
            running.wait()
            raise
    show("")
    if running.returncode:
        sys.stderr.write("".join(lines))
        raise NoProgram(f"{crate} is not proved")


def prove() -> None:
    need_rt()
    out, names, began = out_folder(), crates_below("simdram"), time.time_ns()
    minutes = round(sum(SECONDS.values()) / 60)
    cores = min(os.cpu_count() or 1, 4)
    say(f"proving what is not proved yet; all of it takes about {minutes} processor minutes, at least {minutes // cores} minutes "
        "here. Ctrl-C stops it; the next `simdram prove` goes on from there")
    (out / PROVED).unlink(missing_ok=True)
    progress = Progress(names)
    for name in names:
        progress.begin(name)
        start = time.monotonic()
        try:
            rt_in(name, "run" if name == "simdram" else "lib", progress)
        except KeyboardInterrupt:
            show("")
            say(f"stopped while proving {name}; what is proved is kept, and the next `simdram prove` goes on from there")
            raise SystemExit(INTERRUPTED) from None
        progress.done(name, time.monotonic() - start)
    if not os.access(out / PROVED, os.X_OK):
        raise NoProgram("simdram is not proved")
    os.utime(out / PROVED, ns=(began, began))


@tool()
def main(_asked: Asked) -> None:
    if is_old(out_folder() / PROVED, SOURCES[PROVED]):
        prove()
    print(out_folder() / PROVED)
