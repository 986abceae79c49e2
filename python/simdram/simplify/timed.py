"""Calls of a program up to a time, in processor seconds: the same work takes as many on a busy machine."""

import dataclasses
import os
import subprocess
import threading
import typing

from ..launcher import run_program

# how many seconds of the clock a call may take for each processor second that is left, and at least
SLACK, LEAST = 20, 10


class TimeOver(Exception):
    """The time that was given is over."""


def spent() -> float:
    """The processor seconds of this process and its ended calls."""
    times = os.times()
    return times.user + times.system + times.children_user + times.children_system


@dataclasses.dataclass(frozen=True)
class Timed:
    """A program that is called up to a time of `spent`, or until its work is stopped."""

    program: str
    until: float = float("inf")
    stopped: threading.Event = dataclasses.field(default_factory=threading.Event)

    def check_time(self) -> None:
        if self.stopped.is_set() or spent() >= self.until:
            raise TimeOver

    def run(self, words: typing.Sequence[typing.Any], folder: str) -> run_program.Ended:
        self.check_time()
        left = max(0.0, self.until - spent())
        limits = {} if left == float("inf") else {"seconds": LEAST + SLACK * left, "processor_seconds": left}
        try:
            ended = run_program.run(words, folder, path=self.program, **limits)
        except subprocess.TimeoutExpired:
            raise TimeOver from None
        if ended.status < 0:
            raise TimeOver
        return ended
