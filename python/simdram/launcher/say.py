"""The launcher's lines on standard error."""

import contextlib
import os
import pathlib
import shutil
import sys

from .places import TOP

KEPT_MAX = 50


def say(text: str) -> None:
    print(f"simdram: {text}", file=sys.stderr, flush=True)


def show(text: str) -> None:
    """A line in the place of the last one, where standard error is a terminal."""
    if sys.stderr.isatty():
        print(f"\r{text[:shutil.get_terminal_size().columns - 1]}\033[K", end="", file=sys.stderr, flush=True)


def session() -> str:
    """What tells this terminal's session from others: its leader, and when that began."""
    leader = os.getsid(0)
    try:
        stat = pathlib.Path(f"/proc/{leader}/stat").read_text(encoding="utf-8", errors="replace")
        return f"{leader} {stat.rpartition(')')[2].split()[19]}"
    except (OSError, IndexError):
        return str(leader)


def is_new_here(name: str) -> bool:
    """Whether this was not said yet in this session; from now on it was."""
    if TOP is None:
        return True
    path = pathlib.Path(TOP) / "crates" / "simdram" / "out" / "said"
    key = f"{name} {session()}"
    with contextlib.suppress(OSError):
        lines = path.read_text(encoding="utf-8").splitlines() if path.exists() else []
        if key in lines:
            return False
        path.write_text("".join(f"{line}\n" for line in [*lines, key][-KEPT_MAX:]), encoding="utf-8")
    return True
