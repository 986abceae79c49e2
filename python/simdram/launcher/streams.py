"""Standard streams that are closed, full, or read no more."""

import contextlib
import os
import sys

# a closed output is one that takes nothing, so that what cannot be printed is a fault and no other file is printed to
INSTEAD = ((0, os.devnull, os.O_RDONLY), (1, "/dev/full", os.O_WRONLY), (2, os.devnull, os.O_WRONLY))


def open_closed() -> None:
    """Opens each standard stream that is closed, so that no file takes its number."""
    for number, path, flags in INSTEAD:
        with contextlib.suppress(OSError):
            os.fstat(number)
            continue
        with contextlib.suppress(OSError):
            opened = os.open(path if os.path.exists(path) else os.devnull, flags)
            os.set_inheritable(opened, True)
            if opened != number:
                os.dup2(opened, number)
                os.close(opened)
    for number, name in ((1, "stdout"), (2, "stderr")):
        if getattr(sys, name) is None:
            setattr(sys, name, open(number, "w", encoding="utf-8", errors="backslashreplace"))


def drop_output() -> None:
    """Lets what could not be printed go, so that the interpreter's end does not try again."""
    with contextlib.suppress(OSError):
        os.dup2(os.open(os.devnull, os.O_WRONLY), 1)
