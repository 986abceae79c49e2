"""The launcher's settings: from the command line, the environment, and the file `.simdram` at the top of the repository."""

import dataclasses
import os
import pathlib

from .faults import Fault, NoProgram
from .places import TOP

FILE = ".simdram"


@dataclasses.dataclass(frozen=True)
class Settings:
    """Which program is asked for, whether files of another kind may be overwritten, and whether notes are left out."""

    unproved: bool = False
    proved: bool = False
    force: bool = False
    quiet: bool = False


def is_set(name: str) -> bool:
    return os.environ.get(name, "") not in ("", "0")


def unproved_by_file() -> bool:
    """Whether the file at the top of the repository has the setting."""
    path = pathlib.Path(TOP) / FILE if TOP is not None else None
    if path is None or not path.is_file():
        return False
    words = [line.partition("#")[0].strip() for line in path.read_text(encoding="utf-8", errors="replace").splitlines()]
    for number, word in enumerate(words, 1):
        if word not in ("", "unproved", "--unproved"):
            raise NoProgram(f"{path} line {number}: {word} is not a setting; the only setting is: unproved")
    return any(words)


def taken(words: list[str]) -> tuple[Settings, list[str]]:
    """The settings, and the words without them."""
    flags = {"--unproved", "--proved", "--force"}
    given, rest = flags.intersection(words), [word for word in words if word not in flags]
    if {"--unproved", "--proved"} <= given:
        raise Fault("--proved and --unproved are both given; at most one of them may be")
    proved = "--proved" in given
    unproved = "--unproved" in given or not proved and (is_set("SIMDRAM_UNPROVED") or unproved_by_file())
    return Settings(unproved, proved, "--force" in given, is_set("SIMDRAM_QUIET")), rest
