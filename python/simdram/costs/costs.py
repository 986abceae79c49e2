"""What the entries of a program file cost at a width, as `simdram cost` counts them."""

import dataclasses
import tempfile
import typing

from ..files.program import Program
from ..files.store import store
from ..launcher import run_program
from ..launcher.parallel import in_parallel
from ..launcher.settings import Settings


@dataclasses.dataclass(frozen=True)
class EntryCost:
    """An entry's row commands at a width on one bank, and its rows of scratch; or why its execution is stuck."""

    name: str
    aap: int = 0
    ap: int = 0
    rows: int = 0
    stuck: str = ""

    @property
    def commands(self) -> int:
        return self.aap + self.ap

    def __str__(self) -> str:
        return self.stuck or f"aap={self.aap} ap={self.ap} rows={self.rows}"


def cost_of(line: str) -> EntryCost:
    name, *words = line.split()
    if words and words[0] == "bad_walk":
        return EntryCost(name, stuck=" ".join(words))
    numbers = {key: int(number) for key, number in (word.split("=") for word in words)}
    return EntryCost(name, **numbers)


def costs(path: str, width: int, settings: Settings, program: str | None = None) -> list[EntryCost]:
    """Of each entry at a width, in the order of the file, its cost; `program` is the program's path where it is known."""
    ended = run_program.run(["cost", path, str(width)], settings=settings, path=program)
    if ended.status:
        Program.load(path)  # where this is no program file, its own fault is told
    ended.check(f"cost {path} {width}")
    return [cost_of(line) for line in ended.out.splitlines()]


def costs_at(paths: typing.Sequence[str], widths: typing.Sequence[int], settings: Settings,
             what: str = "") -> dict[tuple[str, int], list[EntryCost]]:
    """The costs of program files at widths, by path and width, counted on all processors; `what` is shown meanwhile."""
    program = run_program.program(settings)
    asked = [(path, width) for path in dict.fromkeys(paths) for width in dict.fromkeys(widths)]
    found = in_parallel(lambda one: costs(*one, settings, program), asked, what)
    return dict(zip(asked, found))


def going_on(path: str, found: list[EntryCost], beside: str) -> str:
    """The program file without the entries that are stuck: itself, or another file, or none where all are."""
    if not any(cost.stuck for cost in found):
        return path
    entries = [entry for entry, cost in zip(Program.load(path).entries, found) if not cost.stuck]
    store(beside, Program(entries).file())
    return beside if entries else ""


def costs_until_stuck(paths: typing.Sequence[str], widths: typing.Sequence[int], settings: Settings,
                      what: str = "") -> dict[tuple[str, int], list[EntryCost]]:
    """The same, but an entry that is stuck at the first width is stuck at each, since a walk that never ends takes long."""
    first = costs_at(paths, widths[:1], settings)
    with tempfile.TemporaryDirectory(prefix="simdram_") as folder:
        files = {path: going_on(path, first[path, widths[0]], f"{folder}/{k}") for k, path in enumerate(paths)}
        rest = costs_at(list(filter(None, files.values())), widths[1:], settings, what)
    for (path, width), file in (((path, width), file) for path, file in files.items() for width in widths[1:]):
        left = iter(rest.get((file, width), ()))
        first[path, width] = [cost if cost.stuck else next(left) for cost in first[path, widths[0]]]
    return first
