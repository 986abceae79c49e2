"""The walk over right programs in plain C++ (walk.cpp), on the commands of an entry at one width."""

from __future__ import annotations

import pathlib
import subprocess
import sys

TOP = pathlib.Path(__file__).resolve().parent.parent
sys.path.append(str(TOP / "python"))

from simdram.assembler.walks import walk  # noqa: E402
from simdram.files.program import B_ADDRESS, C_ADDRESS, RESULT, SOURCE, Entry, Program  # noqa: E402

SOURCE_TEXT = TOP / "bench" / "walk.cpp"
FIRST_ROW = 18
NO_SECOND = -1


def built(folder: pathlib.Path) -> pathlib.Path:
    """The program, compiled into a folder."""
    made = folder / "walk"
    subprocess.run(["g++", "-O3", "-march=native", "-o", made, SOURCE_TEXT], check=True)
    return made


def rows_of(kinds: tuple[str, ...], space: int, n: int) -> list[tuple[int, int, int]]:
    """The rows of operands of these kinds, one after another."""
    return [(space, which, k) for which, kind in enumerate(kinds) for k in range(n if kind == "word" else 1)]


def numbers_of(entry: Entry, n: int) -> str:
    """An entry's commands at a width, as walk.cpp reads them."""
    commands = walk(entry, n)
    sources, results = rows_of(entry.sources, SOURCE, n), rows_of(entry.results, RESULT, n)
    named = [place for command in commands for place in command if place[0] not in (B_ADDRESS, C_ADDRESS)]
    others = [place for place in dict.fromkeys(named) if place[0] not in (SOURCE, RESULT)]
    places = {place: FIRST_ROW + k for k, place in enumerate([*sources, *results, *others])}
    places.update({(B_ADDRESS, k, 0): k for k in range(16)})
    places.update({(C_ADDRESS, k, 0): 16 + k for k in range(2)})
    lines = [f"{len(sources)} {len(results)} {len(others)} {len(commands)}"]
    for command in commands:
        first, second = (*(places[place] for place in command), NO_SECOND)[:2]
        lines.append(f"{first} {second}")
    return "\n".join(lines)


def changes_a_second(made: pathlib.Path, prog: pathlib.Path, n: int, seconds: float) -> float:
    """How many changes it tries in a second of processor time on the first entry of a program."""
    ended = subprocess.run([made, str(seconds)], input=numbers_of(Program.load(str(prog)).entries[0], n), capture_output=True, text=True,
                           check=True)
    return float(ended.stdout.split()[0])
