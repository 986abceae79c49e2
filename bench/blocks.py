#!/usr/bin/env python3
"""Row commands of serial blocks that are written as one would write them, and the processor time of their search.

Run it at the top of the repository:  python3 bench/blocks.py [--program PATH] [--beside PATH] [--runs N]
It compiles each text of bench/blocks, asks `cost` at n = 8 and n = 32, and prints the commands that each position takes:
those of the reduced graph, without the search for other graphs (`known.csv`), those now, and the fewest that are known.
With a second program it prints the commands at n = 8 and the milliseconds of `compile` of both, side by side: both
compile each text N times (1) in turn, and the least time is taken.
It ends with 1 where a text takes more than the reduced graph took, or where full adders or subtractors take more than
7n + 2 or 6n + 2: their carry stands in cells from one position to the next, and goes to its row in the end.
"""

from __future__ import annotations

import csv
import dataclasses
import pathlib
import re
import subprocess
import sys
import tempfile

sys.dont_write_bytecode = True

import program  # noqa: E402

HERE = pathlib.Path(__file__).resolve().parent
TEXTS = HERE / "blocks"
WIDTHS = (8, 32)
CEILINGS = {"fa_": 7, "sub_": 6}
ROW = "| {:11} | {:>5} | {:>5} | {:>7} | {:>4} | {:>5} | {:>7} | {:>5} |"
BESIDE = "| {:11} | {:>7} | {:>7} | {:>7} | {:>7} |"


@dataclasses.dataclass
class Compiled:
    """The commands of a text's op at each width, and the milliseconds of processor time that `compile` took."""

    counts: list[int]
    milliseconds: float


def compiled(path, folder, text):
    """What a program makes of a text."""
    prog = pathlib.Path(folder) / "prog"
    seconds = program.seconds_of([path, "compile", text, prog])
    counts = []
    for width in WIDTHS:
        said = subprocess.run([path, "cost", prog, str(width)], check=True, capture_output=True, text=True).stdout
        counts.append(sum(int(count) for count in re.findall(r"\b(?:aap|ap)=(\d+)", said)))
    prog.unlink()
    return Compiled(counts, 1000 * seconds)


def a_position(counts):
    """The commands of one position, from those at both widths."""
    return (counts[1] - counts[0]) // (WIDTHS[1] - WIDTHS[0])


def is_more(name, now, before):
    """Whether an op takes more than it may."""
    ceilings = [most for start, most in CEILINGS.items() if name.startswith(start)]
    return any(a > b for a, b in zip(now, before)) or any(
        count > most * width + 2 for most in ceilings for count, width in zip(now, WIDTHS)
    )


def in_turn(paths, folder, text, runs):
    """What each program makes of a text, in the least time of so many runs."""
    all_runs = [[compiled(path, folder, text) for path in paths] for _ in range(runs)]
    return [min(of_one, key=lambda made: made.milliseconds) for of_one in zip(*all_runs)]


def compare(paths, rows, runs):
    """Prints commands and time of two programs."""
    print(BESIDE.format("block", "n8", "n8", "ms", "ms"))
    sums = [0, 0, 0, 0]
    with tempfile.TemporaryDirectory() as folder:
        for row in rows:
            both = in_turn(paths, folder, TEXTS / f"{row['op']}.ops", runs)
            shown = [made.counts[0] for made in both] + [round(made.milliseconds) for made in both]
            sums = [a + b for a, b in zip(sums, shown)]
            print(BESIDE.format(row["op"], *shown))
    print(BESIDE.format("all", *sums))


def show(path, rows):
    """Prints the table of one program; the status."""
    sums, milliseconds, status = [0, 0, 0], 0.0, 0
    print(ROW.format("block", "nodes", "least", "reduced", "now", "least", "n8 now", "n32"))
    with tempfile.TemporaryDirectory() as folder:
        for row in rows:
            name = row["op"]
            before = [int(row["n8_reduced"]), int(row["n32_reduced"])]
            least = [int(row["n8_least"]), int(row["n32_least"])]
            made = compiled(path, folder, TEXTS / f"{name}.ops")
            now, milliseconds = made.counts, milliseconds + made.milliseconds
            if is_more(name, now, before):
                status = 1
                print(f"{name}: more than it may take", file=sys.stderr)
            sums = [a + b for a, b in zip(sums, (before[0], now[0], least[0]))]
            shown = [a_position(counts) for counts in (before, now, least)]
            print(ROW.format(name, row["nodes_reduced"], row["nodes_least"], *shown, *now))
    print(f"at n = {WIDTHS[0]} all together: {sums[0]} reduced, {sums[1]} now, {sums[2]} the fewest that are known")
    print(f"`compile` took {milliseconds / 1000:.2f} s of processor time")
    return status


def main():
    """Prints the table; the status."""
    parser = program.parser(__doc__)
    parser.add_argument("--beside", type=pathlib.Path, help="a second program, whose commands and time are printed beside")
    parser.add_argument("--runs", type=int, default=1, help="how often both programs compile each text")
    asked = parser.parse_args()
    rows = list(csv.DictReader((TEXTS / "known.csv").read_text(encoding="utf-8").splitlines()))
    first = program.path_of(asked)
    if asked.beside:
        compare([first, asked.beside.resolve()], rows, asked.runs)
        return 0
    return show(first, rows)


if __name__ == "__main__":
    sys.exit(main())
