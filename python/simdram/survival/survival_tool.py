"""How often all answers of a guarded script stay right while cells flip at a rate.

For each rate R the script is executed --runs times by `guard`, each time with other flips: those of `simdram flips --rate R
--seed K`, K from --seed on. A run is right where every number that the script prints, and every number of every object that
it leaves in the image, is as without flips. A row has the rate, the runs, how many were right, their share with the 95%
interval (Wilson's) of the probability behind it, the mean, least and most flips of a run, and the first seed that went wrong.
Flips hit all data cells of IMAGE, also those that no object stands in.
"""

import dataclasses
import math
import typing

from ..costs.picture import COLOURS, Line, Picture, check_out, write
from ..costs.report import PRINTED
from ..costs.table_formats import FORMATS, Rows
from ..files.image import Image
from ..files.store import folder_of, load
from ..launcher import run_program
from ..launcher.faults import Fault
from ..launcher.parallel import in_parallel
from ..launcher.tool_parser import Asked, option, tool
from .flips_tool import Cells, cells_of, drawn, rate_of, seed_of, text_of

HEAD = ("rate", "runs", "right", "share", "low", "high", "flips_mean", "flips_least", "flips_most", "first_wrong_seed")
RUNS_MOST = 1_000_000
# the factor of a 95% interval
NORMAL = 1.959964


# what a guarded run answers: the lines that it prints, and the numbers of the objects that it leaves
Answers = tuple[tuple[str, ...], tuple[tuple[str, bytes], ...]]


class Run(typing.NamedTuple):
    """A run with flips: its seed, how many flips it had, and whether all answers were right."""

    seed: int
    flips: int
    is_right: bool


@dataclasses.dataclass(frozen=True)
class Job:
    """A guarded script on an image: its files, its cells, and the program that executes it."""

    ops: str
    script: str
    image: str
    cells: Cells
    program: str

    def answers(self, flips: str) -> Answers:
        """The answers under a text of flips."""
        with folder_of(flips=flips.encode()) as folder:
            path, prog, out = (f"{folder}/{name}" for name in ("flips", "prog", "out"))
            ended = run_program.run(["guard", self.ops, prog, self.script, self.image, path, out], path=self.program)
            ended.check("guard")
            image = Image.read(load(out), out)
            # the votes at the end make the three copies of an object equal, so that the first is enough
            objects = tuple((one.name, image.cells(one.name)[0]) for one in image.objects if one.name.startswith("x"))
            return tuple(filter(PRINTED.fullmatch, ended.out.splitlines())), objects

    def run(self, rate: float, seed: int, right: Answers) -> Run:
        flips = text_of(drawn(self.cells, rate, seed))
        return Run(seed, flips.count("\n"), self.answers(flips) == right)


def interval(right: int, runs: int) -> tuple[float, float]:
    """Wilson's 95% interval of a probability, by how many of the runs were right."""
    share, square = right / runs, NORMAL**2 / runs
    middle = (share + square / 2) / (1 + square)
    half = NORMAL / (1 + square) * math.sqrt(share * (1 - share) / runs + square / (4 * runs))
    low, high = middle - half, middle + half
    return 0 if right == 0 else max(0.0, low), 1 if right == runs else min(1.0, high)


def row_of(rate: float, runs: list[Run]) -> list:
    right = sum(one.is_right for one in runs)
    low, high = interval(right, len(runs))
    flips = [one.flips for one in runs]
    wrong = next((one.seed for one in runs if not one.is_right), "")
    return [f"{rate:g}", len(runs), right, f"{right / len(runs):.4f}", f"{low:.4f}", f"{high:.4f}",
            f"{sum(flips) / len(flips):.2f}", min(flips), max(flips), wrong]


def survival(job: Job, rates: list[float], runs: int, seed: int) -> Rows:
    right = job.answers("")
    if not right[0] and not any(data for _, data in right[1]):
        raise Fault(f"{job.script} has no answers: it prints nothing and leaves no object")
    asked = [(rate, seed + k) for rate in rates for k in range(runs)]
    found = in_parallel(lambda one: job.run(*one, right), asked, "survival")
    return [row_of(rate, found[k * runs:(k + 1) * runs]) for k, rate in enumerate(rates)]


def picture_of(rows: Rows) -> Picture:
    """The share of right runs over the rate, between the ends of its interval."""
    drawn_rows = sorted([row for row in rows if float(row[0]) > 0], key=lambda row: float(row[0]))
    if not drawn_rows:
        raise Fault("a curve needs a rate above 0")
    lines = []
    for name, column in (("right runs", 3), ("95%, low", 4), ("95%, high", 5)):
        points = [(float(row[0]), 100 * float(row[column])) for row in drawn_rows]
        lines.append(Line(name, points, COLOURS[0 if column == 3 else 4], column != 3))
    return Picture(lines, "flips for each cell and instruction", "runs with all answers right, in %", True)


@tool("OPS", "SCRIPT", "IMAGE",
      option("--rates", "R,R,..", "rates, 0 to 1 each, such as 1e-6,1e-5,1e-4", required=True),
      option("--runs", "N", "runs for each rate; 100 unless it is given", type=int, default=100),
      option("--seed", "S", "the seed of the first run; 0 unless it is given", type=seed_of, default=0),
      option("--format", help="how the table is written", choices=sorted(FORMATS), default="text"),
      option("--csv", help="as --format csv", action="store_const", const="csv", dest="format"),
      option("--plot", "OUT", "draw the shares over the rates, into OUT.svg or OUT.png"))
def main(asked: Asked) -> None:
    rates = list(dict.fromkeys(map(rate_of, asked.rates.split(","))))
    if not 1 <= asked.runs <= RUNS_MOST:
        raise Fault(f"--runs is 1 to {RUNS_MOST:,}")
    if asked.plot:
        check_out(asked.plot, asked.settings)
    cells = cells_of(asked.script, asked.image)
    job = Job(asked.ops, asked.script, asked.image, cells, run_program.program(asked.settings))
    rows = survival(job, rates, asked.runs, asked.seed)
    if asked.plot:
        write(picture_of(rows), asked.plot, asked.settings)
    print(FORMATS[asked.format]([list(HEAD), *rows]), end="")
