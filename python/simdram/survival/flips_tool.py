"""Prints a text of flips for `guard`: cells drawn at a rate before each instruction.

Before each instruction of SCRIPT each data cell of IMAGE, in every bank, row and column, flips with probability R, by
itself: 1e-6 is one flip in a million cells and instructions. The same words give the same flips.
"""

import argparse
import dataclasses
import math
import random
import typing

from ..files.image import HEAD_MAX, Table
from ..files.store import load
from ..launcher.faults import Fault
from ..launcher.tool_parser import Asked, option, tool
from ..rules.script_rules import loaded_script

# the greatest text of flips that a guarded run reads
LARGEST = 1_048_576


class Flip(typing.NamedTuple):
    """A cell that flips before an instruction, which is numbered from 1."""

    instruction: int
    bank: int
    row: int
    column: int

    def __str__(self) -> str:
        return f"{self.instruction} {self.bank} {self.row} {self.column}"


@dataclasses.dataclass(frozen=True)
class Cells:
    """The data cells of an image, and how many instructions each of them stands before."""

    banks: int
    rows: int
    columns: int
    instructions: int

    @property
    def chances(self) -> int:
        """How often a cell may flip, over all cells and instructions."""
        return self.banks * self.rows * self.columns * self.instructions

    def flip(self, chance: int) -> Flip:
        """The flip of a chance: instruction by instruction, then bank, row and column."""
        rest, column = divmod(chance, self.columns)
        rest, row = divmod(rest, self.rows)
        before, bank = divmod(rest, self.banks)
        return Flip(before + 1, bank, row, column)


def drawn(cells: Cells, rate: float, seed: int) -> typing.Iterator[Flip]:
    """The flips at a rate, in order: each chance by itself, so that the gaps between flips are geometric."""
    dice = random.Random(seed)
    at = -1
    while rate > 0:
        at += 1 + (0 if rate == 1 else math.floor(math.log1p(-dice.random()) / math.log1p(-rate)))
        if at >= cells.chances:
            return
        yield cells.flip(at)


def text_of(flips: typing.Iterable[Flip]) -> str:
    """The text of flips, where a guarded run can read it."""
    lines, size = [], 0
    for flip in flips:
        lines.append(f"{flip}\n")
        size += len(lines[-1])
        if size > LARGEST:
            raise Fault(f"the flips take more than the {LARGEST:,} bytes that a guarded run reads: the rate is too great for this "
                        "image and script")
    return "".join(lines)


def rate_of(text: str) -> float:
    try:
        rate = float(text)
    except ValueError:
        rate = -1
    if not 0 <= rate <= 1:
        raise Fault(f"a rate is a number from 0 to 1, such as 1e-6, and not {text}")
    return rate


def cells_of(script: str, image: str) -> Cells:
    """The cells of an image before the instructions of a script."""
    table = Table.read(load(image, "image")[:HEAD_MAX], image)
    return Cells(table.banks, table.rows, table.columns, len(loaded_script(script)[0]))


def seed_of(text: str) -> int:
    if not (text.isascii() and text.isdigit()):
        raise argparse.ArgumentTypeError(f"a seed is a number without a sign, and not {text}")
    return int(text)


@tool(option("--rate", "R", "the probability, 0 to 1", required=True),
      option("--seed", "S", "another seed, other flips; 0 unless it is given", type=seed_of, default=0),
      option("--script", "SCRIPT", "the script that will be guarded", required=True),
      option("image", "IMAGE", "the image that it will be executed on"))
def main(asked: Asked) -> None:
    cells, rate = cells_of(asked.script, asked.image), rate_of(asked.rate)
    head = f"# each of {cells.chances:,} chances (data cells times instructions) at the rate {rate:g}, seed {asked.seed}\n"
    body = text_of(drawn(cells, rate, asked.seed))
    print((head if len(head) + len(body) <= LARGEST else "") + body, end="")
