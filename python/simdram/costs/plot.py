"""Draws how many row commands the entries of program files take over the width, and formulas beside them.

Each entry of each PROG has a curve: its AAP and AP together on one bank, as `simdram cost` counts them, at n = 1 to N (64
unless --to says another), or at the widths of --widths. --column draws its AAP, its AP or its scratch rows instead, --ops
chooses entries, and --log makes the axis of the counts logarithmic. OUT ends in .svg, or in .png, for which matplotlib must
be installed. --curve draws a formula of n beside them, such as one of a paper, and --ceiling one in the colour of an entry;
both are dashed. A formula has numbers, n, brackets, +, -, *, /, // (rounded down), ** or ^ (power), log2(..), ceil(..) and
floor(..), as in 9*n+1 or n*ceil(log2(n)). An entry whose execution is stuck at a width is left out, with a line that says
so.
"""

import argparse
import itertools

from ..launcher.faults import Fault
from ..launcher.say import say
from ..launcher.settings import Settings
from ..launcher.tool_parser import Asked, flag, option, tool
from ..launcher.widths import widths_of
from . import formulas, picture
from .cost_table import labels_of, names_of, of_ops
from .costs import EntryCost, costs_until_stuck
from .picture import COLOURS, Line, Picture

Counts = dict[str, list[float]]
# what may be drawn of an entry, with the name of its axis
COLUMNS = {"commands": "row commands (AAP and AP)", "aap": "AAP", "ap": "AP", "rows": "scratch rows"}


def entries_of(path: str, widths: list[int], found: dict) -> dict[str, list[EntryCost]]:
    """Of each entry its costs at the widths, where none is stuck."""
    made = {}
    for k, cost in enumerate(found[path, widths[0]]):
        costs = [found[path, n][k] for n in widths]
        if stuck := next((f"{one.stuck} at n = {n}" for n, one in zip(widths, costs) if one.stuck), ""):
            say(f"{cost.name} is left out: its execution is stuck, {stuck}")
        else:
            made[cost.name] = costs
    return made


def curves(paths: list[str], ops: list[str], widths: list[int], column: str, settings: Settings) -> Counts:
    """The counts of each entry at the widths, by its name, and by its file's too where there are several."""
    found = of_ops(costs_until_stuck(paths, widths, settings, "plot"), ops)
    made: Counts = {}
    for path, label in zip(paths, labels_of(paths)):
        for name, costs in entries_of(path, widths, found).items():
            made[name if len(paths) == 1 else f"{name} of {label}"] = [getattr(cost, column) for cost in costs]
    if not made:
        raise Fault(f"{', '.join(paths)}: there is no entry that can be drawn")
    return made


def drawn_of(words: list[str], widths: list[int]) -> Counts:
    """The values of formulas NAME=FORMULA."""
    pairs = dict(word.split("=", 1) for word in words if "=" in word)
    if len(pairs) != len(words) or not all(pairs):
        raise Fault("each --curve and --ceiling is NAME=FORMULA, with another name each")
    return {name: [formulas.value(text, n) for n in widths] for name, text in pairs.items()}


def lines_of(widths: list[int], found: Counts, ceilings: Counts, others: Counts, is_log: bool) -> list[Line]:
    """The lines of the picture: each entry with its ceiling, and then the other formulas. What a formula has below 0 is not
    drawn, and on a logarithmic axis no 0 is."""
    colours, drawn = itertools.cycle(COLOURS), []
    for name, values in found.items():
        colour = next(colours)
        drawn.append((name, values, colour, False))
        if name in ceilings:
            drawn.append((f"{name}, ceiling", ceilings[name], colour, True))
    drawn += [(name, values, next(colours), True) for name, values in others.items()]
    lines = [Line(name, [(n, value) for n, value in zip(widths, values) if value > 0 or (value == 0 and not is_log)], *more)
             for name, values, *more in drawn]
    if empty := [line.name for line in lines if not line.points]:
        raise Fault(f"{empty[0]} is {'not above' if is_log else 'below'} 0 at each width")
    return lines


def width(text: str) -> int:
    """The number that --to says."""
    if not (text.isascii() and text.isdigit() and 1 <= int(text) <= 128):
        raise argparse.ArgumentTypeError(f"a width is 1 to 128, and not {text}")
    return int(text)


@tool(option("files", "PROG .. OUT", "program files, and the picture, OUT.svg or OUT.png", nargs="+"),
      option("--ops", "NAME,..", "the entries to draw; all where none is given", default=""),
      option("--to", "N", "the greatest width, 1 to 128", type=width, default=64),
      option("--widths", "N,N,..", "widths and spans, as 4,8,16-20, in place of 1 to N"),
      option("--column", help="what is drawn; AAP and AP together unless given", choices=sorted(COLUMNS), default="commands"),
      flag("--log", "a logarithmic axis for the counts"),
      option("--curve", "NAME=FORMULA", "a formula beside the entries", action="append", default=[]),
      option("--ceiling", "NAME=FORMULA", "a formula in an entry's colour", action="append", default=[]))
def main(asked: Asked) -> None:
    *progs, out = asked.files
    if not progs:
        raise Fault("plot takes program files and the picture's name after them: OUT is missing")
    picture.check_out(out, asked.settings)
    widths = sorted(widths_of(asked.widths or f"1-{asked.to}"))
    others = drawn_of(asked.curve, widths)
    found = curves(list(dict.fromkeys(progs)), names_of(asked.ops), widths, asked.column, asked.settings)
    ceilings = drawn_of(asked.ceiling, widths)
    if unknown := [name for name in ceilings if name not in found]:
        raise Fault(f"--ceiling names {unknown[0]}, and these are drawn: {', '.join(found)}")
    lines = lines_of(widths, found, ceilings, others, asked.log)
    picture.write(Picture(lines, "width n", COLUMNS[asked.column], is_high_log=asked.log), out, asked.settings)
