"""Writes an operation text that does the same for fewer row commands, each op compared with what it was for all inputs.

OPS is an operation text, and NEW another file: it gets the ops of OPS with the same parameters, results and meaning, none of
them dearer at a width that is asked for. Without NEW the text is printed, and what is said of the ops goes to standard error.
A line for each op has its commands and scratch rows before and after, and the widths at which the program's `verify` found
both texts equal for all inputs; each new text is compared at the widths 1 to 4 too. Other widths are not compared. An op that
gains nothing stays as it is, byte for byte; one that changes loses the comments inside it. Where an op is not known to be
equal at a width, it stays, or with --unvalidated it is taken, and a comment says so. If one is wrong, this tool has a fault:
the op stays, both texts are shown, and the status is 1. The time is in processor seconds, so that a busy machine finds what an
idle one does; if it is over, the best text so far is taken. What statements
cost is kept in ~/.cache/simdram, or in the folder that SIMDRAM_CACHE names, for later calls.

With --width N PROG the texts are those of the least cost at N, and PROG is written too: a program with the fewest row commands at N that
`optimise` finds from OPS or from the new text, for each op the better of both. `verify` finds its entries right by OPS at N. A line
for each op has the commands of OPS and of PROG at N. This search takes some five processor seconds for 100 commands, beside --seconds.
"""

import os
import sys

from ..files.program import Program
from ..files.store import load
from ..launcher import run_program
from ..launcher.faults import Fault
from ..launcher.overwrite import check, write
from ..launcher.settings import Settings
from ..launcher.tool_parser import Asked, flag, option, tool
from ..launcher.widths import widths_of
from ..launcher.words import wrong_number
from ..optimise.search import fewest
from ..rules import answers
from .outcome import WRONG, new_text
from .simplifier import SECONDS, Options, Simplifier

FAULTY = 1
WIDTHS = "4,8,16,32"


def check_words(asked: Asked) -> None:
    """Refuses times that are none, and a NEW that is OPS or another kind of file."""
    if not 0 < asked.seconds <= 86400:
        raise Fault("--seconds is above 0, and at most 86400")
    if asked.new and not os.path.isdir(os.path.dirname(asked.new) or "."):
        raise Fault(f"{asked.new}: there is no folder of this name")
    if asked.new and os.path.exists(asked.new):
        if os.path.exists(asked.ops) and os.path.samefile(asked.ops, asked.new):
            raise Fault(f"{asked.new} is OPS itself; NEW is another file")
        check(asked.new, "ops", asked.settings)
    if asked.width:
        if wrong := wrong_number("one width", asked.width[0]):
            raise Fault(f"N of --width is {wrong}")
        check(asked.width[1], "program", asked.settings)


def write_program(program: str, asked: Asked, written: bytes, simpler: bytes) -> None:
    """Writes the program of the fewest commands at one width, and says what it takes."""
    n, prog = int(asked.width[0]), asked.width[1]
    found = fewest(program, written, simpler, n)
    write(prog, Program([one.entry for one in found]).file(), "program", asked.settings)
    lines = [*(one.line() for one in found), f"optimised {sum(one.after < one.before for one in found)} of {len(found)} at {n}"]
    print("\n".join(lines), file=sys.stdout if asked.new else sys.stderr)


def fault_of(path: str, data: bytes, settings: Settings) -> int:
    """Says the fault of a text as the program tells it, and what would be right; the status, or 0 without a fault."""
    ended = run_program.run(["show", path], settings=settings)
    if ended.status:
        found = answers.first_fault("ops", path, data)
        sys.stderr.write("".join(f"{line}\n" for line in [*ended.out.splitlines(), *(found.lines() if found else [])]))
    return ended.status


@tool("OPS", "[NEW]",
      option("--widths", "N,N,..", "where no op is dearer, and is compared; 4,8,16,32 unless given, or N of --width"),
      option("--width", ("N", "PROG"), "also write a program of the fewest commands at the width N", nargs=2),
      option("--seconds", "S", "in how many processor seconds all ops are done, this tool's and its calls' together; 40 unless given",
             type=float, default=SECONDS),
      flag("--rows", "take no text of more scratch rows"),
      flag("--unvalidated", "take texts that are not known to be equal, with a comment"))
def main(asked: Asked) -> int:
    check_words(asked)
    widths = asked.widths or (asked.width[0] if asked.width else WIDTHS)
    options = Options(tuple(widths_of(widths)), asked.seconds, asked.rows, asked.unvalidated)
    simplifier = Simplifier(run_program.program(asked.settings), options)
    data = load(asked.ops, "ops")
    if status := fault_of(asked.ops, data, asked.settings):
        return status
    outcomes = simplifier.outcomes(data, "simplify")
    text = new_text(data, outcomes)
    if asked.new:
        write(asked.new, text, "ops", asked.settings)
    else:
        sys.stdout.write(text.decode("utf-8", "replace"))
    for one in outcomes:
        before = data[one.simpler.op.start:one.simpler.op.end]
        print(one.line(before), file=sys.stdout if asked.new else sys.stderr)
        if one.kind == WRONG:
            print(f"as it was:\n{before.decode('utf-8', 'replace')}\nas it was simplified:\n{one.simpler.text}", end="", file=sys.stderr)
    if asked.width:
        write_program(simplifier.timed.program, asked, data, text)
    return FAULTY if any(one.kind == WRONG for one in outcomes) else 0
