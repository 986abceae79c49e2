"""What the verdicts of `verify` mean, entry by entry, and what to do."""

import itertools
import shlex

from ..assembler.reading import head_line
from ..assembler.at_width import one_width, other_width
from ..assembler.text_lines import place_of
from ..files.program import Entry, Program
from ..steps.one_column import Column
from .answer import Answer
from .op_tree import OpShape, head_text
from .ops_rules import listed, near
from .verdicts import BAD_WALK, NO_ENTRY, OTHER_KINDS, RIGHT, WRONG, Verdict

WHY = {
    "index": "names a row past the operand's width",
    "register": "takes a register past 1023 or below 0",
    "budget": "is where the walk has taken as many instructions as it may, 67,108,864: a loop does not end",
}
LIMITS = {
    "": "the comparison took more than 4,000,000 nodes, or went too deep",
    "nodes": "the comparison took more than 4,000,000 nodes",
    "depth": "the operands and scratch have more rows than the comparison has places",
    "steps": "the comparison took more steps than it may",
}
SOURCES = "abcd"


def positions(bits: int) -> str:
    """The positions at which a number has ones, neighbours as a range."""
    at = [k for k in range(bits.bit_length()) if bits >> k & 1]
    runs = [[k for _, k in run] for _, run in itertools.groupby(enumerate(at), lambda one: one[1] - one[0])]
    return ", ".join(str(run[0]) if len(run) == 1 else f"{run[0]} to {run[-1]}" for run in runs)


def different_bits(verdict: Verdict, shape: OpShape, n: int) -> str:
    """Which bits of which results a case has wrong."""
    said = []
    for (name, kind), gives, wanted in zip(shape.results.items(), verdict.gives, verdict.wanted):
        if bits := gives ^ wanted:
            where = f"bit{'s' * (bits & bits - 1 != 0)} {positions(bits)} of {name}"
            is_top = n > 1 and kind == "word" and bits == 1 << n - 1
            said.append(f"the top bit of {name}, {n - 1}," if is_top else name if kind == "bit" else where)
    return " and ".join(said) + (" is wrong" if len(said) == 1 and "bits " not in said[0] else " are wrong")


def named(numbers, names) -> str:
    """Numbers by names: `y=1 and z=0`, or the number alone where there is one name."""
    numbers = list(numbers)
    return str(numbers[0]) if len(numbers) == 1 else " and ".join(f"{name}={number}" for name, number in zip(names, numbers))


def of_start(verdict: Verdict, cells: str, shape: OpShape, entry: Entry, n: int) -> str:
    """What a case's start, with ones in these cells, has to do with it."""
    # what the entry gives where all cells and rows but the sources hold 0 at the start
    column = Column(entry, n, list(verdict.operands.values()), ()).run()
    found = tuple(int(column.result(which)) for which in range(len(entry.results)))
    if found == verdict.wanted:
        held, each = ("it holds", "it") if len(verdict.start) == 1 else ("they hold", "each of them")
        return (f"where {held} 0 the result is right, so it depends on what {cells} held before the first command: set {each} before it "
                "is read, and write every row of the results")
    return f"the same numbers fail where all cells and rows hold 0 too: they give {named(found, shape.results)} there"


def of_wrong(verdict: Verdict, shape: OpShape, entry: Entry, prog: str, n: int) -> tuple[str, tuple[str, ...]]:
    """A case in which an entry fails, and where to look."""
    case = ", ".join(f"{name}={number}" for name, number in verdict.operands.items())
    rule = (f"for {case} at width {n} it gives {named(verdict.gives, shape.results)}, and the op means "
            f"{named(verdict.wanted, shape.results)}: {different_bits(verdict, shape, n)}")
    given = ",".join(f"{letter}={number}" for letter, number in zip(SOURCES, verdict.operands.values()))
    steps = (f"`simdram steps {shlex.quote(prog)} {verdict.name} --with {given} --width {n} --from {','.join(verdict.start) or 'zeros'}` "
             "shows each cell and row after each command of this case")
    if not verdict.start:
        return f"{rule}, where every cell and row but the sources holds 0 at the start", (steps,)
    cells = " and ".join([", ".join(verdict.start[:-1])] * (len(verdict.start) > 1) + [verdict.start[-1]])
    return (f"{rule}, where {cells} hold{'s' * (len(verdict.start) == 1)} 1 at the start and the others 0",
            (of_start(verdict, cells, shape, entry, n), steps))


def of_stuck(verdict: Verdict, entry: Entry, prog: str, n: int) -> tuple[str, tuple[str, ...]]:
    if other := other_width(entry, n):
        return f"at width {n} its walk cannot go on: {other}", (f"verify it at {one_width(entry)}",)
    text = f", `{entry.code[verdict.at]}`," if verdict.at < len(entry.code) else ""
    place = place_of(prog, entry, verdict.at)
    return f"at width {n} its walk cannot go on: instruction {verdict.at}{text}{place[1:] if text else place} {WHY[verdict.why]}", (
        f"`simdram list {shlex.quote(prog)}` numbers the instructions; look at the bounds of the loop that it stands in",)


def answer_on(verdict: Verdict, shape: OpShape, program: Program, prog: str, n: int) -> Answer:
    """What a verdict other than `right` means."""
    kind = f"{verdict.kind} {verdict.at} {verdict.why}" if verdict.kind == BAD_WALK else verdict.kind
    entries = {entry.name: entry for entry in program.entries}
    if verdict.kind == WRONG:
        said = of_wrong(verdict, shape, entries[verdict.name], prog, n)
    elif verdict.kind == BAD_WALK:
        said = of_stuck(verdict, entries[verdict.name], prog, n)
    elif verdict.kind == OTHER_KINDS:
        said = (f"the op takes and gives other kinds than the entry, whose head is `{head_line(entries[verdict.name])}`",
                (f"the op asks for `{head_text(f'program {shape.name}', shape.sources.items(), shape.results.items())}`; names and scratch may be others",))
    elif verdict.kind == NO_ENTRY:
        names = list(entries)
        said = (f"no entry has this name; the entries are {listed(names)}{near(verdict.name, names)}",
                ("an entry is looked for by the op's name; `simdram link` joins program files",))
    else:
        said = (f"{LIMITS[verdict.why]}: at width {n} it is not known whether the entry is right",
                ("verify it at smaller widths, as 1 to 8; products, quotients and what mixes many bits of scratch grow fastest",))
    return Answer(prog, f"entry {verdict.name}", kind, *said)


def answers_on(verdicts: list[Verdict], shapes: list[OpShape], program: Program, prog: str, n: int) -> list[Answer]:
    """What those of a call's verdicts mean that are not `right`."""
    by_name = {shape.name: shape for shape in shapes}
    return [answer_on(verdict, by_name[verdict.name], program, prog, n) for verdict in verdicts if verdict.kind != RIGHT]
