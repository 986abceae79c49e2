"""What each cell holds after each command of an operation, in the operands' names, as text or as a page.

PROG is a program file and OP one of its entries. The code is shown part by part, a part being the instructions between two
places where it can jump. Its title says in which loops it stands, the outermost first, each by its first instruction, and
whether what it reads and writes goes upwards or downwards; `turn 1 of 2` of a loop whose rounds take turns; `in its last
round`, where another body stands in the others; `if r2 > 0 at 24` for what is done where register 2 is over 0 when the jump
at instruction 24 asks. What has none of these is done once. A loop may have no iteration.
With --ops, sources, results, states and temporaries have the names of the operation text, and it is said which statement a
part is of. Where the text of a microprogram lies beside PROG, a part has its line there. Without --ops, sources are a, b, c,
d, results y and z, scratch bits t0, t1, .., scratch words w0, .. and spill rows p0, ..; [i] is the position where one
register counts it, and else it is counted from registers as the part begins, as r3, or it is a number, or n with one; below
the table stands what these registers are. A cell that the part has not written yet holds ?; `old t` is what the row t held
before the part writes it, or, where a loop takes the value over from one iteration to the next in cells, what these hold;
`now t` is what t holds after a row was written that may be t, as their positions may be equal; a value that goes to no row
is s.
`old T1` is what a part finds in cell T1, and in every other cell that always holds the same then; what is always 0 or 1, is so.
`~x` is the complement of x, M(x, y, z) the majority; and(x, y) and or(x, y) are majorities with 0 and with 1. A long value
gets a number, as v1, which stands below its table with its value.
With --with, a number for each operand, each cell shows its bit too, in the first iteration of the part, or in iteration K, and
it is said which iteration of each loop that is. An iteration of a loop with turns has each of them once; the last may end early.
A bit that no command has set yet is not shown. With --from it is: the cells and rows that are named hold 1 at the start, and the
others 0, so that a case of `verify`, as `gives 2 not 1 from T3`, is walked through as it fails.

An entry that begins with a test of the width, as `optimise` writes it, is shown as it is done at the width of the numbers, or of
--width; without both, as it is done where no test names the width.

It prints a table for each part. With --html it writes one page instead that steps through the commands by the arrow keys,
with cells coloured by what they hold; the page loads nothing.
"""

import dataclasses
import textwrap
import typing

from ..assembler.at_width import branch, choice, choices
from ..assembler.text_lines import TextLines, text_lines
from ..costs.table_formats import Rows, as_text
from ..files.decode import CELLS
from ..files.program import Entry, Program
from ..launcher.faults import Fault
from ..launcher.overwrite import write
from ..launcher.tool_parser import Asked, option, tool
from .board import Board, changing, done_by
from .cell_values import Names, Value
from .cells_before import before
from .code_parts import WIDEST, Part, parts
from .iterations import Execution, counted, execution
from .op_texts import OpText, of_entries
from .registers import Held
from .row_names import RowNames, let_patterns
from .steps_page import page

# how long a value may be before it is numbered: the first with which all lines are short enough
LENGTHS = (48, 32, 24, 16, 12, 8, 5, 3)


class Step(typing.NamedTuple):
    """A row command, what cells and rows hold after it, which of them it changed, and the data rows that it has."""

    text: str
    cells: dict[str, str]
    rows: dict[str, str]
    changed: list[str]
    of_rows: list[str]


def steps(part: Part, rows: RowNames, names: Names, taken: dict[str, Value] | None = None) -> list[Step]:
    """The row commands of a part in order, and what cells and rows hold after each."""
    board, found = Board(part, rows, names, taken, changing(done_by(part, rows, taken))), []
    for one in part.code:
        sensed = board.name(one.rows[0]) if one.rows and one.rows[0].is_data else ""
        first = {sensed: board.before(sensed)} if sensed else {}
        before = {**first, **board.cells, **board.rows}
        if board.do(one):
            text = f"{one.name} {', '.join(map(board.name, one.rows))}"
            after = {**board.cells, **board.rows}
            changed = [name for name, value in after.items() if name not in before or value.pattern != before[name].pattern]
            found.append(Step(text, {cell: value.text for cell, value in board.cells.items()},
                              {name: value.text for name, value in board.rows.items()}, changed,
                              [board.name(row) for row in one.rows if row.is_data]))
    return found


def table(done: list[Step], bits: list[dict[str, str]] | None = None) -> list[str]:
    """A table of text: a line for each command, with the cells and the rows that it changed, and their bits where given."""
    def shown(name: str, value: str, k: int) -> str:
        bit = bits[k][name] if bits else "?"
        return value if bit in ("?", value) else f"{value}={bit}"

    rows: Rows = [["", *CELLS, "rows"]]
    for k, step in enumerate(done):
        said = {name: shown(name, value, k) for name, value in {**step.cells, **step.rows}.items()}
        changed = ", ".join(f"{name} = {said[name]}" for name in step.rows if name in step.changed)
        rows.append([step.text, *(said[cell] for cell in CELLS), changed])
    return as_text(rows).splitlines()


def title_lines(part: Part) -> list[str]:
    """A part's title, with its statements below where it is long."""
    if len(part.title()) <= WIDEST:
        return [part.title()]
    head = textwrap.wrap(f"{part.head()}{':' * bool(part.what)}", WIDEST, subsequent_indent="  ")
    return head + textwrap.wrap(part.what, WIDEST, initial_indent="  ", subsequent_indent="    ")


class Shown(typing.NamedTuple):
    """A part as it is shown: its steps, its table, what its numbered values and its subscripts are, what its cells hold
    at its start, the bits of its iterations, and after how many instructions each began, also those that are not kept."""

    part: Part
    done: list[Step]
    lines: list[str]
    said: list[tuple[str, str]]
    subscripts: list[tuple[str, str]]
    start: dict[str, str]
    bits: list[dict[str, typing.Any]]
    when: list[int]


class View:
    """An entry as it is shown, with the designer's names where the text is given, and bits where numbers are."""

    def __init__(self, entry: Entry, text: OpText | None, run: Execution | None = None, iteration: int = 1,
                 lines: TextLines | None = None) -> None:
        self.entry, self.text, self.run, self.iteration = entry, text, run, iteration
        self.rows, found = text.names() if text else RowNames(None), parts(entry.code)
        found = text.parts(found) if text else found
        found = [dataclasses.replace(part, place=f" ({lines.said(part.first)})") for part in found] if lines else found
        self.held = Held(entry.code)
        self.shown = [self.part_shown(part, cells) for part, cells in zip(found, before(entry.code, found, self.rows))]

    def part_shown(self, part: Part, taken: dict[str, Value]) -> Shown:
        """A part with its long values numbered, so that no line is over 100 characters."""
        lets: dict[str, int] = {}
        for number in part.statements if self.text else ():
            lets.update(let_patterns(self.text.shape, self.text.shape.statements[number]))
        title = title_lines(part)
        for longest in LENGTHS:
            names = Names(lets, longest)
            done = steps(part, self.rows, names, taken)
            bits = self.run.iterations(part, done) if self.run else []
            chosen = bits[min(self.iteration, len(bits)) - 1]["bits"] if bits else None
            lines = [*title, *table(done, chosen), *(f"  {name} = {value}" for name, value in names.said)]
            if max(map(len, lines)) <= WIDEST:
                break
        subscripts = self.held.legend(part)
        if bits:
            one = min(self.iteration, len(bits))
            inside = bits[one - 1]["inside"]
            lines.insert(len(title), f"iteration {one} of {counted(bits)}{': ' if inside else ''}{inside}")
        for name, what in subscripts:
            lines += textwrap.wrap(f"{name} is {what}", WIDEST, initial_indent="  ", subsequent_indent="    ")
        start = {cell: value.text for cell, value in Board(part, self.rows, names, taken).cells.items()}
        when = [begun.when for begun in self.run.begun[part.first]] if self.run else []
        return Shown(part, done, lines, names.said, subscripts, start, bits, when)


def of_widths(entry: Entry, n: int | None) -> str:
    """At which widths an entry does what is shown, where it begins with tests of the width."""
    if not (widths := [one.width for one in choices(entry)[0]]):
        return ""
    return f"at the width {n} alone" if n in widths else f"at all widths but {' and '.join(map(str, sorted(widths)))}"


@tool("PROG", "OP",
      option("--ops", "OPS", "the operation text that PROG was compiled from"),
      option("--with", "A=N,B=N", "a number for each operand: cells show their bits", dest="numbers"),
      option("--width", "N", "the width with --with, else the first of 8, 16, .. that holds the numbers; "
             "and which code of an entry is shown that has a straight line for a width", type=int),
      option("--from", "T3,t0", "with --with: the cells and rows that hold 1 at the start, as a verdict "
             "names them, or `zeros`; the others hold 0", dest="start"),
      option("--iteration", "K", "which iteration of each part shows bits in the tables", type=int, default=1),
      option("--html", "PAGE", "write a page in place of the tables"))
def main(asked: Asked) -> None:
    try:
        entry = Program.load(asked.prog).find(asked.op)
    except KeyError as fault:
        raise Fault(f"{asked.prog}: {fault.args[0]}") from None
    if asked.width is not None and not ((asked.numbers or choice(entry)) and 1 <= asked.width <= 128):
        raise Fault("--width goes with --with, and is 1 to 128")
    if asked.iteration < 1:
        raise Fault("--iteration is 1 or more")
    text = of_entries(asked.prog, [entry], asked.ops, asked.settings)[entry.name]
    if asked.start is not None and not asked.numbers:
        raise Fault("--from goes with --with")
    start = None if asked.start is None else asked.start.replace(",", " ").split()
    run = execution(entry, text, asked.numbers, asked.width, [] if start == ["zeros"] else start) if asked.numbers else None
    width = run.width if run else asked.width
    shown = branch(entry, width)
    view = View(shown, text, run, asked.iteration, text_lines(asked.prog, entry) if shown is entry else None)
    said = [one for one in (text.other if text else "", run.said if run else "", of_widths(entry, width)) if one]
    if asked.html:
        write(asked.html, page(asked.op, view.shown, said, run is not None).encode(), "page", asked.settings)
        return
    for line in [*said, *(line for one in view.shown for line in one.lines)]:
        print(line)
