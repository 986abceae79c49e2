"""Which instructions of a script, and why a scan, is refused on a table of objects, and what would be right."""

import dataclasses
import typing

from ..assembler.at_width import one_width, other_width
from ..assembler.text_lines import place_of
from ..files.image import OBJECTS, ROWS_MAX, SPILL_ROWS, Object, Table
from ..files.program import Entry
from .answer import Breach, near
from .operands import Operand
from .query_rules import Node
from .script_rules import Instruction
from .tokens import Token, value_of

# of each entry and width, where its walk is stuck and why, or nothing
Stuck = typing.Callable[[str, int], str | None]
COPIES = "xyz"


def no_rows(table: Table, token: Token, size: int, what: str) -> Breach:
    """The refusal for want of free rows in one piece."""
    rows = table.rows_for(size)
    right = (f"it would fit with {rows} rows per bank; this image has {table.rows}" if rows <= ROWS_MAX else
             f"it would need {rows} rows per bank; an image has at most {ROWS_MAX}")
    return Breach(token, "no_rows", f"{what} needs {size} adjacent rows, and the longest free piece has {table.longest()}; "
                   f"the last {SPILL_ROWS} rows of a bank are reserved for spills", right, "a `free` before, or objects of equal width, help too")


class Checker:
    """Goes through a script over a table, as the program does, by names, widths and rows alone."""

    def __init__(self, table: Table, entries: dict[str, Entry], stuck: Stuck, prog: str = "") -> None:
        self.table, self.entries, self.stuck, self.prog = table, entries, stuck, prog

    def step(self, one: Instruction) -> None:
        """Does an instruction, or raises why it is refused."""
        getattr(self, f"do_{one.verb}")(one)

    def guarded(self, one: Instruction) -> None:
        """Does an instruction on the three copies of its objects, or on none."""
        before, self.table = self.table, self.table.copy()
        for letter in COPIES if one.verb != "order" else "":
            copies = tuple(operand.of_copy(letter) for operand in one.operands)
            try:
                self.step(dataclasses.replace(one, operands=copies))
            except Breach as refusal:
                self.table = before
                if any(refusal.token is copy.name for copy in copies):  # the script has the name without its letter
                    refusal.token = refusal.token._replace(text=refusal.token.text[1:])
                raise

    def do_bbop_trsp_init(self, one: Instruction) -> None:
        token, count, width, table = one.operands[0].name, one.number(0), one.number(1), self.table
        if table.find(token.text):
            raise Breach(token, "exists", f"an object {token.text} already exists", f"`free {token.text}` before removes it")
        if len(table.objects) == OBJECTS:
            raise Breach(token, "table_full", f"the table has {OBJECTS} objects already", "`free` one before")
        if count > table.room:
            raise Breach(one.numbers[0], "too_large", f"{count} elements; an object of this image has at most {table.room}: "
                         f"64 columns for each of {table.words} words in {table.banks} banks")
        if (base := table.least_free(width)) is None:
            raise no_rows(table, one.numbers[1], width, f"an object of {width} bits")
        table.objects.append(Object(token.text, width, base, count))

    def do_free(self, one: Instruction) -> None:
        self.places(one)
        self.table.objects.remove(self.table.find(one.operands[0].name.text))

    def places(self, one: Instruction) -> None:
        """Refuses the first operand that no object is, then the first whose bits its object does not have."""
        for check in (Operand.check_object, Operand.check_rows):
            for place, operand in enumerate(one.operands):
                check(operand, self.table, place)

    do_print = do_order = places

    def do_load(self, one: Instruction) -> None:
        self.places(one)
        found = one.operands[0].rows(self.table)
        if len(one.numbers) != found.count:
            raise Breach(one.operands[0].name, "count", f"{len(one.numbers)} values for the {found.count} elements of {found.name}",
                         f"`fill {found.name}, V` sets all of them to one value")
        self.do_fill(one)

    def do_fill(self, one: Instruction) -> None:
        self.places(one)
        found = one.operands[0].rows(self.table)
        for k, token in enumerate(one.numbers):
            if one.number(k) >= 2**found.width:
                raise Breach(token, f"range {k + 1}", f"{found.name} has {bits(found.width)}, which hold{'s' * (found.width == 1)} 0 to "
                             f"{2**found.width - 1}")

    def do_bbop(self, one: Instruction) -> None:
        if (entry := self.entries.get(one.op)) is None:
            raise Breach(one.head, "no_op", f"the program has no entry {one.op}{near(one.op, self.entries)}",
                         f"its entries: {', '.join(self.entries) or 'none'}")
        if len(one.operands) != len(entry.results) + len(entry.sources):
            raise Breach(one.head, "arity", f"{len(one.operands)} names; {entry.name} has {len(entry.results)} result"
                         f"{'s' * (len(entry.results) > 1)} and {len(entry.sources)} source{'s' * (len(entry.sources) > 1)}",
                         f"results come first: {form_of(entry)}")
        self.places(one)
        found = [operand.rows(self.table) for operand in one.operands]
        self.sizes(one, entry, found)
        self.overlap(one, entry, found)
        self.walk(one, entry)

    def sizes(self, one: Instruction, entry: Entry, found: list[Object]) -> None:
        """The widths of the operands, then their counts."""
        count, width = one.number(0), one.number(1)
        for place, (rows, kind) in enumerate(zip(found, (*entry.results, *entry.sources))):
            if rows.width != (width if kind == "word" else 1):
                what = f"a word of {bits(width)}" if kind == "word" else "a bit"
                raise Breach(one.operands[place].name, f"width {place}", f"{rows.name} is {bits(rows.width)} wide; {entry.name} expects {what}",
                             form_of(entry))
        for place, rows in enumerate(found):
            if rows.count != count:
                raise Breach(one.operands[place].name, f"size {place}", f"{rows.name} has {rows.count} elements; COUNT is {count}")

    @staticmethod
    def overlap(one: Instruction, entry: Entry, found: list[Object]) -> None:
        """An operand that shares a bit with a destination before it."""
        for place, rows in enumerate(found):
            if other := next((one for one in found[:min(place, len(entry.results))] if one.meets(rows)), None):
                role = "the first destination" if place < len(entry.results) else "a destination"
                whole = f"{rows.name} is {role} {'too' if place < len(entry.results) else 'and a source'}"
                shared = whole if rows.name == other.name else f"{rows.name} has bits of {other.name}, {role}"
                raise Breach(one.operands[place].name, f"overlap {place}", f"{shared}, and a result is written before all sources are read",
                             "give the result an object, or bits, of its own")

    def walk(self, one: Instruction, entry: Entry) -> None:
        """A walk that is stuck, or rows of scratch that are not there."""
        width = one.number(1)
        stuck = self.stuck(entry.name, width)
        other = other_width(entry, width)
        if stuck and other:
            raise Breach(one.head, f"bad_walk {stuck}", f"{other}, and N is {width}", f"an object of {one_width(entry)} bits has that width")
        if stuck:
            at = int(stuck.split()[0])
            raise Breach(one.head, f"bad_walk {stuck}", f"the microprogram of {entry.name} is stuck at the width {width}, at instruction "
                         f"{at}{place_of(self.prog, entry, at).rstrip(',')}", "no compiled program is; `simdram list PROG` shows the instructions")
        size = entry.bits + width * entry.words
        if self.table.least_free(size) is None:
            raise no_rows(self.table, one.head, size, f"the scratch of {entry.name} at the width {width}")


def bits(width: int) -> str:
    return f"{width} bit{'s' * (width != 1)}"


def form_of(entry: Entry) -> str:
    """How a bbop of an entry is written, with the kinds of its names."""
    names = [f"{letter}:{kind}" for letter, kind in zip("YZ", entry.results)]
    names += [f"{letter}:{kind}" for letter, kind in zip("ABCD", entry.sources)]
    return f"bbop_{entry.name} {', '.join(names)}, COUNT, N"


def refused(instructions: list[Instruction], checker: Checker, is_guarded: bool = False) -> list[tuple[int, Breach]]:
    """The instructions that are refused, by their numbers from 1."""
    found = []
    for number, one in enumerate(instructions, 1):
        try:
            (checker.guarded if is_guarded else checker.step)(one)
        except Breach as refusal:
            found.append((number, refusal))
    return found


def check_comparisons(nodes: list[Node], table: Table) -> None:
    """Refuses the first comparison that the image's objects do not fit; they are numbered from 0 in the order of the text."""
    tests = [node for node in nodes if node.operand]
    for k, node in enumerate(tests):
        node.operand.check_object(table, k)
        node.operand.check_rows(table, k)
        found, name, leader = node.operand.rows(table), node.operand.name, table.find(tests[0].operand.name.text)
        if found.count != leader.count:
            raise Breach(name, f"count {k}", f"{name.text} has {found.count} elements; {leader.name} has {leader.count}",
                         "all objects of a query have the same number of elements")
        if value_of(node.number.text) >= 2**found.width:
            raise Breach(node.number, f"range {k}", f"{found.name} has {found.width} bits, which hold 0 to {2**found.width - 1}")


def make(table: Table, node: Node, k: int, width: int, count: int) -> Object:
    """One more object of a scan, under the first free of its names."""
    if len(table.objects) == OBJECTS:
        raise Breach(node.lead, f"table_full {k}", f"the scan makes an object here, but the table is full with {OBJECTS}")
    if (base := table.least_free(width)) is None:
        refusal = no_rows(table, node.lead, width, "an object that the scan makes here")
        raise Breach(refusal.token, f"no_rows {k}", refusal.rule, *refusal.right[:1])
    name = next(name for name in (f"scan_{number}" for number in range(OBJECTS + 1)) if not table.find(name))
    table.objects.append(Object(name, width, base, count))
    return table.objects[-1]


def check_scan(nodes: list[Node], table: Table) -> None:
    """Refuses a query that does not fit the image's objects, and else the first node that has no room."""
    check_comparisons(nodes, table)
    count, table = next(node for node in nodes if node.operand).operand.rows(table).count, table.copy()
    results: list[Object] = []
    for k, node in enumerate(nodes):
        taken = [make(table, node, k, node.operand.rows(table).width, count)] if node.operand else [results[place] for place in node.sources]
        results.append(make(table, node, k, 1, count))
        for one in taken:
            table.objects.remove(one)
