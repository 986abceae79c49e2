"""From a program to its text: for a reader, with cells and operands by their names, labels, and loops where that is the same; or
in the raw layer, the lines of a listing, each entry below its head."""

import contextlib
import typing

from ..files.program import B_ADDRESS, BNEZ, C_ADDRESS, INDEXED, REGISTERS, Entry, Program, Row
from ..rules.answer import Breach
from ..rules.op_tree import head_text
from .at_width import choice, choices, one_width, own
from .names import address_text
from .walks import Stuck, walk

# at which widths a text with loops is compared with the instructions
WIDTHS = (*range(1, 13), 31, 32, 64)
SOURCES = "abcd"
RESULTS = "yz"


def register_text(register: int) -> str:
    """What a register of an index means, where its name says it."""
    return "0" if register == REGISTERS else f"r{register}"


def row_text(row: Row, entry: Entry, subscript: typing.Callable[[int], str] = register_text) -> str:
    """A row by its name; `subscript` says what a register of an index means."""
    if row.space == B_ADDRESS:
        return address_text(row.which)
    if row.space == C_ADDRESS or row.space not in INDEXED:
        return str(row)
    kinds = {2: entry.results, 3: entry.sources}.get(row.space, ())
    name = {2: RESULTS, 3: SOURCES}[row.space][row.which] if kinds else f"w{row.which}"
    is_bit = kinds and kinds[row.which] == "bit" and row.index == REGISTERS
    return name if is_bit else f"{name}[{subscript(row.index)}]"


def flat_lines(entry: Entry) -> list[str]:
    """The instructions one by one, with labels where jumps lead."""
    targets = sorted({one.number for one in entry.code if one.kind == BNEZ})
    labels = {at: f"l{k}" for k, at in enumerate(targets)}
    lines = []
    for at, one in enumerate(entry.code):
        lines += [f"{labels[at]}:"] if at in labels else []
        lines.append(f"  {one.text(lambda row: row_text(row, entry), labels.__getitem__)}")
    return lines


def body_lines(entry: Entry, lines_of: typing.Callable[[Entry], list[str]]) -> list[str]:
    """The statements of an entry: an `if` for each width that it has a straight line for, and the code of all others."""
    if (found := choice(entry)) is None:
        return lines_of(entry)
    here, elsewhere = lines_of(found.here), body_lines(found.elsewhere, lines_of)
    return [f"  if n == {found.width} {{", *(f"  {line}" for line in here), "  } else {", *(f"  {line}" for line in elsewhere), "  }"]


def readable_lines(entry: Entry) -> list[str]:
    """The text of an entry: with loops where that does the same commands at these widths, else with labels. Where it is for one
    width, `width` says so, and the instructions that check it are left out; where it has a line for a width, an `if` does."""
    from .structuring import Unstructured, structured_lines
    scratch = ", ".join([f"t{k}: bit" for k in range(entry.bits)] + [f"w{k}: word" for k in range(entry.words)])
    head, width = [head_line(entry), *[f"scratch {scratch}"] * bool(scratch)], one_width(entry)
    code, said = (entry, []) if width is None else (own(entry), [f"width {width}"])
    widths = (width,) if width else (*WIDTHS, *(one.width for one in choices(entry)[0]))
    for lines_of in (structured_lines, flat_lines):
        with contextlib.suppress(Unstructured):
            lines = [*head, *said, *body_lines(code, lines_of)]
            if is_same(lines, entry, widths):
                return lines
    return [*head, *flat_lines(entry)]


def is_same(lines: list[str], entry: Entry, widths: typing.Iterable[int]) -> bool:
    """Whether a text does the same commands as an entry at these widths, and is for one width where the entry is."""
    from . import assemble
    try:
        again = assemble("\n".join(lines).encode()).entries[0]
        return one_width(again) == one_width(entry) and all(walk(again, n) == walk(entry, n) for n in widths)
    except (Breach, Stuck):
        return False


def readable_text(program: Program) -> str:
    parts = ["".join(f"{line}\n" for line in readable_lines(entry)) for entry in program.entries]
    version = f"version {program.version}\n\n" if program.version != 2 else ""
    return version + "\n".join(parts)


def head_line(entry: Entry) -> str:
    """The head of a program, with names for the sources and the results, which a program file does not keep."""
    return head_text(f"program {entry.name}", zip(SOURCES, entry.sources), zip(RESULTS, entry.results))


def listing(entry: Entry) -> list[str]:
    """What `list` prints of an entry."""
    second = " results=2" if len(entry.results) == 2 else ""
    return [f"entry {entry.name} sources={len(entry.sources)} bits={entry.bits} words={entry.words} code={len(entry.code)}{second}",
            *(f"{at} {one}" for at, one in enumerate(entry.code))]


def raw_text(program: Program) -> str:
    """The text of a program in the raw layer, which assembles to the same file."""
    lines = [f"version {program.version}"] * (program.version != 2)
    for entry in program.entries:
        lines += [head_line(entry), *listing(entry)]
    return "".join(f"{line}\n" for line in lines)
