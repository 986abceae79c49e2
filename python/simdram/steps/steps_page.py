"""The page that steps through the commands of an operation."""

import html
import json
import pathlib
import string
import typing

from ..assembler.names import address_text
from .iterations import counted

TEMPLATE = pathlib.Path(__file__).with_name("page.html")


class Page(string.Template):
    """The page, with @name for each thing that is put into it."""

    delimiter = "@"


def part_data(one) -> dict:
    """A part as the page has it; of an iteration a digit for each value that is shown after a command."""
    iterations = [{**each, "bits": ["".join(bits[name] for name in [*step.cells, *step.rows]) for step, bits in zip(one.done, each["bits"])]}
                  for each in one.bits]
    return {"title": one.part.title(), "said": one.part.said + (f": {one.part.what}" if one.part.what else ""),
            "first": one.part.first, "loops": one.part.loops, "start": {**one.start}, "named": one.said,
            "subscripts": one.subscripts, "steps": [{**step._asdict(), "text": with_cells(step.text)} for step in one.done],
            "counted": counted(one.bits), "iterations": iterations}


def with_cells(text: str) -> str:
    """A command's text, with the cells of each address beside it."""
    kind, *rows = text.replace(",", "").split()
    said = (f"{row} {address_text(int(row[1:]))}" if row[:1] == "B" and row[1:].isdigit() else row for row in rows)
    return f"{kind} {', '.join(said)}"


def in_order(found: typing.Sequence, is_executed: bool) -> tuple[list[tuple[int, int]], bool]:
    """The parts as they are walked through, each by its number with that of its iteration: as they are executed, as far as
    iterations are kept, or, where no numbers are given, one after another; and whether that is all."""
    if not is_executed:
        return [(k, 0) for k in range(len(found))], True
    begun = sorted((when, part, k) for part, one in enumerate(found) for k, when in enumerate(one.when))
    walked = next((at for at, (_, part, k) in enumerate(begun) if k >= len(found[part].bits)), len(begun))
    return [(part, k) for _, part, k in begun[:walked]], walked == len(begun)


def page(name: str, found: list, said: typing.Sequence[str] = (), is_executed: bool = False) -> str:
    """The page of an operation's parts, with lines above them."""
    order, is_whole = in_order(found, is_executed)
    data = json.dumps([part_data(one) for one in found]).replace("</", "<\\/")
    lines = "<br>".join(map(html.escape, said))
    return Page(TEMPLATE.read_text(encoding="utf-8")).substitute(
        name=html.escape(name), said=lines, parts=data, order=json.dumps(order), whole=json.dumps(is_whole))
