"""The first fault of a file, where it is and what would be right; with PROG and IMAGE, a script's refusals; with PROG and N, what
the verdicts of `verify` mean.

FILE is an operation text, a script, a query, a text of flips, a text of microprograms, a program file, an image or a trace. More can
be said with further files: with PROG and IMAGE after a script, every instruction that is refused; with IMAGE after a query, why the
scan is refused; with PROG and a width N after an operation text, what `verify` says of PROG's entries, and what to do. A text of flips
needs SCRIPT and IMAGE. The status is 0 without a fault, else 1.
"""

import os

from ..files.image import Table
from ..files.program import Program
from ..files.store import load
from ..launcher import run_program
from ..launcher.commands import KINDS, kind_of
from ..launcher.faults import Fault
from ..launcher.settings import Settings
from ..launcher.tool_parser import Asked, option, tool
from ..launcher.words import wrong_number
from . import answers
from .answer import Answer
from .ops_rules import shapes_of
from .query_rules import COMPARISONS, JOINS
from .script_rules import FORMS as INSTRUCTIONS
from .tokens import NUMBER, tokens
from .verdict_answers import answers_on
from .verdicts import VERIFIED, verdicts_of

FOUND = 1
# which kinds of files say something of a kind
BESIDE = {"script": ("program", "image"), "query": ("image",), "flips": ("script", "image"), "ops": ("program",)}
FORMS = {"script": "SCRIPT PROG IMAGE", "query": "QUERY IMAGE", "flips": "FLIPS SCRIPT IMAGE", "ops": "OPS PROG N"}
# the kind that a name ending so says, and how much of another file is looked at
ENDINGS = {".ops": "ops", ".bbop": "script", ".query": "query", ".flips": "flips", ".prog": "program", ".img": "image",
           ".trace": "trace", ".micro": "micro"}
PROBE = 4096
# the kind of a text that begins with a word
FIRST_WORDS = {**dict.fromkeys(INSTRUCTIONS, "script"), **dict.fromkeys(("program", "version"), "micro"),
               **dict.fromkeys((*COMPARISONS, *JOINS), "query")}


def by_first_word(data: bytes) -> str:
    """The kind of a text; where nothing tells it, an operation text."""
    first = tokens(data[:PROBE])[0]
    if first.kind == NUMBER:
        return "flips"
    return "script" if first.text.startswith("bbop_") else FIRST_WORDS.get(first.text, "ops")


def loaded(path: str) -> tuple[str, bytes]:
    """The kind of a file, and its bytes."""
    data = load(path)
    return kind_of(data) or ENDINGS.get(os.path.splitext(path)[1]) or by_first_word(data), data


def check_beside(path: str, kind: str, beside: dict, width: int) -> None:
    """Refuses files that say nothing beside this one, and a script's program or an operation text's without what else they need."""
    for other, (name, _) in beside.items():
        if other not in BESIDE.get(kind, ()):
            raise Fault(f"{name} is {KINDS[other]}, which tells nothing about {path}, {KINDS[kind]}; usage: explain {FORMS.get(kind, 'FILE')}")
    if kind == "flips" and not {"script", "image"} <= beside.keys():
        raise Fault(f"{path} is a text of flips: name the script and the image too, which limit its numbers")
    if kind == "script" and len(beside) == 1:
        raise Fault(f"{path} is a script: name both a program file and an image to see its refusals")
    if (kind == "ops" and bool(beside)) != bool(width):
        raise Fault(f"{path} is {KINDS[kind]}: name a program file and a width, 1 to 128, after an operation text to see the verdicts of verify")


def found_in(path: str, beside: dict, width: int, settings: Settings) -> list[Answer]:
    """What is wrong with a file, beside others; a width is 0 where none is named."""
    kind, data = loaded(path)
    check_beside(path, kind, beside, width)
    if kind != "flips" and (fault := answers.first_fault(kind, path, data)):
        return [fault]
    table = Table.read(beside["image"][1], beside["image"][0]) if "image" in beside else None
    if kind == "flips":
        return answers.flips_fault(path, data, beside["script"], table)
    if "program" not in beside:
        return answers.query_refusals(path, data, table) if table else []
    prog, file = beside["program"]
    program = Program.read(file, prog)
    if kind == "script":
        entries = {entry.name: entry for entry in program.entries}
        return answers.script_refusals(path, data, table, entries, answers.stuck_by_cost(prog, settings), prog=prog)
    ended = run_program.run(["verify", path, prog, width], settings=settings)
    ended.check("verify", VERIFIED)
    return answers_on(verdicts_of(ended.out), shapes_of(path, data), program, prog, width)


@tool("FILE", option("beside", "BESIDE", nargs="*", default=[]))
def main(asked: Asked) -> int:
    width, beside = 0, {}
    if asked.beside and asked.beside[-1].isdigit():
        if wrong := wrong_number("width", asked.beside[-1]):
            raise Fault(f"N is {wrong}")
        width = int(asked.beside.pop())
    for path in asked.beside:
        kind, data = loaded(path)
        beside[kind] = (path, data)
    found = found_in(asked.file, beside, width, asked.settings)
    print("\n".join(line for answer in found for line in answer.lines()) if found else f"{asked.file}: no fault")
    return FOUND if found else 0
