"""The answers on files: their first faults, and what a script or a query is refused with."""

import functools
import subprocess

from ..assembler import assemble
from ..files.image import Image, Table
from ..files.program import Entry, Program
from ..files.trace import Trace
from ..launcher import run_program
from ..launcher.commands import KINDS, kind_of
from ..launcher.faults import FileFault
from ..launcher.overwrite import content
from ..launcher.settings import Settings
from .answer import Answer, Breach, first_breach
from .ops_rules import read_ops
from .query_rules import read_query
from .script_refusals import Checker, check_scan, refused
from .script_rules import check_flips, read_script

READERS = {"program": Program, "image": Image, "trace": Trace}
TEXTS = {"ops": read_ops, "script": read_script, "query": read_query, "micro": assemble}
# what would be right, by the word of the rule
RIGHT = {
    "rest": "the file ends where its earlier fields say, and nothing may follow",
    "instruction": "kinds of instructions are 0 to 10, registers r0 to r7, numbers 0 to 1023, and bytes that are not named are 0",
    "target": "a jump goes to an instruction of its own entry",
    "row": "a command names rows of the entry's results, sources and scratch, B and C addresses, and spill rows",
    "no_done": "an entry ends with DONE",
    "overlap": "each object has its own adjacent rows, as many as it has bits",
    "event": "an event is 0 AAP, 1 AP or 2 WRITE, its bank, and two addresses: a group, 0 B, 1 C or 2 D, and a number",
    "legal": "B8 to B11 raise two wordlines and may only be second; C0 and C1 may only be first",
}
GUARDED_NAME_MAX = 15
COST_SECONDS = 20


def right_bytes(word: str, data: bytes) -> tuple[str, ...]:
    """What would be right where a field breaks a rule; what the rule itself says is not said again."""
    if word == "magic":
        return (f"the file holds {content(data[:512])}",)
    if word == "short":
        return (f"the file has {len(data)} bytes: it was cut off, or an earlier number is too large" if data
                else "the file is empty",)
    return (RIGHT[word],) if word in RIGHT else ()


def first_fault(kind: str, path: str, data: bytes) -> Answer | None:
    """The first fault of a file of a kind, by itself."""
    if kind not in TEXTS:
        try:
            READERS[kind].read(data, path)
        except FileFault as fault:
            return Answer(path, fault.place, fault.word, fault.what, right_bytes(fault.word, data))
        return None
    found = first_breach(path, data, TEXTS[kind])
    if found and kind_of(data):
        return Answer(path, found.place, found.kind, f"{KINDS[kind]} is read here, and the file holds {content(data[:512])}")
    return found


def stuck_by_cost(prog: str, settings: Settings):
    """Where an entry is stuck at a width, as `cost` says it."""
    @functools.lru_cache(maxsize=None)
    def stuck_at(width: int) -> dict[str, str]:
        try:
            ended = run_program.run(["cost", prog, width], settings=settings, seconds=COST_SECONDS)
        except subprocess.TimeoutExpired:
            return {}
        lines = (line.partition(" bad_walk ") for line in ended.out.splitlines())
        return {name: where for name, stuck, where in lines if stuck}

    return lambda name, width: stuck_at(width).get(name)


def script_refusals(path: str, data: bytes, table: Table, entries: dict[str, Entry], stuck, is_guarded=False,
                    prog: str = "") -> list[Answer]:
    """The instructions of a script that are refused on a table, with the entries of a program file."""
    found = refused(read_script(data), Checker(table.copy(), entries, stuck, prog), is_guarded)
    return [refusal.answer(path, data, f"instruction {number}") for number, refusal in found]


def query_refusals(path: str, data: bytes, table: Table) -> list[Answer]:
    return list(filter(None, [first_breach(path, data, lambda text: check_scan(read_query(text), table), refused="query")]))


def flips_fault(path: str, data: bytes, script: tuple[str, bytes], table: Table) -> list[Answer]:
    """The first fault of a text of flips for a script and an image, or that of the script."""
    found = first_fault("script", *script) or first_breach(path, data, check_flips, len(read_script(script[1])), table)
    return [found] if found else []


def long_guarded(path: str, data: bytes) -> list[Answer]:
    """The first instruction that names an object of a name too long to be guarded."""
    for number, one in enumerate(read_script(data), 1):
        token = next((operand.name for operand in one.operands if len(operand.name.text) > GUARDED_NAME_MAX), None)
        if token:
            return [Breach(token, f"guard name {number}", f"a guarded object has a name of at most {GUARDED_NAME_MAX} bytes, since its copies "
                           "have a letter more").answer(path, data)]
    return []


def stranger(table: Table) -> tuple[int, str] | None:
    """The first object that does not continue a list of triples, and what should stand there."""
    for k in range(0, len(table.objects), 3):
        first, *copies = table.objects[k:k + 3]
        if first.name[0] != "x" or len(first.name) < 2 or not (first.name[1].isalpha() or first.name[1] == "_"):
            return k, "the first copy of a guarded object, whose name begins with x"
        for place, letter in enumerate("yz", 1):
            name = letter + first.name[1:]
            if [(one.name, one.width, one.count) for one in copies[place - 1:place]] != [(name, first.width, first.count)]:
                return k + place, f"{name}, {first.count} elements of {first.width} bits"
    return None


def no_triples(path: str, table: Table) -> list[Answer]:
    """Where an image's table is no list of triples."""
    if not (found := stranger(table)):
        return []
    k, wanted = found
    stands = table.objects[k].name if k < len(table.objects) else "the table's end"
    return [Answer(path, f"object {k}", f"guard table {k}", f"{stands} where {wanted} is expected",
                   ("the table of a guarded image is a list of triples xNAME, yNAME, zNAME; `simdram init` makes one without objects",))]
