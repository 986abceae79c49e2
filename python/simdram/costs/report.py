"""A report of run, exec, trace or guard as JSON or as a table: counts of all banks, of one bank, for each element.

REPORT is a file that has what the command printed, or standard input where none is named. A report sums over banks, and
its writes and reads include the rows that the simulator itself writes to open IMAGE and reads to store OUT, which are all
rows of all banks. With --image the rows of the script alone are told too, as host_writes and host_reads; in a guarded run
those that flips read and write are among them. With --script too, each bbop has the number of banks that its elements
stand in, the commands of one bank, and those for each element: 64 elements stand in a bank for each word of its rows.
Banks work at the same time, so the time of a wave is that of the bank with the most commands.
"""

import json
import re

from ..files.image import HEAD_MAX, Table
from ..files.store import load
from ..launcher.commands import kind_of
from ..launcher.faults import Fault
from ..launcher.overwrite import content
from ..launcher.tool_parser import Asked, flag, option, tool
from ..rules.script_rules import Instruction, loaded_script
from .table_formats import as_text

OK = re.compile(r"(\d+) ok aap=(\d+) ap=(\d+)")
PRINTED = re.compile(r"(\d+) (\w+(?:\[\d+(?::\d+)?\])?):((?: \d+)+)")
REFUSED = re.compile(r"(\d+) refused (\w+)((?: \w+)*)")
VOTE = re.compile(r"vote aap=(\d+) flips=(\d+)")
TOTAL = re.compile(r"total aap=(\d+) ap=(\d+) writes=(\d+) reads=(\d+) refused=(\d+)")
COLUMNS = ("number", "status", "aap", "ap", "banks", "aap_per_bank", "ap_per_bank", "commands_per_element", "instruction")


def in_banks(found: dict, one: Instruction, table: Table) -> None:
    """Adds what one bank and one element of an instruction cost."""
    if one.verb not in ("bbop", "bbop_trsp_init") or found["status"] != "ok":
        return
    count = one.number(0)
    banks = table.banks_of(count)
    found.update(elements=count, banks=banks, aap_per_bank=found["aap"] // banks, ap_per_bank=found["ap"] // banks,
                 commands_per_element=(found["aap"] + found["ap"]) / count)


def instruction_of(line: str) -> dict | None:
    if match := OK.fullmatch(line):
        return {"number": int(match[1]), "status": "ok", "aap": int(match[2]), "ap": int(match[3])}
    if match := PRINTED.fullmatch(line):
        return {"number": int(match[1]), "status": "printed", "name": match[2], "values": [int(value) for value in match[3].split()]}
    if match := REFUSED.fullmatch(line):
        return {"number": int(match[1]), "status": "refused", "word": match[2],
                "at": [int(word) if word.isdigit() else word for word in match[3].split()]}
    return None


def object_of(text: str, table: Table | None = None, script: tuple[list[Instruction], bytes] | None = None) -> dict:
    """The object of a report; the table of the image adds the host's rows, and the script each instruction's banks."""
    instructions, data = script or ([], b"")
    made: dict = {"instructions": [], "totals": None, "vote": None}
    for number, line in enumerate(text.splitlines(), 1):
        total, vote, found = TOTAL.fullmatch(line), VOTE.fullmatch(line), instruction_of(line)
        if found:
            made["instructions"].append(found)
        elif vote:
            made["vote"] = {"aap": int(vote[1]), "flips": int(vote[2])}
        elif total:
            made["totals"] = dict(zip(("aap", "ap", "writes", "reads", "refused"), map(int, total.groups())))
        else:
            raise Fault(f"line {number} is no line of a report: {line[:80]!r}")
    if made["totals"] is None:
        raise Fault("the report has no line of totals: the command did not end with status 0 or 8")
    if table:  # without the rows of the simulator's own opening and storing of the image
        own = table.banks * table.rows
        rows = {f"host_{name}": made["totals"][name] - own for name in ("writes", "reads")}
        if min(rows.values()) < 0:
            raise Fault(f"the report has fewer writes or reads than the {own} rows of the image: it is of another image")
        made["totals"].update(rows)
    numbers = [found["number"] for found in made["instructions"]]
    if script and numbers != list(range(1, len(instructions) + 1)):
        raise Fault(f"the report is of other instructions than the script's, which are 1 to {len(instructions)}")
    for found, one in zip(made["instructions"], instructions):
        line = data[one.head.at:].split(b"\n", 1)[0]
        found["instruction"] = line.decode("utf-8", "replace").partition("#")[0].strip()
        in_banks(found, one, table)
    return made


def cell(found: dict, name: str) -> str:
    if name == "status" and found["status"] == "refused":
        return " ".join(["refused", found["word"], *map(str, found["at"])])
    given = found.get(name, "")
    return f"{given:.6g}" if isinstance(given, float) else str(given)


def text_of(report: str | None) -> str:
    """The text of a report, or of standard input."""
    data = load(report or "/dev/stdin")
    if report and kind_of(data):
        raise Fault(f"{report}: no report: it holds {content(data[:512])}")
    return data.decode("utf-8", "replace")


@tool("[REPORT]",
      flag("--json", "one JSON object"),
      option("--script", "SCRIPT", "the script that was executed; needs --image"),
      option("--image", "IMAGE", "the image that it was executed on"))
def main(asked: Asked) -> None:
    if asked.script and not asked.image:
        raise Fault("--script needs --image, the image that the script ran on")
    table = Table.read(load(asked.image, "image")[:HEAD_MAX], asked.image) if asked.image else None
    made = object_of(text_of(asked.report), table, loaded_script(asked.script) if asked.script else None)
    rows = [list(COLUMNS), *([cell(found, name) for name in COLUMNS] for found in made["instructions"])]
    totals = " ".join(f"{name}={number}" for name, number in made["totals"].items())
    print(json.dumps(made, indent=1) if asked.json else f"{as_text(rows)}all banks: {totals}")
