"""A script of bbops on an image, done by the program, and what its report says."""

import typing

from ..costs.report import OK, REFUSED, TOTAL
from ..files.image import Image
from ..files.program import Entry, Program
from ..files.store import folder_of, load, store
from ..launcher import run_program
from .costing import Cost, total
from .expressions import each_once
from .refusals import Refused, Stopped

# what helps against a refusal
HELP = {
    "no_rows": "; a chip of more rows has room, or one where arrays that are done with are deleted",
    "table_full": "; a chip has at most 256 arrays at once: delete some",
    "too_large": "; a chip of more banks or words has more columns",
}


class Made(typing.NamedTuple):
    """How an array was computed: its ops and programs, its lines, what was reported of them, their cost, the ops alone, its ops
    as they were meant, and how that was computed which it was computed from."""

    text: str = ""
    script: str = ""
    report: str = ""
    cost: Cost = Cost()
    ops: str = ""
    text_as_written: str = ""
    sources: tuple[typing.Any, ...] = ()

    def all(self) -> "list[Made]":
        """All that was done for it, each once, in order."""
        return each_once([self], lambda one: one.sources)

    def whole(self) -> "Made":
        """All that was done for it, as one."""
        parts = self.all()
        text, ops, written = ("".join(dict.fromkeys(getattr(one, name) for one in parts)) for name in ("text", "ops", "text_as_written"))
        return Made(text, "".join(one.script for one in parts), "".join(one.report for one in parts),
                    total([one.cost for one in parts]), ops, written)


class Script:
    """Ops by their texts, each with the entry that does it where it is not compiled, and lines, in order."""

    def __init__(self) -> None:
        self.ops: dict[str, Entry | None] = {}
        self.lines: list[str] = []

    @property
    def compiled(self) -> list[str]:
        return [text for text, entry in self.ops.items() if entry is None]


def computes(line: str) -> bool:
    """Whether a line computes: a bbop or a fill does, and the making and freeing of objects does not."""
    return not line.startswith(("bbop_trsp_init ", "free "))


class Done(typing.NamedTuple):
    """A script that was executed: the image after it, its report, and what its bbops and fills cost, and all its lines."""

    image: Image
    report: str
    cost: Cost
    all_lines: Cost


def run(script: Script, image: Image) -> Done:
    """Does a script on an image; a line that the program refuses is raised, and the image stays."""
    lines = "".join(f"{line}\n" for line in script.lines)
    with folder_of(ops="".join(script.compiled).encode(), script=lines.encode(), image=image.file()) as folder:
        words = ["run", "ops", "prog", "script", "image", "out"]
        if entries := list(filter(None, script.ops.values())):
            own = Program.read(compiled("".join(script.compiled))).entries if script.compiled else []
            store(f"{folder}/prog", Program([*own, *entries]).file())
            words = ["exec", *words[2:]]
        ended = run_program.run(words, folder)
        if ended.status == 8:
            raise refusal(script, ended)
        if ended.status:
            raise Stopped(words[0], ended)
        counted = [k for k, line in enumerate(script.lines, 1) if computes(line)]
        return Done(Image.read(load(f"{folder}/out")), ended.out, cost(ended.out, counted, image),
                    cost(ended.out, range(1, len(script.lines) + 1), image))


def compiled(text: str) -> bytes:
    """The program file that ops are compiled to."""
    with folder_of(ops=text.encode()) as folder:
        ended = run_program.run(["compile", "ops", "prog"], folder)
        if ended.status:
            raise Stopped("compile", ended, "ops", text)
        return load(f"{folder}/prog")


def refusal(script: Script, ended: run_program.Ended) -> Refused:
    """What the first refused line of a report says."""
    for line in ended.out.splitlines():
        if match := REFUSED.fullmatch(line):
            line = script.lines[int(match[1]) - 1]
            return Refused(match[2], line + HELP.get(match[2], ""), int(match[3]) if match[3] else None)
    raise Stopped("run", ended)


def cost(report: str, counted: typing.Iterable[int], image: Image) -> Cost:
    """The row commands of these lines of a report, over all banks, and the rows that the script's lines wrote and read."""
    kept = set(counted)
    done = [match for match in filter(None, map(OK.fullmatch, report.splitlines())) if int(match[1]) in kept]
    whole = TOTAL.fullmatch(report.splitlines()[-1])
    rows = image.banks * image.rows
    return Cost(sum(int(match[2]) for match in done), sum(int(match[3]) for match in done),
                host_writes=int(whole[3]) - rows, host_reads=int(whole[4]) - rows)
