"""What `verify` says of an entry, line by line, as values."""

import dataclasses
import re

RIGHT, WRONG, UNKNOWN, BAD_WALK, NO_ENTRY, OTHER_KINDS = "right", "wrong", "unknown", "bad_walk", "no_entry", "other_kinds"
# the statuses under which `verify` prints a line for each op
VERIFIED = (0, 19, 20)
LINE = re.compile(r"(?P<name>\w+) (?:(?P<right>right) aap=(?P<aap>\d+) ap=(?P<ap>\d+)"
                  r"|(?P<wrong>wrong)(?P<operands>(?: \w+=\d+)*) gives (?P<gives>\d+(?: \d+)?) not (?P<wanted>\d+(?: \d+)?)"
                  r"(?: from (?P<start>.+))?|(?P<bad_walk>bad_walk) (?P<at>\d+) (?P<why>\w+)"
                  r"|(?P<other>unknown|no_entry|other_kinds)(?: (?P<limit>nodes|depth|steps))?)")
TOTAL = re.compile(r"verified (\d+) of (\d+) at (\d+)")


@dataclasses.dataclass(frozen=True)
class Verdict:
    """What is said of an entry at one width: whether it does the op, for all numbers and whatever the cells hold.

    Of a wrong one: the operands of a case by the op's names, what it gives, what the op means, and the cells and rows that are
    1 at the case's start. Of one that is stuck: the instruction, and why. Of an unknown one: which limit was reached, where told.
    """

    name: str
    kind: str
    aap: int = 0
    ap: int = 0
    operands: dict[str, int] = dataclasses.field(default_factory=dict)
    gives: tuple[int, ...] = ()
    wanted: tuple[int, ...] = ()
    start: tuple[str, ...] = ()
    at: int = 0
    why: str = ""

    @property
    def is_right(self) -> bool:
        return self.kind == RIGHT

    def __bool__(self) -> bool:
        return self.is_right


def verdict_of(line: str) -> Verdict | None:
    if not (match := LINE.fullmatch(line)):
        return None
    name = match["name"]
    if match["right"]:
        return Verdict(name, RIGHT, int(match["aap"]), int(match["ap"]))
    if match["bad_walk"]:
        return Verdict(name, BAD_WALK, at=int(match["at"]), why=match["why"])
    if match["other"]:
        return Verdict(name, match["other"], why=match["limit"] or "")
    operands = {word.partition("=")[0]: int(word.partition("=")[2]) for word in match["operands"].split()}
    gives, wanted = (tuple(map(int, match[part].split())) for part in ("gives", "wanted"))
    return Verdict(name, WRONG, operands=operands, gives=gives, wanted=wanted, start=tuple((match["start"] or "").split()))


def verdicts_of(text: str) -> list[Verdict]:
    """The verdicts of what `verify` prints, in the order of the ops."""
    return [verdict for verdict in map(verdict_of, text.splitlines()) if verdict is not None]
