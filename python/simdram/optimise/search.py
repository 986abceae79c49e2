"""The command `optimise`: the program searches for one entry after another, several at a time, and goes on from a NEW that it wrote.

So there is something to tell while it searches, and what was found is stored also where the call is interrupted. The files and the
words of a call say what comes of it: no clock is read. `fewest` searches from two texts of the same ops.
"""

import os
import re
import typing

from ..assembler.at_width import choice
from ..assembler.walks import walk
from ..files.program import Entry, Program
from ..files.store import LIMITS, folder_of, store
from ..launcher import run_program
from ..launcher.faults import Fault, FileFault, NotWritten
from ..launcher.overwrite import why_not_written, write
from ..launcher.parallel import in_parallel
from ..launcher.say import say
from ..launcher.settings import Settings
from .named_rows import right_names, with_named_rows

# the seed, and how many changes are tried for each command: about five processor seconds for 100 commands
SEED, WORK = 1, 50_000
# what is said of an entry that `verify` does not find right
NOT_RIGHT = ("wrong", "bad_walk", "other_kinds", "unknown")
SHORTER = re.compile(r"\w+ (\d+) to (\d+)")


class Asked(typing.NamedTuple):
    """What is searched for: by which ops, at which width, with which seed, by how many changes for each command."""

    ops: str
    width: int
    seed: int = SEED
    work: int = WORK


class Found(typing.NamedTuple):
    """An entry as it is after a search, and the line that says what became of it."""

    entry: Entry
    line: str


class Refused(Fault):
    """The program refused a file, or ended otherwise without a result."""

    def __init__(self, ended: run_program.Ended) -> None:
        super().__init__(f"optimise ended with status {ended.status}: {ended.out.strip()}")
        self.ended = ended


def of_entry(path: str, asked: Asked, entry: Entry) -> Found:
    """What the program finds for one entry."""
    with folder_of(prog=Program([entry]).file()) as folder:
        words = ["optimise", asked.ops, f"{folder}/prog", asked.width, f"{folder}/new", asked.seed, asked.work]
        ended = run_program.run(words, path=path)
        if ended.status:
            raise Refused(ended)
        return Found(Program.load(f"{folder}/new").entries[0], ended.out.splitlines()[0])


class Search:
    """A search for the entries of a program, in order; those that are not done stand as they were."""

    def __init__(self, path: str, asked: Asked, entries: typing.Sequence[Entry]) -> None:
        self.path, self.asked = path, asked
        self.found = [Found(entry, f"{entry.name} as it was") for entry in entries]
        self.before = list(entries)

    def run(self) -> None:
        in_parallel(self.search, range(len(self.found)), "optimise")

    def search(self, k: int) -> None:
        self.found[k] = of_entry(self.path, self.asked, self.before[k])

    def file(self) -> bytes:
        """The program file of what was found; where it were too long, entries that grew most stand as they were."""
        by_growth = iter(sorted(range(len(self.found)), key=lambda k: len(self.before[k].code) - len(self.found[k].entry.code)))
        while len(made := Program([one.entry for one in self.found]).file()) > LIMITS["program"]:
            k = next(by_growth)
            self.found[k] = Found(self.before[k], f"{self.before[k].name} as it was")
        return made

    def report(self) -> str:
        """The lines of all entries, and the last line, as the program writes them."""
        lines = [one.line for one in self.found]
        last = f"optimised {sum(map(bool, map(SHORTER.fullmatch, lines)))} of {len(lines)} at {self.asked.width}"
        return "".join(f"{line}\n" for line in [*lines, last])


def is_made_of(new: Entry, entry: Entry) -> bool:
    """Whether an entry is another one with straight lines for some widths before it."""
    before = choice(new)
    while new != entry and before:
        new, before = before.elsewhere, choice(before.elsewhere)
    return new == entry


def entries_of(prog: str, new: str) -> tuple[list[Entry], bool]:
    """The entries to search from, and whether they are those of NEW: where what stands there was made of PROG by this command."""
    entries = Program.load(prog).entries
    try:
        made = Program.load(new).entries if os.path.isfile(new) else []
    except FileFault:
        made = []
    is_own = len(made) == len(entries) and all(map(is_made_of, made, entries))
    return (made, True) if is_own else (entries, False)


def keep(new: str, found: bytes, is_own: bool, settings: Settings) -> None:
    """Stores what was found. What stood there is kept first by the one rule for files, unless the search went on from it."""
    if is_own:
        store(new, found, True)
    else:
        write(new, found, "program", settings)


def run(path: str, words: typing.Sequence[str], flags: typing.Collection[str], settings: Settings) -> int:
    """Does the command with these words, and returns its status."""
    ops, prog, width, new, *numbers = words
    try:
        entries, is_own = entries_of(prog, new)
    except FileFault:
        entries = []
    if not entries:  # the program says what is wrong with PROG, or that nothing is to be done
        return run_program.follow(path, ["optimise", *words])
    if reason := why_not_written(new, 0):
        raise NotWritten(new, "", "cannot write", reason)
    search = Search(path, Asked(ops, int(width), *map(int, numbers)), entries)
    try:
        search.run()
    except Refused as refused:
        print(refused.ended.out, end="")
        return refused.ended.status
    except KeyboardInterrupt:
        keep(new, search.file(), is_own, settings)
        raise
    found, lines = with_named_rows(path, ops, search.file(), int(width)) if "--rows" in flags else (search.file(), "")
    keep(new, found, is_own, settings)
    print(search.report() + lines, end="", flush=True)
    if any(one.line.split()[-1] in NOT_RIGHT for one in search.found):
        say(f"simdram explain {ops} {prog} {width} says what is wrong, or what is not known")
    return 0


class Fewest(typing.NamedTuple):
    """An entry of the fewest commands that were found at a width, their number before and now, and whether it was verified."""

    entry: Entry
    before: int
    after: int
    is_right: bool

    def line(self) -> str:
        name = self.entry.name
        said = f"{name} {self.before} to {self.after}" if self.after < self.before else f"{name} as it was"
        return said if self.is_right else f"{said}, not known to be right"


def compiled(path: str, ops: str, prog: str) -> list[Entry]:
    """The entries of a text that the program accepts."""
    run_program.run(["compile", ops, prog], path=path).check("compile")
    return Program.load(prog).entries


def searched(path: str, ops: str, prog: str, n: int, work: int) -> tuple[list[Entry], list[Entry]]:
    """The entries of a text, and what a search finds for them at a width."""
    search = Search(path, Asked(ops, n, SEED, work), compiled(path, ops, prog))
    search.run()
    return search.before, [one.entry for one in search.found]


def fewest(path: str, written: bytes, simpler: bytes, n: int, work: int = WORK) -> list[Fewest]:
    """For each op of the text as it was written the entry of the fewest commands at a width. One of the simpler text is taken only
    where `verify` finds that it does the op as it was written."""
    with folder_of(ops=written, simpler=simpler) as folder:
        ops, other, prog = (f"{folder}/{name}" for name in ("ops", "simpler", "prog"))
        before, own = searched(path, ops, prog, n, work)
        found = own
        if simpler != written:
            theirs = {entry.name: entry for entry in searched(path, other, prog, n, work)[1]}
            right = right_names(path, ops, list(theirs.values()), n)
            found = [min([entry, *(theirs[name] for name in [entry.name] if name in right)], key=lambda one: len(walk(one, n)))
                     for entry in own]
        right = right_names(path, ops, found, n)
        return [Fewest(entry, len(walk(old, n)), len(walk(entry, n)), entry.name in right) for old, entry in zip(before, found)]
