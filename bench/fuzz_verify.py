#!/usr/bin/env python3
"""Mutated microprograms through `verify`, whose verdicts are compared with runs.

Run it at the top of the repository:

    python3 bench/fuzz_verify.py [--seed S] [--mutants N] [--program PATH]

Each word operation's entry, the compiler's and that of examples/fewest, is mutated: an address changed, or a row to one of
another command; an instruction taken out, put in, or exchanged with the next. All are verified at a width of 1 to 3. What ends the run: a `right` entry that leaves
other results than the compiler's for some numbers and some of the random contents of cells and rows that are tried, or has
other counts; a `wrong` one whose case does not fail so in `exec`; a `bad_walk` that `cost` says otherwise; an `unknown`. The
files of the first such case are kept. `--program` names another program.
"""

import collections
import dataclasses
import pathlib
import random
import re
import shutil
import subprocess
import sys
import tempfile

TOP = pathlib.Path(__file__).resolve().parent.parent
sys.dont_write_bytecode = True
sys.path.append(str(TOP / "python"))

import program  # noqa: E402
from columns import run, sources_of  # noqa: E402
from simdram.assembler import assemble  # noqa: E402
from simdram.assembler.walks import walk  # noqa: E402
from simdram.launcher.faults import FileFault  # noqa: E402
from simdram.files.program import AP, AAP, BIT, BNEZ, B_ADDRESS, C_ADDRESS, DONE, RESULT, SETI, SPILL, WORD  # noqa: E402
from simdram.files.program import Instruction, Program, Row  # noqa: E402
from simdram.rules.verdicts import BAD_WALK, RIGHT, WRONG, verdict_of  # noqa: E402

PROGRAM = TOP / "crates" / "simdram" / "out" / "simdram"  # until the arguments are read
GATES = "".join(f"op {name}(a: word, b: word) -> y: word {{ y = {name}(a, b); }}\n" for name in ("and", "or", "xor", "add"))
STARTS, TRIES = 8, 20
STARTED = re.compile(r"(?P<cell>T[0-3]|DCC[01])|(?P<result>[yz])\[?(?P<row>\d+)?\]?|t(?P<bit>\d+)|w(?P<word>\d+)\[(?P<at>\d+)\]"
                     r"|(?:spill|[ps])(?P<spill>\d+)")


class Broken(Exception):
    """A verdict that a run refutes."""


def ops_text():
    """The ops that are verified, each of one word operation."""
    return GATES + (TOP / "examples" / "fewest" / "fewest.ops").read_text(encoding="utf-8")


class Runs:
    """A folder in which the program runs."""

    def __init__(self, folder):
        self.folder = pathlib.Path(folder)

    def store(self, name, data):
        (self.folder / name).write_bytes(data)

    def call(self, *words):
        """The status and the lines of a call."""
        ended = subprocess.run([PROGRAM, *map(str, words)], cwd=self.folder, capture_output=True, text=True, check=False)
        return ended.returncode, ended.stdout.splitlines()

    def compiled(self, text):
        """The compiler's program for a text."""
        self.store("ops", text.encode())
        status, lines = self.call("compile", "ops", "compiled")
        if status:
            sys.exit(f"{PROGRAM} does not compile the ops: {lines}")
        return Program.load(str(self.folder / "compiled"))


def mutated(entry, maker):
    """The entry with one change, or nothing where the change is no legal code."""
    code, at = list(entry.code), maker.randrange(len(entry.code) - 1)
    change = maker.randrange(4)
    if change == 0:
        commands = [k for k, one in enumerate(code) if one.rows]
        at = maker.choice(commands)
        rows = list(code[at].rows)
        other = maker.choice(code[maker.choice(commands)].rows)
        rows[maker.randrange(len(rows))] = maker.choice((Row(B_ADDRESS, maker.randrange(16), 0), other))
        code[at] = command(*rows)
    elif change == 1:
        del code[at]
    elif change == 2:
        code.insert(at, maker.choice([one for one in code if one.rows]))
    elif at + 2 < len(code):
        code[at], code[at + 1] = code[at + 1], code[at]
    shift = {1: -1, 2: 1}.get(change, 0)
    moved = [moved_jump(one, at, shift) if one.kind == BNEZ else one for one in code]
    made = dataclasses.replace(entry, code=tuple(moved))
    try:
        Program.read(Program([made]).file())
    except (FileFault, OverflowError):
        return None
    return made


def changed(entry, maker):
    """The entry with a change that leaves it legal, or as it is where none of some does."""
    return next((made for made in (mutated(entry, maker) for _ in range(TRIES)) if made), entry)


def moved_jump(one, at, shift):
    """A jump that still leads to its instruction, where one before it was taken out or put in."""
    number = one.number + (shift if one.number > at else 0)
    return dataclasses.replace(one, number=number)


def check_right(entry, made, n, verdict, maker):
    """A right entry gives what the compiler's gives, for all numbers and several starts, with the commands that are said."""
    sources, full = sources_of(entry, n)
    wanted = run(made, n, sources, full, lambda: 0)
    for _ in range(STARTS):
        if run(entry, n, sources, full, lambda: maker.getrandbits(full.bit_length())) != wanted:
            raise Broken("a run gives other results")
    kinds = collections.Counter(len(command) for command in walk(entry, n))
    if (verdict.aap, verdict.ap) != (kinds[2], kinds[1]):
        raise Broken(f"the entry has {kinds[2]} AAP and {kinds[1]} AP")


def command(*rows):
    """A row command."""
    return Instruction(AAP if len(rows) == 2 else AP, rows=rows)


def starter(entry, start):
    """An entry of the same operands and scratch that leaves ones in the cells and rows of a case's start, and else zeros."""
    ones = [STARTED.fullmatch(word) for word in start]
    if None in ones:
        raise Broken(f"`from` has a word that is no cell or row: {' '.join(start)}")
    zeros = [Row(B_ADDRESS, k, 0) for k in (0, 1, 2, 3, 4, 6)]
    zeros += [Row(BIT, k, 0) for k in range(entry.bits)] + [Row(SPILL, k, 0) for k in range(32)]
    code = [command(Row(C_ADDRESS, 0, 0), row) for row in zeros]
    for match in ones:
        if match["cell"]:
            row = Row(B_ADDRESS, {"DCC0": 4, "DCC1": 6}.get(match["cell"]) or int(match["cell"][1:]), 0)
        elif match["result"]:
            code.append(Instruction(SETI, 0, int(match["row"] or 0)))
            row = Row(RESULT, "yz".index(match["result"]), 0)
        elif match["word"]:
            code.append(Instruction(SETI, 0, int(match["at"])))
            row = Row(WORD, int(match["word"]), 0)
        else:
            row = Row(BIT, int(match["bit"]), 0) if match["bit"] else Row(SPILL, int(match["spill"]), 0)
        code.append(command(Row(C_ADDRESS, 1, 0), row))
    return dataclasses.replace(entry, name="start_here", code=(*code, Instruction(DONE)))


def check_wrong(runs, entry, made, n, verdict):
    """The case of a wrong entry: `exec` gives what is said, and the compiler's program what is wanted."""
    entries = [starter(entry, verdict.start), dataclasses.replace(entry, name="tried"), dataclasses.replace(made, name="meant")]
    runs.store("case", Program(entries).file())
    sources = [f"v{k}" for k in range(len(entry.sources))]
    results = [f"u{k}" for k in range(len(entry.results))]
    lines = [f"bbop_trsp_init {name}, 1, {n if kind == 'word' else 1}"
             for name, kind in zip(sources + results, entry.sources + entry.results)]
    lines += [f"load {name}, {value}" for name, value in zip(sources, verdict.operands.values())]
    for name in ("start_here", "tried", "print", "meant", "print"):
        operands = ", ".join([*results, *sources])
        lines += [f"print {one}" for one in results] if name == "print" else [f"bbop_{name} {operands}, 1, {n}"]
    runs.store("script", "".join(f"{line}\n" for line in lines).encode())
    runs.call("init", 1, 128, 1, "image")
    status, said = runs.call("exec", "case", "script", "image", "out")
    shown = tuple(int(line.split(": ")[1]) for line in said if ": " in line)
    if status or shown != (*verdict.gives, *verdict.wanted) or verdict.gives == verdict.wanted:
        raise Broken(f"exec ends with {status} and gives {shown}")


def check(runs, entries, made, n, maker, counts):
    """The verdicts of one call."""
    runs.store("prog", Program(entries).file())
    status, lines = runs.call("verify", "ops", "prog", n)
    if status not in (0, 19):
        raise Broken(f"verify ends with {status}: {lines[-1:]}")
    costs = {line.split()[0]: line for line in runs.call("cost", "prog", n)[1]}
    for entry, line in zip(entries, lines):
        verdict = verdict_of(line)
        kind = "?" if verdict is None else verdict.kind
        counts[kind] += 1
        try:
            if kind == RIGHT:
                check_right(entry, made.find(entry.name), n, verdict, maker)
            elif kind == WRONG:
                check_wrong(runs, entry, made.find(entry.name), n, verdict)
            elif kind != BAD_WALK or costs[entry.name] != line:
                raise Broken("this may not be said")
        except Broken as fault:
            raise Broken(f"at width {n}: {line}: {fault}") from None


def main():
    global PROGRAM
    words = program.parser(__doc__)
    words.add_argument("--seed", type=int, default=1)
    words.add_argument("--mutants", type=int, default=10000)
    asked = words.parse_args()
    PROGRAM = program.path_of(asked)
    maker, counts = random.Random(asked.seed), collections.Counter()
    folder = tempfile.mkdtemp(prefix="simdram_fuzz_verify_")
    runs = Runs(folder)
    made = runs.compiled(ops_text())
    if runs.call("verify", "ops", "compiled", 1)[0] == 1:
        sys.exit(f"{PROGRAM} has no command verify")
    own = {entry.name: entry for entry in assemble((TOP / "examples" / "fewest" / "fewest.micro").read_bytes()).entries}
    while sum(counts.values()) < asked.mutants:
        chosen = [own.get(entry.name, entry) if maker.random() < 0.5 else entry for entry in made.entries]
        entries = [changed(entry, maker) for entry in chosen]
        try:
            check(runs, entries, made, maker.randint(1, 3), maker, counts)
        except Broken as fault:
            sys.exit(f"{fault}\nseed {asked.seed}, after {sum(counts.values())} mutants; the files are in {folder}")
    shutil.rmtree(folder)
    print(", ".join(f"{count} {kind}" for kind, count in sorted(counts.items())))


if __name__ == "__main__":
    main()
