#!/usr/bin/env python3
"""Row commands at one width: as compiled, after `simplify`, and as `optimise` leaves them, with the time of the search.

    python3 bench/optimise.py [--width 4] [--simplified | --both] [--keep FOLDER] ..
    python3 bench/optimise.py --widths 1-9,16,32 --keep FOLDER
    python3 bench/optimise.py --beside [--width 4]

Run it at the top of the repository. The first form compiles one op of each word operation and the ops of bench/kernels (with
--simplified the texts that `simplify` makes of these, with --both each text and that one, and the better of the two), calls
`optimise` for each op alone, on all processors but one, or on --jobs, and has `verify` compare what comes out with the op as it is
written. It prints a line for each op and the sums of those that are right; ops of which `verify` knows nothing stand apart. The
status is 1 where one is wrong or takes more than before. --keep stores each op and its program. The second form looks at these
programs at other widths, at each by `verify` for at most a minute of the processor. Where it does not know, the commands have to give
what the compiler's for the op as it is written give, for drawn numbers and contents. The third prints how many changes a second are
tried on the word operations, by `optimise` and by walk.cpp in turn.
"""

from __future__ import annotations

import collections
import concurrent.futures
import dataclasses
import os
import pathlib
import random
import re
import subprocess
import sys
import tempfile

sys.dont_write_bytecode = True

import columns  # noqa: E402
import plain_walk  # noqa: E402
import program  # noqa: E402
from commands import op  # noqa: E402
from simdram.files.program import Entry, Program  # noqa: E402
from simdram.launcher.widths import widths_of  # noqa: E402
from word_ops import word_ops  # noqa: E402

HERE = pathlib.Path(__file__).resolve().parent
KERNELS = sorted((HERE / "kernels").glob("*.ops"))
# how many changes are timed of `optimise`, and for how long walk.cpp runs
BESIDE_CHANGES = 2_000_000
BESIDE_SECONDS = 1.0
# how `verify` ends, and the processor seconds that it has for one op at one width
VERDICTS = {0: "right", 20: "unknown"}
SECONDS = 60
# how many numbers of each source are drawn where it does not know
DRAWN = 4096
ROW = "| {:11} | {:>6} | {:>6} | {:>8.2f} | {:>5.2f} |"


@dataclasses.dataclass
class Shorter:
    """The commands of an op before and after, the processor seconds of the search, what `verify` says, and the program."""

    name: str
    before: int
    after: int
    seconds: float
    verdict: str
    program: bytes


def ops_of(text: str) -> list[str]:
    """The ops of a text, each as a text of its own."""
    return re.split(r"^(?=op\b)", re.sub(r"#[^\n]*", "", text), flags=re.M)[1:]


def name_of(text: str) -> str:
    """The name of the op of a text."""
    return re.match(r"\s*op\s+(\w+)", text)[1]


def commands_of(path, prog, width) -> int:
    """The row commands of a program of one entry."""
    said = subprocess.run([path, "cost", prog, str(width)], check=True, capture_output=True, text=True).stdout
    return sum(int(count) for count in re.findall(r"\b(?:aap|ap)=(\d+)", said))


def seconds_used(command) -> float:
    """The processor seconds of one command, which must succeed; others may run beside it."""
    with subprocess.Popen(command, stdout=subprocess.DEVNULL) as running:
        _, status, used = os.wait4(running.pid, 0)
        running.returncode = os.waitstatus_to_exitcode(status)
    if running.returncode:
        raise SystemExit(f"{command[1]} ends with status {running.returncode}")
    return used.ru_utime


def verdict(path, ops, prog, width) -> str:
    """What `verify` says of a program of one op at a width: `right`, `unknown`, `late` or `wrong`."""
    limited = ["sh", "-c", 'ulimit -t "$0"; exec "$@"', str(SECONDS)]
    ended = subprocess.run([*limited, path, "verify", ops, prog, str(width)], capture_output=True, check=False)
    return "late" if ended.returncode < 0 else VERDICTS.get(ended.returncode, "wrong")


def shortened(path, text, asked, start="") -> Shorter:
    """What `optimise` makes of an op, from its own text or another of the same meaning."""
    with tempfile.TemporaryDirectory() as folder:
        ops, own, prog, new = (pathlib.Path(folder) / name for name in ("ops", "own", "prog", "new"))
        ops.write_text(start or text, encoding="utf-8")
        own.write_text(text, encoding="utf-8")
        subprocess.run([path, "compile", ops, prog], check=True, capture_output=True)
        more = [str(asked.seed), str(asked.work)] if asked.work else [str(asked.seed)]
        seconds = seconds_used([path, "optimise", ops, prog, str(asked.width), new, *more])
        before, after = (commands_of(path, one, asked.width) for one in (prog, new))
        return Shorter(name_of(text), before, after, seconds, verdict(path, own, new, asked.width), new.read_bytes())


def better(path, text, asked) -> Shorter:
    """The better of two starts: the text, and what `simplify` makes of it."""
    one, other = shortened(path, text, asked), simpler(path, text, asked)
    least = min((found for found in (one, other) if found.verdict == "right"), key=lambda found: found.after, default=one)
    return dataclasses.replace(least, before=one.before, seconds=one.seconds + other.seconds)


def simpler(path, text, asked) -> Shorter:
    """What `optimise` makes of the text that `simplify` makes of an op."""
    return shortened(path, text, asked, simplified(text))


def kept(path, text, asked, find) -> Shorter:
    """What is found for an op, stored where that is asked for."""
    found = find(path, text, asked)
    if asked.keep:
        asked.keep.mkdir(parents=True, exist_ok=True)
        (asked.keep / f"{found.name}.{asked.width}.ops").write_text(text, encoding="utf-8")
        (asked.keep / f"{found.name}.{asked.width}.prog").write_bytes(found.program)
    print(f"{found.name} {found.before} to {found.after} {found.verdict}", file=sys.stderr, flush=True)
    return found


def speeds(path, made, text, asked) -> str:
    """How many thousand changes a second `optimise` tries on an op, how many walk.cpp does, and the ratio."""
    with tempfile.TemporaryDirectory() as folder:
        ops, prog, new = (pathlib.Path(folder) / name for name in ("ops", "prog", "new"))
        ops.write_text(text, encoding="utf-8")
        subprocess.run([path, "compile", ops, prog], check=True, capture_output=True)
        width, count = str(asked.width), commands_of(path, prog, asked.width)
        work = max(1, BESIDE_CHANGES // count)
        idle = seconds_used([path, "optimise", ops, prog, width, new, str(asked.seed), "0"])
        ours = work * count / max(seconds_used([path, "optimise", ops, prog, width, new, str(asked.seed), str(work)]) - idle, 0.01)
        plain = plain_walk.changes_a_second(made, prog, asked.width, BESIDE_SECONDS)
        return f"| {name_of(text):9} | {ours / 1000:8.0f} | {plain / 1000:8.0f} | {ours / plain:5.2f} |"


def simplified(text: str) -> str:
    """The text that `simplify` makes."""
    with tempfile.TemporaryDirectory() as folder:
        ops, new = pathlib.Path(folder) / "a.ops", pathlib.Path(folder) / "b.ops"
        ops.write_text(text, encoding="utf-8")
        subprocess.run([program.TOP / "simdram", "simplify", ops, new], check=True, capture_output=True)
        return new.read_text(encoding="utf-8")


def table(title, found: list[Shorter]) -> bool:
    """Prints the ops of a group, and the sums of those that are right. Returns whether none is wrong or dearer."""
    print(f"\n{title}\n\n| op          | before |  after |  seconds | ratio |\n| --- | --- | --- | --- | --- |")
    right = [one for one in found if one.verdict == "right"]
    for one in found:
        print(ROW.format(one.name, one.before, one.after, one.seconds, one.after / one.before), "" if one in right else one.verdict)
    before, after = sum(one.before for one in right), sum(one.after for one in right)
    print(ROW.format(f"{len(right)} right", before, after, sum(one.seconds for one in right), after / max(before, 1)))
    return all(one.verdict != "wrong" and one.after <= one.before for one in found)


def drawn(dice: random.Random, width: int) -> list[int]:
    """The rows of drawn numbers, of which as many have few digits as have many."""
    rows, long = [], 0
    for _ in range(width):
        long |= dice.getrandbits(DRAWN) & dice.getrandbits(DRAWN) & dice.getrandbits(DRAWN)
        rows.append(long & dice.getrandbits(DRAWN))
    return rows[::-1]


def is_alike(made: Entry, own: Entry, n: int) -> bool:
    """Whether two entries give the same for drawn numbers, the first from drawn contents of cells and rows."""
    dice, full = random.Random(n), (1 << DRAWN) - 1
    sources = [drawn(dice, n if kind == "word" else 1) for kind in own.sources]
    return columns.run(made, n, sources, full, lambda: dice.getrandbits(DRAWN)) == columns.run(own, n, sources, full, lambda: 0)


def looked_at(path, prog: pathlib.Path, widths) -> dict[int, str]:
    """What is found of a program of the folder at each width: what `verify` says, and where it does not know, what drawn numbers do."""
    ops, found = prog.with_suffix(".ops"), {}
    for n in widths:
        found[n] = verdict(path, ops, prog, n)
        if found[n] in ("unknown", "late"):
            with tempfile.TemporaryDirectory() as folder:
                own = pathlib.Path(folder) / "own"
                subprocess.run([path, "compile", ops, own], check=True, capture_output=True)
                alike = is_alike(Program.load(str(prog)).entries[0], Program.load(str(own)).entries[0], n)
            found[n] = f"{found[n]}, drawn numbers right" if alike else "wrong"
    return found


def elsewhere(path, asked) -> int:
    """Looks at the programs of the folder at other widths, and prints what is not right, and how often each is found."""
    progs, widths = sorted(asked.keep.glob("*.prog")), widths_of(asked.widths)
    counts: collections.Counter[str] = collections.Counter()
    with concurrent.futures.ThreadPoolExecutor(asked.jobs) as pool:
        for prog, found in zip(progs, pool.map(lambda one: looked_at(path, one, widths), progs)):
            counts.update(found.values())
            for n, said in found.items():
                if said != "right":
                    print(f"{prog.stem} at {n}: {said}", flush=True)
    print(f"{len(progs)} programs at {len(widths)} widths:", ", ".join(f"{count} {said}" for said, count in sorted(counts.items())))
    return 1 if counts["wrong"] else 0


def beside(path, asked) -> int:
    """Prints the speeds of the word operations."""
    with tempfile.TemporaryDirectory() as folder:
        made = plain_walk.built(pathlib.Path(folder))
        print("| op        | optimise | walk.cpp | ratio |\n| --- | --- | --- | --- |")
        for one in word_ops():
            print(speeds(path, made, op(one), asked), flush=True)
    return 0


def main() -> int:
    made = program.parser(__doc__)
    made.add_argument("--width", type=int, default=4)
    made.add_argument("--seed", type=int, default=1)
    made.add_argument("--work", type=int, default=0, help="changes for each command, in place of the program's own number")
    made.add_argument("--simplified", action="store_true")
    made.add_argument("--both", action="store_true", help="each kernel from its text and from the one of `simplify`: the better of both")
    made.add_argument("--keep", type=pathlib.Path, metavar="FOLDER", help="where each op and its program are stored")
    made.add_argument("--widths", metavar="N,N-N,..", help="widths at which the programs of the folder are looked at")
    made.add_argument("--jobs", type=int, default=max(1, (os.cpu_count() or 2) - 1))
    made.add_argument("--only", choices=("words", "kernels"), help="one of the two groups")
    made.add_argument("--beside", action="store_true")
    asked = made.parse_args()
    path = program.path_of(asked)
    if asked.beside:
        return beside(path, asked)
    if asked.widths:
        return elsewhere(path, asked)
    kernels = [text for file in KERNELS for text in ops_of(file.read_text(encoding="utf-8"))]
    find = better if asked.both else simpler if asked.simplified else shortened
    groups = {"Word operations": ([op(one) for one in word_ops()] * (asked.only != "kernels"), shortened),
              "bench/kernels": (kernels * (asked.only != "words"), find)}
    with concurrent.futures.ThreadPoolExecutor(asked.jobs) as pool:
        results = {title: list(pool.map(lambda text, find=find: kept(path, text, asked, find), texts))
                   for title, (texts, find) in groups.items() if texts}
    return 0 if all([table(f"{title}, n = {asked.width}", found) for title, found in results.items()]) else 1


if __name__ == "__main__":
    sys.exit(main())
