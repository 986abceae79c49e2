#!/usr/bin/env python3
"""Processor time and peak memory of `verify`, for each word operation, all widths one after another, or hostile programs.

    python3 bench/verify.py [--only NAME,..] [--seconds S] [--repeat K] [--program PATH]
    python3 bench/verify.py --all [--only NAME,..] [--seconds S] [--program PATH]
    python3 bench/verify.py --hostile [--seconds S] [--repeat K] [--program PATH]

Run it at the top of the repository. The first form verifies the compiler's entry of each operation, one call for each, and
prints a table: milliseconds, the least of K calls, and peak memory. A call is stopped after S seconds of processor time. The
second verifies the 22 programs of examples/fewest at every width from 1 to 128, each by a call of its own, and prints up to
which width each is right. The status is 1 where a verdict is another than `right`; those of products, quotients and counts of
ones may be unknown, or not come in time, from some width on. The third verifies programs that are made to be slow, or are plainly
wrong: one whose diagrams ask |f| times |g| questions without a node for an answer, at n = 2K for K = 9 to 17, 24, 32 and 64; the
same with a bit that is wrong where another cell is 1 at the start; programs for products and quotients that copy a row; and 32 endless
loops. The status is 1 where one is not right, unknown, wrong or stuck as it should be, or not in time.
"""

import os
import pathlib
import re
import resource
import subprocess
import sys
import tempfile

TOP = pathlib.Path(__file__).resolve().parent.parent
sys.dont_write_bytecode = True
sys.path.append(str(TOP / "python"))

import program  # noqa: E402
from commands import op  # noqa: E402
from simdram.assembler import assemble  # noqa: E402
from simdram.rules.verdicts import BAD_WALK, RIGHT, UNKNOWN, WRONG, verdicts_of  # noqa: E402
from word_ops import word_ops  # noqa: E402

FEWEST = TOP / "examples" / "fewest"
ALL_WIDTHS = range(1, 129)
WIDTHS = (8, 32, 128)
# those whose diagrams grow with 2^n: their widths in the table
STEEP = {"mul": (8, 10, 12), "div": (8, 10), "rem": (8, 10), "divmod": (8, 10)}
LARGE = (*STEEP, "bitcount")
ROW = "| {:9} | {:>4} | {:>8} | {:>7} | {:7} |"
LATE = "late"

# f and p31, and g and not p31, where f and g are sums of products of 2^K nodes; their product is 0
SLOW = """
program slow(a: word) -> y: word
scratch f: bit, g: bit, w: word
  AAP C0 f
  AAP C0 g
  SETI r0 0
  SETI r1 1
  SETN r2
pairs:
  AAP y[r0] T0
  AAP w[r0] T1
  AAP C0 T2
  AP {T0, T1, T2}
  AAP f T0
  AAP C1 T2
  AAP {T0, T1, T2} f
  AAP y[r1] T0
  AAP w[r1] T1
  AAP C0 T2
  AP {T0, T1, T2}
  AAP g T0
  AAP C1 T2
  AAP {T0, T1, T2} g
  ADDI r0 2
  ADDI r1 2
  SUBI r2 2
  BNEZ r2 pairs
  AAP f T0
  AAP p31 T1
  AAP C0 T2
  AAP {T0, T1, T2} f
  AAP g T0
  AAP p31 ~DCC0
  AAP DCC0 T1
  AAP C0 T2
  AAP {T0, T1, T2} g
  AAP f T0
  AAP g T1
  AAP C0 T2
  AP {T0, T1, T2}
  for i in 0..n {
    AAP a[i] ~DCC0
    AAP DCC0 y[i]
  }
"""
SLOW_WIDTHS = (*range(18, 36, 2), 48, 64, 128)
# the same, where a bit that no command writes is or'ed to the lowest position
STALE = SLOW.replace("w: word", "w: word, s: bit") + """
  SETI r0 0
  AAP y[r0] T0
  AAP s T1
  AAP C1 T2
  AAP {T0, T1, T2} y[r0]
"""
STALE_WIDTHS = (34, 128)
# loops that never end: of two instructions, and of two million
LOOPS = (("loop:short", "  SETI r0 1\nhere:\n  BNEZ r0 here\n"),
         ("loop:long", """
out:
  SETI r0 1000
one:
  SETI r1 1000
two:
  SUBI r1 1
  BNEZ r1 two
  SUBI r0 1
  BNEZ r0 one
  SETI r2 1
  BNEZ r2 out
"""))
LOOP_COUNT = 32
# a name, a body for each bit, and the operations of which it is no program
COPIES = (("zeros", "AAP C0 y[i]", ("mul", "div")), ("copy", "AAP a[i] y[i]", ("mul", "div")))
COPY_WIDTHS = (16, 32, 128)


class Calls:
    """Calls of a program in a folder, each stopped after so many seconds of processor time."""

    def __init__(self, path, folder, seconds):
        self.path, self.folder, self.seconds = path, pathlib.Path(folder), seconds

    def store(self, name, data):
        (self.folder / name).write_bytes(data)

    def compiled(self, text):
        """Stores a text, and the compiler's program for it."""
        self.store("ops", text.encode())
        subprocess.run([self.path, "compile", "ops", "prog"], cwd=self.folder, check=True, capture_output=True)

    def limit(self):
        resource.setrlimit(resource.RLIMIT_CPU, (self.seconds, self.seconds))

    def verify(self, n):
        """What is said of the one op, with the processor time in seconds and the peak memory in bytes."""
        with open(self.folder / "said", "w+b") as said:
            call = subprocess.Popen([self.path, "verify", "ops", "prog", str(n)], cwd=self.folder, stdout=said, preexec_fn=self.limit)
            _, call.returncode, used = os.wait4(call.pid, 0)
            said.seek(0)
            found = verdicts_of(said.read().decode())
        return found[0].kind if found else LATE, used.ru_utime + used.ru_stime, used.ru_maxrss * 1024


def table(calls, only, repeat):
    """Prints the table; how many verdicts are wrong."""
    print(ROW.format("operation", "n", "ms", "MB", "verdict"))
    print(ROW.format(*["---"] * 5))
    wrong = 0
    for operation in filter(lambda one: not only or one.name in only, word_ops()):
        calls.compiled(op(operation))
        for n in STEEP.get(operation.name, WIDTHS):
            found = [calls.verify(n)]
            while len(found) < repeat and found[0][0] != LATE:
                found.append(calls.verify(n))
            kind, seconds, memory = min(found, key=lambda one: one[1])
            wrong += kind != RIGHT
            print(ROW.format(operation.name, n, round(1000 * seconds), round(memory / 1e6), kind), flush=True)
    return wrong


def up_to(calls):
    """The last width up to which an entry is right, and what is said of the next one, or nothing."""
    for n in ALL_WIDTHS:
        kind = calls.verify(n)[0]
        if kind != RIGHT:
            return n - 1, kind
    return ALL_WIDTHS[-1], None


def every_width(calls, only):
    """Prints up to which width each program of examples/fewest is right; how many verdicts are others and may not be."""
    calls.store("prog", assemble((FEWEST / "fewest.micro").read_bytes()).file())
    wrong = 0
    for text in (FEWEST / "fewest.ops").read_text(encoding="utf-8").splitlines():
        name = re.match(r"op (\w+)", text)[1]
        if only and name not in only:
            continue
        calls.store("ops", text.encode())
        last, kind = up_to(calls)
        wrong += kind is not None and not (name in LARGE and kind in (UNKNOWN, LATE))
        print(f"{name} right from 1 to {last}" + (f", {kind} at {last + 1}" if kind else ""), flush=True)
    return wrong


def hostile_row(calls, name, n, repeat, verdicts):
    """Prints the row of what is verified; whether the verdict is none of these."""
    found = [calls.verify(n)]
    while len(found) < repeat and found[0][0] != LATE:
        found.append(calls.verify(n))
    kind, seconds, memory = min(found, key=lambda one: one[1])
    print(ROW.format(name, n, round(1000 * seconds), round(memory / 1e6), kind), flush=True)
    return kind not in verdicts


def hostile(calls, repeat):
    """Prints the table of hostile programs; how many verdicts are not what they should be."""
    print(ROW.format("program", "n", "ms", "MB", "verdict"))
    print(ROW.format(*["---"] * 5))
    calls.store("ops", b"op slow(a: word) -> y: word { y = not(a); }\n")
    calls.store("prog", assemble(SLOW.encode()).file())
    wrong = sum(hostile_row(calls, "slow", n, 1, (RIGHT, UNKNOWN)) for n in SLOW_WIDTHS)
    calls.store("prog", assemble(STALE.encode()).file())
    wrong += sum(hostile_row(calls, "stale", n, 1, (WRONG,)) for n in STALE_WIDTHS)
    for name, body, operations in COPIES:
        for operation in operations:
            calls.store("ops", f"op f(a: word, b: word) -> y: word {{ y = {operation}(a, b); }}\n".encode())
            calls.store("prog", assemble(f"program f(a: word, b: word) -> y: word\n  for i in 0..n {{ {body} }}\n".encode()).file())
            wrong += sum(hostile_row(calls, f"{operation}:{name}", n, repeat, (WRONG,)) for n in COPY_WIDTHS)
    heads = [f"slow{k}(a: word) -> y: word" for k in range(LOOP_COUNT)]
    calls.store("ops", "".join(f"op {head} {{ y = not(a); }}\n" for head in heads).encode())
    for name, body in LOOPS:
        calls.store("prog", assemble("".join(f"program {head}\n{body}" for head in heads).encode()).file())
        wrong += hostile_row(calls, name, 8, 1, (BAD_WALK,))
    return wrong


def main():
    words = program.parser(__doc__)
    words.add_argument("--all", action="store_true", help="the programs of examples/fewest at every width")
    words.add_argument("--hostile", action="store_true", help="programs that are made to be slow, or are plainly wrong")
    words.add_argument("--only", type=lambda text: text.split(","), default=[], help="some operations, with commas between them")
    words.add_argument("--seconds", type=int, default=20)
    words.add_argument("--repeat", type=int, default=3)
    asked = words.parse_args()
    with tempfile.TemporaryDirectory(prefix="simdram_verify_") as folder:
        calls = Calls(program.path_of(asked), folder, asked.seconds)
        if asked.hostile:
            wrong = hostile(calls, asked.repeat)
        else:
            wrong = every_width(calls, asked.only) if asked.all else table(calls, asked.only, asked.repeat)
        return 1 if wrong else 0


if __name__ == "__main__":
    sys.exit(main())
