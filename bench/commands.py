#!/usr/bin/env python3
"""Row commands of each word operation at every width, beside its ceiling.

Run it at the top of the repository:  python3 bench/commands.py [--program PATH]
It compiles one op of each operation, asks `cost` for every width from 1 to 128, and ends with 1 where the AAP or the AP
are not those that `crates/uprog_gen/specs/Costs.antt` says, which the compiler's contract proves.
"""

import pathlib
import random
import subprocess
import sys
import tempfile
import time

sys.dont_write_bytecode = True

import program  # noqa: E402
from word_ops import word_ops  # noqa: E402

TOP = pathlib.Path(__file__).resolve().parent.parent
PROGRAM = TOP / "simdram"  # until the arguments are read
WIDTHS = range(1, 129)
SHOWN = (8, 16, 32, 64, 128)


def op(operation):
    """One op of this operation, of its name."""
    name, takes = operation.name, operation.takes
    kind = {"w": "word", "b": "bit"}
    sources = [(chr(ord("a") + k), t) for k, t in enumerate(takes or "w")]
    params = ", ".join(f"{s}: {kind[t]}" for s, t in sources)
    args = ", ".join(s for s, _ in sources[: len(takes)])
    results = list(zip("yz", operation.gives))
    targets = ", ".join(r for r, _ in results)
    returns = ", ".join(f"{r}: {kind[t]}" for r, t in results)
    return f"op {name}({params}) -> {returns} {{ {targets} = {name}({args}); }}\n"


def greatest():
    """A text of 32 ops of 16 statements each."""
    ops = []
    for k in range(32):
        body = ["t0 = div(a, b);"]
        body += [f"t{j} = {('mul', 'div', 'rem', 'abs')[j % 4]}({f't{j - 1}' + (', b' if j % 4 != 3 else '')});" for j in range(1, 15)]
        body += ["y = add(t14, b);"]
        ops.append(f"op f{k}(a: word, b: word) -> y: word {{ {' '.join(body)} }}")
    return "\n".join(ops)


def blocks():
    """A text of 32 ops of 16 serial blocks of the greatest weight, 24: eight gates xor each."""
    temporaries = "efghijklmnopqrs"
    ops = []
    for k in range(32):
        body = []
        for j in range(16):
            names = "abcd" + temporaries[max(0, j - 3) : j]
            leaves = random.Random(16 * k + j).choices(names, k=9)
            pairs = [f"xor({x},{y})" for x, y in zip(leaves[0:8:2], leaves[1:8:2])]
            value = f"xor(xor({pairs[0]},{pairs[1]}),xor({pairs[2]},xor({pairs[3]},{leaves[8]})))"
            body.append(f"serial up () {{ {temporaries[j] if j < 15 else 'y'} = {value}; }}")
        ops.append(f"op f{k}(a: word, b: word, c: word, d: word) -> y: word {{ {' '.join(body)} }}")
    return "\n".join(ops)


def compiled(folder, text):
    """What `compile` puts, and how long it takes in seconds."""
    (folder / "ops").write_text(text)
    start = time.perf_counter()
    done = subprocess.run([PROGRAM, "compile", "ops", "prog"], cwd=folder, capture_output=True, text=True, check=True)
    return done.stdout.strip(), time.perf_counter() - start


def costs(folder, n):
    """The AAP and the AP of each entry at width n."""
    lines = subprocess.run([PROGRAM, "cost", "prog", str(n)], cwd=folder, capture_output=True, text=True, check=True).stdout
    found = {}
    for line in lines.splitlines():
        name, aap, ap, _ = line.split()
        found[name] = (int(aap.removeprefix("aap=")), int(ap.removeprefix("ap=")))
    return found


def main():
    global PROGRAM
    PROGRAM = program.path_of(program.parser(__doc__).parse_args())
    wrong = 0
    with tempfile.TemporaryDirectory() as name:
        folder = pathlib.Path(name)
        operations = word_ops()
        compiled(folder, "".join(map(op, operations)))
        at = {n: costs(folder, n) for n in WIDTHS}
        print("operation " + " ".join(f"{f'n={n}':>15}" for n in SHOWN))
        for p in operations:
            print(f"{p.name:9} " + " ".join(f"{f'{sum(at[n][p.name])}/{p.ceiling(n)}':>15}" for n in SHOWN))
            for n in WIDTHS:
                if at[n][p.name] != (p.aap(n), p.ap(n)):
                    wrong += 1
                    print(f"  at {n}: {at[n][p.name]} AAP and AP, and `Costs` says {(p.aap(n), p.ap(n))}")
        said, seconds = compiled(folder, greatest())
        size = (folder / "prog").stat().st_size
        print(f"compiling 32 ops of 16 statements: {seconds:.3f} seconds, a program of {size} bytes; {said}")
        said, seconds = compiled(folder, blocks())
        size = (folder / "prog").stat().st_size
        print(f"compiling 32 ops of 16 blocks: {seconds:.3f} seconds, a program of {size} bytes; {said}")
    return 1 if wrong else 0


if __name__ == "__main__":
    sys.exit(main())
