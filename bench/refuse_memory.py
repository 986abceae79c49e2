#!/usr/bin/env python3
"""Runs jobs with one allocation refused, for each in turn, and compares how they end.

Run it at the top of the repository:  python3 bench/refuse_memory.py [--program PATH] [JOB..]

The allocations are those of the C library, counted over the whole process; bench/refuse.c, which gcc builds, refuses one.
It needs the proved program: the one without proofs has another allocator. Each run must end as with ample memory, or with
status 10, `no memory` as all that was sent, and OUT as at entry; where the words of the command line could not be kept,
nothing is sent. It prints how many runs ended in each way, and ends with 1 where one ended in another.
"""

import collections
import os
import pathlib
import subprocess
import sys
import tempfile

TOP = pathlib.Path(__file__).resolve().parent.parent
sys.dont_write_bytecode = True
sys.path.append(str(TOP / "python"))

from simdram.files.image import Image  # noqa: E402
import program  # noqa: E402
from simdram.files.image_tool import make  # noqa: E402

PROGRAM = TOP / "crates" / "simdram" / "out" / "simdram"
MAC = "op mac(a: word, b: word, c: word) -> y: word { t = mul(a, b); y = add(t, c); }\n"
RUN = ("run", "ops", "prog", "script", "image", "out")


def made(names, count, width):
    return "".join(f"bbop_trsp_init {name}, {count}, {width}\n" for name in names)


def jobs():
    """Of each job its name, operations, script and image."""
    first = make("1x64x1", ["a:1=0,0,1,1", "b:1=0,1,0,1", "y:1/4"]).file()
    yield "first", (TOP / "examples/and/and.ops").read_text(), "bbop_and y, a, b, 4, 1\n", first
    yield "add", (TOP / "examples/add/add.ops").read_text(), (TOP / "examples/add/add.bbop").read_text(), Image(1, 64, 1).file()
    mac = made("abcy", 500_000, 32) + "fill a, 3\nfill b, 5\nfill c, 7\nbbop_mac y, a, b, c, 500000, 32\n"
    yield "64MiB", MAC, mac, Image(8, 1006, 1024).file()


def run(files, refuse, shim):
    """Status, what was sent and OUT of a run in a folder of its own, and how many allocations it made."""
    with tempfile.TemporaryDirectory(dir="/dev/shm" if os.path.isdir("/dev/shm") else None) as name:
        folder = pathlib.Path(name)
        for file, bytes_in in files.items():
            (folder / file).write_bytes(bytes_in)
        counted = folder / "counted"
        environment = {"LD_PRELOAD": shim, "REFUSE_AT": str(refuse), "REFUSE_COUNT": str(counted)}
        ended = subprocess.run([PROGRAM, *RUN], cwd=folder, env=environment, capture_output=True, check=False)
        out = folder / "out"
        stored = out.read_bytes() if out.exists() else None
        calls = int(counted.read_text()) if counted.exists() else 0
        return (ended.returncode, ended.stdout, stored), calls


def build(folder):
    shim = str(pathlib.Path(folder) / "refuse.so")
    subprocess.run(["gcc", "-O1", "-shared", "-fPIC", "-o", shim, TOP / "bench" / "refuse.c", "-ldl"], check=True)
    return shim


def main():
    global PROGRAM
    parser = program.parser(__doc__)
    parser.add_argument("jobs", metavar="JOB", nargs="*", help="first, add or 64MiB; all without one")
    arguments = parser.parse_args()
    PROGRAM, asked, wrong = program.path_of(arguments, "--proved"), arguments.jobs, 0
    with tempfile.TemporaryDirectory() as folder:
        shim = build(folder)
        for name, ops, script, bytes_in in jobs():
            if asked and name not in asked:
                continue
            files = {"ops": ops.encode(), "script": script.encode(), "image": bytes_in, "out": b"as at entry"}
            ample, calls = run(files, 0, shim)
            ends = collections.Counter()
            for refuse in range(1, calls + 1):
                found, _ = run(files, refuse, shim)
                if found == ample:
                    ends["as with ample memory"] += 1
                elif found == (10, b"no memory\n", b"as at entry"):
                    ends["no memory"] += 1
                elif found == (10, b"", b"as at entry"):
                    ends["no memory for the words of the command line"] += 1
                else:
                    wrong += 1
                    print(f"{name}: allocation {refuse} of {calls} refused: status {found[0]}, sent {found[1][:80]!r}")
            line = ", ".join(f"{count} {end}" for end, count in sorted(ends.items()))
            print(f"{name}: status {ample[0]}, {calls} allocations, each refused once: {line}")
    return 1 if wrong else 0


if __name__ == "__main__":
    sys.exit(main())
