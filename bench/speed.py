#!/usr/bin/env python3
"""Times of whole runs beside the same machine in plain C, and whether both store and report the same bytes.

Run it at the top of the repository:  python3 bench/speed.py [--times N] [JOB..]

It builds the program (by ./simdram, or takes the one that --program names) and bench/baseline.c (by gcc -O3
-march=x86-64-v2), and runs both in turn. A job that the program refuses is shown with the line that says so. A script's
part is the time of the run less that of a run with an empty script on the same image. Times are in milliseconds, least
and middle of N (10); memory is the program's greatest, as a multiple of the image; the speed is that of the script's
bytes, or of an image that is opened and stored. A last column says whether report and OUT were the same byte for byte.
`--clock processor` and `--clock user` take processor time, the second without the system's part, in place of elapsed
time, for a machine that others use too; `--table` prints the ratios as the table of docs/SPEED.md.
"""

import dataclasses
import filecmp
import os
import pathlib
import statistics
import struct
import subprocess
import sys
import tempfile
import time

sys.dont_write_bytecode = True

import program  # noqa: E402

TOP = pathlib.Path(__file__).resolve().parent.parent
CLOCK = "elapsed"
PROGRAM = TOP / "crates" / "simdram" / "out" / "simdram"
MAC = "op mac(a: word, b: word, c: word) -> y: word { t = mul(a, b); y = add(t, c); }\n"
ADD = "op add(a: word, b: word) -> y: word { y = add(a, b); }\n"
LEAST = 0.005  # seconds of plain C below which a script's part is not shown
ORDERS = ("order in", "order turns", "order seed 7")


@dataclasses.dataclass
class Job:
    """A run: its geometry (banks, rows, words), the objects of its image (name, width, count), its ops and script."""

    name: str
    geometry: tuple
    objects: list
    ops: str
    script: str
    whole: float  # the ratio to reach for the whole run
    part: float = 0.0  # and for the script's part, where it counts by itself


def made(names, count, width):
    return "".join(f"bbop_trsp_init {name}, {count}, {width}\n" for name in names)


def filled(**values):
    return "".join(f"fill {name}, {value}\n" for name, value in values.items())


def jobs():
    big, thin = (8, 1006, 1024), (8, 1006, 1)
    values = ", ".join(str(7919 * e % 2**32) for e in range(500_000))
    yield Job("greatest", big, [], MAC, made("abcy", 500_000, 32) + filled(a=3, b=5, c=7)
              + "bbop_mac y, a, b, c, 500000, 32\n", 1.35, 1.15)
    for order, reach in zip(ORDERS, (1.3, 1.5, 1.5)):
        yield Job(f"one word, {order[6:]}", thin, [], MAC, order + "\n" + made("abcy", 512, 32) + filled(a=3, b=5, c=7)
                  + 1000 * "bbop_mac y, a, b, c, 512, 32\n", reach, reach)
    for times in (200, 4000):
        for order in ORDERS:
            yield Job(f"{times} adds, {order[6:]}", (2, 512, 4), [], ADD, order + "\n" + made("aby", 512, 8)
                      + filled(a=3, b=5) + times * "bbop_add y, a, b, 512, 8\n", 1.3)
    yield Job("load", big, [], ADD, made("a", 500_000, 32) + f"load a, {values}\n", 1.4)
    yield Job("print", big, [("a", 32, 500_000)], ADD, "print a\n", 1.5)
    yield Job("open and store", big, [], ADD, "", 1.5)
    yield Job("script of 16 MiB", thin, [], ADD, 262_144 * ("# " + 61 * "-" + "\n"), 1.5)
    yield Job("one bank", (1, 1006, 1), [(name, 32, 64) for name in "abcy"], MAC,
              1000 * "bbop_mac y, a, b, c, 64, 32\n", 1.3)


def write_image(path, geometry, objects):
    """Writes an image and gives its size. It goes by pieces, as a child's peak memory begins at its parent's."""
    banks, rows, words = geometry
    table, base = b"", 0
    for name, width, count in objects:
        table += bytes([len(name)]) + name.encode().ljust(16, b"\0") + struct.pack("<BHI", width, base, count)
        base += width
    block = bytes(k * k % 251 for k in range(4096))
    size = 8 * banks * rows * words
    with open(path, "wb") as file:
        file.write(b"SDMI" + struct.pack("<HHHHH", 1, banks, rows, words, len(objects)) + table)
        for start in range(0, size, len(block)):
            file.write(block[:size - start])
        return file.tell()


def run(words, folder):
    """Seconds, the greatest memory in bytes, the status and what was put."""
    with open(folder / "report", "wb") as report:
        start = time.perf_counter()
        child = subprocess.Popen(words, cwd=folder, stdout=report, stderr=subprocess.DEVNULL)
        _, status, usage = os.wait4(child.pid, 0)
        elapsed = time.perf_counter() - start
    seconds = {"elapsed": elapsed, "processor": usage.ru_utime + usage.ru_stime, "user": usage.ru_utime}[CLOCK]
    child.returncode = os.waitstatus_to_exitcode(status)
    return seconds, 1024 * usage.ru_maxrss, child.returncode, (folder / "report").read_bytes()


@dataclasses.dataclass
class Times:
    """Seconds of the program and of plain C, in turn, and what came of the runs."""

    ours: list = dataclasses.field(default_factory=list)
    theirs: list = dataclasses.field(default_factory=list)
    same: bool = True
    peak: int = 0
    refused: str = None

    def add(self, folder, baseline, script):
        (folder / "script").write_text(script)
        seconds, memory, status, report = run([PROGRAM, "run", "ops", "prog", "script", "image", "out"], folder)
        if status != 0:
            self.refused = " ".join(report.decode().splitlines()[-1:])
            return
        self.ours.append(seconds)
        self.peak = max(self.peak, memory)
        seconds, _, status, expected = run([baseline, "prog", "script", "image", "other"], folder)
        self.theirs.append(seconds)
        stored = filecmp.cmp(folder / "out", folder / "other", shallow=False)
        self.same = self.same and status == 0 and stored and report == expected

    def less(self, bare):
        """What is left without the least time of a bare run."""
        return Times([a - min(bare.ours) for a in self.ours], [a - min(bare.theirs) for a in self.theirs])

    def ratios(self):
        least = min(self.ours) / min(self.theirs)
        return least, statistics.median(self.ours) / statistics.median(self.theirs)

    def line(self, name, reach, more):
        least, middle = self.ratios()
        figures = (min(self.ours), statistics.median(self.ours), min(self.theirs), statistics.median(self.theirs))
        shown = " ".join(f"{1000 * seconds:8.1f}" for seconds in figures)
        print(f"{name:18} {shown} {least:6.2f} {middle:6.2f} {reach or '':6} {more}", flush=True)


def speed(size, seconds):
    return f"{size / seconds / 1e6:.0f} MB/s" if size > 1 << 20 else ""


def measured(job, baseline, times):
    """Prints the job's lines; its times, and those of its script alone."""
    with tempfile.TemporaryDirectory() as name:
        folder = pathlib.Path(name)
        size = write_image(folder / "image", job.geometry, job.objects)
        (folder / "ops").write_text(job.ops)
        whole, bare = Times(), Times()
        for _ in range(times):
            whole.add(folder, baseline, job.script)
            if whole.refused is not None:
                print(f"{job.name:18} refused: {whole.refused}")
                return None, None
            if job.script:
                bare.add(folder, baseline, "")
        memory = f"{whole.peak / size:7.2f}" if size > 1 << 24 else 7 * " "
        same = "same" if whole.same else "DIFFERENT"
        if not job.script:
            whole.line(job.name, job.whole, f"{memory}  {same}  {speed(size, min(whole.ours))}")
            return whole, None
        whole.line(job.name, job.whole, f"{memory}  {same}")
        part = whole.less(bare)
        if min(part.theirs) < LEAST:
            return whole, None
        part.line("  its script", job.part, f"{speed(len(job.script), min(part.ours)):>7}")
        return whole, part


def soaked(times):
    """`soak` has no peer: it compiles and runs every word operation. Status 1 says that the words are no command."""
    with tempfile.TemporaryDirectory() as name:
        runs = [run([PROGRAM, "soak", "1"], pathlib.Path(name)) for _ in range(times)]
    if runs[0][2] == 1:
        print(f"{'soak':18} skipped: the program does not know it")
    elif runs[0][2] != 0:
        print(f"{'soak':18} refused: {' '.join(runs[0][3].decode().splitlines()[-1:])}")
    else:
        seconds = [each[0] for each in runs]
        same = "same" if all(each[3] == runs[0][3] for each in runs) else "DIFFERENT"
        print(f"{'soak':18} {1000 * min(seconds):8.1f} {1000 * statistics.median(seconds):8.1f}  {same}")


def load_now():
    return "load " + " ".join(f"{each:.1f}" for each in os.getloadavg())


def table(rows):
    print("\n| job | whole run, least | middle | its script, least | middle |\n| --- | --- | --- | --- | --- |")
    for name, whole, part in rows:
        ratios = whole.ratios() + (part.ratios() if part else ())
        cells = [f"{ratio:.2f}" for ratio in ratios] + (4 - len(ratios)) * [""]
        print(f"| {name} | {' | '.join(cells)} |")


def main():
    global PROGRAM, CLOCK
    parser = program.parser(__doc__)
    parser.add_argument("--times", type=int, default=10)
    parser.add_argument("--clock", choices=("elapsed", "processor", "user"), default="elapsed")
    parser.add_argument("--table", action="store_true")
    parser.add_argument("jobs", nargs="*", metavar="JOB")
    asked = parser.parse_args()
    CLOCK = asked.clock
    PROGRAM = program.path_of(asked)
    rows = []
    with tempfile.TemporaryDirectory() as name:
        baseline = pathlib.Path(name) / "baseline"
        source = TOP / "bench" / "baseline.c"
        subprocess.run(["gcc", "-O3", "-march=x86-64-v2", "-o", baseline, source], check=True)
        print(f"{load_now()} at the start")
        print(f"{'':18} {'program':>17} {'plain C':>17} {'ratio':>13}")
        print(f"{'job':18} {'least':>8} {'middle':>8} {'least':>8} {'middle':>8}"
              f" {'least':>6} {'middle':>6} {'reach':>6} {'memory':>7}  bytes")
        for job in jobs():
            if not asked.jobs or job.name in asked.jobs:
                whole, part = measured(job, baseline, asked.times)
                if whole:
                    rows.append((job.name, whole, part))
        if not asked.jobs or "soak" in asked.jobs:
            soaked(asked.times)
        print(f"{load_now()} at the end")
    if asked.table:
        table(rows)


if __name__ == "__main__":
    main()
