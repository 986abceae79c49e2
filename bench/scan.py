#!/usr/bin/env python3
"""Times of a scan beside a filter over the same numbers, which are already in memory.

Run it at the top of the repository:  python3 bench/scan.py [--times N] [--program PATH]

It makes an image of 64 MiB, of 8 banks of 1006 rows of 1024 words, with 500,000 numbers of 32 bits, by the program's own
`init` and `load`, and counts by `and(ge(a, V), lt(a, W))`. The filter is numpy's where it is installed, and plain C by gcc
-O3 in any case. Times are in milliseconds, least and middle of N (10): of the whole command; of the same command whose
query is refused by a check, which opens the image and no more; and what is left for the query without the least time of
that. The counts of all must be the same.
"""

import array
import pathlib
import statistics
import subprocess
import sys
import tempfile
import time

sys.path.insert(0, str(pathlib.Path(__file__).resolve().parent))
import program  # noqa: E402
import speed

COUNT, LOW, HIGH = 500_000, 1_000_000_000, 3_000_000_000
SHAPE = ("8", "1006", "1024")
QUERY = f"and(ge(a, {LOW}), lt(a, {HIGH}))\n"
REFUSED = "eq(none, 0)\n"


def made(folder, numbers):
    """Makes the image, and the file of the numbers."""
    (folder / "ops").write_text("")
    values = ", ".join(map(str, numbers))
    (folder / "script").write_text(f"bbop_trsp_init a, {COUNT}, 32\nload a, {values}\n")
    (folder / "numbers").write_bytes(numbers.tobytes())
    for words in (("init", *SHAPE, "image"), ("run", "ops", "prog", "script", "image", "image")):
        if speed.run([speed.PROGRAM, *words], folder)[2] != 0:
            sys.exit(f"{words[0]} failed")


def scanned(folder, query, status, times):
    """The seconds of scans, and the words of their last line."""
    (folder / "query").write_text(query)
    seconds = []
    for _ in range(times):
        taken, _, ended, report = speed.run([speed.PROGRAM, "scan", "query", "image"], folder)
        if ended != status:
            sys.exit(f"status {ended}: {report.decode()}")
        seconds.append(taken)
    return seconds, report.decode().split()


def filtered_by_c(folder, times):
    source = speed.TOP / "bench" / "filter.c"
    subprocess.run(["gcc", "-O3", "-march=x86-64-v2", "-o", folder / "filter", source], check=True)
    words = [folder / "filter", folder / "numbers", str(COUNT), str(LOW), str(HIGH), str(100 * times)]
    found, least, middle = subprocess.run(words, check=True, capture_output=True, text=True).stdout.split()
    return int(found), (int(least) / 1e9, int(middle) / 1e9)


def filtered_by_numpy(numbers, times):
    try:
        import numpy
    except ImportError:
        return None
    own, seconds = numpy.array(numbers, dtype=numpy.uint32), []
    for _ in range(100 * times):
        start = time.perf_counter()
        found = int(numpy.count_nonzero((own >= LOW) & (own < HIGH)))
        seconds.append(time.perf_counter() - start)
    return found, (min(seconds), statistics.median(seconds))


def show(name, least, middle, more=""):
    print(f"{name:24} {1000 * least:9.3f} {1000 * middle:9.3f}  {more}", flush=True)


def main():
    parser = program.parser(__doc__)
    parser.add_argument("--times", type=int, default=10)
    asked = parser.parse_args()
    speed.PROGRAM = program.path_of(asked)
    numbers = array.array("I", ((2_654_435_761 * e + 12_345) % 2**32 for e in range(COUNT)))
    with tempfile.TemporaryDirectory() as name:
        folder = pathlib.Path(name)
        made(folder, numbers)
        print(f"{speed.load_now()} at the start\n{'':24} {'least':>9} {'middle':>9}")
        whole, words = scanned(folder, QUERY, 0, asked.times)
        opened, _ = scanned(folder, REFUSED, 16, asked.times)
        show("whole command", min(whole), statistics.median(whole), " ".join(words))
        show("image opened alone", min(opened), statistics.median(opened))
        part = [seconds - min(opened) for seconds in whole]
        show("the query", min(part), statistics.median(part))
        filters = [("plain C", filtered_by_c(folder, asked.times))]
        by_numpy = filtered_by_numpy(numbers, asked.times)
        if by_numpy:
            filters.append(("numpy", by_numpy))
        else:
            print("numpy is not installed")
        for kind, (found, (least, middle)) in filters:
            ratios = f"whole {min(whole) / least:.0f} times, the query {min(part) / least:.1f} times"
            show(f"filter by {kind}", least, middle, ratios)
            if words[:4] != ["count", str(found), "of", str(COUNT)]:
                sys.exit(f"the filter counts {found}")
        print(f"{speed.load_now()} at the end")


if __name__ == "__main__":
    main()
