#!/usr/bin/env python3
"""Times of a traced execution and of its replay, beside the execution alone.

Run it at the top of the repository:  python3 bench/trace.py [--times N] [--clock processor] [--program PATH]

The first job is the greatest that fits in a trace: as many `mac` at n = 32 on 500,000 elements as 67,108,864 bytes of events
hold, on an image of 64 MiB with 8 banks of 1006 rows of 1024 words. The second is the same on rows of one word, where the
chip's own work is least. `exec`, `trace` and `replay` go in turn, N times (5); times are in milliseconds, least and middle,
and each ratio is that of the least times. The OUT of all three must be the same.
"""

import filecmp
import pathlib
import statistics
import sys
import tempfile

sys.path.insert(0, str(pathlib.Path(__file__).resolve().parent))
sys.dont_write_bytecode = True
import program  # noqa: E402
import speed

ROOM = 67_108_864
JOBS = (("rows of 1024 words", ("8", "1006", "1024"), 500_000), ("rows of one word", ("8", "1006", "1"), 500))


def said(words, folder):
    """The seconds of a call that must be done, and its last line."""
    seconds, _, status, report = speed.run([speed.PROGRAM, *words], folder)
    if status != 0:
        sys.exit(f"{words[0]}: status {status}")
    return seconds, report.decode().splitlines()[-1] if report else ""


def made(folder, shape, count):
    """Makes the program, the image, and the greatest script whose events fit; answers how many bbops it has."""
    (folder / "ops").write_text(speed.MAC)
    (folder / "script").write_text("".join(f"bbop_trsp_init {name}, {count}, 32\nfill {name}, {value}\n"
                                           for name, value in (("a", 3), ("b", 5), ("c", 7), ("y", 0))))
    said(("init", *shape, "image"), folder)
    said(("run", "ops", "prog", "script", "image", "image"), folder)
    _, line = said(("cost", "prog", "32"), folder)
    costs = dict(word.split("=") for word in line.split()[1:])
    banks = -(-count // (64 * int(shape[2])))
    bbops = ROOM // (8 * banks * (int(costs["aap"]) + int(costs["ap"])))
    (folder / "script").write_text(f"bbop_mac y, a, b, c, {count}, 32\n" * bbops)
    return bbops


def timed(folder, times):
    """The seconds of each command, in turn."""
    calls = {
        "exec": ("exec", "prog", "script", "image", "out"),
        "trace": ("trace", "prog", "script", "image", "traced", "trace"),
        "replay": ("replay", "trace", "image", "replayed"),
    }
    seconds = {name: [] for name in calls}
    for _ in range(times):
        for name, words in calls.items():
            seconds[name].append(said(words, folder)[0])
        for other in ("traced", "replayed"):
            if not filecmp.cmp(folder / "out", folder / other, shallow=False):
                sys.exit(f"{other} differs")
    return seconds


def main():
    parser = program.parser(__doc__)
    parser.add_argument("--times", type=int, default=5)
    parser.add_argument("--clock", choices=("elapsed", "processor", "user"), default="elapsed")
    asked = parser.parse_args()
    speed.CLOCK = asked.clock
    speed.PROGRAM = program.path_of(asked)
    print(f"{speed.load_now()} at the start")
    for name, shape, count in JOBS:
        with tempfile.TemporaryDirectory() as path:
            folder = pathlib.Path(path)
            bbops = made(folder, shape, count)
            seconds = timed(folder, asked.times)
            size = (folder / "trace").stat().st_size
            print(f"{name}: {bbops} bbops, a trace of {size} bytes\n{'':10} {'least':>9} {'middle':>9} {'to exec':>8}")
            for command, taken in seconds.items():
                ratio = min(taken) / min(seconds["exec"])
                print(f"{command:10} {1000 * min(taken):9.1f} {1000 * statistics.median(taken):9.1f} {ratio:8.2f}", flush=True)
    print(f"{speed.load_now()} at the end")


if __name__ == "__main__":
    main()
