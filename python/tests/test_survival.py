"""The words flips and survival, and work on all processors."""

import csv
import io
import os
import pty
import signal
import subprocess
import sys
import time
import unittest

import support
from support import TOP, needs_program
from test_tools import Folder

from simdram.launcher import parallel
from simdram.launcher.faults import Fault
from simdram.survival.flips_tool import Cells, drawn, rate_of, text_of
from simdram.survival.survival_tool import interval

GUARD = TOP / "examples" / "guard"
WORDS = (str(GUARD / "add.ops"), str(GUARD / "sum.bbop"), "i.img")


class Draws(unittest.TestCase):
    CELLS = Cells(2, 64, 128, 5)

    def test_order_and_range(self):
        found = list(drawn(self.CELLS, 0.01, 3))
        self.assertEqual(found, sorted(set(found)))
        self.assertEqual(found, list(drawn(self.CELLS, 0.01, 3)))
        self.assertNotEqual(found, list(drawn(self.CELLS, 0.01, 4)))
        for part, most in zip(zip(*found), (5, 1, 63, 127)):
            self.assertTrue(min(part) >= 0 and max(part) == most)
        self.assertEqual({flip.instruction for flip in found}, {1, 2, 3, 4, 5})

    def test_how_many(self):
        chances = self.CELLS.chances
        self.assertEqual((list(drawn(self.CELLS, 0, 1)), len(list(drawn(self.CELLS, 1, 1)))), ([], chances))
        for rate in (0.003, 0.1, 0.5):
            mean = sum(len(list(drawn(self.CELLS, rate, seed))) for seed in range(10)) / 10
            # within five standard deviations of the mean of ten runs
            self.assertLess(abs(mean - rate * chances), 5 * (rate * (1 - rate) * chances / 10) ** 0.5)

    def test_limits(self):
        with self.assertRaisesRegex(Fault, "the rate is too great"):
            text_of(drawn(Cells(16, 1006, 64, 100), 0.5, 1))
        for text in ("2", "-1", "x", "nan"):
            with self.assertRaises(Fault):
                rate_of(text)

    def test_interval(self):
        low, high = interval(70, 100)
        self.assertTrue(abs(low - 0.6042) < 1e-4 and abs(high - 0.7811) < 1e-4)
        self.assertEqual((interval(0, 10)[0], interval(10, 10)[1]), (0, 1))


@needs_program
class Runs(Folder):
    def setUp(self):
        super().setUp()
        self.call("init", "1", "128", "1", "i.img")

    def test_flips_are_read_by_guard(self):
        made = self.call("flips", "--rate", "1e-3", "--seed", "7", "--script", WORDS[1], "i.img")
        self.assertEqual((made.returncode, made.stderr), (0, ""))
        lines = made.stdout.splitlines()
        self.assertTrue(lines[0].startswith("# each of 57,344 chances"))
        (self.folder / "f").write_text(made.stdout)
        ended = self.call("guard", WORDS[0], "p", WORDS[1], "i.img", "f", "o.img")
        self.assertIn(f"vote aap=864 flips={len(lines) - 1}\n", ended.stdout)
        self.assertEqual(self.call("flips", "--rate", "2", "--script", WORDS[1], "i.img").returncode, 2)

    def test_rates(self):
        ended = self.call("survival", *WORDS, "--rates", "0,1e-5,2e-2", "--runs", "12", "--seed", "3", "--csv", "--plot", "s.svg")
        self.assertEqual((ended.returncode, ended.stderr), (0, ""))
        none, few, many = csv.DictReader(io.StringIO(ended.stdout))
        self.assertEqual((none["right"], none["flips_most"], none["first_wrong_seed"]), ("12", "0", ""))
        self.assertEqual(few["right"], "12")
        self.assertLess(int(many["right"]), 12)
        self.assertTrue(float(many["low"]) < float(many["share"]) < float(many["high"]))
        self.assertIn("right runs", (self.folder / "s.svg").read_text())
        # the seed that is told goes wrong by the flips that `flips` prints, and the seeds before it do not
        wrong = int(many["first_wrong_seed"])
        for seed in range(3, wrong + 1):
            (self.folder / "f").write_text(self.call("flips", "--rate", "2e-2", "--seed", str(seed), "--script", WORDS[1], "i.img").stdout)
            out = self.call("guard", WORDS[0], "p", WORDS[1], "i.img", "f", "o.img", "--force").stdout
            values = self.call("image", "get", "o.img", "xa", "xb", "xy").stdout
            is_right = "7 y: 11 22 33 44\n" in out and values.split() == self.right()
            self.assertEqual(is_right, seed != wrong)

    def right(self):
        """The numbers of the objects without flips."""
        (self.folder / "none").write_text("")
        self.call("guard", WORDS[0], "p", WORDS[1], "i.img", "none", "r.img", "--force")
        return self.call("image", "get", "r.img", "xa", "xb", "xy").stdout.split()

    def test_faults(self):
        (self.folder / "refused.bbop").write_text("print a\n")
        (self.folder / "empty.bbop").write_text("order in\n")
        for words, said in (([*WORDS, "--rates", "2"], "a rate is a number from 0 to 1"), ([*WORDS, "--rates", "1e-3", "--runs", "0"], "--runs is 1 to"),
                            ([WORDS[0], "refused.bbop", "i.img", "--rates", "0"], "guard ended with status 8"),
                            ([WORDS[0], "empty.bbop", "i.img", "--rates", "0"], "has no answers"),
                            ([*WORDS, "--rates", "0", "--plot", WORDS[0]], "a picture's name ends in .svg or .png"), (["none", *WORDS[1:], "--rates", "0"], "cannot read")):
            ended = self.call("survival", *words)
            self.assertEqual((ended.returncode, len(ended.stderr.splitlines())), (2, 1), ended.stderr)
            self.assertIn(said, ended.stderr)

    def test_an_interrupt_ends_it_cleanly(self):
        scratch = self.folder / "scratch"
        scratch.mkdir()
        words = [sys.executable, str(TOP / "simdram"), "survival", *WORDS, "--rates", "1e-3", "--runs", "100000"]
        with subprocess.Popen(words, cwd=self.folder, stdout=subprocess.PIPE, stderr=subprocess.PIPE, text=True, start_new_session=True,
                              preexec_fn=lambda: signal.signal(signal.SIGINT, signal.SIG_DFL), env={**os.environ, "TMPDIR": str(scratch)}) as running:
            end = time.monotonic() + 60
            while not any(scratch.iterdir()) and time.monotonic() < end:
                time.sleep(0.05)
            time.sleep(1)
            running.send_signal(signal.SIGINT)
            out, err = running.communicate(timeout=60)
        self.assertEqual((running.returncode, out, err), (130, "", ""))
        self.assertEqual(list(scratch.iterdir()), [])

    def test_a_bar_on_a_terminal(self):
        ours, theirs = pty.openpty()
        # the bar is shown from the first run on, however fast they are
        lines = "import sys; from simdram import __main__; from simdram.launcher import parallel; parallel.SHOWN_AFTER = 0; sys.exit(__main__.main())"
        words = [sys.executable, "-c", lines, "survival", *WORDS, "--rates", "1e-3", "--runs", "20"]
        with subprocess.Popen(words, cwd=self.folder, stdout=subprocess.DEVNULL, stderr=theirs,
                              env={**os.environ, "PYTHONPATH": str(TOP / "python")}) as running:
            os.close(theirs)
            shown = b""
            try:
                while True:
                    part = os.read(ours, 4096)
                    if not part:
                        break
                    shown += part
            except OSError:  # the other end is closed
                pass
            running.wait()
        os.close(ours)
        self.assertEqual(running.returncode, 0)
        self.assertIn(b"20 of 20", shown)
        self.assertTrue(shown.endswith(b"\r\033[K"))


class InParallel(unittest.TestCase):
    def test_order_and_faults(self):
        self.assertEqual(parallel.in_parallel(lambda one: one * one, range(50)), [one * one for one in range(50)])
        self.assertEqual(parallel.in_parallel(lambda one: one, []), [])

        def half(one):
            if one == 7:
                raise Fault("seven")
            return one
        with self.assertRaisesRegex(Fault, "seven"):
            parallel.in_parallel(half, range(20))


if __name__ == "__main__":
    unittest.main()
