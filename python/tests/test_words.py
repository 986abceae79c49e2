"""Which words are commands, and what is said of others; help, which is answered before anything is built."""

import os
import pathlib
import subprocess
import sys
import tempfile
import unittest

import support
from support import TOP, needs_program

from simdram.launcher.commands import ALL, PROGRAM
from simdram.launcher.words import nearest, wrong_words

LAUNCHER = TOP / "simdram"


def called(*words, **more):
    """How the launcher ends on the words, with no program to run but the one named."""
    environment = {**os.environ, "SIMDRAM_QUIET": "1", **more.pop("environment", {})}
    return subprocess.run([sys.executable, LAUNCHER, *words], capture_output=True, text=True, check=False, env=environment,
                          stdin=subprocess.DEVNULL, **more)


def whole(command):
    """Words that are a command: each file by its own name, each number in its range."""
    numbers = {"width": "1-8,16", "one width": "8", "walk": "7", "work": "10", "banks": "1", "rows": "64", "words": "1", "seed": "7"}
    return [command.name, *(numbers.get(word.kind, word.name.lower()) for word in command.words)]


class WrongWords(unittest.TestCase):
    def test_each_command_is_one(self):
        for command in PROGRAM:
            self.assertIsNone(wrong_words(whole(command)), command.name)

    def test_what_is_wrong(self):
        for words, said in (
            (["run", "a"], "the following arguments are required: PROG, SCRIPT, IMAGE, OUT"),
            (["cost", "p", "8", "9"], "9 is one argument too many"),
            (["cost", "p", "129"], "1 to 128; it cannot be 129"),
            (["cost", "p", "+8"], "in decimal digits"),
            (["cost", "p", "8,"], "in decimal digits; it cannot be '8,'"),
            (["cost", "p", "1-2-3"], "in decimal digits; it cannot be '1-2-3'"),
            (["verify", "o", "p", "8,4"], "in decimal digits; it cannot be '8,4'"),
            (["verify", "o", "p", "8-4"], "in decimal digits; it cannot be '8-4'"),
            (["optimise", "o", "p", "4,8", "n"], "in decimal digits; it cannot be '4,8'"),
            (["optimise", "o", "p", "8"], "the following arguments are required: NEW"),
            (["optimise", "o", "p", "8", "p"], "PROG and NEW are the same file, p"),
            (["optimise", "o", "p", "8", "n", "1", "x"], "the number of changes, in decimal digits"),
            (["optimise", "o", "p", "8", "n", "1", "2", "3"], "3 is one argument too many"),
            (["init", "1", "63", "1", "o"], "64 to 1006; it cannot be 63"),
            (["init", "16", "1006", "1024", "o"], "more than the 8388608 words"),
            (["soak", str(2**64)], "the seed"),
            (["run", "a", "a", "s", "i", "o"], "OPS and PROG are the same file, a"),
            (["trace", "p", "s", "i", "o", "o"], "OUT and TRACE are the same file"),
            (["replay", "i", "i", "o"], "TRACE and IMAGE are the same file"),
            (["shwo", "a"], "no command shwo; did you mean show?"),
            ([], "there is no command"),
            ([""], "there is no command ''"),
            (["show", "no\udcff"], "'no\\udcff' is not UTF-8"),
        ):
            self.assertIn(said, wrong_words(words) or "", words)

    def test_image_and_out_may_be_one(self):
        self.assertIsNone(wrong_words(["run", "o", "p", "s", "i", "i"]))

    def test_words_that_may_be_left_out(self):
        for more in ([], ["1"], ["1", "1000"]):
            self.assertIsNone(wrong_words(["optimise", "o", "p", "8", "n", *more]), more)

    def test_a_flag_stands_anywhere(self):
        words = ["o", "p", "8", "n", "1", "1000"]
        for at in range(len(words) + 1):
            self.assertIsNone(wrong_words(["optimise", *words[:at], "--rows", *words[at:]]), at)

    def test_no_word_is_an_option(self):
        for name in ("--", "-x", "--help", "=a", "@a"):
            self.assertIsNone(wrong_words(["show", name]), name)

    def test_nearest(self):
        self.assertEqual(nearest("ad", ["and", "add", "abs"])[0], "add")
        self.assertEqual(nearest("qqq", ALL), [])


@needs_program
class AsTheProgram(unittest.TestCase):
    """The program says `usage` exactly where the launcher finds the words wrong."""

    def status(self, words, folder):
        return subprocess.run([support.program(), *words], cwd=folder, capture_output=True, check=False).returncode

    def test_same_words(self):
        with tempfile.TemporaryDirectory() as folder:
            for command in PROGRAM:
                right = whole(command)
                changed = [right, right[:-1], [*right, "x"], [right[0].upper(), *right[1:]]]
                for at in range(1, len(right)):
                    changed += [right[:at] + [other] + right[at + 1:] for other in ("0", "129", "1025", right[-1])]
                for words in changed:
                    if command.name != "soak" or wrong_words(words):
                        is_usage = self.status(words, folder) == 1
                        self.assertEqual(is_usage, wrong_words(words) is not None, words)


class Help(unittest.TestCase):
    """Help needs no program: a folder without one is named as the repository."""

    def test_at_once(self):
        for words in ([], ["help"], ["help", "help"], ["--help"], ["-h"], ["--version"], ["help", "run"], ["run", "--help"], ["help", "steps"]):
            ended = called(*words, environment={"SIMDRAM_PROGRAM": "/nowhere"})
            self.assertEqual((ended.returncode, ended.stderr), (0, ""), words)
            self.assertTrue(ended.stdout)

    def test_each_argument_and_its_page(self):
        for command in PROGRAM:
            lines = called("help", command.name).stdout.splitlines()
            for word in command.words:
                line = next(line for line in lines if line.split()[:1] == [word.name])
                self.assertIn("docs/" if word.is_file else " to ", line, command.name)

    def test_names_all(self):
        said = called("help").stdout
        for command in ALL.values():
            self.assertIn(f"\n  {command.name}", said)
            self.assertIn(f"simdram {command.example}\n", said)

    def test_tools_answer(self):
        for name, command in ALL.items():
            if not command.is_program:
                ended = called(name, "--help")
                self.assertEqual(ended.returncode, 0, name)
                self.assertIn(name, ended.stdout)

    def test_unknown(self):
        ended = called("help", "frob")
        self.assertEqual(ended.returncode, 2)

    def test_wrong_words_without_a_program(self):
        with tempfile.TemporaryDirectory() as name:
            top = pathlib.Path(name)
            (top / "crates" / "simdram").mkdir(parents=True)
            (top / "crates.txt").write_text("simdram:\n")
            ended = called("cost", "p", "0", environment={"SIMDRAM_HOME": name, "SIMDRAM_PROGRAM": ""})
            self.assertEqual((ended.returncode, ended.stdout), (1, "usage\n"))
            self.assertIn("1 to 128", ended.stderr)
            self.assertIn("usage: simdram cost PROG N", ended.stderr)


class Anywhere(unittest.TestCase):
    def test_through_a_link(self):
        with tempfile.TemporaryDirectory() as folder:
            os.symlink(LAUNCHER, os.path.join(folder, "link"))
            ended = subprocess.run([os.path.join(folder, "link"), "help", "run"], cwd=folder, capture_output=True, text=True, check=False)
            self.assertEqual(ended.returncode, 0, ended.stderr)
            self.assertIn("run OPS PROG SCRIPT IMAGE OUT", ended.stdout)


if __name__ == "__main__":
    unittest.main()
