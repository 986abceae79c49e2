"""The launcher with a program: its streams and statuses, its environment, files that are not overwritten."""

import os
import pathlib
import signal
import subprocess
import sys
import tempfile
import time
import unittest
import unittest.mock

import support
from support import needs_program
from test_words import LAUNCHER, called

MAC = "op mac(a: word, b: word, c: word) -> y: word { t = mul(a, b); y = add(t, c); }\n"


def text(path):
    return pathlib.Path(path).read_bytes()


class Folder(unittest.TestCase):
    """A folder with an operation text, a program, a script and an image."""

    def setUp(self):
        kept = tempfile.TemporaryDirectory()
        self.addCleanup(kept.cleanup)
        self.folder = pathlib.Path(kept.name)
        (self.folder / "mac.ops").write_text(MAC)
        (self.folder / "mac.bbop").write_text("bbop_mac y, a, b, c, 4, 8\n")
        made = self.call("image", "make", "mac.img", "1x96x1", "a:8=3,10,15,200", "b:8=4,10,17,2", "c:8=5,100,1,7", "y:8/4")
        self.assertEqual(made.returncode, 0, made.stderr)

    def call(self, *words, **environment):
        return called(*words, cwd=self.folder, environment=environment)

    def files(self):
        return {path.name: path.read_bytes() for path in self.folder.iterdir()}


@needs_program
class AsTheProgram(Folder):
    """Standard output and status are the program's own."""

    def plain(self, words):
        return subprocess.run([support.program(), *words], cwd=self.folder, capture_output=True, text=True, check=False)

    def test_same_output(self):
        run = ["run", "mac.ops", "mac.prog", "mac.bbop", "mac.img", "out.img"]
        (self.folder / "bad.ops").write_text("op f(")
        (self.folder / "bad.bbop").write_text("print q\n")
        for words in (run, ["cost", "mac.prog", "8"], ["show", "bad.ops"], ["list", "none.prog"], ["cost", "mac.prog", "0"],
                      ["exec", "mac.prog", "bad.bbop", "mac.img", "out.img"], ["list", "mac.ops"], ["soak"]):
            ours, its = self.call(*words), self.plain(words)
            self.assertEqual((ours.returncode, ours.stdout), (its.returncode, its.stdout), words)

    def test_what_cannot_be_read_is_told_with_the_reason_before_the_run(self):
        ended = self.call("show", ".")
        self.assertEqual((ended.returncode, ended.stdout, ended.stderr), (2, "cannot read .\n", "simdram: cannot read .: Is a directory\n"))
        ended = self.call("exec", "none.prog", "mac.bbop", "none.img", "out.img")
        self.assertEqual((ended.returncode, ended.stdout), (2, "cannot read none.prog\n"))
        self.assertEqual(ended.stderr.splitlines(), [f"simdram: cannot read none.{end}: No such file or directory" for end in ("prog", "img")])

    def test_a_text_in_place_of_a_program_file(self):
        (self.folder / "a.micro").write_text("# mine\nprogram f(a: word) -> y: word\n  AAP a[0] y[0]\n")
        for name, hint in (("mac.ops", "compile it first, by `simdram compile`"), ("a.micro", "assemble it first, by `simdram assemble`")):
            for words in (["list", name], ["cost", name, "8"], ["steps", name, "f"], ["disassemble", name], ["exec", name, "mac.bbop", "mac.img", "o.img"]):
                ended = self.call(*words)
                self.assertEqual(ended.returncode, 5 if words[0] in ("list", "cost", "exec") else 2, words)
                self.assertIn(hint, " ".join(ended.stderr.split()), words)
        self.assertNotIn("first", self.call("list", "mac.img").stderr)

    def test_open_files_are_passed_on(self):
        ended = subprocess.run(["bash", "-c", f"{LAUNCHER} show <(cat mac.ops)"], cwd=self.folder, capture_output=True, text=True, check=False)
        self.assertEqual((ended.returncode, ended.stdout.split("(")[0]), (0, "op mac"), ended.stderr)

    def test_a_full_device_is_told(self):
        with open("/dev/full", "wb") as full:
            ended = subprocess.run([LAUNCHER, "show", "mac.ops"], cwd=self.folder, stdout=full, stderr=subprocess.PIPE, check=False)
        self.assertEqual(ended.returncode, 3)

    def test_under_head(self):
        self.call("compile", "mac.ops", "mac.prog")
        for words in ("list mac.prog", "steps mac.prog mac", "help", "image get mac.img a"):
            ended = subprocess.run(["bash", "-c", f"{LAUNCHER} {words} | head -1"], cwd=self.folder, capture_output=True, text=True, check=False)
            self.assertNotIn("Traceback", ended.stderr, words)
            self.assertEqual(len(ended.stdout.splitlines()), 1, words)

    def test_a_signal_ends_both(self):
        os.mkfifo(self.folder / "pipe")
        running = subprocess.Popen([sys.executable, LAUNCHER, "show", "pipe"], cwd=self.folder)
        time.sleep(1.5)
        running.send_signal(signal.SIGTERM)
        self.assertEqual(running.wait(20), -signal.SIGTERM)


class ItsEnvironment(Folder):
    """The program has the launcher's environment, and large pages where nothing is said to the C library."""

    def test_large_pages(self):
        program = self.folder / "program"
        program.write_text('#!/bin/sh\necho "$GLIBC_TUNABLES $OF_OURS"\n')
        program.chmod(0o755)
        for given, expected in (({}, "glibc.malloc.hugetlb=1"), ({"GLIBC_TUNABLES": "glibc.malloc.check=0"}, "glibc.malloc.check=0")):
            with unittest.mock.patch.dict(os.environ):
                os.environ.pop("GLIBC_TUNABLES", None)
                ended = self.call("show", "mac.ops", SIMDRAM_PROGRAM=str(program), OF_OURS="here", **given)
            self.assertEqual((ended.returncode, ended.stdout), (0, f"{expected} here\n"), ended.stderr)


@needs_program
class NothingDestroyed(Folder):
    """Two words that changed places destroy nothing."""

    WHOLE = {"run": ["mac.ops", "mac.prog", "mac.bbop", "mac.img", "out.img"], "compile": ["mac.ops", "mac.prog"],
             "exec": ["mac.prog", "mac.bbop", "mac.img", "out.img"],
             "trace": ["mac.prog", "mac.bbop", "mac.img", "out.img", "mac.trace"],
             "replay": ["mac.trace", "mac.img", "out.img"], "migrate": ["old.prog", "new.prog"]}
    # words of one kind, which nothing tells apart: what is written over is kept
    ALIKE = (["out.img", "mac.img"], ["new.prog", "old.prog"])

    def done(self):
        """Does each command once, so that all of its files stand."""
        self.call("compile", "mac.ops", "mac.prog")
        program = text(self.folder / "mac.prog")
        (self.folder / "old.prog").write_bytes(program[:4] + bytes([1]) + program[5:])
        for command, words in self.WHOLE.items():
            ended = self.call(command, *words)
            self.assertEqual((ended.returncode, ended.stderr), (0, ""), command)
        self.assertFalse([name for name in self.files() if "~" in name], "a command that did the same again kept something")
        return self.files()

    def swapped(self):
        """Each command with two neighbouring words that changed places."""
        for command, words in self.WHOLE.items():
            for at in range(len(words) - 1):
                pair = [words[at + 1], words[at]]
                yield command, words[:at] + pair + words[at + 2:], pair in self.ALIKE

    def test_swaps(self):
        before = self.done()
        for command, words, is_alike in self.swapped():
            if not is_alike:
                self.assertNotEqual(self.call(command, *words).returncode, 0, (command, words))
                self.assertEqual(self.files(), before, (command, words))

    def test_swaps_of_one_kind(self):
        before = self.done()
        alike = [(command, words) for command, words, is_alike in self.swapped() if is_alike]
        self.assertEqual([command for command, _ in alike], ["run", "exec", "trace", "replay", "migrate"])
        for command, words in alike:
            over = "old.prog" if command == "migrate" else "mac.img"
            ended = self.call(command, *words, SIMDRAM_QUIET="")
            self.assertEqual(text(self.folder / f"{over}~"), before[over], command)
            kind = "program file" if command == "migrate" else "image"
            self.assertIn(f"{over} held another {kind}, which is kept as {over}~", ended.stderr)
            for name in self.files():
                (self.folder / name).write_bytes(before[name]) if name in before else (self.folder / name).unlink()

    def test_what_is_kept(self):
        run = ["run", *self.WHOLE["run"]]
        self.assertEqual(self.call(*run).returncode, 0)
        first = text(self.folder / "out.img")
        before = text(self.folder / "mac.img")
        (self.folder / "out.img~").write_text("mine")
        (self.folder / "numbers").write_text("1,2,3,4")
        self.assertEqual(self.call("image", "put", "mac.img", "b", "numbers").returncode, 0)
        for words in (run, run):
            self.assertEqual(self.call(*words).returncode, 0)
        kept = {name: data for name, data in self.files().items() if "~" in name}
        self.assertEqual(kept, {"mac.img~": before, "out.img~": b"mine", "out.img~2": first})
        (self.folder / "mac.img~").unlink()
        (self.folder / "out.img~2").unlink()
        os.symlink("mac.img", self.folder / "link.img")
        (self.folder / "out.img").write_bytes(first)
        self.assertEqual(self.call(*run, "--force").returncode, 0)
        before = text(self.folder / "mac.img")
        self.assertEqual(self.call(*run[:-1], "link.img").returncode, 0)
        self.assertEqual({name: data for name, data in self.files().items() if "~" in name}, {"out.img~": b"mine", "mac.img~": before})
        self.assertTrue((self.folder / "link.img").is_symlink())

    def test_what_is_said(self):
        ended = self.call("run", "mac.bbop", "mac.ops", "mac.prog", "mac.img", "out.img")
        self.assertEqual((ended.returncode, ended.stdout), (2, ""))
        self.assertIn("mac.ops is the second argument of run, where a program file is written, but it holds text", ended.stderr)
        self.assertIn("OPS PROG SCRIPT IMAGE OUT", ended.stderr)
        self.assertEqual(self.call("init", "1", "64", "1", "mac.ops").returncode, 2)

    def test_force_and_what_may_be_written_over(self):
        (self.folder / "old").write_text("text")
        (self.folder / "empty").write_text("")
        self.assertEqual(self.call("compile", "mac.ops", "old").returncode, 2)
        self.assertEqual(self.call("compile", "mac.ops", "empty").returncode, 0)
        self.assertEqual(self.call("compile", "mac.ops", "old", "--force").returncode, 0)
        self.assertEqual(self.call("compile", "mac.ops", "old").returncode, 0)
        self.assertEqual(text(self.folder / "old")[:4], b"SDMP")


if __name__ == "__main__":
    unittest.main()
