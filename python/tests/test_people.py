"""What `.ci/people` counts, and which Python it takes."""

import importlib.machinery
import importlib.util
import os
import pathlib
import sys
import tempfile
import unittest
import unittest.mock

from support import TOP

LOADER = importlib.machinery.SourceFileLoader("people", str(TOP / ".ci" / "people"))
people = importlib.util.module_from_spec(importlib.util.spec_from_loader("people", LOADER))
LOADER.exec_module(people)

SAID = """test_a (test.A) ... ok
test_b (test.A) ... skipped 'NumPy is not installed'
test_c (test.A) ... FAIL
----------------------------------------------------------------------
Ran 3 tests in 0.1s

FAILED (failures=1, skipped=1)
"""
EXAMPLES = "and: ok\nbnn: left out, no Python on the PATH has numpy\nmac: ok\n2 passed, 0 failed\n"


class People(unittest.TestCase):
    def counted(self, said, status, is_ci):
        with unittest.mock.patch.multiple(people, IS_CI=is_ci, ended=lambda *_: (said, status), python=lambda: sys.executable), \
                unittest.mock.patch("builtins.print"):
            return (people.examples if said == EXAMPLES else people.tests)("program")

    def test_counts(self):
        self.assertEqual(self.counted(SAID, 1, False), (1, 1))
        self.assertEqual(self.counted(EXAMPLES, 0, False), (2, 0))
        self.assertEqual(self.counted("", 1, False), (0, 1))

    def test_what_is_left_out_fails_in_ci(self):
        self.assertEqual(self.counted(SAID, 1, True), (1, 2))
        self.assertEqual(self.counted(EXAMPLES, 0, True), (2, 1))

    def test_the_python_that_has_numpy(self):
        with tempfile.TemporaryDirectory() as folder:
            for name, status in (("without", 1), ("with", 0)):
                path = pathlib.Path(folder, name, "python3")
                path.parent.mkdir()
                path.write_text(f'#!/bin/sh\ncase "$2" in *numpy*) exit {status} ;; esac\n')
                path.chmod(0o755)
            without, found = (os.path.join(folder, name, "python3") for name in ("without", "with"))
            with unittest.mock.patch.dict(os.environ, PATH=f"{folder}/without:{folder}/with"), unittest.mock.patch.object(sys, "executable", without):
                self.assertEqual((people.pythons(), people.with_numpy()), ([without, found], found))
            with unittest.mock.patch.dict(os.environ, PATH=f"{folder}/without"), unittest.mock.patch.object(sys, "executable", without):
                self.assertIsNone(people.with_numpy())


if __name__ == "__main__":
    unittest.main()
