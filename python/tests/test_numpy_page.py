"""What docs/NUMPY.md shows, and the package without NumPy."""

import collections
import contextlib
import doctest
import io
import re
import subprocess
import sys
import unittest
import unittest.mock

import support
from support import needs_numpy, needs_program

import simdram
from simdram.launcher import run_program


@contextlib.contextmanager
def reported():
    """The AAP and AP of all that the program reports meanwhile, of scripts and of scans."""
    totals, run = collections.Counter(), run_program.run

    def counting(*words, **more):
        ended = run(*words, **more)
        if words[0][0] in ("run", "exec", "scan"):
            totals.update({key: int(number) for key, number in re.findall(r"(aap|ap)=(\d+)", ended.out.splitlines()[-1])})
        return ended

    with unittest.mock.patch.object(run_program, "run", counting):
        yield totals


class Page(unittest.TestCase):
    """What docs/NUMPY.md shows."""

    @needs_numpy
    @needs_program
    def test_its_examples(self):
        text = (support.TOP / "docs" / "NUMPY.md").read_text(encoding="utf-8")
        names = {}
        with contextlib.redirect_stdout(io.StringIO()) as put, reported() as totals:
            for block in re.findall(r"```python\n(.*?)```", text, re.DOTALL):
                exec(block, names)
                self.as_reported(names, totals)
        shown = re.search(r"\n\n((?:    .*\n)+)\n## Chips", text)[1].replace("\n    ", "\n")[4:]
        self.assertEqual(put.getvalue(), f"[[  2   0]\n [100 252]]\naap=163 ap=16\n{shown}\n")
        self.assertEqual((str(names["z"].cost), names["found"]), ("aap=335 ap=36", (2, 4, simdram.Cost(86, 16))))
        with reported() as totals:
            self.shells(text, names)
            self.assertGreater(sum(totals.values()), 0)

    def as_reported(self, names, totals):
        """The chip's cost is what the program has reported of it, and that of each array what its report says."""
        self.assertEqual((names["chip"].cost.aap, names["chip"].cost.ap), (totals["aap"], totals["ap"]))
        for array in [one for one in names.values() if isinstance(one, simdram.Array) and one.made]:
            lines = [line for line in array.script.splitlines() if not line.startswith("#")]
            said = [re.fullmatch(r"\d+ ok aap=(\d+) ap=(\d+)", line) for line in array.report.splitlines()]
            done = [match for line, match in zip(lines, filter(None, said)) if not line.startswith(("bbop_trsp_init", "free "))]
            self.assertEqual((array.cost.aap, array.cost.ap), tuple(sum(int(match[k]) for match in done) for k in (1, 2)))

    def shells(self, text, names):
        shells = doctest.DocTestParser().get_doctest(text, names, "NUMPY.md", None, 0)
        self.assertGreaterEqual(len(shells.examples), 4)
        self.assertEqual(doctest.DocTestRunner(optionflags=doctest.NORMALIZE_WHITESPACE).run(shells).failed, 0)


class Door(unittest.TestCase):
    """The package itself."""

    def test_the_package_needs_no_numpy_until_the_front_is_used(self):
        lines = ("import sys; sys.modules['numpy'] = None; import simdram, simdram.files.image_tool\n"
                 "try:\n    simdram.Chip\nexcept ImportError as missing:\n    print(missing)")
        ended = subprocess.run([sys.executable, "-c", lines], cwd=support.TOP / "python", capture_output=True,
                               text=True, check=False)
        said = "simdram.Chip needs NumPy, which is not installed: pip install numpy\n"
        self.assertEqual((ended.stdout, ended.stderr), (said, ""))
        with self.assertRaises(AttributeError):
            simdram.nothing


if __name__ == "__main__":
    unittest.main()
