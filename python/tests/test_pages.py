"""The README and docs against the program: every line that they show, the table of operations, and numbers in sentences."""

import doctest
import itertools
import os
import pathlib
import re
import subprocess
import tempfile
import unittest

import support
from support import TOP, needs_numpy, needs_program

from simdram.launcher.commands import ALL
from simdram.rules.word_ops import TAKES_GIVES, forms

WIDTHS = range(1, 129)
SHOWN = (8, 32)
# sentences with numbers: the page, the sentence, an op or the file of ops that it speaks of, and the commands at n
CLAIMS = (
    ("README.md", "an adder written as one takes 7n + 2, where `add` takes 9n + 1", "book_add", lambda n: 7 * n + 2),
    ("README.md", "an adder written as one takes 7n + 2, where `add` takes 9n + 1", "word_add", lambda n: 9 * n + 1),
    ("docs/README.md", "the word operation takes 9n + 1", "word_add", lambda n: 9 * n + 1),
    ("docs/README.md", "a block 7n + 2", "table_add", lambda n: 7 * n + 2),
    ("docs/README.md", "a block 7n + 2", "maj_add", lambda n: 7 * n + 2),
    ("docs/README.md", "takes 8n + 1", "carry_first", lambda n: 8 * n + 1),
)
CARRY_FIRST = "op carry_first(a: word, b: word) -> y: word { serial up (c = 0) { c = maj(a, b, c); y = xor(xor(a, b), c); } }\n"


def page(name):
    return (TOP / name).read_text(encoding="utf-8")


def shown_lines(text):
    """The shell lines that a page shows, each with what it prints."""
    for block in re.findall(r"(?:^    .*\n)+", text, re.MULTILINE):
        lines = [line[4:] for line in block.splitlines()]
        starts = [k for k, line in enumerate(lines) if line.startswith("$ ")]
        for start, past in zip(starts, [*starts[1:], len(lines)]):
            yield lines[start][2:], "".join(f"{line}\n" for line in lines[start + 1:past])


def own_op(name):
    """A text with one op for a word operation, of its name with `o_` before it."""
    takes, gives = forms(name)[0]
    sources = list(zip("abc", takes or ["word"]))
    results = list(zip("yz", gives))
    head = ", ".join(f"{source}: {kind}" for source, kind in sources)
    tail = ", ".join(f"{result}: {kind}" for result, kind in results)
    arguments = ", ".join(source for source, _ in sources[:len(takes)])
    return f"op o_{name}({head}) -> {tail} {{ {', '.join(result for result, _ in results)} = {name}({arguments}); }}\n"


def named_scratch(listing):
    """How many bits and how many words of scratch the commands of each entry of a listing name."""
    for entry in re.split(r"^entry ", listing, flags=re.MULTILINE)[1:]:
        names = set(re.findall(r" ([tw]\d+)\b", entry))
        yield entry.split()[0], (sum(one[0] == "t" for one in names), sum(one[0] == "w" for one in names))


def value(formula, n):
    """The value of a formula of the table at width n: after it, in brackets, stand the widths at which it is another."""
    formula, _, cases = formula.partition(" (n = ")
    others = dict(re.findall(r"(\d+): (\d+)", cases))
    if str(n) in others:
        return int(others[str(n)])
    names = {"n": n, "p": bin(n).count("1"), "L": n.bit_length()}
    text = formula.replace("−", "-").replace("²", "**2").replace(" / ", " // ").replace(" mod ", " % ")
    text = re.sub(r"(\d)([a-z(])", r"\1*\2", text)
    text = re.sub(r"([a-z])\(", r"\1*(", text)
    assert re.fullmatch(r"[\dnpL+\-*/%() ]+", text), formula
    return eval(text, {"__builtins__": {}}, names)  # letters, digits and signs alone, by the line above


@needs_program
class Costs(unittest.TestCase):
    """The table of operations, and sentences on costs."""

    @classmethod
    def setUpClass(cls):
        kept = tempfile.TemporaryDirectory()
        cls.addClassCleanup(kept.cleanup)
        folder = pathlib.Path(kept.name)
        (folder / "ops").write_text("".join(map(own_op, TAKES_GIVES)))
        (folder / "blocks").write_text((TOP / "examples" / "serial" / "serial.ops").read_text(encoding="utf-8") + CARRY_FIRST)
        cls.counts = {}
        for text in ("ops", "blocks"):
            cls.run_program(folder, "compile", text, f"{text}.prog")
            for n in WIDTHS if text == "ops" else SHOWN:
                for line in cls.run_program(folder, "cost", f"{text}.prog", str(n)).splitlines():
                    name, *counts = re.fullmatch(r"(\w+) aap=(\d+) ap=(\d+) rows=(\d+)", line).groups()
                    cls.counts[name, n] = tuple(map(int, counts))
        cls.named = dict(named_scratch(cls.run_program(folder, "list", "ops.prog")))

    @staticmethod
    def run_program(folder, *words):
        return subprocess.run([support.program(), *words], cwd=folder, capture_output=True, text=True, check=True).stdout

    def test_the_table_of_operations(self):
        rows = re.findall(r"^\| (`.+?) \| (.*→.+) \|$", page("README.md"), re.MULTILINE)
        found = []
        for names, rest in rows:
            _, _, scratch, *sums, aap, ap, fewest, _ = (cell.strip() for cell in rest.split("|"))
            scratch, _, named = scratch.partition("; named: ")
            for name, own in zip(re.findall(r"`(\w+)`", names), itertools.cycle((named or scratch).split(", "))):
                found.append(name)
                bits, words = self.named[f"o_{name}"]
                for n in WIDTHS:
                    self.assertEqual(value(own, n), bits + n * words, (name, n))
                    self.assertEqual(self.counts[f"o_{name}", n], (value(aap, n), value(ap, n), value(scratch, n)), (name, n))
                self.assertEqual([int(one) for one in sums], [sum(self.counts[f"o_{name}", n][:2]) for n in SHOWN], name)
            for number in re.findall(r"\d+", fewest):
                self.assertLessEqual(int(number), int(sums[1]), names)
        self.assertEqual(sorted(found), sorted(TAKES_GIVES))

    def test_sentences(self):
        for name, sentence, op, commands in CLAIMS:
            self.assertIn(sentence, " ".join(page(name).split()))
            for n in SHOWN:
                self.assertEqual(sum(self.counts[op, n][:2]), commands(n), (name, op, n))

    def test_rows_that_an_op_needs(self):
        sentence = "at n = 32 that is 4 · 32 + 33 + 32 = 193 rows, and with 192 it is refused"
        self.assertIn(sentence, " ".join(page("docs/README.md").split()))
        with tempfile.TemporaryDirectory() as name:
            folder = pathlib.Path(name)
            (folder / "ops").write_text("op mac(a: word, b: word, c: word) -> y: word { t = mul(a, b); y = add(t, c); }\n")
            (folder / "script").write_text("".join(f"bbop_trsp_init {one}, 1, 32\n" for one in "abcy") + "bbop_mac y, a, b, c, 1, 32\n")
            for rows, status in ((193, 0), (192, 8)):
                self.run_program(folder, "init", "1", str(rows), "1", "image")
                ended = subprocess.run([support.program(), "run", "ops", "prog", "script", "image", "out"], cwd=folder,
                                       capture_output=True, text=True, check=False)
                self.assertEqual(ended.returncode, status, ended.stdout)

    def test_readme_has_every_tool(self):
        table = re.search(r"\| command \|[^#]*", page("README.md"))[0]
        named = set(re.findall(r"[`(]([a-z-]+)[ `]", table))
        self.assertEqual([name for name, command in ALL.items() if not command.is_program and name not in named], [])

    def test_each_tool_has_a_row_of_its_own(self):
        rows = [set(re.findall(r"[`(]([a-z-]+)[ `]", row.split("|")[1])) for row in page("README.md").splitlines() if row.startswith("| `")]
        tools = {name for name, command in ALL.items() if not command.is_program}
        self.assertEqual([row & tools for row in rows if len(row & tools) > 1], [])

    def test_readme_is_short(self):
        self.assertLessEqual(len(page("README.md").splitlines()), 120)


class Links(unittest.TestCase):
    """Every link of a page leads to a file, and to a heading where it names one."""

    @staticmethod
    def anchors(text):
        heads = (re.sub(r"[^\w -]", "", line.lstrip("# ").lower()) for line in text.splitlines() if line.startswith("#"))
        return {head.replace(" ", "-") for head in heads}

    def test_links(self):
        pages = [TOP / "README.md", *(TOP / "docs").glob("*.md"), *(TOP / "examples").rglob("README.md")]
        for path in pages:
            for link in re.findall(r"\]\(([^)\s]+)\)", path.read_text(encoding="utf-8")):
                file, _, anchor = link.partition("#")
                target = (path.parent / file).resolve() if file else path
                self.assertTrue(target.exists(), f"{path.name}: {link}")
                if anchor:
                    self.assertIn(anchor, self.anchors(target.read_text(encoding="utf-8")), f"{path.name}: {link}")


class ExamplesPage(unittest.TestCase):
    """The costs that examples/README.md gives stand in what the examples print."""

    def test_costs(self):
        checked = 0
        for names, says in re.findall(r"^\| (`.*?) \| (.*) \|$", page("examples/README.md"), re.MULTILINE):
            folders = re.findall(r"`([\w-]+)`", names)
            printed = "".join(page(f"examples/{folder}/expected") for folder in folders)
            for aap, ap in re.findall(r"(\d+)(?: AAP)? and (\d+)(?: AP)?\b", says):
                self.assertRegex(printed, rf"aap={aap} ap={ap}\b", folders)
                checked += 1
        self.assertGreater(checked, 5)


class Kernels(unittest.TestCase):
    """The table of simplified ops in docs/LANGUAGE.md has what examples/kernels prints."""

    def test_the_table(self):
        printed = dict(re.findall(r"^(\w+) n=4 .*?, (n=8 .*);", page("examples/kernels/expected"), re.MULTILINE))
        rows = re.findall(r"^\| `(\w+)`: [^|]* \| (\d+), (\d+) \| (\d+), (\d+) \| (\d+), (\d+) \|$", page("docs/LANGUAGE.md"), re.MULTILINE)
        self.assertEqual([row[0] for row in rows], list(printed))
        for name, *numbers in rows:
            at = {n: found for n, *found in re.findall(r"n=(\d+) (\d+) -> (\d+) rows (\d+) -> (\d+)", printed[name])}
            self.assertEqual([at["8"][0], at["32"][0], at["8"][1], at["32"][1], *at["8"][2:]], numbers, name)


@needs_program
class Shown(unittest.TestCase):
    """Every shell line that the README shows prints what stands below it."""

    def setUp(self):
        kept = tempfile.TemporaryDirectory()
        self.addCleanup(kept.cleanup)
        self.folder = pathlib.Path(kept.name)
        for name in ("simdram", "python", "examples"):
            (self.folder / name).symlink_to(TOP / name)

    def test_the_readme(self):
        ran = 0
        for line, expected in shown_lines(page("README.md")):
            ended = subprocess.run(["bash", "-c", line], cwd=self.folder, capture_output=True, text=True, check=False,
                                   env={**os.environ, "SIMDRAM_QUIET": "1"}, stdin=subprocess.DEVNULL)
            self.assertEqual((ended.stdout, ended.stderr), (expected, ""), line)
            ran += 1
        self.assertGreater(ran, 6)

    @needs_numpy
    def test_the_page_on_numpy(self):
        text = page("docs/NUMPY.md")
        names = {}
        exec(re.search(r"```python\n(.*?)print", text, re.DOTALL)[1], names)
        exec('mac = simdram.op("op mac(a: word, b: word, c: word) -> y: word { t = mul(a, b); y = add(t, c); }")', names)
        prompts = "\n".join(line[4:] for block in re.findall(r"(?:^    .*\n)+", text, re.MULTILINE) if ">>>" in block
                            for line in [*block.splitlines(), ""])
        example = doctest.DocTestParser().get_doctest(prompts, names, "NUMPY.md", None, 0)
        said = []
        result = doctest.DocTestRunner(verbose=False, optionflags=doctest.NORMALIZE_WHITESPACE).run(example, out=said.append)
        self.assertEqual(result.failed, 0, "".join(said))
        self.assertGreater(result.attempted, 0)


if __name__ == "__main__":
    unittest.main()
