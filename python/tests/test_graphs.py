"""The words graph and from-blif: graphs of serial blocks, and blocks from netlists."""

import itertools
import pathlib
import random
import re
import shutil
import subprocess
import tempfile
import unittest

from support import needs_program
from test_words import called

from simdram.graphs.blif_file import Reader
from simdram.graphs.block_graph import written
from simdram.graphs.from_blif import text_of
from simdram.graphs.least_gates import expressions, spelled
from simdram.graphs.mig import Graph
from simdram.graphs.netlist import in_order
from simdram.graphs.splitting import split
from simdram.graphs.mig import Ands, as_aiger, as_blif, as_dot
from simdram.launcher.faults import Fault
from simdram.rules.ops_rules import read_ops, shapes_of

ABC = shutil.which("berkeley-abc") or shutil.which("abc")
OPS = """op sum(a: word, b: word) -> y: word { serial up (c = 0) { let x = xor(a, b); y = xor(x, c); c = maj(a, b, c); } }
op less(a: word, b: word) -> l: bit { serial up (l = 0) { l = maj(not(a), b, l); } }
op half(a: word, s: bit) -> y: word, r: bit { serial down (p = 0, r = 1) { y = maj(p, a, r); p = and(a, s); r = a; } }
op two(a: word, b: word) -> y: word { t = add(a, b); serial up () { y = and(t, not(a)); } }
op ungray(a: word) -> y: word { serial down (p = 0) { let x = xor(a, p); y = x; p = x; } }
op both(a: word, b: word) -> y: word { serial up (c = 0, d = 1) { d = and(c, a); c = xor(b, d); } serial up () { y = xor(a, and(c, d)); } }
op plain(a: word) -> y: word { y = not(a); }
"""
BLOCKS = ("sum", "less", "half", "two", "ungray", "both")


def patterns(names):
    """A pattern of every name, so that all cases are bits of it, and the mask of the cases."""
    cases = 1 << len(names)
    return {name: sum(1 << k for k in range(cases) if k >> at & 1) for at, name in enumerate(names)}, (1 << cases) - 1


def netlist_values(net, inputs, mask):
    """The outputs of a netlist."""
    held = dict(inputs)
    for name in in_order(net, "net"):
        table = net.tables[name]
        held[name] = 0
        for k, row in enumerate(itertools.product((0, 1), repeat=len(table.inputs))):
            bits = row[::-1]
            if table.values >> k & 1:
                case = mask
                for one, bit in zip(table.inputs, bits):
                    case &= held[one] if bit else mask ^ held[one]
                held[name] |= case
    return {name: held[name] for name in net.outputs}


def ands_values(data, inputs, mask):
    """The outputs of a text file of AIGER, by name."""
    lines = data.decode().splitlines()
    _, _, count, _, outputs, gates = (int(one) if one.isdigit() else one for one in lines[0].split())
    symbols = dict(line.split(" ", 1) for line in lines[1 + count + outputs + gates:])
    held = {0: 0, **{1 + k: inputs[symbols[f"i{k}"]] for k in range(count)}}

    def of(literal):
        return held[literal >> 1] ^ (mask if literal & 1 else 0)

    for line in lines[1 + count + outputs:1 + count + outputs + gates]:
        own, x, y = map(int, line.split())
        held[own >> 1] = of(x) & of(y)
    return {symbols[f"o{k}"]: of(int(lines[1 + count + k])) for k in range(outputs)}


def in_positions(net, words):
    """The words of a netlist, position by position, where states begin with 0."""
    held, found = dict.fromkeys(net.states, 0), {one: [] for one in net.words}
    for values in zip(*(words[one] for one in net.sources)):
        held.update(zip(net.sources, values))
        for name in in_order(net, "net"):
            table = net.tables[name]
            held[name] = table.values >> sum(held[one] << k for k, one in enumerate(table.inputs)) & 1
        for one in found:
            found[one].append(held[one])
        held = {one: held[one + "_next"] for one in net.states}
    return found


def drawn_netlist(dice):
    """A netlist of up to eight inputs, two states and four outputs."""
    sources, states = ([f"{letter}{k}" for k in range(dice.randrange(*count))] for letter, count in (("a", (2, 9)), ("s", (0, 3))))
    signals, lines = sources + states, []
    for k in range(dice.randrange(4, 16)):
        inputs = dice.sample(signals[-12:], min(dice.randrange(1, 4), len(signals[-12:])))
        rows = {"".join(dice.choice("01-") for _ in inputs) for _ in range(dice.randrange(1, 4))}
        end = dice.choice("01")
        lines += [f".names {' '.join(inputs)} n{k}", *(f"{row} {end}" for row in sorted(rows))]
        signals.append(f"n{k}")
    outputs = dice.sample([f"n{k}" for k in range(4)], dice.randrange(1, 5))
    lines += [f".names {dice.choice(signals)} {one}_next\n1 1" for one in states]
    return "\n".join([".model m", f".inputs {' '.join(sources + states)}", f".outputs {' '.join(outputs + [f'{one}_next' for one in states])}",
                      *lines, ".end", ""])


class Folder(unittest.TestCase):
    def setUp(self):
        kept = tempfile.TemporaryDirectory()
        self.addCleanup(kept.cleanup)
        self.folder = pathlib.Path(kept.name)
        (self.folder / "f.ops").write_text(OPS)

    def call(self, *words):
        return called(*words, cwd=self.folder)

    def graph(self, *words):
        ended = self.call("graph", "f.ops", *words)
        self.assertEqual(ended.returncode, 0, ended.stderr)
        return ended.stdout

    def net(self, text):
        return Reader("net", text).read()


class Formats(Folder):
    """What is written of a graph says what the graph says."""

    def test_each_format(self):
        for shape in shapes_of("f.ops", OPS.encode())[:-1]:
            block = next(one for one in shape.statements if one.direction)
            for positions in (1, 2):
                graph = written(block, shape, positions)
                inputs, mask = patterns(graph.inputs)
                expected = graph.values(inputs, mask)
                self.assertEqual(netlist_values(self.net(as_blif(graph, shape.name, [])), inputs, mask), expected)
                self.assertEqual(ands_values(as_aiger(graph, True), inputs, mask), expected)
                self.assertTrue(as_aiger(graph, False).startswith(b"aig "))
                self.assertIn(f"digraph {shape.name} {{", as_dot(graph, shape.name))

    def test_an_input_that_is_not_read(self):
        text = "op f(a: word, b: word, s: bit) -> y: word { serial up (c = 0) { y = xor(b, c); c = b; } }\n"
        (self.folder / "g.ops").write_text(text)
        for words in ([], ["--compiled"]):
            made = {name: self.call("graph", "g.ops", "--format", name, *words).stdout for name in ("dot", "blif", "aiger")}
            self.assertIn(".inputs a b s c\n", made["blif"])
            self.assertIn("i0 a\ni1 b\ni2 s\ni3 c\n", made["aiger"])
            self.assertIn('"in s" [shape=triangle, label="s"];', made["dot"])

    def test_a_full_adder(self):
        shape = shapes_of("f.ops", OPS.encode())[0]
        graph = written(shape.statements[0], shape)
        inputs, mask = patterns(graph.inputs)
        found = graph.values(inputs, mask)
        self.assertEqual(found["y"], inputs["a"] ^ inputs["b"] ^ inputs["c"])
        self.assertEqual(set(found), {"y", "c_next"})
        two = written(shape.statements[0], shape, 2)
        self.assertEqual((two.inputs, list(two.outputs)), (["a_0", "b_0", "c", "a_1", "b_1"], ["y_0", "y_1", "c_next"]))

    def test_constants_and_inputs_as_outputs(self):
        graph = Graph()
        x = graph.input("x")
        graph.outputs = {"zero": 0, "one": 1, "same": x, "other": x ^ 1, "n1": graph.maj(x, graph.input("y"), 1)}
        inputs, mask = patterns(graph.inputs)
        self.assertEqual(netlist_values(self.net(as_blif(graph, "m", [])), inputs, mask), graph.values(inputs, mask))
        self.assertEqual(ands_values(as_aiger(graph, True), inputs, mask), graph.values(inputs, mask))
        self.assertIn("zero -> \"one\" [style=dashed];", as_dot(graph, "m"))

    def test_and_gates_are_small(self):
        ands = Ands(2)
        self.assertEqual([ands.both(2, 1), ands.both(2, 0), ands.both(2, 2), ands.both(2, 3)], [2, 0, 2, 0])
        self.assertEqual((ands.both(2, 4), ands.both(4, 2), len(ands.gates)), (6, 6, 1))


@needs_program
class Words(Folder):
    """The words, beside one another and beside abc."""

    def test_the_compiled_loop_is_the_block(self):
        for name in BLOCKS:
            both = [self.net(self.graph("--op", name, "--format", "blif", *more)) for more in ((), ("--compiled",))]
            inputs, mask = patterns(both[0].inputs)
            self.assertEqual(both[1].inputs, both[0].inputs)
            expected = netlist_values(both[0], inputs, mask)
            found = netlist_values(both[1], inputs, mask)
            self.assertEqual(found, {output: expected[output] for output in found})
            self.assertTrue(found)

    def test_there_and_back(self):
        for name, more in itertools.product(BLOCKS[:5], ((), ("--compiled",))):
            (self.folder / "f.blif").write_text(self.graph("--op", name, "--format", "blif", *more))
            bits = ("--bit", "s") if name == "half" else ()
            down = ("--down",) if name in ("half", "ungray") else ()
            ended = self.call("from-blif", "f.blif", "--name", "back", *bits, *down)
            self.assertEqual(ended.returncode, 0, ended.stderr)
            (self.folder / "back.ops").write_text(ended.stdout)
            self.assertEqual(self.call("show", "back.ops").returncode, 0)
            shape, = shapes_of("back.ops", ended.stdout.encode())
            net, graph = self.net((self.folder / "f.blif").read_text()), written(shape.statements[0], shape)
            inputs, mask = patterns(net.inputs)
            expected = netlist_values(net, inputs, mask)
            self.assertEqual(graph.values(inputs, mask), expected)
            self.assertEqual(shape.statements[0].direction, "down" if down else "up")

    @unittest.skipUnless(ABC, "abc is not installed")
    def test_abc_says_that_they_are_equivalent(self):
        for name in ("sum", "less", "two"):
            for out, form, more in (("w.blif", "blif", ()), ("c.blif", "blif", ("--compiled",)), ("c.aig", "aiger", ("--compiled",))):
                self.graph(out, "--op", name, "--format", form, *more)
            for other in ("c.blif", "c.aig"):
                ended = subprocess.run([ABC, "-q", f"cec w.blif {other}"], cwd=self.folder, capture_output=True, text=True, check=False)
                self.assertIn("Networks are equivalent", ended.stdout)
            # abc's own netlist comes back as a block
            subprocess.run([ABC, "-q", "read_blif w.blif; strash; if -K 3; write_blif m.blif"], cwd=self.folder, check=True, capture_output=True)
            ended = self.call("from-blif", "m.blif", "--name", "back")
            self.assertEqual(ended.returncode, 0, ended.stderr)
            shape, = shapes_of("back", ended.stdout.encode())
            net = self.net((self.folder / "w.blif").read_text())
            inputs, mask = patterns(net.inputs)
            self.assertEqual(written(shape.statements[0], shape).values(inputs, mask), netlist_values(net, inputs, mask))

    def test_faults_of_graph(self):
        for words, said in ((["--op", "plain"], "op plain has 0 serial blocks"), (["--block", "2"], "op sum has 1 serial block, and --block is 2"),
                            (["--op", "none"], "has no op none"), (["--positions", "17"], "--positions is 1 to 16"),
                            (["--compiled", "--positions", "2"], "goes with the graph as it is written")):
            ended = self.call("graph", "f.ops", *words)
            self.assertEqual((ended.returncode, len(ended.stderr.splitlines())), (2, 1), ended.stderr)
            self.assertIn(said, ended.stderr)
        ended = self.call("graph", "f.ops", "f.ops", "--format", "blif")
        self.assertIn("f.ops: a graph is written there, but it holds text", ended.stderr)
        self.assertEqual((self.folder / "f.ops").read_text(), OPS)


class Netlists(Folder):
    """Netlists that are read, and those that are refused with their line."""

    def block(self, text, *words):
        (self.folder / "n.blif").write_text(text)
        return self.call("from-blif", "n.blif", *words)

    def test_names_states_and_off_sets(self):
        ended = self.block(".model m # a comment\n.inputs x[0] \\\n or st\n.outputs st_next q\n"
                           ".names x[0] or q\n0- 0\n-1 0\n.names x[0] st st_next\n01 1\n10 1\n.end\n", "--state", "st=1", "--name", "own")
        self.assertEqual(ended.stdout, "# x[0] is x_0\n# or is nor\n"
                                       "op own(x_0: word, nor: word) -> q: word, st: bit {\n  serial up (st = 1) {\n"
                                       "    q = and(x_0, not(nor));\n    st = xor(x_0, st);\n  }\n}\n")

    def test_what_is_refused(self):
        inputs, end = ".model m\n.inputs a b c d e\n.outputs y\n", ".end\n"
        for text, said in (
            (inputs + ".names a b c d a b c d a b c y\n" + "1" * 11 + " 1\n", "n.blif line 4: the table of y has 11 inputs, and 10 at most are read"),
            (inputs + ".latch a y\n", "line 4: a latch"), (inputs + ".gate nand2 a=a\n", "line 4: there is no gate nand2: --genlib"),
            (inputs + ".gate $_AND_ A=a Y=y\n", "line 4: the gate $_AND_ has the pins A, B, Y"), (inputs + ".subckt x\n", "line 4: .subckt is not read"),
            (inputs + ".names a y\n1 1\n0 0\n", "line 5: the rows of a table all end with 1, or all with 0"),
            (inputs + ".names a y\n11 1\n", "line 5: a row of this table has 1 of 0, 1 and -"),
            (inputs + ".names f y\n1 1\n", "line 4: y reads f, which is no input and has no table"),
            (inputs + ".names a y\n1 1\n.names b y\n1 1\n", "line 6: y has a table already"),
            (inputs, "the output y has no table"), (".model m\n.inputs a\n", "the netlist has no outputs"),
            (".inputs a\n.outputs y\n.names g y\n1 1\n.names y g\n1 1\n", "reads itself through other tables"),
            (".inputs c d e f g h\n.outputs c_next\n.names d e c n\n11- 1\n-11 1\n.names n f g m\n110 1\n.names m h c_next\n11 1\n",
             "the state c cannot be split: with 5 words at a position, where an op takes 4"),
            (".inputs n0\n.outputs n3000\n" + "".join(f".names n{k} n{k + 1}\n0 1\n" for k in range(3000)), "too_many: gates nest at most 32 deep"),
        ):
            ended = self.block(text + end)
            self.assertEqual((ended.returncode, len(ended.stderr.splitlines()), ended.stdout), (2, 1, ""), (text, ended.stderr))
            self.assertIn(said, ended.stderr)
        self.assertIn("has no state q", self.block(".inputs a\n.outputs y\n.names a y\n1 1\n", "--state", "q=1").stderr)
        self.assertIn("--state takes NAME=0 or NAME=1", self.block(".inputs a\n.outputs y\n.names a y\n1 1\n", "--state", "q=2").stderr)

    def test_gates_of_a_library(self):
        (self.folder / "g.genlib").write_text("# a library\nGATE inv 1 O=!a; PIN * INV 1 999 1 0 1 0\nGATE aoi 2 O=!(a*b+c d');\nGATE \"one\" 0 O=CONST1;\n")
        text = (".model m\n.inputs x y s q\n.outputs r\n.gate aoi a=x b=y c=s d=q O=n1\n.gate $_MUX_ A=n1 B=n2 S=s Y=r\n.gate inv a=y O=n2\n.end\n")
        ended = self.block(text, "--genlib", "g.genlib")
        self.assertEqual((ended.returncode, ended.stderr), (0, ""))
        shape, = shapes_of("own", ended.stdout.encode())
        graph = written(shape.statements[0], shape)
        inputs, mask = patterns(["x", "y", "s", "q"])
        x, y, s, q = inputs.values()
        self.assertEqual(graph.values(inputs, mask)["r"], s & ~y & mask | ~s & ~(x & y | s & ~q) & mask)
        for text, said in (("GATE n 1 O=a*;\n", "the gate n has no formula"), ("GATE n 1 O=(a;\n", "no formula"), ("\n", "has no line `GATE")):
            (self.folder / "g.genlib").write_text(text)
            ended = self.block(".inputs a\n.outputs y\n.names a y\n1 1\n", "--genlib", "g.genlib")
            self.assertEqual((ended.returncode, len(ended.stderr.splitlines())), (2, 1))
            self.assertIn(said, ended.stderr)

    def test_aiger(self):
        """What `graph` writes as AIGER, binary or text, comes back as a block that does the same."""
        for name in BLOCKS:
            for out in ("f.aag", "f.aig"):
                self.graph(out, "--op", name, "--format", "aiger")
                self.graph("f.blif", "--op", name, "--format", "blif")
                ended = self.call("from-blif", out, "--name", "back")
                self.assertEqual((ended.returncode, ended.stderr), (0, ""))
                shape, = shapes_of("back", ended.stdout.encode())
                net = self.net((self.folder / "f.blif").read_text())
                inputs, mask = patterns(net.inputs)
                self.assertEqual(written(shape.statements[0], shape).values(inputs, mask), netlist_values(net, inputs, mask))

    def test_latches_of_aiger(self):
        text = b"aag 4 1 2 1 1\n2\n4 8 1\n6 3\n7\n8 5 6\ni0 in\nl0 p\no0 out\nc\ni0 not a symbol\n"
        (self.folder / "l.aag").write_bytes(text)
        ended = self.call("from-blif", "l.aag")
        self.assertEqual(ended.stdout, "# in is in\n".replace("# in is in\n", "") + "op l(in: word) -> out: word, p: bit {\n  serial up (p = 1, l1 = 0) {\n"
                         "    out = not(l1);\n    p = and(not(p), l1);\n    l1 = not(in);\n  }\n}\n")
        for wrong, said in ((text[:16], "line 3: the file ends here"), (text.replace(b"8 5 6", b"9 5 6"), "a gate's own is even"),
                            (text.replace(b"aag 4 1 2 1 1", b"aag 4 1 2"), "line 1: a header is"), (text.replace(b"1 1\n2", b"1 1 1\n2"), "not read here"),
                            (b"aig 2 1 0 1 1\n4\n", "the gates end here"), (text.replace(b"\n7\n", b"\n99\n"), "the literal 99 is no input")):
            (self.folder / "l.aag").write_bytes(wrong)
            ended = self.call("from-blif", "l.aag")
            self.assertEqual((ended.returncode, len(ended.stderr.splitlines()), ended.stdout), (2, 1, ""), ended.stderr)
            self.assertIn(said, ended.stderr)

    def test_several_ops(self):
        inputs = " ".join("abcdef")
        text = (f".model m\n.inputs {inputs} s\n.outputs x y z s_next\n.names a b c n\n11- 1\n--1 1\n.names d e f k\n1-1 1\n-10 1\n"
                ".names n k s x\n111 1\n000 1\n.names n s y\n10 1\n.names k a z\n1- 1\n-1 1\n.names x s s_next\n10 1\n01 1\n.end\n")
        ended = self.block(text, "--state", "s=1")
        self.assertEqual(ended.returncode, 0, ended.stderr)
        self.assertRegex(ended.stderr, r"^n.blif: 6 inputs and 3 outputs, where an op has 4 and 2 at most: \d ops, which comments call in order\n$")
        shapes = shapes_of("own", ended.stdout.encode())
        calls = re.findall(r"^# bbop_(\w+) (.*), COUNT, N$", ended.stdout, re.MULTILINE)
        self.assertEqual([name for name, _ in calls], [shape.name for shape in shapes])
        there = set("abcdef")
        for (_, words), shape in zip(calls, shapes):
            names = words.split(", ")
            self.assertLessEqual(set(names[len(shape.results):]), there)
            there |= set(names[:len(shape.results)])
        self.assertLessEqual({"x", "y", "z"}, there)

    def test_drawn_netlists_of_several_ops(self):
        """Ops that follow each other give what the netlist gives, position by position."""
        dice, several = random.Random(5), 0
        for _ in range(120):
            net = self.net(drawn_netlist(dice))
            try:
                nets = split(net, "net")
            except Fault as fault:
                self.assertIn("cannot be split", str(fault))
                continue
            several += len(nets) > 1
            words = {one: [dice.randrange(2) for _ in range(5)] for one in net.sources}
            wanted = in_positions(net, words)
            for one in nets:
                self.assertTrue(len(one.sources) <= 4 and len(one.words) <= 2)
                self.assertEqual(len(read_ops(text_of(one, "net", "up", {}, gives_states=len(nets) == 1).encode())), 1)
                words.update(in_positions(one, words))
            self.assertEqual({name: words[name] for name in wanted}, wanted)
        self.assertGreater(several, 60)

    def test_a_block_that_is_too_large(self):
        text, last = ".model m\n.inputs a b c\n.outputs y\n", "a"
        for k in range(26):
            text += f".names {last} {'bc'[k % 2]} n{k}\n{'11' if k % 3 else '1-'} 1\n" + ("" if k % 3 else "-1 1\n")
            last = f"n{k}"
        ended = self.block(text + f".names {last} y\n1 1\n.end\n")
        self.assertEqual(ended.returncode, 2)
        self.assertIn("the op would break a rule, too_many: the gates of a block weigh at most 24", ended.stderr)

    def test_drawn_netlists(self):
        dice = random.Random(9)
        for _ in range(40):
            signals, lines = ["a", "b", "c"], []
            for k in range(dice.randrange(1, 6)):
                inputs = dice.sample(signals, dice.randrange(1, 4))
                rows = {"".join(dice.choice("01-") for _ in inputs) for _ in range(dice.randrange(1, 4))}
                end = dice.choice("01")
                lines += [f".names {' '.join(inputs)} n{k}", *(f"{row} {end}" for row in sorted(rows))]
                signals.append(f"n{k}")
            text = "\n".join([".model own", ".inputs a b c", f".outputs {signals[-1]}", *lines, ".end", ""])
            net = self.net(text)
            shape, = shapes_of("own", text_of(net, "net", "up", {}).encode())
            inputs, mask = patterns(net.inputs)
            self.assertEqual(written(shape.statements[0], shape).values(inputs, mask), netlist_values(net, inputs, mask), text)


class Expressions(unittest.TestCase):
    """The expressions of all functions of three inputs."""

    def test_each_function(self):
        known = expressions()
        for values in range(256):
            self.assertTrue(values in known or 255 ^ values in known)
            ops = f"op f(x: word, y: word, z: word) -> o: word {{ serial up () {{ o = {spelled(values)}; }} }}"
            shape, = shapes_of("f", ops.encode())
            graph = written(shape.statements[0], shape)
            inputs = {"x": 0b10101010, "y": 0b11001100, "z": 0b11110000}
            self.assertEqual(graph.values(inputs, 255)["o"], values, ops)
        self.assertEqual(str(spelled(0b10010110)).count("maj"), 3)
        self.assertEqual(str(spelled(0b01100110)), "xor(x, y)")


if __name__ == "__main__":
    unittest.main()
