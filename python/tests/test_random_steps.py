"""Random microprograms, straight and with loops and choices: `steps` and a plain run of the commands show the same rows and values."""

import random
import re
import unittest

import support  # noqa: F401 (the folder of simdram)

from simdram.assembler import assemble
from simdram.assembler.forms import Form
from simdram.assembler.lexer import Tokens
from simdram.assembler.rows import read_form
from simdram.files.decode import CELLS, RAISED
from simdram.files.program import (AAP, ADD, ADDI, B_ADDRESS, BNEZ, C_ADDRESS, DONE, INDEXED, MOV, REGISTERS, SETI, SETN, SETT,
                                   SUBI, WORD, Program)
from simdram.steps.iterations import Execution
from simdram.steps.row_names import RowNames
from simdram.steps.steps_tool import View

HEAD = "program f(a: word, s: bit) -> y: word\nscratch t0: bit, w0: word\n"
FIRST = ("T0", "T1", "~DCC0", "DCC1", "{T0, T1, T2}", "{T1, T2, T3}", "{DCC0, T1, T2}", "{DCC1, T0, T3}", "C0", "C1", "t0", "p0", "s[0]")
SECOND = (*FIRST[:8], "T2+T3", "~DCC1+T1", "t0", "p0")
OPERATOR = re.compile(r"(~)|(M|and|or)\(")


class Impossible(Exception):
    """The program names a row past the width, or does not end."""


def some_row(dice, words, plain):
    """A row of a command: a word's at a register or at 0, or another one."""
    if dice.random() < 0.6:
        return f"{dice.choice(words)}[{dice.choice(('r0', 'r1', 'r2', '0', 'r0'))}]"
    return dice.choice(plain)


def straight(dice):
    """A few instructions without a jump."""
    made = []
    for _ in range(dice.randrange(1, 7)):
        r, q, k = f"r{dice.randrange(3)}", f"r{dice.randrange(3)}", dice.randrange(3)
        if dice.random() < 0.35:
            made.append(dice.choice((f"SETI {r} {k}", f"SETT {r}", f"SETN {r}", f"ADDI {r} 1", f"SUBI {r} 1", f"MOV {r} {q}", f"ADD {r} {q}")))
        elif dice.random() < 0.3:
            made.append(f"AP {some_row(dice, 'ayw', FIRST)}".replace("w[", "w0["))
        else:
            made.append(f"AAP {some_row(dice, 'ayw', FIRST)} {some_row(dice, 'yw', SECOND)}".replace("w[", "w0["))
    return made


def some_code(dice, depth, labels):
    """Instructions with loops and choices in one another."""
    made = straight(dice)
    for _ in range(dice.randrange(0, 3) if depth else 0):
        here = f"l{len(labels)}"
        labels.append(here)
        counter = dice.choice((f"r{7 - depth}", f"r{dice.randrange(3)}"))
        way = dice.random()
        if way < 0.2:
            made += last_round(dice, here, counter)
        elif way < 0.7:
            body = some_code(dice, depth - 1, labels)
            start = [dice.choice((f"SETI {counter} {dice.randrange(1, 4)}", f"SETN {counter}"))] if dice.random() < 0.9 else []
            step = [f"SUBI {counter} 1"]
            body = step + body if dice.random() < 0.5 else body + step
            made += [*start, f"{here}:", *body, f"BNEZ {counter} {here}"]
        else:
            always = [f"SETI r{3 + depth} 1"] if dice.random() < 0.3 else []
            made += [*always, f"BNEZ {f'r{3 + depth}' if always else counter} {here}", *some_code(dice, depth - 1, labels), f"{here}:"]
        made += straight(dice)
    return made


def last_round(dice, here, counter):
    """A loop with a body of its own in its last round, as its counter says; now and then the counter is changed after that."""
    after = dice.choice(([], [], [], [f"SETI {counter} 0"], [f"SETI r0 {dice.randrange(2)}"]))
    return [f"SETI {counter} {dice.randrange(1, 4)}", f"{here}:", *straight(dice), f"SUBI {counter} 1", *straight(dice),
            f"BNEZ {counter} {here}on", *straight(dice), "SETI r3 1", f"BNEZ r3 {here}past", f"{here}on:", *straight(dice),
            f"{here}past:", *after, f"BNEZ {counter} {here}"]


def majority(bits):
    return int(sum(bits) > 1)


class Run:
    """A plain run of an entry on a column whose bits are all set: before and after each command, the registers, cells and rows."""

    def __init__(self, entry, n, cells, rows):
        self.entry, self.n, self.cells, self.rows = entry, n, dict(zip(CELLS, cells)), dict(rows)
        self.registers, self.trace = [0] * REGISTERS, []
        at = 0
        for _ in range(2000):
            one = entry.code[at]
            if one.kind == DONE:
                return
            before = (list(self.registers), dict(self.cells), dict(self.rows))
            taken = self.do(one)
            self.trace.append((at, before, (dict(self.cells), dict(self.rows))))
            at = one.number if taken else at + 1
        raise Impossible

    def place(self, row):
        index = self.registers[row.index] if row.space in INDEXED and row.index < REGISTERS else 0
        place = (row.space, row.which, index)
        if place not in self.rows:
            raise Impossible
        return place

    def do(self, one):
        r = self.registers
        if one.rows:
            self.command(one)
        elif one.kind == BNEZ:
            return r[one.register] != 0
        else:
            r[one.register] = {SETI: lambda: one.number, SETN: lambda: self.n, SETT: lambda: self.n - 1, MOV: lambda: r[one.other],
                               ADD: lambda: r[one.register] + r[one.other], ADDI: lambda: r[one.register] + one.number,
                               SUBI: lambda: r[one.register] - one.number}[one.kind]()
            if r[one.register] < 0:
                raise Impossible
        return False

    def command(self, one):
        first = one.rows[0]
        if first.space == C_ADDRESS:
            value = first.which
        elif first.space != B_ADDRESS:
            value = self.rows[self.place(first)]
        else:
            bits = [self.cells[cell] ^ turned for cell, turned in RAISED[first.which]]
            value = bits[0] if len(bits) == 1 else majority(bits)
            self.cells.update((cell, value ^ turned) for cell, turned in RAISED[first.which])
        if one.kind == AAP and one.rows[1].space == B_ADDRESS:
            self.cells.update((cell, value ^ turned) for cell, turned in RAISED[one.rows[1].which])
        elif one.kind == AAP:
            self.rows[self.place(one.rows[1])] = value


class Meaning:
    """What the texts of a part mean in one execution of it."""

    def __init__(self, test, shown, n, before):
        self.test, self.shown, self.n = test, shown, n
        self.registers, self.cells, self.rows = before
        self.leaves, self.named, self.i = {}, dict(shown.said), None
        for cell, text in shown.start.items():
            if text != "?":
                self.same(text.lstrip("~"), self.cells[cell] ^ text.startswith("~"))

    def same(self, leaf, bit):
        """A leaf has one bit."""
        self.test.assertEqual(self.leaves.setdefault(leaf, bit), bit, (self.shown.lines, leaf))

    def place(self, name, real):
        """The place that a row's name means; i is what it is first."""
        base, _, subscript = name.rstrip("]").partition("[")
        space, which, index = real
        names = {(2, 0): "y", (3, 0): "a", (3, 1): "b", (4, 0): "t0", (5, 0): "w0", (6, 0): "p0"}
        self.test.assertEqual(names[space, which], base, self.shown.lines)
        if subscript:
            form = read_form(Tokens(subscript.encode()), ["i", *(f"r{k}" for k in range(REGISTERS))])
            if form.times("i"):
                self.i = index - form.put("i", Form()).number if self.i is None else self.i
                form = form.put("i", Form(self.i))
            for k, held in enumerate(self.registers):
                form = form.put(f"r{k}", Form(held))
            self.test.assertEqual(form.put("n", Form(self.n)), Form(index), (self.shown.lines, name, self.registers))
        return real

    def leaf(self, text, places, now):
        """The bit of a leaf: of a row it is what it held at the start of the part, of `now` what it holds."""
        if text in ("0", "1"):
            return int(text)
        if text in self.named:
            return self.value(self.named[text], places, now)
        if text not in self.leaves:
            word, _, name = text.rpartition(" ")
            self.test.assertIn(name, places, (self.shown.lines, text))
            self.leaves[text] = (now if word.startswith("now") else self.rows)[places[name]]
        return self.leaves[text]

    def value(self, text, places, now):
        """The bit of a value."""
        match = OPERATOR.match(text)
        if not match:
            return self.leaf(text, places, now)
        if match[1]:
            return 1 - self.value(text[1:], places, now)
        depth, start, given = 0, match.end(), []
        for at in range(match.end() - 1, len(text)):
            depth += (text[at] == "(") - (text[at] == ")")
            if (depth == 1 and text[at] == ",") or depth == 0:
                given.append(self.value(text[start:at].strip(), places, now))
                start = at + 1
        self.test.assertEqual((depth, start), (0, len(text)), text)
        return majority([*given, *({"and": [0], "or": [1], "M": []}[match[2]])])


class RandomPrograms(unittest.TestCase):
    def test_rows_and_values(self):
        dice, done, kinds = random.Random(72), 0, [0, 0]
        while done < 400:
            depth = dice.choice((0, 0, 1, 2))
            lines = some_code(dice, depth, [])
            entry = Program.read(assemble((HEAD + "\n".join(lines) + "\n").encode()).file()).entries[0]
            try:
                self.compare(entry, dice.randrange(2, 5), dice)
            except Impossible:
                continue
            done += 1
            kinds[depth > 0] += 1
        self.assertGreater(min(kinds), 50)

    def compare(self, entry, n, dice):
        """The parts of an entry as they are shown, with each execution of them in a plain run."""
        number, bit = dice.randrange(1 << n), dice.randrange(2)
        rows = {(space, 0, k): dice.randrange(2) for space in (2, WORD) for k in range(n)}
        rows.update({(3, 0, k): number >> k & 1 for k in range(n)})
        rows.update({(3, 1, 0): bit, (4, 0, 0): dice.randrange(2), (6, 0, 0): dice.randrange(2)})
        cells = [dice.randrange(2) for _ in CELLS]
        run = Run(entry, n, cells, rows)
        ones = {cell for cell, held in zip(CELLS, cells) if held} | {
            ("", "", f"y[{k}]", "", f"t{w}", f"w{w}[{k}]", f"p{w}")[space] for (space, w, k), held in rows.items() if held and space != 3}
        told = Execution(entry, n, [number, bit], RowNames(None), ones)
        for one in View(entry, None, told).shown:
            self.executions(one, n, run)

    def executions(self, one, n, run):
        """A part in each of its executions."""
        commands = [one.part.first + k for k, each in enumerate(one.part.code) if each.rows]
        starts = [k for k, (at, _, _) in enumerate(run.trace) if at == one.part.first]
        self.assertEqual(len(starts), len(one.bits))
        for start, told in zip(starts, one.bits):
            meaning, places, step = Meaning(self, one, n, run.trace[start][1]), {}, 0
            for at, before, after in run.trace[start:start + len(one.part.code)]:
                if at not in commands:
                    continue
                self.command(one.done[step], run.entry.code[at], meaning, places, before, after, told["bits"][step])
                step += 1

    def command(self, step, one, meaning, places, before, after, told):
        """A command: its rows, and what cells and rows hold after it."""
        names = re.findall(r"[a-z]\w*(?:\[[^]]*\])?", step.text)
        at = Run.__new__(Run)
        at.registers, at.rows = before[0], before[2]
        for name, row in zip(names, [row for row in one.rows if row.is_data]):
            real = meaning.place(name, at.place(row))
            self.assertEqual(places.setdefault(name, real), real, (meaning.shown.lines, name))
        for cell, text in step.cells.items():
            self.assertEqual(told[cell], str(after[0][cell]), (meaning.shown.lines, step))
            if text != "?":
                self.assertEqual(meaning.value(text, places, after[1]), after[0][cell], (meaning.shown.lines, step, cell))
        for name, text in step.rows.items():
            self.assertEqual(told[name], str(after[1][places[name]]), (meaning.shown.lines, step, name))
            self.assertEqual(meaning.value(text, places, after[1]), after[1][places[name]], (meaning.shown.lines, step, name))


if __name__ == "__main__":
    unittest.main()
