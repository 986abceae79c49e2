"""The shape of a microprogram: loops with their turns, ways of choices, what registers and cells hold at its parts."""

import unittest

import support  # noqa: F401 (the folder of simdram)

from simdram.assembler import assemble
from simdram.assembler.loops_and_ways import outline
from simdram.steps.cells_before import before
from simdram.steps.code_parts import parts
from simdram.steps.registers import Held
from simdram.steps.row_names import RowNames

CHOICES = """program f(a: word) -> y: word
  SETT r0
  SETI r1 1
  BNEZ r0 some
  AAP a[0] y[0]
  SETI r7 1
  BNEZ r7 out
some:
  AAP a[0] T1
loop:
  SUBI r0 1
  AAP C1 T2+T3
  AAP a[r1] T0
  BNEZ r0 on
  AAP C0 T0
on:
  AAP {T0, T1, T2} y[r1]
  ADDI r1 1
  BNEZ r0 loop
out:
  DONE
"""
TURNS = """program f(a: word) -> y: word
  SETN r0
  BNEZ r0 first
over:
  SETI r7 1
  BNEZ r7 out
first:
  SUBI r0 1
  AAP C0 y[r0]
  BNEZ r0 second
  SETI r7 1
  BNEZ r7 over
second:
  SUBI r0 1
  AAP C1 y[r0]
  MOV r2 r0
  BNEZ r2 inside
  SETI r7 1
  BNEZ r7 end
inside:
  SUBI r2 1
  AAP a[r2] T0
  BNEZ r2 inside
end:
  BNEZ r0 first
out:
  DONE
"""
REGISTERS = """program f(a: word) -> y: word
  SETT r0
  BNEZ r0 more
  SETI r1 3
  SETI r7 1
  BNEZ r7 on
more:
  SETN r1
  SUBI r1 2
on:
  AAP a[r1] T0
  MOV r2 r1
  ADDI r2 1
  AAP T0 y[r2]
  DONE
"""


def code_of(text):
    """The instructions of a text."""
    return assemble(text.encode()).entries[0].code


def said(text):
    """What is said of each part, by its first instruction."""
    return {one.first: one.said for one in parts(code_of(text))}


class Parts(unittest.TestCase):
    def test_choices(self):
        loop = "if r0 > 0 at 2, in the loop at 7"
        self.assertEqual(said(CHOICES), {3: "if r0 = 0 at 2", 6: "if r0 > 0 at 2", 7: f"{loop}, upwards", 11: f"{loop}, if r0 = 0 at 10",
                                         12: f"{loop}, upwards"})

    def test_turns_and_loops_inside(self):
        self.assertEqual(said(TURNS), {4: "in the loop at 4, turn 1 of 2, downwards", 9: "in the loop at 4, turn 2 of 2, downwards",
                                       15: "in the loop at 4, turn 2 of 2, in the loop at 15, downwards"})
        self.assertEqual([(one.first, one.last, one.turns, one.ends) for one in outline(code_of(TURNS)).loops],
                         [(4, 18, (4, 9), ()), (15, 17, (15,), ())])

    def test_a_loop_of_one_turn_that_asks_first(self):
        text = "program f(a: word) -> y: word\nSETN r0\ntop: BNEZ r0 on\nJMP out\non: SUBI r0 1\nAAP a[r0] y[r0]\nJMP top\nout: DONE\n"
        self.assertEqual(list(said(text).values()), ["in the loop at 1, downwards"])


    def test_two_jumps_back_are_one_loop(self):
        text = ("program f(a: word) -> y: word\nSETN r0\ntop: SUBI r0 1\nAAP a[r0] y[r0]\nBNEZ r0 top\nAAP C0 T0\nBNEZ r1 top\nDONE\n")
        self.assertEqual(list(said(text).values()), ["in the loop at 1, downwards", "in the loop at 1"])

    def test_a_jump_that_is_not_always_taken(self):
        text = ("program f(a: word) -> y: word\nSETT r0\nBNEZ r0 on\nSETI r0 1\non: BNEZ r1 over\nAAP a[0] y[0]\n"
                "over: AAP a[0] y[0]\nDONE\n")
        self.assertEqual(list(said(text).values()), ["if r1 = 0 at 3", "once"])


class At(unittest.TestCase):
    def test_registers(self):
        code = code_of(CHOICES)
        loop = next(one for one in parts(code) if one.first == 7)
        self.assertEqual(Held(code).legend(loop),
                         [("i", "r1, set to 1 at instruction 1, raised by 1 at 13 in each iteration of the loop 7 to 14")])
        code = code_of(TURNS)
        self.assertEqual([Held(code).legend(one) for one in parts(code)][1:],
                         [[("i", "r0, set to n at instruction 0, lowered by 1 at 4 and 9 in each iteration of the loop 4 to 18")],
                          [("i", "r2, set to r0 at instruction 11, lowered by 1 at 15 in each iteration of the loop 15 to 17")]])

    def test_registers_of_two_ways(self):
        code = code_of(REGISTERS)
        self.assertEqual(Held(code).legend(parts(code)[0]),
                         [("i", "r1, set to 3 at instruction 2 or set to n at instruction 5 and lowered by 2 at 6 if r0 > 0 at 1")])

    def test_cells(self):
        code = code_of(CHOICES)
        found = parts(code)
        held = {part.first: {cell: value.text for cell, value in cells.items()}
                for part, cells in zip(found, before(code, found, RowNames(None)))}
        # T1 comes from the part before the loop or from the round before, and T2 is 1 whichever way was taken
        self.assertEqual(held[12], {"T0": "old T0", "T1": "old T1", "T2": "1"})
        self.assertEqual({first: cells for first, cells in held.items() if first != 12}, {3: {}, 6: {}, 7: {}, 11: {}})


if __name__ == "__main__":
    unittest.main()
