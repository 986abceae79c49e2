"""What `.ci/closure` follows: definitions through imports and renamings, types and traits, and what it does not reach."""

import importlib.machinery
import importlib.util
import pathlib
import sys
import tempfile
import textwrap
import unittest

from support import TOP

LOADER = importlib.machinery.SourceFileLoader("closure", str(TOP / ".ci" / "closure"))
SPEC = importlib.util.spec_from_loader("closure", LOADER)
closure = importlib.util.module_from_spec(SPEC)
sys.modules["closure"] = closure
LOADER.exec_module(closure)

FILES = {
    "low/specs/Lib.antt": "pub mod Numbers\n",
    "low/specs/Numbers.antt": """
        -- Numbers, and trees of them.
        use Rattle.std.specs.Prelude.{ℕ, ◌+◌}
        use Rattle.low.specs.declared.kinds.TheConstants.{MOST}

        infixl 10 ◌<>◌
        abbrev pub ◌<>◌ : ℕ → ℕ → ℕ
        a <> b = a + b

        -- not this: unused
        abbrev pub most : ℕ
        most = MOST <> 1

        abbrev pub unused : ℕ
        unused = most

        mutual
          -- a tree
          pub data Tree : Type 0 where
            Leaf : ℕ → Tree
            Branch : Trees → Tree

          pub data Trees : Type 0 where
            Last : Tree → Trees

        helper : ℕ → ℕ
        helper zero = 0
        helper (suc n) = n
        """,
    "low/src/lib.rt": "mod kinds;\npub use kinds::{Kind, MOST};\n",
    "low/src/kinds.rt": """
        ghost use Rattle.low.specs.Numbers.{helper};

        /// Most.
        pub const MOST: u32 = 7;

        pub struct Kind {
            value: u32,
        }

        impl Model for Kind {
            ghost Value = { ℕ };

            ghost view = { λ k. helper k.value };
        }
        """,
    "high/specs/Says.antt": """
        use Rattle.low.specs.Numbers.{most as greatest}
        use Rattle.low.specs.Numbers.Tree.{Leaf}
        use Rattle.low.specs.declared.kinds.Kind.{Kind}

        pub record Says (n : ℕ) : Type 0 where
          pub is : n ≡ greatest

        pub record Tells (n : ℕ) : Type 0 where
          pub tree : Leaf n ≡ Leaf n

        abbrev pub Inner : Kind → Type 0
        Inner kind = Unit {0}

        abbrev pub Lost : Type 0
        Lost = Unit {0}
        """,
    "high/src/lib.rt": """
        ghost use Rattle.high.specs.Says.{Inner, Says, Tells as Told};

        /// Answers.
        pub fn answer<F: Fn(u32) -> u32>(n: u32) -> u32
            requires { n < 9 }
            ensures says { Says result }
        {
            let text = "ensures { Lost }";
            inner(n)
        }

        fn inner(n: u32) -> u32
            ensures { Inner n }
        {
            n
        }

        /// Tells.
        pub fn tell(n: u32)
            ensures { Told n }
        {}
        """,
}


class Closure(unittest.TestCase):
    def setUp(self):
        folder = tempfile.TemporaryDirectory()
        self.addCleanup(folder.cleanup)
        for name, text in FILES.items():
            path = pathlib.Path(folder.name, name)
            path.parent.mkdir(parents=True, exist_ok=True)
            path.write_text(textwrap.dedent(text), encoding="utf-8")
        self.crates = closure.Crates(pathlib.Path(folder.name))

    def test_through_imports_and_a_renaming(self):
        """The clause names `Says`, it `most` by another name, and that a constant and an operator."""
        self.assertEqual(closure.of_call(self.crates, "high::answer"), {
            "high/specs/Says": {"Says"}, "low/specs/Numbers": {"most", "◌<>◌"}, "low/src/kinds.rt": {"MOST"},
            "std/specs/Prelude": {"ℕ", "+"}})

    def test_a_constructor_reaches_its_whole_block(self):
        names = closure.of_call(self.crates, "high::tell")
        self.assertEqual(names["low/specs/Numbers"], {"Tree", "Trees"})
        self.assertEqual(names["high/specs/Says"], {"Tells"})

    def test_a_type_reaches_what_its_model_says(self):
        names = closure.of_call(self.crates, "high::inner")
        self.assertEqual(names["low/src/kinds.rt"], {"Kind"})
        self.assertEqual(names["low/specs/Numbers"], {"helper"})

    def test_what_no_public_clause_reaches(self):
        self.assertEqual(closure.unreached(self.crates, "high"), [
            "by inner clauses alone:", "high/specs/Says: Inner", "by no clause:", "high/specs/Says: Lost"])
        self.assertEqual(closure.unreached(self.crates, "low"), [
            "by inner clauses alone:", "by no clause:", "low/specs/Numbers: unused"])

    def test_a_page_lists_just_the_files(self):
        names = {"high/specs/Says": {"Says"}, "std/specs/Prelude": {"ℕ"}}
        self.assertEqual(closure.faults_of("| `high/specs/Says` | what it says |\n", names), [])
        self.assertEqual(closure.faults_of("`high/specs/Says`\n| `low/src/kinds.rt` | kinds |\n", names), [
            "not listed: high/specs/Says: Says", "listed, and not reached: low/src/kinds.rt"])

    def test_what_is_not_read_is_told(self):
        for text in ("strange words here\n", "abbrev pub a : ℕ\na = 0\nb c = 1\n"):
            with self.assertRaises(closure.Unread):
                closure.definitions_of(("high", "specs", "Says"), text)
        with self.assertRaises(closure.Unread):
            closure.of_call(self.crates, "high::nothing")


if __name__ == "__main__":
    unittest.main()
