"""Tests of what is read of the sources: python3 -m unittest discover -s tools/reading -t tools"""

from __future__ import annotations

import tempfile
import unittest
from pathlib import Path

from reading.clauses import clauses_of, conclusion, owner_of
from reading.definitions import House, Source, imports_of
from reading.grounds import Statement, Unknown, field_of

LOW = """-- what stands below
use Rattle.std.specs.Prelude.{ℕ, List, length}
use Rattle.low.specs.declared.deed.Deed.{Deed}
use Rattle.low.specs.declared.deed.Change.TheVariants as changes

-- a comment that names pair isn't counted
pub record Pair (left : ℕ) : Type 0 where
  pub deed : Deed

  pub other : ℕ -- Unused

abbrev pub ◌⌢◌ : List ℕ → List ℕ → List ℕ
xs ⌢ ys = xs

pub data Tree : Type 0 where
  leaf : Tree
  node : Pair 1 → Tree

abbrev pub unused : ℕ → ℕ
unused n = n
"""

HIGH = """use Rattle.low.specs.Low.{Pair as Two, ◌⌢◌}
use Rattle.low.specs.Low.Tree.{leaf, node}
use Rattle.low.specs.Low as low

abbrev pub IsTwo : ℕ → Type 0
IsTwo n = Two n

abbrev pub joins : List ℕ → List ℕ
joins xs = xs ⌢ xs

abbrev pub IsLeaf : Type 0
IsLeaf = leaf ≡ leaf

abbrev pub whole : ℕ → ℕ
whole n = low.unused n
"""

CODE = """ghost use Rattle.high.specs.High.{IsTwo, IsLeaf};

impl<W: World<Item = u8>> Store<W> {
    /// A call.
    pub fn commit(&mut self) -> Result<(), Fault>
        // ensures nothing { in a comment }
        ensures told { IsLeaf →
            (record { a = b }) → IsTwo 1 }
        ensures { IsLeaf }
    {
        self.rest()
    }
}

impl<'a, R: Files<File = File> + Net> Disk
    for RealWorld<'a, R>
{
    fn read(&self)
        ensures exact { IsLeaf }
    {}
}

pub trait Link: Clocked {
    fn send(&mut self)
        ensures sent { IsLeaf };

    ghost honest: { (link : Self) → IsLeaf };
}

pub fn law()
    ensures held { IsTwo 2 }
{}
"""


class Reading(unittest.TestCase):
    def setUp(self) -> None:
        self.folder = tempfile.TemporaryDirectory()
        self.addCleanup(self.folder.cleanup)
        self.root = Path(self.folder.name)
        for crate, name, text in (("low", "Low", LOW), ("high", "High", HIGH)):
            specs = self.root / "crates" / crate / "specs"
            specs.mkdir(parents=True)
            (specs / f"{name}.antt").write_text(text)
            (specs / "Lib.antt").write_text(f"pub mod {name}\n")
        self.code = self.root / "crates/high/src/lib.rt"
        self.code.parent.mkdir()
        self.code.write_text(CODE)
        self.house = House(self.root)

    def names_below(self, name: str) -> list[str]:
        definitions, _ = self.house.below(self.house.named(name))
        return [one.name for one in definitions]

    def test_lines_are_counted_without_blank_ones_and_comments(self) -> None:
        low = self.house.by_file["low/specs/Low.antt"]
        self.assertEqual([(one.name, one.lines) for one in low.values()], [("Pair", 3), ("◌⌢◌", 2), ("Tree", 3), ("unused", 2)])

    def test_a_renamed_import_an_operator_a_constructor_and_a_module_are_followed(self) -> None:
        self.assertEqual(self.names_below("IsTwo"), ["IsTwo", "Pair"])
        self.assertEqual(self.names_below("joins"), ["joins", "◌⌢◌"])
        self.assertEqual(self.names_below("IsLeaf"), ["IsLeaf", "Pair", "Tree"])
        self.assertEqual(self.names_below("whole"), ["whole", "unused"])

    def test_a_field_has_the_premises_of_its_clause(self) -> None:
        high = "high/specs/High.antt"
        said = Statement("here", "joins [] ≡ [] → IsLeaf → Two 1", self.house.imports[high], self.house.by_file[high], [])
        field = field_of(self.house, said, "deed")
        self.assertEqual((field.text.strip(), field.place), ("Deed", "crates/low/specs/Low.antt:7"))
        self.assertEqual([one.name for one in field.premises], ["joins", "IsLeaf"])
        with self.assertRaises(Unknown):
            field_of(self.house, said, "leaf")

    def test_types_of_the_code_are_named_and_the_library_is_left_out(self) -> None:
        definitions, types = self.house.below(self.house.named("IsTwo"))
        self.assertEqual(types, ["low/src/deed.rt Deed"])
        self.assertEqual(imports_of(LOW)["changes"], Source("low/src/deed.rt", "Change"))
        self.assertEqual(self.house.reading_order(definitions), ["low/specs/Low.antt", "high/specs/High.antt"])

    def test_clauses_have_their_type_function_and_label(self) -> None:
        clauses, functions = clauses_of(self.code, "high/src/lib.rt")
        names = [clause.name() for clause in clauses]
        of_types = ["Store::commit:told", "Store::commit", "RealWorld::read:exact"]
        self.assertEqual(names, [*of_types, "Link::send:sent", "Link:honest", "law:held"])
        self.assertEqual(functions, [("Store", "commit"), ("RealWorld", "read"), ("Link", "send"), ("", "law")])

    def test_what_a_clause_says_is_behind_its_last_arrow(self) -> None:
        clauses, _ = clauses_of(self.code, "high/src/lib.rt")
        self.assertEqual(conclusion(clauses[0].text).strip(), "IsTwo 1")
        self.assertEqual(conclusion(" A → (x : B → C) × D ").strip(), "(x : B → C) × D")

    def test_an_owner_is_the_type_and_not_its_trait(self) -> None:
        self.assertEqual(owner_of("impl<W: World<Item = u8>> Store<W> {"), "Store")
        self.assertEqual(owner_of("impl<R: Read> Source for InputSource<R> {"), "InputSource")
        self.assertEqual(owner_of("pub trait Link: Clocked {"), "Link")
        self.assertEqual(owner_of("    fn inner() {"), "")


if __name__ == "__main__":
    unittest.main()
