"""Holds docs/guarantees.md to the table of what is to be read, and tests how names are resolved."""
import glob
import tempfile
import unittest
from pathlib import Path
from unittest import mock

from build import definitions, reading
from build.definitions import Item
from build.places import CRATES
LOW = """\
-- A step.
use Rattle.std.specs.Prelude.{ℕ}

pub data Move : Type 0 where
  pub Stay : Move
  pub Go : ℕ → Move

abbrev pub steps_of : Move → ℕ
steps_of Stay = zero
steps_of (Go n) = n

abbrev pub unused : ℕ
unused = steps_of Stay
"""
HIGH = """\
use Rattle.low.specs.Moves.{steps_of, Go}
use Rattle.low.specs.Moves as moves

pub record Walks (n : ℕ) : Type 0 where
  pub far : steps_of (Go n) ≡ n

module _ {K : Type 0} where
  abbrev pub AreStill : K → Type 0
  AreStill k = moves.Move → other k

  abbrev pub other : K → Type 0
  other k = Walks zero
"""
SOURCE = """\
ghost use Rattle.high.specs.Walks.{Walks, AreStill};

/// How far.
pub struct Far {
    pub far: u32,
}

pub fn walk(far: &Far) -> u32
    requires { AreStill far }
    ensures first { Walks result }
    ensures second { result ≡ far.far }
{
    far.far
}
"""
FILES = {
    "low/specs/Moves.antt": LOW,
    "high/specs/Walks.antt": HIGH,
    "high/src/lib.rt": SOURCE,
}


def names_of(items: set[Item]) -> list[str]:
    return sorted(item.name for item in items)


class ResolvingTest(unittest.TestCase):
    """What definitions rest on, in crates that were made up."""

    def setUp(self) -> None:
        room = Path(self.enterContext(tempfile.TemporaryDirectory()))
        for path, text in FILES.items():
            (room / path).parent.mkdir(parents=True, exist_ok=True)
            (room / path).write_text(text, encoding="utf-8")
        self.enterContext(mock.patch.object(definitions, "CRATES", room))
        self.forget()
        self.addCleanup(self.forget)

    @staticmethod
    def forget() -> None:
        definitions.file_at.cache_clear()
        definitions.files_of.cache_clear()

    def test_items(self) -> None:
        """Each has the equations and the parts that follow it."""
        items = definitions.file_at("low/specs/Moves.antt").items
        self.assertEqual(sorted(items), ["Go", "Move", "Stay", "steps_of", "unused"])
        self.assertIs(items["Go"][0], items["Move"][0])
        self.assertEqual([items[word][0].lines() for word in ("Move", "steps_of")], [3, 3])

    def test_closure(self) -> None:
        """It goes through imports, constructors, modules taken whole, and blocks."""
        items = definitions.file_at("high/specs/Walks.antt").items
        for name, wanted in (
            ("Walks", ["Move", "Walks", "steps_of"]),
            ("AreStill", ["AreStill", "Move", "Walks", "other", "steps_of"]),
        ):
            with self.subTest(name):
                self.assertEqual(names_of(definitions.closure_of(items[name])), wanted)

    def test_clauses(self) -> None:
        """What a function requires counts, and of its clauses those that are named."""
        walk, = definitions.functions_in("high/src/lib.rt")
        of_first = reading.contract_of(walk, ["first"])
        self.assertEqual(of_first.lines(), 3)
        self.assertEqual(reading.contract_of(walk, []).lines(), 4)
        found = names_of(definitions.closure_of([of_first]))
        self.assertEqual(found, ["AreStill", "Far", "Move", "Walks", "other", "steps_of", "walk"])


class RepositoryTest(unittest.TestCase):
    """What definitions of the repository rest on."""

    def test_table(self) -> None:
        """The document has the table that the program would write there."""
        said = reading.STATEMENTS.read_text(encoding="utf-8")
        self.assertIn(f"\n{reading.table()}\n", said)

    def test_written(self) -> None:
        """It writes the table where another stands."""
        text = reading.STATEMENTS.read_text(encoding="utf-8")
        other = text.replace(reading.table().splitlines(True)[2], "| old | 1 |\n")
        with tempfile.TemporaryDirectory() as room:
            to = Path(room, "guarantees.md")
            to.write_text(other, encoding="utf-8")
            with mock.patch.object(reading, "STATEMENTS", to):
                reading.write_table()
            self.assertEqual(to.read_text(encoding="utf-8"), text)

    def test_contracts(self) -> None:
        """Each statement but the fifth names a contract, with clauses that are there."""
        found = reading.statements()
        self.assertEqual([statement.number for statement in found], [1, 2, 3, 4, 6, 7, 8, 9])
        for statement in found:
            for contract in statement.contracts:
                with self.subTest(statement.title, contract=contract.name):
                    self.assertIn("ensures", contract.text)

    def test_one_end(self) -> None:
        """It rests on what a run is, and not on what a race is."""
        paths = {statement.path for statement in reading.statements()[0].items()}
        self.assertIn("wire_runs/specs/Step.antt", paths)
        self.assertNotIn("wire_runs/specs/Races.antt", paths)

    def test_imports(self) -> None:
        """Each name that a file of specs/ takes from a crate is found, but for what the kit makes
        of a derived trait."""
        paths = glob.glob("*/specs/**/*.antt", root_dir=CRATES, recursive=True)
        for path in sorted(paths):
            for word, (module, name) in definitions.file_at(path).taken.items():
                is_ours = (CRATES / module.partition(".")[0]).is_dir()
                if is_ours and name and ".contracts." not in module:
                    with self.subTest(path, word=word):
                        self.assertTrue(definitions.named(path, word))


if __name__ == "__main__":
    unittest.main()
