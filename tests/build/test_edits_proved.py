"""How edits are tried by the prover: a small crate with wrong bodies of each sort, and what must
become of each."""
import tempfile
import unittest
from pathlib import Path

from build.crates import Crate, crates_at
from build.edits.reading import asked_for
from build.edits.trying import try_all
from build.edits.verdicts import ONLY_A_NAME
from tests.support.needs import proves
from tests.support.tiny_crate import EDITS, REFUSED, UNREAD, Wanted, make


@proves
class ProvedEdits(unittest.TestCase):
    """All edits of the small crate."""

    def hold(self, edits: dict[str, Wanted]) -> None:
        """Fails where an edit is judged in another way than it must be."""
        with tempfile.TemporaryDirectory(prefix="wire-up-") as folder:
            top = Path(folder)
            make(top, edits)
            found = try_all(asked_for([], crates_at(top, Crate)))
        told = {path.name: outcome for path, outcome in found.items()}
        for name, wanted in edits.items():
            with self.subTest(name):
                outcome = told[f"{name}.edit"]
                self.assertIn(wanted.said, outcome.text)
                self.assertEqual(
                    wanted.said in (REFUSED, ONLY_A_NAME), outcome.is_refused, outcome.text
                )
                self.assertIn(wanted.is_alone, (None, outcome.is_alone), outcome.text)

    def test_edits(self) -> None:
        self.hold(EDITS)

    def test_edits_beside_one_that_cannot_be_read(self) -> None:
        self.hold(UNREAD)


if __name__ == "__main__":
    unittest.main()
