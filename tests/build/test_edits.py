"""How edits are tried, without the prover: how what it says is read, and which texts it gets."""
import tempfile
import unittest
from pathlib import Path

from build.crates import Crate, crates_at
from build.edits import verdicts
from build.edits.batches import Placed, Texts, texts_of
from build.edits.emptying import can_be_emptied
from build.edits.reading import Edit, asked_for, not_applied, paths_of, read
from build.edits.sources import Function, functions_of
from tests import support
from tests.support.tiny_crate import EDITS, TOLD, make, write

# Verdicts on a function `most`, and what they show of an edit of it: that it is refused, that it
# isn't, or nothing.
VERDICTS = {
    "proved": None,
    "not proved": True,
    "not proved; it calls `tiny::exact`, which is not proved": True,
    (
        "no proof: expected answers in ./proofs/most/Answers.antt; `search` did not prove"
        " `returns`"
    ): True,
    "no proof: it calls `tiny::exact`, which is not proved": None,
    (
        "no proof: it calls `tiny::exact` and `tiny::loose`, which are not proved; it passes the "
        "block `tiny::fn::a`, which is not proved"
    ): None,
    (
        "no proof: expected `most_spec` in ./proofs/most/Proof.antt; the borrow checker does not "
        "cover this function yet: src/lib.rt:9:1"
    ): False,
    "no proof: expected a measure in ./proofs/most/Invariants.antt": True,
    "could not tell": None,
    "not proved; it stands on `Rattle.tiny.proofs.most.Answers.returns`, which antt refuses": True,
    (
        "not proved; it stands on `Rattle.tiny.proofs.exact.Answers.a` and "
        "`Rattle.tiny.proofs.fn.most.a.Answers.b`, which antt refuses"
    ): True,
    # Of a function that calls itself the proofs have a mark.
    "not proved; it stands on `Rattle.tiny.proofs.+most.Answers.returns`, which antt refuses": True,
    # What is refused is the proof of a function that it calls.
    (
        "not proved; it stands on `Rattle.tiny.proofs.exact.Answers.returns`, which antt "
        "refuses; it calls `tiny::exact`, which is not proved"
    ): None,
    "no holes": None,
    "depends on a hole in `Rattle.tiny.proofs.exact.Answers.unreachable-requires`": None,
}
# What is told of a copy without an edit, of a function that has two, and whether a check with it
# shows anything of these: not if the copy has no proof for its own reasons, such as its name.
CONTROLS = {
    "fn tiny::most_as_it_is: proved\n": True,
    "fn tiny::most_as_it_is: no holes\n": True,
    (
        "fn tiny::most_as_it_is: depends on a hole in `Rattle.tiny.proofs.exact.Answers."
        "unreachable-requires`\n"
    ): True,
    (
        "fn tiny::most_as_it_is: depends on a hole in `Rattle.tiny.proofs.most_as_it_is.Answers."
        "returns`\n"
    ): False,
    # What is refused is the proof of a function with an edit, a lemma, or a lemma that rests on
    # what was refused.
    (
        "./proofs/most/Answers.antt:3:9: error: `returns`: the types differ\n"
        "fn tiny::most_as_it_is: no holes\n"
    ): True,
    (
        "./proofs/Lemmas.antt:3:9: error: `goal.returns` is not in scope\n"
        "fn tiny::most_as_it_is: no holes\n"
    ): False,
    (
        "./proofs/Lemmas.antt:3:9: error: `most_spec` was not admitted\n"
        "fn tiny::most_as_it_is: no holes\n"
    ): True,
    "fn tiny::most_as_it_is: no proof: it calls `tiny::exact`, which is not proved\n": True,
    "fn tiny::most_as_it_is: not proved\n": False,
    (
        "fn tiny::most_as_it_is: not proved; it stands on "
        "`Rattle.tiny.proofs.exact.Answers.returns`, which antt refuses\n"
    ): True,
    (
        "./proofs/+even/Answers.antt:3:9: error: `returns`: the types differ\n"
        "fn tiny::most_as_it_is: no holes\n"
    ): True,
    (
        "fn tiny::most_as_it_is: no proof: expected answers in "
        "./proofs/most_as_it_is/Answers.antt; `search` did not prove `returns`\n"
    ): False,
    "fn tiny::most_as_it_is: could not tell\n": False,
    "": False,
}
# Functions, and whether their bodies can be taken away where they have no edit.
CAN_BE_EMPTIED = {
    "fn most() -> u8\n    ensures { result ≡ 9 }\n{\n    9\n}\n": True,
    "pub(crate) fn most() -> u8 {\n    9\n}\n": True,
    "/// The most.\n#[inline]\nfn most() -> u8 {\n    9\n}\n": True,
    "impl Pair {\n    fn most(&self) -> u8 {\n        9\n    }\n}\n": True,
    # A law, which has no body.
    "pub fn most()\n    ensures { 9 ≡ 9 }\n{}\n": False,
    "pub const fn most() -> u8 {\n    9\n}\n": False,
    "fn most(all: &[u8]) -> impl Iterator<Item = &u8> {\n    all.iter()\n}\n": False,
    "fn most() -> Option<impl Fn() -> u8> {\n    None\n}\n": False,
    "#[cycle(most)]\nfn most() -> u8 {\n    most()\n}\n": False,
    "impl Most for Pair {\n    fn most(&self) -> u8 {\n        9\n    }\n}\n": False,
    "trait Most {\n    fn most(&self) -> u8 {\n        9\n    }\n}\n": False,
}
# A file of lemmas of the small crate, and the functions that are copied without an edit.
COPIED = {
    "": ["exact_as_it_is"],
    "use Rattle.tiny.proofs.picked.Goals as goal\n": ["picked_as_it_is"],
    "use Rattle.tiny.proofs.fn.lower.each.Goals as goal\n": ["lower_as_it_is"],
    "use Rattle.tiny.proofs.most.Goals as goal\n": ["exact_as_it_is"],
}
# Lines of the prover, and whether they are about a function `most`, which stands on the lines from
# 5 to 9.
ABOUT = {
    "./proofs/most/Answers.antt:3:9: error: `returns`: the types differ": True,
    "./proofs/+most/Answers.antt:3:9: error: `returns`: the types differ": True,
    "./proofs/fn/most/each/Answers.antt:3:9: error: `returns`: the types differ": True,
    "./proofs/+even/Answers.antt:3:9: error: `returns`: the types differ": False,
    "./proofs/most_as_it_is/Answers.antt:3:9: error: `returns`: the types differ": False,
    "note: src/lib.rt:5:1: it is not proved": True,
    "note: src/lib.rt:10:1: it is not proved": False,
    "note: src/other.rt:5:1: it is not proved": False,
}
# What is told of a refusal: the lines of the prover, that which is a reason, the verdicts, and the
# words that say that it says little.
POOR: list[tuple[tuple[list[str], str, list[str]], str]] = [
    (
        ([], "", ["no proof: expected a measure in ./proofs/most/Invariants.antt"]),
        verdicts.ONLY_A_LOOP,
    ),
    (
        (["proofs/most/Answers.antt:1:1: error: `goal` has no field"], "", ["not proved"]),
        verdicts.ONLY_A_NAME,
    ),
    (
        (
            [
                (
                    "src/lib.rt:9:1: error: antt ran out of the steps that the check of one "
                    "declaration may take"
                )
            ]
            * 2,
            "src/lib.rt",
            ["not proved"],
        ),
        verdicts.ONLY_A_LIMIT,
    ),
    ((["note: src/lib.rt:9:1: it is not proved"], "note: src/lib.rt:9:1", ["not proved"]), ""),
]


class TinyCase(unittest.TestCase):
    """Tests over a small crate."""

    def setUp(self) -> None:
        folder = tempfile.TemporaryDirectory(prefix="wire-up-")
        self.addCleanup(folder.cleanup)
        self.top = Path(folder.name)
        make(self.top, EDITS)
        self.crate = crates_at(self.top, Crate)[0]

    def edit(self, name: str) -> Edit:
        """An edit that can be applied."""
        edit, why = read(self.crate, self.crate.place / "edits" / f"{name}.edit")
        if edit is None:
            self.fail(why)
        return edit

    def placed(self, path: str, first: int = 0, last: int = 0) -> Placed:
        """An edit of a function `most`, in the place of the function of a path."""
        most = Function("most", 0, 0, 0)
        edit = Edit(self.crate, Path("most.edit"), {}, "src/lib.rt", "", most)
        return Placed(edit, path, first, last)


class Verdicts(TinyCase):
    """What is read in what the prover says."""

    def test_verdicts(self) -> None:
        for words, wanted in VERDICTS.items():
            with self.subTest(words):
                said = f"fn tiny::exact: not proved\nfn tiny::most: {words}\n"
                found = verdicts.judged(self.placed("most"), said)
                self.assertIs(found.is_refused if found else None, wanted)

    def test_controls(self) -> None:
        placed = [self.placed("most"), self.placed("most_wrong_2")]
        texts = Texts({}, {}, placed, ["most", "most_wrong_2", "most_as_it_is"])
        edited = "fn tiny::most: not proved\nfn tiny::most_wrong_2: not proved\n"
        for words, wanted in CONTROLS.items():
            with self.subTest(words.strip() or "no copy"):
                said = f"{edited}{words}only=3 proved=1\n"
                self.assertIs(verdicts.is_judged(1, said, texts), wanted)

    def test_lines_about_a_function(self) -> None:
        for line, wanted in ABOUT.items():
            with self.subTest(line):
                self.assertIs(verdicts.is_about(self.placed("most", 5, 9), line), wanted)

    def test_poor_refusals(self) -> None:
        for (told, reason, words), wanted in POOR:
            with self.subTest(words[0], told=told):
                self.assertEqual(wanted, verdicts.only_why(told, reason, words))


class BatchTexts(TinyCase):
    """Which texts the prover gets."""

    def test_bodies_that_can_be_taken_away(self) -> None:
        for text, wanted in CAN_BE_EMPTIED.items():
            with self.subTest(text):
                (function,) = functions_of(self.crate, "src/lib.rt", text)
                self.assertIs(can_be_emptied("src/lib.rt", text, function), wanted)

    def test_emptied_batch(self) -> None:
        """Eight functions are emptied, one of which has a proof file, and one that of a closure.
        That with the edit stands, and so does one that has to be proved."""
        edit = self.edit("more_than_the_half")
        write(self.top, "crates/tiny/proofs/fn/halved/kept/Answers.antt", TOLD)
        batch, whole = texts_of([edit]), texts_of([edit], empties=False)
        source = batch.sources["src/lib.rt"]
        self.assertEqual(8, source.count("unreachable!()"))
        self.assertIn("halved(a).saturating_add(1)", source)
        self.assertIn("= ?", batch.proofs["proofs/picked/Answers.antt"] or "")
        self.assertIsNone(batch.proofs["proofs/fn/halved/kept/Answers.antt"])
        self.assertEqual(["by_half", "told"], batch.only)
        self.assertNotIn("unreachable!()", whole.sources["src/lib.rt"])
        self.assertEqual(["by_half"], whole.only)

    def test_copies_without_an_edit(self) -> None:
        """First the shortest of those with several edits is copied, then the one whose proof
        another file names."""
        found = [read(self.crate, path)[0] for path in paths_of(self.crate)]
        batch = [edit for edit in found if edit and edit.function]
        for proof, wanted in COPIED.items():
            with self.subTest(proof):
                write(self.top, "crates/tiny/proofs/Lemmas.antt", proof)
                only = texts_of(batch).only
                self.assertEqual(wanted, [text for text in only if text.endswith("_as_it_is")])


class OurEdits(unittest.TestCase):
    """The edits of the repository."""

    def test_each_can_be_applied(self) -> None:
        self.assertEqual([], not_applied(asked_for([], crates_at(support.TOP, Crate))))


if __name__ == "__main__":
    unittest.main()
