"""The conditions of portable plans as a second reader has them (portable_conditions.py), beside the
rows of rows/portable.py, and what these notice: a condition that is left out, or put wrongly."""
import unittest

from tests.models import pattern_faults
from tests.models.library_axioms import LIBRARIES
from tests.models.library_plans import Facts
from tests.models.portable_conditions import JUDGED, WRONG, Asked, blame, tell
from tests.models.portable_histories import find_divergence
from tests.rows.portable import ROWS


MOST_STATES = 20_000
PLANS = {row.name: Facts(pattern_faults.text_of(row.lines)) for row in ROWS}
RULES = sorted({part.split()[4] for row in ROWS for part in row.here.split(" / ")[:-1]})
# What blames a library that can't do otherwise: only the rows notice it. The other mistakes call a
# plan portable for a library that may do otherwise, by all that the axioms allow.
NEEDLESS = {
    "rewrite",
    "near-remote: a get-now before the commit isn't",
    "far-get: by each library",
    "far-get: the key is never there first",
    "mates: of each node",
    "mates: those that end first too",
    "get-now: gets that end before the commit too",
    "get-now: before nothing",
    "get-now: whatever the scope",
    "fence-spelling: as it is written",
    "fence-collect: of all fences over a set",
    "calls that don't come",
    "fences that don't come",
}


class Conditions(unittest.TestCase):
    """The second reader, and its mistakes."""

    def test_rows(self) -> None:
        """It answers each row, on its nodes and anywhere."""
        for row in ROWS:
            with self.subTest(row.name):
                facts = PLANS[row.name]
                self.assertEqual(row.here.split(" / "), tell(facts))
                self.assertEqual(row.anywhere.split(" / "), tell(facts, Asked(anywhere=True)))

    def test_rows_notice_each_mistake(self) -> None:
        """So they do each rule that is left out."""
        self.assertEqual(15, len(RULES))
        for wrong in (*RULES, *WRONG):
            asked = Asked(frozenset([wrong]))
            others = [row for row in ROWS if tell(PLANS[row.name], asked) != row.here.split(" / ")]
            self.assertTrue(others, wrong)

    def test_libraries_show_each_mistake(self) -> None:
        """Each but those that are listed calls a row portable for a library that may do otherwise;
        without it none is."""
        differing = [
            (facts, library)
            for facts in PLANS.values()
            for library in JUDGED
            if any(find_divergence(facts, LIBRARIES[library], MOST_STATES))
        ]
        self.assertTrue(all(blame(*pair) for pair in differing))
        asked = {rule: Asked(frozenset([rule])) for rule in (*RULES, *WRONG)}
        shown = {text for text, a in asked.items() if not all(blame(*of, a) for of in differing)}
        self.assertEqual({*RULES, *WRONG} - NEEDLESS, shown)


if __name__ == "__main__":
    unittest.main()
