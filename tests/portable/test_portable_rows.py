"""The rows of rows/portable.py beside all that libraries may do by the axioms: where a row calls a
plan portable for a library, every history of that library is by the rules."""
import unittest

from tests.models import pattern_faults
from tests.models.library_axioms import LIBRARIES
from tests.models.library_plans import Facts
from tests.models.portable_conditions import JUDGED
from tests.models.portable_histories import find_divergence
from tests.rows.portable import ROWS, Told


MOST_STATES = 20_000
# The rows that blame a library which can't do otherwise by the axioms: these aren't meant for plans
# that put a key again, and 7.0 takes away all names as the standard says.
STAR = {"unpublish all": {"7.0"}, "unpublish all of nothing": {"7.0"}}
NEEDLESS = {"rewrite": {"4.2", "5.0", "7.0"}, **STAR}


def portable_in(row: Told) -> set[str]:
    """The libraries for which a row calls its plan portable, on its nodes."""
    last = row.here.split(" / ")[-1].removeprefix("portable ")
    return set() if last == "none" else set(last.split(","))


def differs(row: Told, library: str) -> bool:
    """Whether the library may do otherwise than the rules."""
    facts = Facts(pattern_faults.text_of(row.lines))
    found = [*find_divergence(facts, LIBRARIES[library], MOST_STATES)]
    assert found, f"{row.name}: too many states"
    return found[0] is not None


class Portable(unittest.TestCase):
    """Each row, for each library."""

    def test_no_library_differs_on_a_portable_plan(self) -> None:
        """And where one is blamed it may, but in the rows that are listed."""
        needless: dict[str, set[str]] = {}
        for row in ROWS:
            for library, name in JUDGED.items():
                if name in portable_in(row):
                    self.assertFalse(differs(row, library), f"{row.name}: {name}")
                elif not differs(row, library):
                    needless.setdefault(row.name, set()).add(name)
        self.assertEqual(NEEDLESS, needless)


if __name__ == "__main__":
    unittest.main()
