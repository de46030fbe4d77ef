"""Tests what a report says of other placements, by a stand-in for a checker that judges them."""
import re
import tempfile
import unittest
from pathlib import Path

from tests import support
from tests.support import Word, report_support
from tests.support.needs import needs_program


PLAN = report_support.find_plan("two-jobs")
RACE = "race ocean:0 4 ocean:1 2 key ocean:0 coupler on ocean:1,air:0"
# A checker that judges every placement: what it finds there stands in a file, and so does the plan
# of one placement.
CHECKER = """#!/bin/sh
case "$*" in
"check --anywhere") cat > /dev/null; cat "{room}/found"; exit {status} ;;
"place ocean:1,air:0") cat > /dev/null; cat "{room}/placed" ;;
*) exec "{program}" "$@" ;;
esac
"""


def place(text: str) -> str:
    """The plan of two jobs on the placement that gives the second rank of the first job and the
    first of the second a node of their own."""
    nodes = iter(("n0", "n1", "n1", "n0"))
    return re.sub(r"(?m)^rank n\d$", lambda _: f"rank {next(nodes)}", text)


@needs_program
class PlacementsTest(unittest.TestCase):
    """The text and the page of a plan in which nothing is found as it is placed."""

    def setUp(self) -> None:
        room = tempfile.TemporaryDirectory(prefix="wire-up-report-")
        self.addCleanup(room.cleanup)
        self.room = room.name
        self.write("placed", place(report_support.read(PLAN)))

    def write(self, name: str, text: str) -> Path:
        """Writes a file in the room. Answers its path."""
        return report_support.write(Path(self.room, name), text.encode())

    def write_checker(self, script: str, *found: str, status: int = 0) -> Path:
        """Writes the stand-in, which finds these lines on every placement."""
        self.write("found", "".join(f"{each_text}\n" for each_text in found))
        text = script.format(program=support.program(), room=self.room, status=status)
        path = self.write("checker", text)
        path.chmod(0o755)
        return path

    def report(self, checker: Word) -> tuple[str, str]:
        """The text and the page, in which all white space is one space."""
        page = Path(self.room, "page.html")
        ran = report_support.run_report("--text", PLAN, checker=checker)
        paged = report_support.run_report("-o", page, PLAN, checker=checker)
        self.assertEqual((ran.returncode, paged.returncode), (0, 0), ran.stderr + paged.stderr)
        return " ".join(ran.stdout.split()), report_support.read(page)

    def test_a_race_on_another_placement(self) -> None:
        checker = self.write_checker(CHECKER, RACE, "findings 1", status=1)
        text, page = self.report(checker)
        for said in (text, " ".join(re.sub(r"<[^>]*>", "", page).split())):
            for wanted in (
                "no race on the placement written, 1 race on others",
                "On the placement written: nothing; with ocean:1 and air:0 on one node: this race.",
                "With ocean:1 and air:0 on one node: A get-now of the key coupler",
                "wire_up place ocean:1,air:0 two-jobs.plan",
                "If the fence (ocean:0 4) comes first",
            ):
                self.assertIn(wanted, said)
        self.assertIn('class="partly"', page)
        self.assertIn('aria-label="Diagram: With ocean:1 and air:0 on one node"', page)
        lane = r">ocean:1</text>\s*<text[^>]*>on n1</text>"
        self.assertRegex(page, lane)

    def test_nothing_on_any_placement(self) -> None:
        text, page = self.report(self.write_checker(CHECKER, "findings 0"))
        self.assertTrue(text.startswith("two-jobs.plan: no race on any placement; "), text[:99])
        self.assertIn('class="fails"', page)

    def test_placements_that_were_not_judged(self) -> None:
        text, page = self.report(self.write_checker(CHECKER, status=3))
        self.assertIn("Other placements weren't judged: ", text)
        self.assertIn('class="partly"', page)

    def test_an_older_checker(self) -> None:
        text, page = self.report(report_support.make_older())
        self.assertTrue(text.startswith("two-jobs.plan: no race; 1 call fails Which"), text[:99])
        self.assertIn('class="fails"', page)
        self.assertNotIn("placement", page)


# Two ranks of two nodes, each of which asks at once for a key of the other.
CROSSED = """\
rehearsal 2
node n0
node n1
job app
rank n0
put global b v
commit
get-now app:1 a
rank n1
put global a v
commit
get-now app:0 b
"""


@needs_program
class CrossedTest(unittest.TestCase):
    """Two mistakes that need the same two ranks on one node."""

    def test_the_ranks_are_named_once(self) -> None:
        with tempfile.TemporaryDirectory(prefix="wire-up-report-") as room:
            plan = report_support.write(Path(room, "it.plan"), CROSSED.encode())
            ran = report_support.run_report("--text", plan)
        said = "nothing; with app:0 and app:1 on one node: 2 races such as these."
        self.assertIn(f"On the placement written: {said}\n", ran.stdout)


if __name__ == "__main__":
    unittest.main()
