"""Tests what a report says of a library that is known."""
import re
import tempfile
import unittest
from pathlib import Path

from wire_up_tools.failures import Refused
from wire_up_tools.plan_reading import read_plan
from wire_up_tools.run.expected import Expected
from wire_up_tools.run.libraries.judging import MOST_CALLS, Judged, hold_small, judge
from wire_up_tools.run.libraries.traits import LIBRARIES, find_recorded
from wire_up_tools.run.reports import Line, Place, Report
from tests.support import report_support
from tests.support.needs import needs_program

# A get of one key brings the others to the node, where another rank asks for one without waiting.
BRINGS = """\
rehearsal 1
node n0
node n1
job app
rank n0
put global a 1
put global b 2
commit
rank n1
get app:0 a
rank n1
get-now app:0 b
"""


class LibraryCase(unittest.TestCase):
    """A test with a folder of its own."""

    def setUp(self) -> None:
        room = tempfile.TemporaryDirectory(prefix="wire-up-report-")
        self.addCleanup(room.cleanup)
        self.room = room.name

    def report(self, text: str, library: str) -> tuple[str, str]:
        """The text and the page of a plan, with white space as one space."""
        path = report_support.write(Path(self.room, "it.plan"), text.encode())
        page = Path(self.room, "page.html")
        words, older = ("--library", library), report_support.make_older()
        ran = report_support.run_report(*words, "--text", path, checker=older)
        report_support.run_report(*words, "-o", page, path, checker=older)
        self.assertEqual(ran.returncode, 0, ran.stderr)
        return " ".join(ran.stdout.split()), " ".join(report_support.read(page).split())


@needs_program
class PageTest(LibraryCase):
    """What stands beside the verdict."""

    def test_a_reply_that_depends_on_who_is_fast(self) -> None:
        text, page = self.report(BRINGS, "openpmix-4.2")
        for said in (text, page.partition("</header>")[0]):
            self.assertIn(
                "OpenPMIx 4.2.2 under orted of Open MPI 4.1.4 is known to answer 1 of 5 calls "
                "otherwise than the rules; there one reply can depend on which rank is fast, so "
                "the verdict says less.",
                said,
            )
        self.assertIn(
            "app:2 1 get-now: by the rules PMIX_ERR_NOT_FOUND, by the library PMIX_SUCCESS 2, if "
            "not otherwise by luck (get-brings-all)",
            text,
        )
        badge = '<header class="partly">.*<span class="badge">by the rules</span>'
        self.assertTrue(re.search(badge, page))
        self.assertIn('<a href="#line-12">app:2 1 get-now</a>', page)

    def test_nothing_differs(self) -> None:
        text, page = self.report(report_support.read(report_support.SHIPPED["ring"]), "slurm-24.11")
        self.assertIn("as far as it is known, answers all calls as the rules do.", text)
        self.assertNotIn("answered otherwise", page)
        self.assertIn('<header class="quiet">', page)

    def test_a_library_that_is_not_known(self) -> None:
        ran = report_support.run_report("--library", "mpich", "-o", "-", report_support.EARLY)
        self.assertEqual((ran.returncode, ran.stdout), (125, ""))
        known = ", ".join(LIBRARIES)
        self.assertEqual(ran.stderr, f"wire_up-report: mpich isn't known: {known} are\n")


class JudgedTest(unittest.TestCase):
    """What a library makes of a plan."""

    def judge(self, text: str, library: str) -> Judged:
        """What a library makes of a plan all of whose calls succeed by the rules."""
        plan = read_plan(text.encode())
        lines = [
            Line(Place(call.rank.name, call.number, call.verb), "PMIX_SUCCESS")
            for call in plan.calls
        ]
        return judge(plan, LIBRARIES[library], Expected(Report(lines)))

    def test_both_orders_are_taken(self) -> None:
        found = self.judge(BRINGS, "openpmix-4.2")
        self.assertEqual([str(place) for place in found.timed], ["app:2 1 get-now"])

    def test_a_get_that_waits_at_a_commit(self) -> None:
        """Only with the highest rank first does it wait there."""
        text = BRINGS.replace("n1\nget app:0 a\nrank n1\nget-now app:0 b", "n0\nget app:0 c")
        found = self.judge(text, "openpmix-4.2")
        self.assertEqual([str(place) for place in found.timed], ["app:1 1 get"])

    def test_a_large_plan(self) -> None:
        plan = read_plan((BRINGS + "commit\n" * MOST_CALLS).encode())
        with self.assertRaisesRegex(Refused, "more than 10,000 calls isn't judged"):
            hold_small(plan)

    def test_which_library_was_recorded(self) -> None:
        names = {
            ("OpenPMIx 4.2.2rc2 (PMIx", "989331457"): "openpmix-4.2",
            ("OpenPMIx 5.0.7a1 (PMIx", "prterun-node0-9502@1"): "openpmix-5.0",
            ("OpenPMIx 5.0.7a1 (PMIx", "slurm.pmix.7.0"): "slurm-24.11",
            ("OpenPMIx 7.0.0rc1 (PMIx", "prterun-node0-9502@1"): "openpmix-7.0",
            ("OpenPMIx 3.2.3", "989331457"): None,
            ("OpenPMIx 5.0.7a1 (PMIx", "mine"): None,
        }
        for said, name in names.items():
            found = find_recorded(*said)
            self.assertEqual(found.name if found else None, name)


if __name__ == "__main__":
    unittest.main()
