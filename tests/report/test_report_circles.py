"""Tests what a report says of ranks that wait in a circle, and of those that wait for what never
comes: of a plan, and of the smallest plan of a pattern in which a rank waits."""
import re
import tempfile
import unittest
from pathlib import Path

from wire_up_tools.report.pattern_answers import Settled
from wire_up_tools.report.ring import DRAWN, Label, draw_ring
from wire_up_tools.report.standstill import list_sizes, read_lines
from tests import support
from tests.support import report_support
from tests.support.needs import needs_program

# Two single roles, each of which serves a group in turn: it needs three workers until one waits.
TWO_LOOPS = """\
pattern 1
job app
one a
for w
publish a[each] 1
lookup-wait b[each]
end
one b
for w
publish b[each] 1
lookup-wait z[each]
end
many w
for w
lookup-wait a[each]
end
publish z[self] 1
"""
# One more of them, which needs one more worker.
SERVES_LAST = "one c\nfor w\npublish c[each] 1\nlookup-wait z[each]\nend\n"
NOBODY = "pattern 1\njob app\nmany w min 2\nlookup-wait port\n"
# Two ranks in a circle, and one that waits for a key that nobody puts.
BOTH = "rehearsal 1\nnode n\njob a\nrank n\nget a:1 b\nput global a 1\ncommit\n"
BOTH += "rank n\nget a:0 a\nput global b 1\ncommit\nrank n\nget a:0 c\n"


class CircleCase(unittest.TestCase):
    """A test with a folder of its own."""

    def setUp(self) -> None:
        room = tempfile.TemporaryDirectory(prefix="wire-up-report-")
        self.addCleanup(room.cleanup)
        self.room = room.name

    def report(self, name: str, text: str) -> tuple[str, str]:
        """The text and the page of a file, in which all white space is one space."""
        path = report_support.write(Path(self.room, name), text.encode())
        page = Path(self.room, "page.html")
        ran = report_support.run_report("--text", path, checker=support.program())
        paged = report_support.run_report("-o", page, path, checker=support.program())
        self.assertEqual((ran.returncode, paged.returncode), (0, 0), ran.stderr + paged.stderr)
        return " ".join(ran.stdout.split()), " ".join(report_support.read(page).split())

    def hold_ring(self, page: str, marks: list[tuple[str, str]]) -> None:
        """Tests that a page has a ring of these ranks, each with its call."""
        ring = re.search(r'<svg role="img".*?</svg>', page)
        assert ring, page
        labels = re.findall(r"<text [^>]*>([^<]*)</text>", ring[0])
        self.assertEqual(labels, [text for mark in marks for text in mark])
        self.assertEqual(ring[0].count("<polyline"), len(marks))


@needs_program
class PlanTest(CircleCase):
    """A plan of which ranks wait for ever."""

    def test_a_circle_and_what_never_comes(self) -> None:
        text, page = self.report("both.plan", BOTH)
        said = "2 ranks wait in a circle: a deadlock. a:0 waits for a:1, which waits for a:0."
        never = "a:2 waits for what never comes."
        for each_text in (text, page):
            self.assertIn(said, each_text)
            self.assertIn(never, each_text)
        self.hold_ring(page, [("a:0", "1 get b"), ("a:1", "1 get a")])

    def test_no_circle(self) -> None:
        """There is none where each that waits does so for what never comes."""
        text, page = self.report("never.plan", "rehearsal 1\nnode n\njob a\nrank n\nget a:0 k\n")
        for each_text in (text, page):
            self.assertIn("a:0 waits for what never comes.", each_text)
            self.assertNotIn("in a circle", each_text)
        self.assertNotIn('<svg role="img"', page)


class PatternTest(CircleCase):
    """A pattern with calls that wait."""

    @needs_program
    def test_the_smallest_plan_that_waits(self) -> None:
        text, page = self.report("loops.pattern", TWO_LOOPS)
        for each_text in (text, page):
            self.assertIn("Who waits for ever with 5 ranks (w=3)", each_text)
            self.assertIn("3 ranks wait in a circle: a deadlock", each_text)
            self.assertIn(
                "app:0 4 lookup-wait waits for the name b[app:3] to be published", each_text
            )
        calls = [("app:0", "4 lookup-wait"), ("app:1", "2 lookup-wait"), ("app:2", "2 lookup-wait")]
        self.hold_ring(page, calls)

    @needs_program
    def test_a_later_size(self) -> None:
        """Where none waits in what is judged, larger plans are looked at."""
        later = TWO_LOOPS.replace("wait z", "wait c").replace("many w", SERVES_LAST + "many w")
        text, page = self.report("later.pattern", later)
        for each_text in (text, page):
            self.assertIn("Who waits for ever with 7 ranks (w=4)", each_text)
            self.assertIn("4 ranks wait in a circle: a deadlock", each_text)

    @needs_program
    def test_what_never_comes(self) -> None:
        """The smallest plan has the least number of ranks."""
        text, page = self.report("nobody.pattern", NOBODY)
        for each_text in (text, page):
            self.assertIn("Who waits for ever with 2 ranks (w=2)", each_text)
            self.assertIn("app:1 1 lookup-wait waits for the name port to be published", each_text)
            self.assertNotIn("in a circle", each_text)

    def test_sizes(self) -> None:
        """Those with the fewest ranks come first, and none has fewer than its least number."""
        said = Settled(False, least=[(4, "v")])
        sizes = [[count for _, count in size] for size in list_sizes(["w", "v"], said)]
        self.assertEqual(sizes, [[0, 4], [1, 4], [2, 4], [3, 4]])


class LinesTest(unittest.TestCase):
    """What an older checker says besides its report."""

    def test_lines(self) -> None:
        never = "  for what never comes:\n    a:2 1 get waits for a:0 to commit the key c\n"
        found = read_lines(f"wire_up: ranks wait for ever\n{never}")
        assert found
        self.assertEqual([standing.rank for standing in found.never], ["a:2"])
        self.assertEqual(found.never[0].waits_for, "a:0 to commit the key c")
        self.assertFalse(found.circle)

    def test_some_are_only_counted(self) -> None:
        self.assertIsNone(read_lines("  for what never comes:\n    and 3 more\n"))


class RingTest(unittest.TestCase):
    """The picture alone."""

    def test_many_ranks(self) -> None:
        """Of many ranks the last mark stands for those that aren't drawn."""
        drawn = draw_ring([Label(f"a:{number}", "1 get k", number + 1) for number in range(40)])
        self.assertEqual(drawn.count("<rect"), DRAWN)
        self.assertIn("… 29 other ranks", drawn)
        self.assertIn('aria-label="40 ranks wait in a circle: a deadlock"', drawn)

    def test_one_rank(self) -> None:
        """No arrow leads from a rank to itself."""
        self.assertNotIn("<polyline", draw_ring([Label("a:0", "1 fence")]))


if __name__ == "__main__":
    unittest.main()
