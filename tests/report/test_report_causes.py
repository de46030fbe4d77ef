"""Tests how the groups of the checker become causes, each of which is one mistake."""
import unittest
from collections.abc import Sequence

from wire_up_tools.plan_reading import read_plan
from wire_up_tools.report import explaining
from wire_up_tools.report.causes import Cause, find_causes
from wire_up_tools.report.findings import Group, read_line, tally_up
from tests.support import report_support
from tests.support.needs import needs_program

HEAD = "rehearsal 2\nnode n\njob a\n"


def find_groups(text: str, lines: Sequence[str]) -> list[Group]:
    """The groups of findings in a plan, by the lines that the checker writes of them."""
    plan = read_plan(text.encode())
    tallies = tally_up(read_line(plan, line) for line in lines)
    return [tally.close(tally.count) for tally in tallies.values()]


def describe(causes: Sequence[Cause]) -> list[str]:
    """The titles of causes, with their counts."""
    return [f"{explaining.title(cause.first, cause.abouts)} {cause.count}" for cause in causes]


class CausesTest(unittest.TestCase):
    """Which groups have one cause."""

    def test_keys_of_one_commit(self) -> None:
        puts = "".join(f"put global k{number} v\n" for number in range(4))
        gets = "".join(f"get-now a:0 k{number}\n" for number in range(4))
        plan = f"{HEAD}rank n\n{puts}commit\nput global l v\ncommit\nrank n\n{gets}get-now a:0 l\n"
        lines = [f"race a:0 5 a:1 {number + 1} key a:0 k{number}" for number in range(4)]
        causes = find_causes(find_groups(plan, [*lines, "race a:0 7 a:1 5 key a:0 l"]))
        wanted = [
            "A get-now of 4 keys (k0, k1, k2, ..) can come before the commit that brings them 4",
            "A get-now of the key l can come before the commit that brings it 1",
        ]
        self.assertEqual(describe(causes), wanted)

    def test_a_sweep(self) -> None:
        plan = f"{HEAD}rank n\nunpublish *\nrank n\nlookup x\nlookup y\n"
        lines = ["race a:0 1 a:1 1 name x", "race a:0 1 a:1 2 name y"]
        wanted = ['A lookup and an unpublish of 2 names ("x", "y") can come in either order 2']
        self.assertEqual(describe(find_causes(find_groups(plan, lines))), wanted)

    def test_names_that_differ_in_numbers(self) -> None:
        plan = f"{HEAD}rank n\npublish x1 v\npublish x2 v\npublish y v\nrank n\n"
        names = enumerate(("x1", "x2", "y"), 1)
        lines = [f"race a:0 {number} a:1 {number} name {name}" for number, name in names]
        groups = find_groups(plan + "lookup x1\nlookup x2\nlookup y\n", lines)
        self.assertEqual([cause.abouts for cause in find_causes(groups)], [["x1", "x2"], ["y"]])

    def test_commits_of_one_place(self) -> None:
        put = "rank n\n# at f (a.c:1)\nput global k{0} v\n# at f (a.c:2)\ncommit\n"
        plan = f"{HEAD}{put.format(0)}{put.format(1)}rank n\nget-now a:0 k0\nget-now a:1 k1\n"
        lines = ["race a:0 2 a:2 1 key a:0 k0", "race a:1 2 a:2 2 key a:1 k1"]
        for text, count in ((plan, 1), (plan.replace("# at", "# by"), 2)):
            self.assertEqual(len(find_causes(find_groups(text, lines))), count)

    def test_one_of_each_kind_comes_first(self) -> None:
        puts = "".join(f"put global k{number} v\ncommit\n" for number in range(3))
        gets = "".join(f"get-now a:0 k{number}\n" for number in range(3))
        plan = f"{HEAD}rank n\n{puts}publish x v\nrank n\n{gets}lookup x\n"
        lines = [
            f"race a:0 {2 * number + 2} a:1 {number + 1} key a:0 k{number}" for number in range(3)
        ]
        causes = find_causes(find_groups(plan, [*lines, "race a:0 7 a:1 4 name x"]))
        self.assertEqual([cause.first.about for cause in causes], ["k0", "x", "k1", "k2"])


@needs_program
class ManyGroupsTest(unittest.TestCase):
    """A plan of many keys and names, of which one commit brings all keys."""

    def test_two_mistakes(self) -> None:
        page = report_support.read(report_support.make_page("manygroups").page)
        self.assertIn("They come from 2 mistakes.", page)
        self.assertIn("A get-now of 500 keys (key0, key1, key2, ..) can come before", page)
        self.assertIn("499 other keys with the same cause", page)
        names = ", ".join(f"&quot;svc{number}&quot;" for number in range(3))
        self.assertIn(f"A lookup of 8 names ({names}, ..) can come before", page)


if __name__ == "__main__":
    unittest.main()
