"""Tests how the reporter reads a plan."""
import unittest

from wire_up_tools.plan_reading import Lines, read_calls, read_plan, read_set
from tests import support

PLAN = b"""\
# Recorded by wire_up-record
# Left out:
#   2 calls
#   a name
# More
rehearsal 2\r
# a comment
keep
node n0
node n1
job a

job b
rank n0
# at f (a.c:3)
put global k v
commit
# at an unknown place
fence all collect
rank n1
\tget  b:0 k
fence b:* collect
job c
rank n1
unpublish *"""


class PlanTest(unittest.TestCase):
    """What is read of a plan."""

    def setUp(self) -> None:
        self.plan = read_plan(PLAN)

    def test_what_it_declares(self) -> None:
        declared = self.plan.declared
        self.assertTrue(declared.keeps)
        self.assertEqual((declared.nodes, declared.jobs), (["n0", "n1"], ["a", "b", "c"]))
        ranks = [(rank.name, rank.job, rank.node, rank.index) for rank in self.plan.ranks]
        self.assertEqual(
            ranks, [("b:0", "b", "n0", 0), ("b:1", "b", "n1", 1), ("c:0", "c", "n1", 2)]
        )

    def test_lines_have_no_ends(self) -> None:
        self.assertEqual(self.plan.lines[5], "rehearsal 2")
        self.assertEqual(self.plan.lines[-1], "unpublish *")

    def test_calls(self) -> None:
        calls = [(call.name, call.verb, call.about, call.line) for call in self.plan.calls]
        self.assertEqual(
            calls,
            [
                ("b:0 1", "put", "k", 16),
                ("b:0 2", "commit", "", 17),
                ("b:0 3", "fence", "", 19),
                ("b:1 1", "get", "k", 21),
                ("b:1 2", "fence", "", 22),
                ("c:0 1", "unpublish", "*", 25),
            ],
        )

    def test_places(self) -> None:
        places = [call.place for call in self.plan.calls]
        self.assertEqual(places, ["f (a.c:3)", "f (a.c:3)", None, None, None, None])

    def test_fences_that_meet(self) -> None:
        (meeting,) = self.plan.meetings
        self.assertEqual([call.name for call in meeting.calls], ["b:0 3", "b:1 2"])
        self.assertTrue(meeting.is_whole)
        self.assertTrue(all(call.collects for call in meeting.calls))
        self.assertIs(self.plan.meeting_of[meeting.calls[0]], meeting)

    def test_head(self) -> None:
        self.assertTrue(self.plan.is_recorded)
        self.assertEqual(self.plan.list_in_head("Left out:"), ["2 calls", "a name"])
        self.assertEqual(self.plan.list_in_head("Nothing:"), [])

    def test_find_call(self) -> None:
        self.assertEqual(self.plan.find_call("b:1", 1).verb, "get")
        with self.assertRaises(LookupError):
            self.plan.find_call("b:2", 1)

    def test_sets(self) -> None:
        ranks_of = {"a": ["a:0", "a:1"], "all": ["all:0"]}
        self.assertEqual(read_set("a", "all", ranks_of), {"a:0", "a:1"})
        self.assertEqual(read_set("a", "all:*,a:1,a:1", ranks_of), {"all:0", "a:1"})
        self.assertEqual(read_set("a", "none:*", ranks_of), frozenset())

    def test_a_plan_without_calls(self) -> None:
        plan = read_plan(b"rehearsal 1")
        self.assertEqual((plan.calls, plan.ranks, plan.meetings), ([], [], []))

    def test_lines_are_cut(self) -> None:
        data = b"".join(b"line %d\n" % number for number in range(30_000)) + b"last"
        lines = Lines(data)
        self.assertEqual((len(lines), lines[-1], lines[0]), (30_001, "last", "line 0"))
        for number in (1, 999, 8_191, 8_192, 14_000, 29_999):
            self.assertEqual(lines[number], f"line {number}")


class RunsTest(unittest.TestCase):
    """Many calls that are alike are a run, and are the same calls as if they were read one by
    one."""

    def test_a_run(self) -> None:
        gets = "".join(f"get-now a:{number} card\n" for number in range(1, 100))
        script = f"put global card v\ncommit\n{gets}get-now a:0 card\nfence all\n"
        text = f"rehearsal 1\nnode n\njob a\nrank n\n{script}" + "rank n\nfence all\n" * 99
        plan, calls = read_plan(text.encode()), read_calls(text.encode())
        kinds = [type(call).__name__ for call in plan.list_outline(plan.ranks[0])]
        self.assertEqual(kinds, ["Call", "Call", "Series", "Call", "Call"])
        said = [(call.name, call.words, call.line) for call in plan.calls]
        self.assertEqual(said, [(call.name, call.words, call.line) for call in calls])
        self.assertEqual(plan.call_count, len(calls))
        self.assertIs(plan.find_call("a:0", 50), plan.calls_of["a:0"][49])
        self.assertEqual(len(plan.meetings[0].calls), 100)

    def test_own_gets_are_in_no_run(self) -> None:
        many = "".join(f"get a:{number} card\n" for number in range(1, 70))
        own, other = "get a:0 card\n", "get a:1 seat\n"
        script = f"{own}{many}{own}{own}{many}{other}{many}{own}"
        text = f"rehearsal 1\nnode n\njob a\nrank n\n{script}".encode()
        plan, calls = read_plan(text), read_calls(text)
        kinds = [type(call).__name__ for call in plan.list_outline(plan.ranks[0])]
        wanted = ["Call", "Series", "Call", "Call", "Series", "Call", "Series", "Call"]
        self.assertEqual(kinds, wanted)
        said = [(call.name, call.words, call.line) for call in plan.calls]
        self.assertEqual(said, [(call.name, call.words, call.line) for call in calls])


class ExamplesTest(unittest.TestCase):
    """What is read of the examples."""

    def test_each_call_stands_in_its_line(self) -> None:
        for path in (support.TOP / "examples").glob("*.plan"):
            plan = read_plan(path.read_bytes())
            for call in plan.calls:
                self.assertEqual(plan.lines[call.line - 1].split(), call.words, path)


if __name__ == "__main__":
    unittest.main()
