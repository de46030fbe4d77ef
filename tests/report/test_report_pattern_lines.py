"""Tests from which lines of a pattern the calls of its counterexample are said to come."""
import unittest

from wire_up_tools.plan import Plan
from wire_up_tools.plan_reading import read_plan
from wire_up_tools.report.patterns import Pattern, list_calls, locate_calls
from tests import support
from tests.support import report_support
from tests.support.needs import needs_program

FOLDER = support.TOP / "examples" / "patterns"
# Two groups of one job, a loop of some turns, indices, and a set of a job that has no role.
PATTERN = """\
pattern 1
job app
one root
publish go v

job empty
job app2
# Two groups.
many a min 1
for some b
get each k[self]
end
lookup-wait go
many b
put global k[self] v
for a
put global k[each] v
commit
end
fence self,root,empty:*
"""
# One of a, and two of b: the one of a takes the turn for the second alone.
PLAN = """\
rehearsal 2
node n
job app
rank n
publish go v
job empty
job app2
rank n
get app2:2 k[app2:0]
lookup-wait go
rank n
put global k[app2:1] v
put global k[app2:0] v
commit
fence app2:1,app:0,empty:*
rank n
put global k[app2:2] v
put global k[app2:0] v
commit
fence app2:2,app:0,empty:*
"""
LINES = {
    "app:0": [4],
    "app2:0": [11, 13],
    "app2:1": [15, 17, 18, 20],
    "app2:2": [15, 17, 18, 20],
}
# A loop over several roles: the numbers and the lines of its calls, and a plan of it.
SEVERAL = """\
pattern 1
job app
one root
put global k v
commit
many w
for some root,w
get each k
lookup x[each]
end
commit
"""
NUMBERED = [
    ("root", 1, 4), ("root", 2, 5),
    ("w", 1, 8), ("w", 2, 9), ("w", 3, 8), ("w", 4, 9), ("w", 5, 11),
]
SEVERAL_PLAN = """\
rehearsal 2
node n
job app
rank n
put global k v
commit
rank n
get app:0 k
lookup x[app:0]
get app:2 k
lookup x[app:2]
commit
rank n
get app:1 k
lookup x[app:1]
commit
"""


def locate(text: str, plan: Plan) -> dict[str, list[int]]:
    """The lines of a pattern from which the calls of each rank come, by its name."""
    lines = locate_calls(Pattern("it.pattern", text.splitlines()), plan)
    return {
        rank.name: [lines[call] for call in plan.calls_of[rank.name] if call in lines]
        for rank in plan.ranks
    }


class LinesTest(unittest.TestCase):
    """The lines of calls."""

    def test_groups_and_turns(self) -> None:
        self.assertEqual(locate(PATTERN, read_plan(PLAN.encode())), LINES)

    def test_a_loop_over_several_roles(self) -> None:
        """Its lines count once for each of its roles."""
        pattern = Pattern("it.pattern", SEVERAL.splitlines())
        self.assertEqual(list(list_calls(pattern)), NUMBERED)
        self.assertEqual(
            locate(SEVERAL, read_plan(SEVERAL_PLAN.encode())),
            {"app:0": [4, 5], "app:1": [8, 9, 8, 9, 11], "app:2": [8, 9, 11]},
        )

    def test_a_plan_of_another_pattern(self) -> None:
        plan = read_plan(PLAN.replace("get app2:2", "get app2:0").encode())
        self.assertEqual(set(map(len, locate(PATTERN, plan).values())), {0})

    @needs_program
    def test_counterexamples_that_are_shipped(self) -> None:
        count = 0
        for path in FOLDER.glob("*.pattern"):
            ran = report_support.run_checker("check", "--pattern", path)
            if ran.returncode != 1:
                continue
            count, plan, text = count + 1, read_plan(ran.stdout.encode()), report_support.read(path)
            found, lines = locate(text, plan), text.splitlines()
            for rank in plan.ranks:
                verbs = [lines[number - 1].split()[0] for number in found[rank.name]]
                self.assertEqual(verbs, [call.verb for call in plan.calls_of[rank.name]], path)
        self.assertGreater(count, 5)


if __name__ == "__main__":
    unittest.main()
