"""Tests how `wire_up-report` takes findings in their groups from the checker."""
import unittest
from unittest import mock

from wire_up_tools.checker import Checker
from wire_up_tools.plan_reading import read_plan
from wire_up_tools.report import findings
from wire_up_tools.report.asking import Asker
from wire_up_tools.report.findings import Group
from tests import support
from tests.support import report_support
from tests.support.needs import needs_program


def describe(group: Group) -> list[str]:
    """All that a group has, in words."""
    pairs = [
        " ".join(call.name for call in finding.calls) for finding in (group.first, *group.others)
    ]
    one = group.first
    return [str(group.count), str(one.owner), one.kind.value, one.about, *one.verbs, *pairs]


@needs_program
@report_support.for_each_plan
class GroupsTest(report_support.PlanCase):
    """The groups of each plan are the same by the JSON, and by the lines that `check` writes."""

    def check(self, name: str) -> None:
        data = report_support.find_plan(name).read_bytes()
        plan = read_plan(data)
        asker = Asker(Checker(support.program(), bool(report_support.list_options(name))), data)
        found = [describe(group) for group in findings.find_groups(asker, plan)]
        with mock.patch.object(findings, "READ_AS_JSON", 0):
            self.assertEqual(
                [describe(group) for group in findings.find_groups(asker, plan)], found
            )


@needs_program
class ManyTest(unittest.TestCase):
    """No more groups are read than are to be read."""

    def test_only_the_first(self) -> None:
        data = report_support.find_plan("manygroups").read_bytes()
        asker = Asker(Checker(support.program()), data)
        with mock.patch.object(findings, "MOST_GROUPS", 5):
            groups = findings.find_groups(asker, read_plan(data))
        self.assertEqual(
            [group.first.about for group in groups], [f"key{number}" for number in range(5)]
        )


if __name__ == "__main__":
    unittest.main()
