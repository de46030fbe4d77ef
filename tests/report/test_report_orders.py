"""Tests that diagrams show the calls of a plan in the order that `wire_up why` tells."""
import random
import unittest

from wire_up_tools.plan import Call
from wire_up_tools.plan_reading import read_plan
from wire_up_tools.report.orders import Order, find_order
from tests.support import report_support

# About how many pairs of calls of a plan `why` is asked.
ASKED = 8


def name_order(order: Order, one: Call, other: Call) -> str:
    """How two calls are ordered in a report, in the words of `why`."""
    if order.is_before(one, other):
        return "before"
    return "after" if order.is_before(other, one) else "unordered"


def ask_why(name: str, one: Call, other: Call) -> str | None:
    """The first word of `why` about two calls of a plan; None if one of them is dead."""
    words = [*report_support.list_options(name), *one.name.split(), *other.name.split()]
    said = report_support.run_checker("why", *words, report_support.find_plan(name)).stdout
    return None if "dead" in said else said.split("\n")[0]


@report_support.for_each_plan
class OrdersTest(report_support.PlanCase):
    """The order of some pairs of calls of each plan."""

    def check(self, name: str) -> None:
        order = find_order(read_plan(report_support.find_plan(name).read_bytes()))
        pick = random.Random(name)
        for _ in range(ASKED if order.plan.calls else 0):
            self.check_pair(name, order, *pick.choices(order.plan.calls, k=2))

    def check_pair(self, name: str, order: Order, one: Call, other: Call) -> None:
        """Tests how two calls are ordered, and that the one before stands above the other."""
        said, pair = ask_why(name, one, other), f"{one.name} and {other.name}"
        if said is not None:
            self.assertEqual(name_order(order, one, other), said, pair)
        if said == "before":
            self.assertLess(order.depth_of(one), order.depth_of(other), pair)


if __name__ == "__main__":
    unittest.main()
