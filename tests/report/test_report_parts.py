"""Tests the parts of a large plan: each is asked by itself, and together they tell the same."""
import unittest
from unittest import mock

from wire_up_tools.checker import Checker
from wire_up_tools.plan_reading import read_plan
from wire_up_tools.report import plan_parts
from wire_up_tools.report.asking import Asker
from wire_up_tools.report.replies import Replies, find_replies
from tests import support
from tests.support.needs import needs_program

RANKS, GETS = 3, 100
# Bytes of gets of a part: there are seven.
FEW = 800


def write_plan() -> bytes:
    """A plan in which each rank asks for many keys, some of which nobody puts, and the last waits
    for ever before it asks again."""
    lines = ["# Not the header.", "rehearsal 2", "node n0", "node n1", "job app"]
    for rank in range(RANKS):
        lines += [f"rank n{rank % 2}", "put global k v", "commit", "fence all collect"]
        lines += [
            f"get-now app:{(rank + number + 1) % RANKS} k"
            for number in range(GETS)
            if number % 3 != 2
        ]
        lines += ["get-now app:0 none", "get-now app:1 none"]
        lines += [f"get-now app:{(rank + 1) % RANKS} none"] * GETS
    lines += ["get app:0 never", *["get-now app:0 k"] * GETS]
    return "".join(f"{line}\n" for line in lines).encode()


class PartsTest(unittest.TestCase):
    """What parts have, and what is told of them."""

    def setUp(self) -> None:
        self.data = write_plan()
        self.plan = read_plan(self.data)

    def list_parts(self) -> list[plan_parts.PlanPart]:
        """The parts of the plan, which are small."""
        with mock.patch.object(plan_parts, "PART_BYTES", FEW):
            return list(plan_parts.list_parts(self.plan, self.data))

    def test_each_call_is_told_once(self) -> None:
        parts = self.list_parts()
        self.assertGreater(len(parts), 3)
        told = []
        for part in parts:
            self.assertLess(len(part.data), len(self.data) // 2)
            for call in read_plan(part.data).calls:
                number = part.find_number(call.rank.name, call.number)
                if number:
                    told.append((call.rank.name, number))
                    of_plan = self.plan.find_call(call.rank.name, number)
                    self.assertEqual(list(of_plan.words), list(call.words))
        every = [(each_call.rank.name, each_call.number) for each_call in self.plan.calls]
        self.assertEqual(sorted(told), sorted(every))

    @needs_program
    def test_a_value_that_is_named_like_a_reply(self) -> None:
        lines = ["rehearsal 1", "node n", "job app", "rank n", "put global k PMIX_SUCCESS"]
        # (As many replies and values that are named so as there are lines.)
        lines += ["commit", "get app:0 k", "get app:0 k", "get-now app:0 none"]
        data = "".join(f"{line}\n" for line in lines).encode()
        replies = find_replies(Asker(Checker(support.program()), data), read_plan(data))
        self.assertEqual([failure.call.number for failure in replies.failures], [5])

    def test_a_plan_that_is_not_large_is_one_part(self) -> None:
        (part,) = plan_parts.list_parts(self.plan, self.data)
        self.assertEqual((part.data, part.find_number("app:1", 7)), (self.data, 7))

    @needs_program
    def test_the_replies_are_the_same(self) -> None:
        asker = Asker(Checker(support.program()), self.data)
        whole = find_replies(asker, self.plan)
        with mock.patch.object(plan_parts, "PART_BYTES", FEW):
            parts = find_replies(asker, self.plan)
        self.assertGreater(whole.failed, RANKS * GETS)
        self.assertEqual(whole.waiting_at["app:2"], 3 + GETS * 2 // 3 + 1 + 2 + GETS + 1)
        self.assertEqual(self.tell(whole), self.tell(parts))

    def tell(self, replies: Replies) -> tuple[object, ...]:
        """What is told of the calls, but for which of those that fail are listed."""
        return replies.waiting_at, replies.failed, len(replies.failures)


if __name__ == "__main__":
    unittest.main()
