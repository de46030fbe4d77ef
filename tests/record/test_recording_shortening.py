"""Tests what a plan of a long recording leaves out."""
import time
import tracemalloc
import unittest

from tests.support.needs import alone
from tests.support.order_case import BARRIER, COLLECTS, MARK, SENT, WAITS
from tests.support.tapes import make_world, read_scripts, write_plan_of


# How many messages have tags of their own, and how long their plan may take, in seconds of a
# processor: some ten times what it takes.
TAGS, MOST_SECONDS = 20_000, 30
# How many bytes each of them may take: twice what it takes.
MOST_BYTES = 550


@alone
class ShorteningTest(unittest.TestCase):
    """What a plan that would be too long loses."""

    def test_many_messages(self) -> None:
        """Those that order nothing go, and the rest stays in order."""
        tapes = make_world(2)
        tapes[0].call("publish blocks m0=text:x -")
        for _ in range(10000):
            tapes[0].begin("send 1 1 0 4")
            tapes[1].call("receive 1", "0 0 0 4")
        tapes[1].call("lookup blocks :m0 -", "0 m0=text:x")
        for tape in tapes:
            tape.call(*BARRIER)
        plan = write_plan_of(tapes)
        first, second = ["publish m0 x", SENT.format(1)], [WAITS.format(1), "lookup m0"]
        self.assertEqual(read_scripts(plan), [first, second])
        self.assertIn("lines of MPI's order", plan)

    def test_a_tag_for_each_message(self) -> None:
        """Many messages of any source, each with a tag of its own, take no longer for each."""
        tapes = make_world(3)
        for tag in range(TAGS):
            tapes[1 + tag % 2].begin(f"send 1 0 {tag} 4")
            tapes[0].call(f"receive 1 any {tag}", f"0 {1 + tag % 2} {tag} 4")
        tapes[1].call(MARK)
        tapes[2].call("lookup blocks :m -", "-46 -")
        texts, before = [tape.text() for tape in tapes], time.process_time()
        plan = write_plan_of(texts)
        self.assertLess(time.process_time() - before, MOST_SECONDS)
        self.assertEqual(read_scripts(plan), [[], ["publish m x"], ["lookup m"]])
        self.assertIn(f"{TAGS} lines of MPI's order, since they can't change a finding", plan)

    def test_memory_of_a_tag_for_each_message(self) -> None:
        tapes = make_world(2)
        for tag in range(TAGS):
            tapes[1].begin(f"send 1 0 {tag} 4")
            tapes[0].call(f"receive 1 any {tag}", f"0 1 {tag} 4")
        texts = [tape.text() for tape in tapes]
        tracemalloc.start()
        self.addCleanup(tracemalloc.stop)
        write_plan_of(texts)
        self.assertLess(tracemalloc.get_traced_memory()[1] / TAGS, MOST_BYTES)

    def test_many_gets(self) -> None:
        """Those of what is surely there go, and those alone: not one that waits for something, one
        that doesn't wait, or one of a key that is put twice and races with nothing."""
        tapes = make_world(3)
        for tape in tapes:
            tape.call("put global k text:v").call("commit").call(f"fence blocks all {COLLECTS}")
        tapes[0].call("put global late text:v").call("commit")
        for _ in range(9000):
            tapes[1].call("get blocks job:0 :late -", "0 text:v")
            tapes[1].call("get blocks job:2 :k -", "0 text:v")
        tapes[2].call("get blocks job:0 :late pmix.immediate=number:1:1", "-46")
        plan = write_plan_of(tapes)
        begins = ["put global k v", "commit", "fence all collect"]
        wanted = [["put global late v", "commit"], ["get app:0 late"], ["get-now app:0 late"]]
        self.assertEqual(read_scripts(plan), [begins + row for row in wanted])
        self.assertIn("17999 gets, since they can't change a finding", plan)


if __name__ == "__main__":
    unittest.main()
