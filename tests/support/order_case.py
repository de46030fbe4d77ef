"""Recordings, and the order of the lines that they must become."""
import unittest

from tests.support.tapes import Recordings, Scripts, read_scripts, write_plan_of


MARK = "publish blocks m=text:x -"
COLLECTS = "pmix.collect=number:1:1"
BARRIER = ("collective barrier 1", "0 all")
# Lines of the messages between ranks 0 and 1, by their number.
SENT, WAITS = "publish mpi.0.1.{} sent", "lookup-wait mpi.0.1.{}"


class OrderTest(unittest.TestCase):
    """A test that recordings become lines."""

    def become(self, tapes: Recordings, scripts: Scripts, comment: str | None = None) -> None:
        """Tests that tapes become the scripts of a plan, with a comment."""
        plan = write_plan_of(tapes)
        self.assertEqual(read_scripts(plan), [[*script] for script in scripts])
        self.assertIn(comment or "", plan)
