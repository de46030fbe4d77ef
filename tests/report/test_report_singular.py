"""Tests how a report says what the head of a recorded plan counts, where that is one."""
import unittest

from wire_up_tools.report.singular import say_counted

SAID = {
    "2 receives that failed": "2 receives that failed",
    "11 calls of MPI_Put": "11 calls of MPI_Put",
    "1 gets of the own store: in the plan they find all": "1 get of the own store: in the plan it "
    "finds all",
    "1 publishes of no key, or of reserved keys": "1 publish of no key, or of reserved keys",
    "1 receives that failed": "1 receive that failed",
    "1 receives that were the first of several requests":
        "1 receive that was the first of several requests",
    "1 calls of MPI_Iprobe that found nothing": "1 call of MPI_Iprobe that found nothing",
    "1 processes that called from several threads: their calls stand in the order in which they "
    "began": "1 process that called from several threads: its calls stand in the order in which it "
    "began",
    "1 names that go away by themselves (pmix.persist): in the plan they stay":
        "1 name that goes away by itself (pmix.persist): in the plan it stays",
    "1 names that go away with their application, and that another looks up: in the plan they stay":
        "1 name that goes away with its application, and that another looks up: in the plan it "
        "stays",
    "1 values that aren't text: their size in bytes stands for them, where it is known":
        "1 value that isn't text: its size in bytes stands for it, where it is known",
}


class SingularTest(unittest.TestCase):
    """Lines that begin with a count."""

    def test_lines(self) -> None:
        for line, said in SAID.items():
            self.assertEqual(say_counted(line), said)


if __name__ == "__main__":
    unittest.main()
