"""Tests that a report of a large plan takes little more time and memory than the checker does."""
import os
import subprocess
import sys
import tempfile
import unittest
from pathlib import Path

from build.timing import Command, Taken, run
from tests import support
from tests.support import report_support
from tests.support.needs import alone, needs_program

# The nodes and ranks of the exchange of cards: a plan of 86 MB with 4 million gets.
NODES, RANKS = 8, 2000
# How many times the checker's own processor time a report may take, and how much memory, in KiB.
TIMES, MOST = 10, 500 * 1000 * 1000 // 1024


def write_cards(path: Path) -> str:
    """Writes the exchange of cards. Answers the path."""
    maker = str(report_support.EXAMPLES / "cards.py")
    with path.open("wb") as to:
        words = [sys.executable, maker, str(NODES), str(RANKS)]
        subprocess.run(words, stdout=to, check=True)
    return str(path)


@needs_program
@alone
class CardsTest(unittest.TestCase):
    """The report of an exchange of cards, with the runs of the checker."""

    check: Taken
    report: Taken

    @classmethod
    def setUpClass(cls) -> None:
        program = support.program()
        with tempfile.TemporaryDirectory(prefix="wire-up-report-") as room:
            plan = write_cards(Path(room, "cards.plan"))
            cls.check = run(Command([program, "check", "--large", plan]))
            words = [sys.executable, report_support.COMMAND, "--checker", program]
            words += ["--large", "-o", os.devnull, plan]
            cls.report = run(Command(words))

    def test_the_time(self) -> None:
        self.assertLess(self.report.processor, TIMES * self.check.processor)

    def test_the_memory(self) -> None:
        self.assertLess(self.report.size, MOST)


if __name__ == "__main__":
    unittest.main()
