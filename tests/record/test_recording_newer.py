"""Runs the live tests of the recorder with the MPI and PMIx of a newer Debian, in a folder that
`make newer-root` makes, and some programs under other launchers. Where there is none, they are left
out."""
import re
import unittest

from tests import support
from tests.support.newer import NewerCase


TESTS = ["python3", "-m", "unittest", "-v", "tests.record.test_recording_live"]
LAUNCHERS = ["prterun", "prun", "srun"]
# Of the tests that show races in programs.
SHOWN = (
    "ShownTest.test_messages_of_any_source",
    "ShownTest.test_another_branch_and_another_end",
    "TurnedTest.test_orders_that_programs_keep",
    "TurnedTest.test_a_get_with_a_limit",
    "TurnedTest.test_calls_that_the_plan_leaves_out",
    "CommandTest.test_signals_in_the_middle",
    "CommandTest.test_another_launcher",
)


class NewerTest(NewerCase):
    """The live tests in the folder."""

    def test_live(self) -> None:
        """All of them succeed; what they leave out is said."""
        ran = self.run_inside("mpirun", TESTS)
        self.assertEqual(ran.returncode, 0, ran.stderr[-3000:])
        print(*re.findall(r"skipped ['\"].*|^OK.*$", ran.stderr, re.M), sep="\n")

    def test_launchers(self) -> None:
        """Programs do the same recorded under launchers that the live tests don't take."""
        support.program()
        words = ["python3", "-m", "tests.programs.hold_launchers", *LAUNCHERS]
        ran = self.run_inside("prterun", words)
        self.assertEqual(ran.returncode, 0, ran.stdout[-6000:] + ran.stderr[-3000:])

    def test_shown(self) -> None:
        """Races are shown, orders are turned round, and signals end it, there too; and under other
        launchers, on two nodes."""
        support.program()
        under = ["python3", "-m", "tests.programs.show_launchers", "mpirun:2", "prterun:2", "srun"]
        ran = self.run_inside("prterun", under)
        self.assertEqual(ran.returncode, 0, ran.stdout[-6000:] + ran.stderr[-3000:])
        tests = [f"tests.record.test_recording_showing.{text}" for text in SHOWN]
        ran = self.run_inside("prterun", ["python3", "-m", "unittest", "-v", *tests])
        self.assertEqual(ran.returncode, 0, ran.stderr[-3000:])


if __name__ == "__main__":
    unittest.main()
