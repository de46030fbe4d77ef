"""Tests the recordings that the repository has: their plans have the findings that they must have,
and are replayed as the programs ran."""
import os
import tempfile
import unittest
from pathlib import Path

from tests import support
from tests.support import tapes
from tests.support.needs import needs_program
from tests.support.recorded import SHIPPED, why_wrong
from tests.support.tapes import LIBRARIES, run_recorder


# What is said of libraries of each plan, with the order of MPI, but of those that are listed: 4.2
# sometimes doesn't end a fence of two jobs.
PORTABLE = "wire_up-record: portable for OpenPMIx 4.2, 5.0 and 7.0"
LESS = {"spawn": "wire_up-record: portable for OpenPMIx 5.0 and 7.0, for no other by 1 call"}


def find_program() -> str | None:
    """The built program; None where there is none."""
    try:
        return support.program()
    except unittest.SkipTest:
        return None


class ShippedTest(unittest.TestCase):
    """Plans of recordings of the repository."""

    def setUp(self) -> None:
        room = tempfile.TemporaryDirectory(prefix="wire-up-")
        self.addCleanup(room.cleanup)
        self.plan, self.answers = (Path(room.name, word) for word in ("plan", "answers"))
        self.program = find_program()

    def hold(self, name: str, with_mpi: bool, count: int) -> None:
        """Tests the plan of a recording, with or without MPI's order."""
        is_without_doubt = not with_mpi and name in (
            "plugin",
            "closed",
            "failed",
            "opened",
            "unsent",
        )
        of = SHIPPED[name]
        said = "" if is_without_doubt else of.says_in_part + of.says_left_out
        words = ["--checker", self.program or "/dev/null", *([] if with_mpi else ["--no-mpi"])]
        words += ["--from", str(tapes.SHIPPED / name)]
        texts = ("-o", self.plan, "--answers", self.answers)
        ran = run_recorder(*texts, *words, says_libraries=True)
        self.hold_libraries(name, ran.stderr, with_mpi)
        ran.stderr = LIBRARIES.sub("", ran.stderr)
        said += of.says_otherwise(with_mpi, self.program is not None)
        said += of.tested + of.says_both if with_mpi and self.program else ""
        self.assertEqual((ran.returncode, ran.stderr), (0, said))
        if self.program:
            wrong = why_wrong(self.program, self.plan, self.answers, count, of.is_replayed)
            self.assertIsNone(wrong)

    def hold_libraries(self, name: str, said: str, with_mpi: bool) -> None:
        """Tests for which libraries the plan is said to be portable, and that the one which was
        recorded is among them, if it is judged."""
        if self.program and with_mpi:
            told = said.splitlines()[-1]
            self.assertTrue(told.startswith(LESS.get(name, PORTABLE)), told)
            self.assertEqual(name in LESS, "is none of these" in told, told)

    def test_all_are_known(self) -> None:
        found = [entry.name for entry in os.scandir(tapes.SHIPPED) if entry.is_dir()]
        self.assertEqual(sorted(found), sorted(SHIPPED))

    def test_with_mpi(self) -> None:
        for name, program in SHIPPED.items():
            with self.subTest(name):
                self.hold(name, True, program.findings)

    def test_without_mpi(self) -> None:
        for name, program in SHIPPED.items():
            with self.subTest(name):
                self.hold(name, False, program.without_mpi)

    @needs_program
    def test_the_plans_are_checked(self) -> None:
        """Says so where the others only make them."""
        support.program()


if __name__ == "__main__":
    unittest.main()
