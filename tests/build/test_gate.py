"""How the gate counts tests, and how it reads what its parts print."""
import contextlib
import io
import os
import subprocess
import sys
import tempfile
import unittest
from pathlib import Path
from unittest import mock

from build import ci, plain_tests, test_runs
from build.counted_runs import Ran, run_counted
from build.counts import Counts, counted, counts_in, summed
from build.progress import Progress
from tests import support
from tests.support import needs

# Tests of each sort: five subtests of which two fail, one of which by an error, and one that is
# left out; a test without subtests, one that fails, one that is left out; and a class that is left
# out, and one that can't begin.
TESTS = """
import unittest


class Some(unittest.TestCase):
    def test_subtests(self):
        for number in range(5):
            with self.subTest(number=number):
                if number == 3:
                    raise ValueError("an error")
                self.assertNotEqual(1, number, "a failure")
        with self.subTest("left out"):
            self.skipTest("it is late")

    def test_alone(self):
        pass

    def test_fails(self):
        self.assertTrue(False, "another failure")

    @unittest.expectedFailure
    def test_fails_as_it_must(self):
        self.fail("as it must")

    @unittest.skip("it is late")
    def test_left_out(self):
        pass


class Others(unittest.TestCase):
    @classmethod
    def setUpClass(cls):
        raise unittest.SkipTest("there is nothing")

    def test_it(self):
        pass


class Broken(unittest.TestCase):
    @classmethod
    def setUpClass(cls):
        raise OSError("no place")

    def test_it(self):
        pass
"""


class TestRuns(unittest.TestCase):
    """The counts of tests: two pass, one of which fails as it must; two subtests, a test and a
    class fail."""

    def write_tests(self, text: str) -> Path:
        """The path of a file with these tests, which is alone in its folder."""
        room = tempfile.TemporaryDirectory(prefix="wire-up-")
        self.addCleanup(room.cleanup)
        # (a module of that name is imported once)
        name = Path(room.name).name.replace("-", "_")
        path = Path(room.name, f"test_{name}.py")
        path.write_text(text, encoding="utf-8")
        return path

    def run_plainly(self, text: str) -> tuple[Counts, str]:
        """The counts by unittest, and what is printed."""
        path, said = self.write_tests(text), io.StringIO()
        with contextlib.redirect_stdout(said), mock.patch.object(sys, "stdout", said):
            counts = plain_tests.run_file(str(path), (), path.parent)
        return counts, said.getvalue()

    def test_unittest(self) -> None:
        """What failed and what is left out is told."""
        counts, said = self.run_plainly(TESTS)
        self.assertEqual(Counts(2, 4), counts)
        for what in ("an error", "a failure", "another failure", "no place"):
            self.assertIn(what, said)
        left_out = [line for line in said.splitlines() if line.startswith("left out, as ")]
        self.assertEqual(3, len(left_out), said)

    def test_no_test(self) -> None:
        """A file without a test, or that can't be read, is a failure."""
        for text in "", "import nothing_of_this_name\n", "def broken(:\n":
            with self.subTest(text):
                self.assertEqual(Counts(0, 1), self.run_plainly(text)[0])

    def test_pytest(self) -> None:
        """Side by side and one after another pytest counts the same."""
        python, path = test_runs.find_pytest(), self.write_tests(TESTS)
        if python is None:
            self.skipTest("no python here has pytest")
        for workers in 1, 2:
            words = test_runs.Part("tests", "not alone", workers).words()
            ran = subprocess.run(
                [python, "-m", "pytest", "-c", os.devnull, *words, path],
                cwd=path.parent,
                capture_output=True,
                text=True,
                check=False,
            )
            lines = ran.stdout.splitlines()
            with self.subTest(workers):
                self.assertEqual(Counts(2, 4), test_runs.count(lines, ran.returncode), ran.stdout)
                told = "\n".join(test_runs.told_of(lines))
                for what in ("an error", "another failure", "no place", "it is late"):
                    self.assertIn(what, told)

    def test_broken_off(self) -> None:
        """A run that ends without counts is a failure, and so is one without tests."""
        self.assertEqual(Counts(0, 1), test_runs.count(["Killed"], 137))
        self.assertEqual(Counts(0, 1), test_runs.count(["=== no tests ran in 0.1s ==="], 5))
        slow = "= 3 failed, 1 passed, 2 skipped, 1 error in 83.02s (0:01:23) ="
        self.assertEqual(Counts(1, 4), test_runs.count([slow], 1))

    def test_files_are_found(self) -> None:
        """The files are those that unittest finds."""
        here = str(Path(__file__).relative_to(support.TOP))
        self.assertIn(here, test_runs.test_files())

    def test_markers(self) -> None:
        """A class has its markers and those of all its bases, and a method its own."""

        class Below:
            @needs.proves
            def test_it(self) -> None:
                pass

        above = needs.alone(type("Above", (needs.needs_mpi(Below), unittest.TestCase), {}))
        self.assertEqual({"alone", "needs_mpi"}, needs.markers_of(above))
        self.assertEqual({"proves"}, needs.markers_of(Below.test_it))
        self.assertEqual(frozenset(), needs.markers_of(unittest.TestCase))


class CountedRuns(unittest.TestCase):
    """What comes of a program whose last line is its counts."""

    def test_counts(self) -> None:
        ran = run_counted("it", ["timeit", "-n1", "-r1", "-s", "print('1 passed, 2 failed')"], {})
        self.assertEqual(Counts(0, 1), ran.counts)
        self.assertIn("without counts", ran.said)

    def test_told_again(self) -> None:
        """Of what failed the last lines are told again, and of what passed nothing."""
        said = "".join(f"line {number}\n" for number in range(20))
        told = Ran("it", said, Counts(1, 2)).failures()
        self.assertEqual(("it: 2 failed", "  line 19", 9), (told[0], told[-1], len(told)))
        self.assertEqual([], Ran("it", said, Counts(3, 0)).failures())

    def test_sums(self) -> None:
        self.assertEqual(Counts(4, 3), summed([Counts(1, 2), Counts(3, 1)]))
        self.assertEqual(Counts(2, 1), counted([True, False, True]))
        self.assertEqual((Counts(1, 2), None), (counts_in("1 passed, 2 failed"), counts_in("1 x")))


class RtCi(unittest.TestCase):
    """What is read of `rt ci`."""

    def test_course(self) -> None:
        """A crate is proved once its line says so, and its tests don't count as another."""
        course = ci.Course(Progress("it", 1), 3)
        for line in (
            "rt: low proved",
            "rt: low: its tests are proved",
            "rt: high is kept",
            "40 passed, 1 failed",
        ):
            course.take(line)
        self.assertEqual((2, Counts(40, 1)), (course.proved, course.counts))
        course.take("rt: something after the counts")
        self.assertIsNone(course.counts)

    def test_reasons(self) -> None:
        """Of each crate that isn't proved all is told, and of the others nothing."""
        with tempfile.NamedTemporaryFile("w", encoding="utf-8") as log:
            log.write("== low\nof low\nrt: low proved\n== high\nof high\nstatements 3\n")
            log.write("rt: high NOT PROVED\nthe end\n")
            log.flush()
            told = ci.reasons(Path(log.name))
        self.assertEqual("of high\nrt: high NOT PROVED\nthe end\n", told)


if __name__ == "__main__":
    unittest.main()
