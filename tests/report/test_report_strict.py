"""Tests what a report says of races that are found with --strict alone, and that the head of a
recorded plan names them."""
import subprocess
import sys
import tempfile
import unittest
from pathlib import Path

from wire_up_tools.plan_reading import read_plan
from wire_up_tools.report.strict import find_strict
from tests import support
from tests.support import Word, report_support
from tests.support.needs import needs_program

# A rank that was told by a poll publishes a name, and the other looks it up.
RECORDING = report_support.RECORDINGS / "answer"
RACE = "race app:0 14 app:1 13 name port"
TITLE = "With --strict alone"


@needs_program
class StrictTest(unittest.TestCase):
    """A recording of which the verdicts with and without --strict differ."""

    def setUp(self) -> None:
        room = tempfile.TemporaryDirectory(prefix="wire-up-report-")
        self.addCleanup(room.cleanup)
        self.plan = Path(room.name, "it.plan")

    def record(self, *options: str) -> str:
        """The plan of the recording."""
        words: list[Word] = ["--checker", support.program(), "-o", self.plan, *options]
        command = [sys.executable, report_support.RECORDER, *words, "--from", RECORDING]
        subprocess.run(command, capture_output=True, check=True, timeout=report_support.SECONDS)
        return report_support.read(self.plan)

    def test_the_head_names_the_race(self) -> None:
        text = self.record()
        verdicts = "# Verdicts: findings 0, and findings 1 with --strict\n"
        self.assertIn(f"{verdicts}# Found with --strict alone:\n#   {RACE}\n", text)
        (race,) = find_strict(read_plan(text.encode()))
        self.assertEqual([call.verb for call in race.calls], ["publish", "lookup"])

    def test_the_page_tells_it(self) -> None:
        self.record()
        text = report_support.run_report("--text", self.plan)
        page = report_support.run_report("-o", "-", self.plan)
        self.assertEqual((text.returncode, page.returncode), (0, 0), text.stderr + page.stderr)
        for said in (text.stdout, page.stdout):
            self.assertIn(TITLE, said)
            self.assertIn("wire_up-record --strict -o strict.plan --from runs", said)
        self.assertIn("app:0 14 PMIx_Publish, it.plan:43", " ".join(text.stdout.split()))
        self.assertIn(">it.plan:43</a>", page.stdout)

    def test_a_strict_plan_has_it_itself(self) -> None:
        self.assertNotIn(TITLE, self.record("--strict").replace("Found w", "W"))
        text = report_support.run_report("--text", self.plan)
        self.assertEqual(text.returncode, 1)
        self.assertNotIn(TITLE, text.stdout)

    def test_a_line_that_names_no_call(self) -> None:
        text = self.record()
        for line in (RACE.replace("14", "99"), "race app:0 x app:1 13 name port", "race app:0 14"):
            plan = read_plan(text.replace(RACE, line).encode())
            self.assertEqual(find_strict(plan), [])


if __name__ == "__main__":
    unittest.main()
