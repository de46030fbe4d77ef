"""Runs each plan of the tables in rows/ by the built program, and compares what comes of it with
what stands there. rows/__init__.py says what a row of each sort holds. Each row is run by all
commands that it tells of:

- `check` finds what stands there. Where that is nothing, `replay` writes the report of the plain
  run, with one worker and with two.
- The plain run has its report. The canonical text of the plan has the same report, and is its own
  canonical text. (These are functions of the library by themselves: crates/one_function runs them.)
- As `migrate` writes the plan under version 2, it has the same findings and the same report, and is
  migrated to itself.
- `place` writes the plan that stands there, and the same again from that one.
- What is refused has one line of fault and the status of that fault, and nothing is written.

`python3 -m unittest tests.commands.test_tables -k fences` runs one table.
"""
import concurrent.futures
import os
import subprocess
import unittest
from pathlib import Path

from tests import support
from tests.rows import Row
from tests.support.row_runs import NAMES, PLAIN, READ, Ended, RowRun, RowRuns, rows_of
from tests.support.running import SECONDS, ProgramCase


class Started(RowRuns):
    """The runs of rows by the built program."""

    def __init__(self, program: str, parts: str, room: Path) -> None:
        super().__init__(room)
        self.program, self.parts = program, parts

    def run(self, words: list[str], plan: bytes) -> Ended:
        """Runs the program, or a function by itself."""
        program = self.parts if words[0] in (PLAIN, READ) else self.program
        ran = subprocess.run(
            [program, *words], input=plan, capture_output=True, timeout=SECONDS, check=False
        )
        return Ended(ran.returncode, ran.stdout, ran.stderr)

    def ends_of(self, row: Row) -> list[tuple[RowRun, Ended]]:
        """Each run of a row, and how it ended."""
        return [(run, self.run(run.words, run.plan)) for run in self.runs_of(row)]


class Tables(ProgramCase):
    """The tables, each a test."""

    def hold_table(self, name: str) -> None:
        parts, room = support.parts(), self.room / name
        room.mkdir()
        rows, started = rows_of(name), Started(self.program, parts, room)
        with concurrent.futures.ThreadPoolExecutor(os.cpu_count()) as pool:
            ended = list(pool.map(started.ends_of, rows))
        for row, ends in zip(rows, ended):
            for number, (run, end) in enumerate(ends):
                with self.subTest(row.name, words=" ".join(run.words), number=number):
                    self.assertTrue(run.fits(end), f"ended so: {str(end)[:600]}")

    def test_all(self) -> None:
        """Each table has a test."""
        tests = {text for text in dir(self) if text.startswith("test_")}
        self.assertEqual({"test_all", *(f"test_{name}" for name in NAMES)}, tests)

    def test_reports(self) -> None:
        self.hold_table("reports")

    def test_fences(self) -> None:
        self.hold_table("fences")

    def test_names(self) -> None:
        self.hold_table("names")

    def test_keeps(self) -> None:
        self.hold_table("keeps")

    def test_sweeps(self) -> None:
        self.hold_table("sweeps")

    def test_findings(self) -> None:
        self.hold_table("findings")

    def test_refusals(self) -> None:
        self.hold_table("refusals")

    def test_follows(self) -> None:
        self.hold_table("follows")

    def test_questions(self) -> None:
        self.hold_table("questions")

    def test_texts(self) -> None:
        self.hold_table("texts")

    def test_limits(self) -> None:
        self.hold_table("limits")

    def test_witnesses(self) -> None:
        self.hold_table("witnesses")

    def test_forms(self) -> None:
        self.hold_table("forms")

    def test_placed(self) -> None:
        self.hold_table("placed")

    def test_anywhere(self) -> None:
        self.hold_table("anywhere")


if __name__ == "__main__":
    unittest.main()
