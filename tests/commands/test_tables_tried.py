"""Runs plans of the tables in rows/ by a build without proofs, which has run-time checks in their
place, and compares what comes of it with what stands there.

WIRE_UP_TRIED names the tables, such as `fences names`, or is `all`:

    WIRE_UP_TRIED=fences python3 -m unittest tests.commands.test_tables_tried

It runs `check`, `replay`, `why`, `witness`, `migrate` and `place` of the plans that are no larger
than a few lines. Their statuses and what they write are compared, and not their lines of fault. All
tables take ten minutes.
"""
import os
import re
import tempfile
import unittest
from pathlib import Path

from build.trying import run_cases
from tests import support
from tests.rows import Large, Row
from tests.support.needs import proves
from tests.support.row_runs import NAMES, Ended, RowRun, RowRuns, rows_of
from tests.support.running import written

COMMANDS = {"check", "replay", "why", "witness", "migrate", "place"}
# How a case ended, and with which status.
CASE = re.compile(r"^case=(\S+) run=(\S+) (?:status=(\d+))?(.*)$", re.M)
DIFFERS = "output=differs"


class Tried(RowRuns):
    """The runs of rows that read one small file."""

    def run(self, words: list[str], plan: bytes) -> Ended:
        """Nothing can be run before all is known."""
        return Ended()

    def runs_of(self, row: Row) -> list[RowRun]:
        if isinstance(row, Large):
            return []
        return [run for run in super().runs_of(row) if run.words[0] in COMMANDS and run.plan]


def tables() -> list[str]:
    """The tables that are asked for."""
    names = os.environ.get("WIRE_UP_TRIED", "").split()
    if not names:
        raise unittest.SkipTest("it takes long: WIRE_UP_TRIED names the tables to run")
    return NAMES if names == ["all"] else names


@proves
class TriedTables(unittest.TestCase):
    """The tables that are asked for."""

    def runs(self, room: Path) -> dict[str, RowRun]:
        """All runs, by what they are called."""
        found = {}
        for table in tables():
            for row in rows_of(table):
                for number, run in enumerate(Tried(room).runs_of(row)):
                    words = " ".join(run.words)
                    found[f"{table}: {row.name}: {words}, {number}"] = run
        return found

    def test_rows(self) -> None:
        with tempfile.TemporaryDirectory() as other, tempfile.TemporaryDirectory() as folder:
            room = Path(folder)
            runs = self.runs(Path(other))
            for number, run in enumerate(runs.values()):
                written(room, f"run{number}", run.plan)
                words = "".join(f"{word}\n" for word in run.words)
                written(room, f"run{number}.args", words.encode())
                written(room, f"run{number}.stdout", run.ended.wrote)
            ran = run_cases(room, support.TOP)
        ends = {hit[1]: hit for hit in CASE.finditer(ran.stdout + ran.stderr)}
        self.assertTrue(ends, f"{ran.stdout}{ran.stderr}")
        for number, (name, run) in enumerate(runs.items()):
            with self.subTest(name):
                end = ends.get(f"run{number}")
                self.assertIsNotNone(end, "did not run")
                if end:
                    wanted = "ended", str(run.ended.status)
                    self.assertEqual(wanted, (end[2], end[3]), end[4])
                    self.assertNotIn(DIFFERS, end[4])


if __name__ == "__main__":
    unittest.main()
