"""Tests what `make record-suite` reads and says, without the suite itself."""
import tempfile
import unittest
from pathlib import Path

from build.record_suite import Tried, count_row, make_table, tell
from build.suite.source import SuiteProgram, read_list
from build.suite.trying import CRASHED, Outcome, Ran, why_different

LIST = """\
# programs
sendrecv1 4
bcast 4 arg=-n arg=3 env=NAME=value timeLimit=600

early 2 strict=true
wrong 2 xfail=ticket1
alone
!../util:lib
"""
PROGRAM = SuiteProgram("pt2pt", "ring", 4, [], {})


def make_run(status: int, wrote: str, said: str = "") -> Ran:
    """A run of a program."""
    return Ran(status, wrote, said, 1.0)


class SuiteTest(unittest.TestCase):
    """Lists of programs, runs that are compared, and the table."""

    def test_list(self) -> None:
        read = [*read_list("pt2pt", LIST)]
        self.assertEqual(
            [suite_program.name for suite_program in read], ["sendrecv1", "bcast", "alone"]
        )
        self.assertEqual([suite_program.processes for suite_program in read], [4, 4, 2])
        self.assertEqual((read[1].words, read[1].variables), (["-n", "3"], {"NAME": "value"}))

    def test_differences(self) -> None:
        plain = make_run(0, "b\na took 1.5 s\n")
        for other, said in (
            (make_run(0, "a took 2 s\nb\n", "wire_up-record: in part\n"), ""),
            (make_run(1, "a took 2 s\nb\n"), "status 1, not 0"),
            (make_run(125, "a took 2 s\nb\n", "wire_up-record: no plan\n"), ""),
            (make_run(0, "a took 2 s\nc\n"), "output: c"),
        ):
            with self.subTest(said):
                self.assertEqual(why_different(plain, other), said)

    def test_crashes(self) -> None:
        """Where a process crashed is said in other words with the recorder."""
        plain, recorded = (
            make_run(
                139,
                "",
                f"[n0:{number}] {CRASHED}\n[n0:{number}] [ {number}] a(+0x{number})[0x2]\n"
                * number,
            )
            for number in (1, 2)
        )
        self.assertEqual(why_different(plain, recorded), "")
        self.assertNotEqual(why_different(make_run(139, ""), recorded), "")

    def test_table(self) -> None:
        outcomes = [
            Outcome(PROGRAM, findings=0, is_replayed=True),
            Outcome(PROGRAM, findings=2, differs="status 1, not 0"),
            Outcome(PROGRAM, "isn't built"),
        ]
        row = ["pt2pt", "3", "1", "2", "0", "1", "1", "1", "0", "0", "0"]
        self.assertEqual(count_row("pt2pt", outcomes), row)
        self.assertEqual([text.split() for text in make_table(outcomes)][1], row)
        self.assertEqual(
            tell(outcomes[1]),
            ["pt2pt/ring on 4: differs: status 1, not 0", "pt2pt/ring on 4: findings: 2"],
        )

    def test_what_is_kept(self) -> None:
        with tempfile.TemporaryDirectory(prefix="wire-up-") as room:
            kept = Outcome(PROGRAM, findings=1, seconds=2.0)
            Tried(Path(room)).keep(kept)
            self.assertEqual(Tried(Path(room)).found, {PROGRAM.title: kept})


if __name__ == "__main__":
    unittest.main()
