"""Runs programs with several numbers of ranks, and tests the answers for every number."""
import json
import os
import unittest
from typing import NamedTuple

from tests.support.live import ENVIRONMENT, LiveTest, Ran
from tests.support.tapes import PATIENCE, ask_program, run_recorder


SIZES = "3,4,8"
# Ranks that wait leave the processor to those that they wait for.
YIELDING = {**ENVIRONMENT, "OMPI_MCA_mpi_yield_when_idle": "1"}


class Answered(NamedTuple):
    """What is answered on a program: how many findings, what shows them, and whether it has a call
    that can race."""

    findings: int
    shown: str | None = None
    can_race: bool = True


PROGRAMS = {
    "early": Answered(1, "recording"),
    "told": Answered(0),
    "names": Answered(0),
    "ring": Answered(0, can_race=False),
    "collectives": Answered(0, can_race=False),
}


class SizesTest(LiveTest):
    """The command that runs a program with each number of ranks."""

    def setUp(self) -> None:
        super().setUp()
        if not self.program:
            self.skipTest("there is no built wire_up")
        self.pattern = self.room / "pattern"

    def run_sizes(self, sizes: str, *words: str) -> Ran:
        """Runs the recorder with sizes."""
        assert self.program
        options = ("--sizes", sizes, "--json", "-o", self.pattern, "--checker", self.program)
        return run_recorder(*options, *words, environment=YIELDING, patience=12 * PATIENCE)

    def test_programs(self) -> None:
        assert self.program
        for name, wanted in PROGRAMS.items():
            with self.subTest(name):
                command = ("mpirun", "--oversubscribe", "-n", "{}", self.compile(name))
                ran = self.run_sizes(SIZES, *command)
                self.assertEqual(ran.returncode, int(wanted.findings > 0), ran.stderr)
                said = json.loads(ran.stdout)
                self.assertEqual(len(said["findings"]), wanted.findings)
                self.assertEqual(said.get("shown"), wanted.shown)
                self.assertEqual((said["from"], said["against"]), ([3, 4], [8]))
                is_idle = any(note.startswith("no call of these runs") for note in said["notes"])
                self.assertEqual(is_idle, not wanted.can_race)
                judged = ask_program(self.program, "check", "--pattern", self.pattern)
                self.assertEqual(judged.returncode, ran.returncode)

    def test_a_small_grid(self) -> None:
        """In one each rank hears of all others: where that alone orders calls, the program runs as
        a line too, in which a race shows."""
        words = (self.compile("shapes"), "halo3p", "root")
        ran = self.run_sizes(SIZES, "mpirun", "--oversubscribe", "-n", "{}", *words)
        self.assertEqual(ran.returncode, 1, ran.stderr)
        said = json.loads(ran.stdout)
        self.assertEqual(said["shown"], "recording")
        self.assertEqual(sorted([*said["from"], *said["against"]]), [3, 4, 5, 8])
        self.assertIn("wire_up-record: runs with 5 ranks too, since in a small grid", ran.stderr)

    def test_a_line_that_can_not_run(self) -> None:
        """Then the answer is without it, and says so."""
        program = f"test $1 = 5 || exec mpirun --oversubscribe -n $1 {self.compile('shapes')} $2 $3"
        ran = self.run_sizes(SIZES, "sh", "-c", program, "sh", "{}", "halo3p", "root")
        said = json.loads(ran.stdout)
        self.assertEqual((ran.returncode, said["against"]), (0, [8]), ran.stderr)
        self.assertTrue(any("which a run with 5 would show" in note for note in said["notes"]))
        self.assertIn("the answer is without the run with 5 ranks, which failed", ran.stderr)

    def test_where_in_the_program(self) -> None:
        command = ("mpirun", "--oversubscribe", "-n", "{}", self.compile("early"))
        said = json.loads(self.run_sizes("3,4", *command).stdout)
        for call in said["calls"]:
            self.assertRegex(call["place"], r"^main \(.*early\.c:\d+\)$")

    def test_a_run_that_fails(self) -> None:
        ran = self.run_sizes("3,4", "sh", "-c", "exit $1", "sh", "{}")
        self.assertEqual((ran.returncode, ran.stdout), (125, ""))
        self.assertEqual(
            ran.stderr,
            "wire_up-record: the run with 3 ranks ended with status 3: no pattern is made\n",
        )
        self.assertEqual(os.listdir(self.room), [])

    def test_a_run_that_is_recorded_and_fails(self) -> None:
        """It may fail by its race, which its plan has."""
        started = f"mpirun --oversubscribe -n {{}} {self.compile('ring')}; exit 3"
        ran = self.run_sizes("3,4", "sh", "-c", started)
        self.assertEqual((ran.returncode, ran.stdout), (125, ""))
        said = "with status 3: no pattern is made of it, but without --sizes a plan is\n"
        self.assertTrue(ran.stderr.endswith(said), ran.stderr)
        self.assertEqual(os.listdir(self.room), [])

    def test_a_pattern_that_can_not_be_written(self) -> None:
        """This is found before the command runs."""
        for path in (self.room, self.room / "none" / "pattern"):
            with self.subTest(path):
                self.pattern = path
                ran = self.run_sizes("3,4", "touch", f"{self.room}/ran{{}}")
                self.assertEqual((ran.returncode, ran.stdout), (125, ""))
                self.assertRegex(ran.stderr, f"^wire_up-record: {path}: [^\n]*\n$")
        self.assertEqual(os.listdir(self.room), [])

    def test_another_number_of_processes(self) -> None:
        command = ("mpirun", "--oversubscribe", "-n", "3", self.compile("ring"), "{}")
        ran = self.run_sizes("3,4", *command)
        self.assertEqual((ran.returncode, ran.stdout.count("\n")), (125, 0))
        said = "wire_up-record: the run with 4 ranks has 3 processes\n"
        self.assertTrue(ran.stderr.endswith(said), ran.stderr)


if __name__ == "__main__":
    unittest.main()
