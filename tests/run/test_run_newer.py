"""Runs plans on the libraries of a newer Debian, in a folder that `make newer-root` makes: OpenPMIx
5 under PRRTE, and under Slurm. Where there is none, they are left out."""
import re
import unittest

from tests.support.newer import NewerCase


LIVE = ["tests.run.test_run_live", "tests.run.test_run_failures", "tests.run.test_run_ending"]
HOLD = ["python3", "-m", "tests.programs.hold_library"]
SLURM_NODES = ["python3", "-m", "tests.support.slurm_nodes"]
# Some random plans, the same in each gate.
RANDOM = ["1", "10"]


class NewerTest(NewerCase):
    """The libraries in the folder."""

    def hold(self, launcher: str, *words: str) -> None:
        """Fails where a command in the folder does; the end of what it wrote is said."""
        ran = self.run_inside(launcher, words)
        self.assertEqual(ran.returncode, 0, ran.stdout[-3000:] + ran.stderr[-3000:])
        said = re.findall(r"skipped ['\"].*|^OK.*$", ran.stderr, re.M) or [ran.stdout.strip()]
        print(*said, sep="\n")

    def hold_library(self, launcher: str, before: list[str], name: str) -> None:
        """Holds a library to its table, and to its rules."""
        run = 'make -s ranks && "$@" && "$@" ' + " ".join(RANDOM)
        self.hold(launcher, "sh", "-c", run, "sh", *before, *HOLD, name, launcher)

    def test_open_mpi(self) -> None:
        """The live tests with its `mpirun`."""
        self.hold("mpirun", "python3", "-m", "unittest", "-v", *LIVE)

    def test_prrte(self) -> None:
        self.hold_library("prterun", [], "openpmix-5.0")

    def test_slurm(self) -> None:
        self.hold_library("srun", SLURM_NODES, "slurm-24.11")


if __name__ == "__main__":
    unittest.main()
