"""Tests programs that could wait for ever for a lock of the recorder, or for one that this waits
for: that of dlopen, of Python, the program's own; and such that it could disturb as it looks at
what is loaded. They end as without it.

Where MPI and PMIx aren't there, all of this is skipped, and says what lacks.
"""
import subprocess
import unittest
from collections.abc import Sequence
from pathlib import Path

from tests.support.live import LiveTest, find_python, mpirun
from tests.support.recorded import IN_PART, THREADS, why_other_findings


# Prints the folder and the name of Python's library, and where Python is.
ASK = """\
import sys
import sysconfig

print(sysconfig.get_config_var("LIBDIR"))
print(sysconfig.get_config_var("INSTSONAME"))
print(sys.base_prefix)
"""


class LocksTest(LiveTest):
    """Programs of two processes."""

    def hold(self, run: Sequence[str], said: str, findings: int) -> None:
        """Tests one, of which the recorder says that too."""
        ran = self.record_alike([*run])
        self.assertEqual(ran.returncode, 0)
        self.assertIn(said, ran.stderr)
        if self.program:
            self.assertIsNone(why_other_findings(self.program, self.plan, findings))

    def test_a_child_that_is_forked_while_threads_call(self) -> None:
        run = mpirun(2, self.compile("forks"), "child")
        self.hold(run, f"wire_up-record: {IN_PART}{THREADS}", 0)

    def test_a_library_that_calls_while_it_is_opened(self) -> None:
        run = mpirun(2, self.compile("forks"), "opening", self.compile("opening.so"))
        self.hold(run, f"wire_up-record: {IN_PART}{THREADS}", 0)

    def test_a_thread_that_polls_while_it_ends(self) -> None:
        run = mpirun(2, self.compile("forks"), "ending")
        self.hold(run, f"wire_up-record: {IN_PART}{THREADS}", 0)

    def test_a_library_that_is_opened_with_those_that_it_needs(self) -> None:
        """Their constructors run in the same order."""
        needed = [self.compile(word) for word in ("libthird.so", "libsecond.so", "first.so")]
        self.hold(mpirun(2, self.compile("chain"), needed[-1]), "", 0)

    def test_a_program_with_its_own_memory_that_forks(self) -> None:
        run = mpirun(1, self.compile("memory"))
        self.hold(run, f"wire_up-record: {IN_PART}{THREADS}", 0)

    def test_an_error_that_waits_to_be_asked_for(self) -> None:
        """The first call of a function of MPI leaves it."""
        self.hold(mpirun(2, self.compile("pending")), "", 0)

    def test_a_second_interpreter(self) -> None:
        """Its lines aren't told: it has Python's lock for another state of its thread."""
        python = find_python()
        if not python:
            self.skipTest("there is no mpi4py")
        asked = subprocess.run([python, "-c", ASK], capture_output=True, text=True, check=True)
        folder, name, home = asked.stdout.splitlines()
        library = Path(folder, name)
        if not name.endswith((".so", ".so.1.0")) or not library.exists():
            self.skipTest("this Python has no library")
        run = ["env", f"PYTHONHOME={home}", *mpirun(2, self.compile("embed"), library)]
        self.hold(run, "", 0)


if __name__ == "__main__":
    unittest.main()
