"""wire_up-run on the library that is there: what that needs, and how tests run it."""
import contextlib
import os
import shutil
import subprocess
import sys
import time
import unittest
from collections.abc import Callable, Mapping
from pathlib import Path

from tests.support import TOP, Word
from tests.support.live import run_plainly
from tests.support.needs import needs_mpi
from tests.support.running import ProgramCase, written


COMMAND = str(TOP / "wire_up-run")
NEEDED = ("mpirun", "make", "cc", "pkg-config", "unshare", "ip", "hostname")
SECONDS = 300
APART = ("unshare", "--uts", "--net", "--pid", "--fork", "--kill-child", "--mount-proc", "true")
# All that a test starts has this in its environment, with the folder of the test.
MARK = "WIRE_UP_TEST"
# A rank that waits for a key that never comes.
WAITS = b"""\
rehearsal 1
node n0
job app
rank n0
get app:1 k
rank n0
"""
Ran = subprocess.CompletedProcess[str]


def what_lacks() -> list[str]:
    """What is missing to run plans."""
    lacking = [text for text in NEEDED if not shutil.which(text)]
    if not lacking and "Open MPI" not in run_plainly(["mpirun", "--version"]).stdout:
        lacking.append("mpirun of Open MPI")
    if not lacking and run_plainly(["pkg-config", "--exists", "pmix"]).returncode:
        lacking.append("libpmix-dev")
    if not lacking and run_plainly(list(APART)).returncode:
        lacking.append("right to make fake nodes")
    return lacking


def read_words(process: int) -> list[str]:
    """The command line of a process. Raises OSError."""
    with open(f"/proc/{process}/cmdline", encoding="utf-8", errors="replace") as file:
        return file.read().split("\0")


@needs_mpi
class LiveRuns(ProgramCase):
    """Runs of plans, of which nothing stays."""

    @classmethod
    def setUpClass(cls) -> None:
        super().setUpClass()
        lacking = what_lacks()
        if lacking:
            raise unittest.SkipTest(f"no plan is run: there is no {', no '.join(lacking)}")
        subprocess.run(["make", "-s", "ranks"], cwd=TOP, check=True, capture_output=True)

    def words(self, *words: Word) -> list[str]:
        """A command line."""
        return [sys.executable, COMMAND, "--checker", self.program, *map(str, words)]

    def environment(self, temporary: Path | None = None) -> Mapping[str, str]:
        """An environment with a folder for temporary files: else that of the test."""
        return {**os.environ, "TMPDIR": str(temporary or self.room), MARK: str(self.room)}

    def write(self, name: str, text: bytes) -> str:
        """Writes a file, and answers its path."""
        return written(self.room, name, text)

    def run_it(
        self,
        *words: Word,
        temporary: Path | None = None,
        set_up: Callable[[], object] | None = None,
    ) -> Ran:
        """Runs it to its end. Nothing of it stays."""
        ran = subprocess.run(
            self.words(*words),
            stdin=subprocess.DEVNULL,
            capture_output=True,
            text=True,
            env=self.environment(temporary),
            preexec_fn=set_up,
            timeout=SECONDS,
            check=False,
        )
        self.hold_nothing_left(temporary)
        return ran

    def hold_nothing_left(self, temporary: Path | None = None) -> None:
        """Fails where a process or a folder of a run is left."""
        self.assertEqual([], [*(temporary or self.room).glob("wire_up-run-*")])
        self.assertEqual([], [read_words(process) for process in self.find_processes()])

    def hold_refused(self, ran: Ran, said: str) -> None:
        """Fails where a run wasn't refused with one line, which has these words."""
        self.assertEqual((125, ""), (ran.returncode, ran.stdout), ran.stderr)
        self.assertEqual(1, len(ran.stderr.splitlines()), ran.stderr)
        self.assertIn(said, ran.stderr)

    def find_processes(self, name: str = "") -> list[int]:
        """The processes that the test has started, or those whose program has this name."""
        mark, found = f"{MARK}={self.room}".encode(), []
        for path in Path("/proc").glob("[0-9]*"):
            with contextlib.suppress(OSError), open(path / "environ", "rb") as file:
                process = int(path.name)
                program = Path(read_words(process)[0]).name
                if mark in file.read().split(b"\0") and name in ("", program):
                    found.append(process)
        return sorted(found)

    def wait_for(self, is_so: Callable[[], bool]) -> None:
        """Waits until something is so. Fails where it takes too long."""
        until = time.monotonic() + SECONDS
        while not is_so():
            self.assertLess(time.monotonic(), until)
            time.sleep(0.05)
