"""Checks and replays an example by a build without proofs, proves the program meanwhile, builds it
as ./wire_up, and does the same by that.

Usage: python3 -m build.run
Where there is a ./wire_up already, the example isn't tried without proofs. Nothing is proved again
whose text and libraries are as they were. The libraries hold no more than what crates above can
cite: these load them sooner, and they take less of the disk.
"""
import contextlib
import fcntl
import resource
import shutil
import subprocess
import sys
import tempfile
import threading
import time
from collections.abc import Iterator
from pathlib import Path

from build.crates import copy_to, crates_for, locked
from build.ending import fail, run_and_leave
from build.libraries import counted, expected
from build.logs import log_at
from build.memory import files_in_memory
from build.places import BUILT, LOGS, TOP, WIRE_UP
from build.progress import Progress
from build.proving import prove_all
from build.trying import COMMANDS, try_plans

EXAMPLE = "examples/business-card.plan"
# The program that was proved, until it takes its place.
MADE = LOGS / "wire_up"


class Proof(threading.Thread):
    """The proof of the program and of all crates that it uses, as far as they changed, and the
    build of the program. It begins at once."""

    def __init__(self, log: Path) -> None:
        super().__init__(daemon=True)
        self.crates = crates_for("program", TOP)
        self.line, self.log = Progress("proving", expected(self.crates)), log
        self.failed: str | None = "the proof was broken off"
        self.start()

    def run(self) -> None:
        tell = counted(self.line, len(self.crates))
        with locked(self.crates), self.log.open("a", encoding="utf-8") as to:
            failed = prove_all(self.crates, to, tell)
            if not failed:
                shutil.copy(BUILT, MADE)
        self.failed = f"not proved: {' '.join(failed)}" if failed else None

    def end(self) -> str | None:
        """Waits for the end. Says what failed, if anything did."""
        with self.line:
            self.join()
        return self.failed


def show() -> None:
    """Checks and replays the example by the proved program."""
    for command in COMMANDS:
        print(f"$ ./wire_up {command} {EXAMPLE}", flush=True)
        status = subprocess.run([WIRE_UP, command, EXAMPLE], cwd=TOP, check=False).returncode
        if status:
            sys.exit(f"./wire_up {command} ended with status {status}")


@contextlib.contextmanager
def alone() -> Iterator[None]:
    """Waits until no other `make run` works here."""
    LOGS.mkdir(parents=True, exist_ok=True)
    with open(LOGS / "run.lock", "w", encoding="utf-8") as file:
        try:
            fcntl.flock(file, fcntl.LOCK_EX | fcntl.LOCK_NB)
        except BlockingIOError:
            print("Another `make run` works here. This one waits for it.", flush=True)
            fcntl.flock(file, fcntl.LOCK_EX)
        yield


def try_example() -> None:
    """Checks and replays the example by a build without proofs, of a copy of the repository."""
    with tempfile.TemporaryDirectory(prefix="wire-up-") as room:
        copy_to(Path(room), TOP)
        try_plans([EXAMPLE], Path(room))


def note_time(log: Path, seconds: float) -> None:
    """Writes to the end of the log how long the run took, and the processor time of all that was
    started for it."""
    used = resource.getrusage(resource.RUSAGE_CHILDREN)
    minutes = (used.ru_utime + used.ru_stime) / 60
    with log.open("a", encoding="utf-8") as to:
        to.write(f"$ {seconds / 60:.1f} minutes, {minutes:.1f} of processor time\n")


def run_alone() -> None:
    """The whole of it, where no other `make run` works here."""
    log, begun = log_at("run.log"), time.monotonic()
    proof = Proof(log)
    if not WIRE_UP.exists():
        try_example()
    failed = proof.end()
    if failed:
        fail(f"{failed}. ./wire_up is as it was", log)
    note_time(log, time.monotonic() - begun)
    MADE.replace(WIRE_UP)
    print("Proved, and built as ./wire_up:", flush=True)
    show()


def run() -> None:
    with alone(), files_in_memory():
        run_alone()


if __name__ == "__main__":
    if len(sys.argv) > 1:
        sys.exit(__doc__)
    run_and_leave(run)
