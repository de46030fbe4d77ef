"""Recordings that tests write themselves, and what becomes of them."""
import re
import subprocess
import sys
from collections.abc import Sequence
from pathlib import Path

from wire_up_tools.record.planning import Choices, Plan, make_plan
from wire_up_tools.record.recordings import read_recording
from wire_up_tools.record.writing import write_plan
from tests.support import TOP, Word

COMMAND = str(TOP / "wire_up-record")
SHIPPED = TOP / "record" / "recordings"
PROGRAMS = TOP / "record" / "programs"
# How long a program may take, in seconds.
PATIENCE = 60

Scripts = Sequence[Sequence[str]]
# A call as a recording has it, and how it ended.
Recorded = tuple[str, str]
# What the recorder says of libraries.
LIBRARIES = re.compile(r"^wire_up-record: portable for .*\n", re.MULTILINE)
# What it says besides of a plan in which nothing is found, where a checker is there.
JUDGED = re.compile(r"^wire_up-record: (portable for|each run of this program) .*\n", re.MULTILINE)


class Tape:
    """Writes the recording of a process."""

    def __init__(
        self, rank: int = 0, namespace: str = "job", host: str = "n0", began: int = 1700000000
    ) -> None:
        self.lines = [
            "wire_up-recording 1",
            f"process {namespace} {rank} {host} {100 + rank}",
            f"began {began}.000000",
            "library Test%201",
        ]
        self.number, self.thread = 0, 1

    def line(self, sign: str, number: int, what: str) -> None:
        """Writes a record."""
        self.lines.append(f"{sign} {number} {self.thread} 0.{len(self.lines):06d} {what}")

    def begin(self, what: str) -> int:
        """Writes that a call begins, and answers its number."""
        self.number += 1
        self.line("+", self.number, what)
        return self.number

    def end(self, number: int, what: str = "0") -> None:
        """Writes how a call ended."""
        self.line("-", number, what)

    def call(self, what: str, end: str = "0") -> "Tape":
        """Writes a call and its end."""
        self.end(self.begin(what), end)
        return self

    def say(self, what: str) -> "Tape":
        """Writes what isn't a call."""
        self.line("=", 0, what)
        return self

    def text(self, is_over: bool = True) -> bytes:
        """The recording; it ends with PMIx_Finalize if the process is over."""
        if is_over:
            self.say("finalize")
        return "".join(f"{line}\n" for line in self.lines).encode()


Recordings = Sequence[Tape | bytes]


def in_world(rank: int, size: int) -> Tape:
    """A tape of a process of an MPI world in which the ranks are those of the job."""
    return Tape(rank).say(f"world {rank} {size}").say(f"comm 1 0 w0 0-{size - 1}")


def make_world(size: int) -> list[Tape]:
    """The tapes of all processes of such a world."""
    return [in_world(rank, size) for rank in range(size)]


def plan_tapes(tapes: Recordings, choices: Choices = Choices()) -> Plan:
    """The plan of recordings."""
    texts = [tape if isinstance(tape, bytes) else tape.text() for tape in tapes]
    read = [read_recording(f"{n}.recording", text) for n, text in enumerate(texts)]
    return make_plan(read, choices)


def write_plan_of(tapes: Recordings, choices: Choices = Choices()) -> str:
    """The text of the plan of recordings."""
    return write_plan(plan_tapes(tapes, choices))


def read_scripts(plan: str) -> list[list[str]]:
    """The lines of each process of a plan, without comments."""
    found: list[list[str]] = []
    for line in plan.splitlines():
        if line.startswith("rank "):
            found.append([])
        elif found and not line.startswith(("job ", "#")):
            found[-1].append(line)
    return found


def read_file(path: Word) -> str:
    """The text of a file."""
    return Path(path).read_text(encoding="utf-8")


def write_file(path: Word, data: bytes) -> str:
    """Writes a file, and answers its path, as a word of a command line."""
    Path(path).write_bytes(data)
    return str(path)


def ask_program(program: Word, *words: Word) -> "subprocess.CompletedProcess[str]":
    """Runs a program."""
    return subprocess.run(
        [program, *words], capture_output=True, text=True, timeout=PATIENCE, check=False
    )


def run_recorder(
    *words: Word,
    environment: dict[str, str] | None = None,
    says_libraries: bool = False,
    patience: float = 4 * PATIENCE,
) -> "subprocess.CompletedProcess[str]":
    """Runs `wire_up-record`. The line that says for which libraries the plan is portable is left
    out of what it says, if that isn't asked for."""
    ran = subprocess.run(
        [sys.executable, COMMAND, *words],
        capture_output=True,
        text=True,
        timeout=patience,
        check=False,
        env=environment,
    )
    if not says_libraries:
        ran.stderr = LIBRARIES.sub("", ran.stderr)
    return ran
