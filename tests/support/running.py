"""Runs the built program as a user would: words, files, standard streams, exit statuses, fault
lines."""
import os
import resource
import subprocess
import tempfile
import unittest
from collections.abc import Callable, Iterable, Iterator, Sequence
from pathlib import Path
from typing import IO, NamedTuple

from tests import support
from tests.support.needs import needs_program


EXAMPLE, ITS_REPORT = "examples/business-card.plan", "tests/examples/business-card.report"
# An example with a race.
EARLY_GET = "examples/early-get.plan"
NOTHING = b"findings 0\n"
SECONDS = 60
FAULTS = (
    "Memory TooLong BadHeader BadLine UnknownName Twice NotMember TooMany Workers Read Write"
    " NotReady BadOrder"
).split()
USAGE = (b"Usage: wire_up",)
# What is said of words that are known, but don't go together.
WORKERS_MISUSED = b"wire_up: usage --workers\n"
SAME_MISUSED = b"wire_up: usage --same: it needs --anywhere\n"
PATTERN_MISUSED = (
    b"wire_up: usage --pattern: --answers and --complete need it;"
    b" --anywhere, --same, --lines and --large don't go with it\n"
)
PORTABLE_MISUSED = (
    b"wire_up: usage --portable: of patterns it isn't known, and it doesn't go with --same\n"
)
SPREAD_MISUSED = (
    b"wire_up: usage expand: say --per-node COUNT or --by node --nodes COUNT, each from 1 on\n"
)
WITNESS_MISUSED = (
    b"wire_up: usage witness: --first or --second needs two calls, and no --lines or --json;"
    b" --most needs a number, and no calls\n"
)
FULL, READ = b"wire_up: fault 11 Write 0\n", b"wire_up: fault 10 Read\n"
MEMORY = b"wire_up: fault 1 Memory\n"
# What is said of the file that `odd_plan` writes.
ODD = b"wire_up: fault 4 BadLine 10\n"

# Gets that are ordered by fences, by a publish and by one another.
CARDS = b"""\
rehearsal 1
node n0
node n1
job app
rank n0
put global k v
put global m w
commit
fence all collect
publish x 7
rank n0
get app:0 m
get-now app:0 k
fence all collect
rank n1
fence all collect
get-now app:0 k
lookup-wait x
"""
CARDS_REPORT = b"""\
app:0 1 put PMIX_SUCCESS
app:0 2 put PMIX_SUCCESS
app:0 3 commit PMIX_SUCCESS
app:0 4 fence PMIX_SUCCESS
app:0 5 publish PMIX_SUCCESS
app:1 1 get PMIX_SUCCESS w
app:1 2 get-now PMIX_SUCCESS v
app:1 3 fence PMIX_SUCCESS
app:2 1 fence PMIX_SUCCESS
app:2 2 get-now PMIX_SUCCESS v
app:2 3 lookup-wait PMIX_SUCCESS 7
waiting 0
"""

# A get that races a commit.
RACY = b"""\
rehearsal 1
node n0
job app
rank n0
put global k v
commit
rank n0
get-now app:0 k
"""
RACE = b"race app:0 2 app:1 1 key app:0 k"
Words = Sequence[str | bytes]
# The whole of a text, or in a tuple parts of it.
Text = bytes | tuple[bytes, ...]


class Run(NamedTuple):
    """What is run, and what must come of it."""

    name: str
    words: Words
    # What standard input gives.
    given: bytes = b""
    status: int = 0
    wrote: Text = b""
    said: Text = b""
    # What is done in the process before the program starts.
    set_up: Callable[[], object] | None = None


def text_of(path: str) -> bytes:
    """The bytes of a file of the repository."""
    return (support.TOP / path).read_bytes()


def closed(stream: int) -> Callable[[], None]:
    """Closes a standard stream."""
    return lambda: os.close(stream)


def onto(path: str, stream: int, how: int = os.O_WRONLY) -> Callable[[], None]:
    """Opens a file as a standard stream."""

    def set_up() -> None:
        os.dup2(os.open(path, how), stream)

    return set_up


def with_little_memory() -> None:
    resource.setrlimit(resource.RLIMIT_DATA, (1 << 20, 1 << 20))


def examples(ending: str) -> list[str]:
    """The names of the examples that have a file of this ending, without it; what is expected of
    them stands in tests/examples."""
    folders = (support.TOP / "examples", support.TOP / "tests" / "examples")
    files = [path.name for folder in folders for path in folder.iterdir()]
    return sorted(file.removesuffix(ending) for file in files if file.endswith(ending))


def written(room: Path, name: str, text: bytes) -> str:
    """The path of a file of this text, as a word of a command line."""
    path = room / name
    path.write_bytes(text)
    return str(path)


def odd_plan(room: Path) -> str:
    """The path of a plan whose last line is no call."""
    return written(room, "odd.plan", text_of(EXAMPLE) + b"getaway app:0 k\n")


def fences_plan(room: Path) -> str:
    """The path of a plan in which 256 ranks call 64 fences."""
    rank = b"rank n0\n" + b"fence all\n" * 64
    return written(room, "fences.plan", b"rehearsal 1\nnode n0\njob app\n" + rank * 256)


def as_lines(lines: Iterable[str]) -> bytes:
    """The bytes of lines of text."""
    return "".join(f"{line}\n" for line in lines).encode()


def start(
    program: str, run: Run, stdout: int | IO[bytes] = subprocess.PIPE
) -> "subprocess.CompletedProcess[bytes]":
    """Runs a program to its end."""
    return subprocess.run(
        [program, *run.words],
        input=run.given,
        stdout=stdout,
        stderr=subprocess.PIPE,
        cwd=support.TOP,
        preexec_fn=run.set_up,
        timeout=SECONDS,
        check=False,
    )


def fits(wanted: Text, got: bytes) -> bool:
    """Whether a text is as wanted."""
    return all(part in got for part in wanted) if isinstance(wanted, tuple) else wanted == got


@needs_program
class ProgramCase(unittest.TestCase):
    """Tests of the built program, which have a folder that they may write to."""

    program: str
    room: Path

    @classmethod
    def setUpClass(cls) -> None:
        cls.program = support.program()
        folder = tempfile.TemporaryDirectory(prefix="wire-up-")
        cls.addClassCleanup(folder.cleanup)
        cls.room = Path(folder.name)

    def hold(self, run: Run) -> None:
        """Fails where a run doesn't end, write and say what it must."""
        ran = start(self.program, run)
        said = ran.stderr[:300]
        self.assertEqual(run.status, ran.returncode, f"ended so, and said {said!r}")
        self.assertTrue(fits(run.wrote, ran.stdout), f"wrote {ran.stdout[:300]!r}")
        self.assertTrue(fits(run.said, ran.stderr), f"said {said!r}")

    def hold_all(self, runs: Iterable[Run]) -> None:
        """Holds each run, as a subtest of its name."""
        for run in runs:
            with self.subTest(run.name):
                self.hold(run)

    def told_alike(self, wanted: object, got: object) -> None:
        """Fails where two things aren't the same."""
        self.assertEqual(wanted, got, f"{str(got)[:600]}")


Runs = Iterator[Run]
