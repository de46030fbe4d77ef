"""Looks at the built program with a strict eye: on the hardest files under Valgrind's memcheck, and
with little stack, few file descriptors and little address space.

These tests take minutes to an hour, so they are left out unless they are asked for:

    WIRE_UP_STRICT=limits python3 -m unittest -v tests.commands.test_strict      some ten minutes
    WIRE_UP_STRICT=memcheck python3 -m unittest -v tests.commands.test_strict    under Valgrind

With `limits` a table is printed: for each file and command the processor seconds, the greatest
resident size, and the least address space with which the command does its work; with less it must
end with fault 1, or not begin at all. WIRE_UP_SHARE=N takes files with one N-th of the calls (8 for
an hour of memcheck), and WIRE_UP_ONLY=WORD those with this word in their name. Files are those of
`make bench`, and some with as many findings as such a file can have.
"""
import os
import resource
import shutil
import subprocess
import tempfile
import unittest
from collections.abc import Callable, Iterator, Sequence
from typing import NamedTuple

from build.bench_plans import KINDS, ONE_NODE, Kind, on_one, ranks_of
from build.timing import Command, resident_size
from tests.support.needs import alone
from tests.support.running import CARDS, MEMORY, READ, ProgramCase, written

MIB = 1 << 20
STACK = 256 << 10
# The greatest address space that is given. The least that suffices is looked for where a run takes
# no longer than so many seconds, up to a sixteenth of it.
MOST_MIB, LONG_SECONDS, PART = 6 << 10, 5, 16
# With so little, in MiB, the loader can't even load the C library, and says so: nothing of the
# program has run.
UNSTARTED = 8
# Numbers of file descriptors. With three the loader can't load the C library.
DESCRIPTORS = (4, 5, 6, 8, 16)
COMMANDS = (
    ["check"],
    ["replay"],
    ["replay", "--workers", "4"],
    ["replay", "--json"],
    ["replay", "--anyway"],
)
QUESTION = ["why", "app:0", "1", "app:1", "1"]
HEADS = (
    "file",
    "command",
    "processor seconds",
    "MiB resident",
    "MiB of address space",
    "bytes written",
)
MEMCHECK = [
    "valgrind",
    "--quiet",
    "--error-exitcode=99",
    "--leak-check=full",
    "--errors-for-leak-kinds=definite",
]


def publishers(ranks: int, publishes: int) -> str:
    """Each publish races with each one of another rank."""
    return ONE_NODE + ranks_of(on_one, ["publish x 1\n" * publishes] * ranks)


def strangers(_ranks: int, calls: int) -> str:
    """A rank asks for a key while two others meet in fences that could bring it: each get races
    with each fence."""
    met = "fence app:0,app:1 collect\n" * (calls // 4)
    asks = "get-now app:0 k\n" * (calls // 2)
    scripts = [f"put global k v\ncommit\n{met}", met, asks]
    nodes = "rehearsal 1\nnode n0\nnode n1\njob app\n"
    return nodes + ranks_of(lambda number: f"n{min(number, 1)}", scripts)


def falling_names(ranks: int, rounds: int) -> str:
    """Each rank waits for the name that the next one publishes, and the last for the first one's of
    the round before."""

    def turn_of(number: int, turn: int) -> str:
        name, waits = turn * ranks + number, ""
        if number < ranks - 1:
            waits = f"lookup-wait x{name + 1}\n"
        elif turn:
            waits = f"lookup-wait x{(turn - 1) * ranks}\n"
        return f"{waits}publish x{name} v\n"

    scripts = [
        "".join(turn_of(each_number, turn) for turn in range(rounds))
        for each_number in range(ranks)
    ]
    return ONE_NODE + ranks_of(on_one, scripts)


def spellings(ranks: int, rounds: int) -> str:
    """Fences of all ranks, each in a spelling of its own."""
    every = "app:*," * 38
    lines = [f"fence {every}app:{n % ranks},app:{n // ranks}\n" for n in range(ranks * rounds)]
    scripts = ["".join(lines[n * rounds:(n + 1) * rounds]) for n in range(ranks)]
    return ONE_NODE + ranks_of(on_one, scripts)


HARD = (
    *KINDS,
    Kind(
        "spellings",
        "256 ranks meet in 64 fences, each call of which spells the set otherwise",
        spellings,
        256,
        64,
    ),
    Kind(
        "falling-names",
        "256 ranks, each of which waits for a name of the next one in 32 rounds",
        falling_names,
        256,
        32,
    ),
    Kind(
        "strangers",
        "a rank asks n/2 times while two others meet in n/4 fences that could bring the key",
        strangers,
        3,
        16_380,
    ),
    Kind("publishers", "256 ranks publish one name 64 times each", publishers, 256, 64),
)


class Ended(NamedTuple):
    """How a run ended: its status, how many bytes it wrote, and what it said."""

    status: int
    wrote: int
    said: bytes


class Ran(NamedTuple):
    """How a run ended, its seconds of processor time, and the greatest resident size that the
    system tells, in KiB."""

    ended: Ended
    seconds: float
    size: int


def limited(**limits: int) -> Callable[[], None]:
    """Sets limits by the names of `resource`."""

    def set_up() -> None:
        for name, most in limits.items():
            resource.setrlimit(getattr(resource, f"RLIMIT_{name}"), (most, most))

    return set_up


def ran(words: Sequence[str], set_up: Callable[[], None] | None = None) -> Ran:
    """Runs a command to its end, whose output is counted and thrown away."""
    with tempfile.TemporaryFile() as said:
        process = subprocess.Popen(
            words,
            stdin=subprocess.DEVNULL,
            stdout=subprocess.PIPE,
            stderr=said,
            preexec_fn=set_up,
        )
        wrote = 0
        if process.stdout:
            while part := os.read(process.stdout.fileno(), MIB):
                wrote += len(part)
            process.stdout.close()
        _, status, used = os.wait4(process.pid, 0)
        process.returncode = os.waitstatus_to_exitcode(status)
        said.seek(0)
        ended = Ended(process.returncode, wrote, said.read())
    return Ran(ended, used.ru_utime + used.ru_stime, used.ru_maxrss)


class Space:
    """Looks for the least address space with which a command ends as usual."""

    def __init__(self, words: Sequence[str], usual: Ended) -> None:
        self.words, self.usual = words, usual
        # What it does with less that it shouldn't, with the MiB that it had.
        self.wrong: list[tuple[int, Ended]] = []

    def suffices(self, mebibytes: int) -> bool:
        ended = ran(self.words, limited(AS=mebibytes * MIB)).ended
        if ended == self.usual:
            return True
        others = ended.said.replace(self.words[0].encode(), b"")
        is_unstarted = not ended.wrote and mebibytes <= UNSTARTED and b"wire_up" not in others
        if ended != Ended(3, 0, MEMORY) and not is_unstarted:
            self.wrong.append((mebibytes, ended))
        return False

    def least(self) -> int | None:
        """The least MiB that suffice; nothing where they would be too many."""
        low, high = 0, 16
        while not self.suffices(high):
            low, high = high, 2 * high
            if high > MOST_MIB:
                return None
        while high - low > max(1, low // PART):
            middle = (low + high) // 2
            low, high = (low, middle) if self.suffices(middle) else (middle, high)
        return high


@alone
class StrictCase(ProgramCase):
    """Tests that are left out unless they are asked for."""

    asked = ""

    @classmethod
    def setUpClass(cls) -> None:
        if os.environ.get("WIRE_UP_STRICT") != cls.asked:
            raise unittest.SkipTest(f"it takes long: WIRE_UP_STRICT={cls.asked} asks for it")
        super().setUpClass()

    def hard_runs(self) -> Iterator[tuple[str, list[str], list[str]]]:
        """The name of each hard file, and the words of each command over it."""
        share = int(os.environ.get("WIRE_UP_SHARE", "1"))
        for kind in HARD:
            if os.environ.get("WIRE_UP_ONLY", "") in kind.name:
                text = kind.text(kind.ranks, max(1, kind.rounds // share))
                path = written(self.room, f"{kind.name}.plan", text.encode("ascii"))
                for command in [*COMMANDS, *[QUESTION] * (kind.name != "comments")]:
                    yield kind.name, command, [self.program, *command, path]


class Limits(StrictCase):
    """With little stack, few file descriptors and little address space."""

    asked = "limits"

    def test_hard_files(self) -> None:
        print(f"| {' | '.join(HEADS)} |\n|{'---|' * len(HEADS)}")
        for name, command, words in self.hard_runs():
            with self.subTest(name, command=" ".join(command)):
                self.measure(name, command, words)

    def measure(self, name: str, command: list[str], words: list[str]) -> None:
        """Prints a row of the table, and holds that all went well."""
        usual, seconds, told = ran(words, limited(AS=MOST_MIB * MIB))
        size = resident_size(Command(words), told) / 1024
        cells = [name, " ".join(command), f"{seconds:.2f}", f"{size:.0f}"]
        if usual.status == 3:
            cells.append(f"over {MOST_MIB:,}: fault 1")
            print(f"| {' | '.join(cells)} | {usual.wrote:,} |", flush=True)
            self.told_alike(Ended(3, 0, MEMORY), usual)
            return
        is_free, is_long = "--anyway" in command, seconds > LONG_SECONDS
        space = Space(words, usual)
        least = None if is_free or is_long else space.least()
        print(f"| {' | '.join(cells)} | {least or ''} | {usual.wrote:,} |", flush=True)
        self.assertEqual([], space.wrong[:3])
        self.assertIn(usual.status, (0, 1))
        if not is_long:
            little = ran(words, limited(STACK=STACK)).ended
            self.assertTrue(little == usual or is_free, f"with little stack it ended so: {little}")

    def test_few_descriptors(self) -> None:
        """With each number of file descriptors the answer comes, or the fault of a read."""
        path = written(self.room, "cards.plan", CARDS)
        order = written(self.room, "cards.order", b"app:0\n")
        for command in (*COMMANDS[:3], ["follow", order]):
            words = [self.program, *command, path]
            usual = ran(words).ended
            for count in DESCRIPTORS:
                with self.subTest(command[0], descriptors=count):
                    ended = ran(words, limited(NOFILE=count)).ended
                    self.assertIn(ended, (usual, Ended(4, 0, READ)))


class Memcheck(StrictCase):
    """Under Valgrind, which must be there."""

    asked = "memcheck"

    def test_hard_files(self) -> None:
        if not shutil.which("valgrind"):
            self.fail("there is no valgrind")
        for name, command, words in self.hard_runs():
            with self.subTest(name, command=" ".join(command)):
                ended, seconds, _ = ran([*MEMCHECK, *words])
                told = f"status {ended.status}, {ended.wrote:,} bytes, {seconds:.0f} s"
                print(f"memcheck, {name}, {' '.join(command)}: {told}", flush=True)
                self.assertIn(ended.status, (0, 1), ended.said.decode(errors="replace")[:3000])
                self.assertEqual(b"", ended.said[:3000])


if __name__ == "__main__":
    unittest.main()
