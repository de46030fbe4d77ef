"""Times runs of a program, and their greatest resident size."""
import os
import resource
import subprocess
import sys
import tempfile
import time
from collections.abc import Sequence
from dataclasses import dataclass
from pathlib import Path


# GNU time: a small process that can stand between this one and a program.
BETWEEN = Path("/usr/bin/time")


@dataclass(frozen=True)
class Command:
    """The words of a command, and the file that it gets on standard input."""

    words: Sequence[str]
    given: str = os.devnull


@dataclass(frozen=True)
class Taken:
    """What a run took: its seconds, with the start of the process in them, its greatest resident
    size in KiB, and the seconds of processor time, with those of what it ran."""

    seconds: float
    size: int
    processor: float


def size_of(command: Command) -> int:
    """The greatest resident size of a command, which a small process starts, in KiB."""
    with tempfile.NamedTemporaryFile("r") as told, open(command.given, "rb") as reader:
        subprocess.run(
            [BETWEEN, "-f", "%M", "-o", told.name, *command.words],
            stdin=reader,
            stdout=subprocess.DEVNULL,
            stderr=subprocess.DEVNULL,
            check=False,
        )
        return int(told.read().split()[-1])


def resident_size(command: Command, told: int) -> int:
    """The greatest resident size of a command for which the system told this one, in KiB. The size
    that it tells of a process is at least that of the one that started it: so where it isn't
    greater, the command runs once more, for its size alone, if GNU time is there."""
    if resource.getrusage(resource.RUSAGE_SELF).ru_maxrss < told or not BETWEEN.exists():
        return told
    return size_of(command)


def run(command: Command) -> Taken:
    """Runs a command, whose output is thrown away. A run that ends with a fault ends this program,
    too."""
    with open(command.given, "rb") as reader:
        began = time.perf_counter()
        process = subprocess.Popen(
            command.words, stdin=reader, stdout=subprocess.DEVNULL, stderr=subprocess.DEVNULL
        )
        _, status, used = os.wait4(process.pid, 0)
        seconds = time.perf_counter() - began
    process.returncode = os.waitstatus_to_exitcode(status)
    if process.returncode not in (0, 1):
        sys.exit(f"{' '.join(command.words)}: exit status {process.returncode}")
    size = resident_size(command, used.ru_maxrss)
    return Taken(seconds, size, used.ru_utime + used.ru_stime)


def best_of(runs: int, commands: Sequence[Command]) -> list[Taken]:
    """The least times and the greatest size of each command, run by turns."""
    took = [[run(command) for command in commands] for _ in range(runs)]
    return [
        Taken(
            min(item.seconds for item in each),
            max(each_item.size for each_item in each),
            min(other_item.processor for other_item in each),
        )
        for each in zip(*took)
    ]


def floor() -> int:
    """The greatest resident size of a program that does nothing, in KiB."""
    return run(Command(["true"])).size


def milliseconds(taken: Taken) -> str:
    return f"{1000 * taken.seconds:.1f}"


def mebibytes(taken: Taken, least: int) -> str:
    """A resident size. What is no greater than that of a program that does nothing isn't told apart
    from it."""
    if taken.size <= least * 1.05:
        return f"under {least / 1024:.0f}"
    return f"{taken.size / 1024:.1f}"


def findings_in(words: Sequence[str]) -> int:
    """How many findings a `check` of these words tells."""
    with tempfile.TemporaryFile() as told:
        subprocess.run(
            words,
            stdin=subprocess.DEVNULL,
            stdout=told,
            stderr=subprocess.DEVNULL,
            check=False,
        )
        told.seek(max(0, told.tell() - 40))
        last = told.read().split(b"\n")[-2]
    return int(last.split()[1])


def has_options(program: str, words: Sequence[str]) -> bool:
    """Whether a program has a command with the options among these words. (An earlier one has no
    `--workers`, and the unproved one only `check`.)"""
    ran = subprocess.run(
        [program, words[0], "--help"],
        stdin=subprocess.DEVNULL,
        capture_output=True,
        text=True,
        check=False,
    )
    return not ran.returncode and all(word in ran.stdout for word in words if word.startswith("--"))
