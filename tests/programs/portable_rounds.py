"""How long `check --portable` takes beside `check`, on plans of rounds that double in size.

Usage: python3 -m tests.programs.portable_rounds [PROGRAM] [KIND..]
In each round a rank puts a key and commits, all meet in a fence, and each asks for the keys of the
others. A line says how many ranks and rounds a plan has, the seconds of processor time that both
commands take, and the last line of the answer.
"""
import os
import resource
import subprocess
import sys
import tempfile
from collections.abc import Iterator
from dataclasses import dataclass

SIZES = (60, 120, 240)
TRIES = 2


@dataclass(frozen=True)
class Kind:
    """A kind of rounds."""

    nodes: int
    rounds: int
    # Whether the fence stands behind the gets, and the jobs that meet each by itself.
    is_late: bool = False
    jobs: int = 1
    # The first round of which the fence collects, and whether its keys are asked for by get too.
    collects_from: int = 99
    gets_too: bool = False


KINDS = {
    "one-node": Kind(1, 2),
    "two-nodes": Kind(2, 2),
    "rounds": Kind(2, 4),
    "late": Kind(2, 2, is_late=True),
    "now": Kind(2, 2, collects_from=1),
    "now-later": Kind(2, 4, collects_from=2),
    "both": Kind(2, 2, collects_from=0, gets_too=True),
    "jobs": Kind(2, 2, jobs=2),
}


def calls_of(kind: Kind, job: int, rank: int, size: int) -> Iterator[str]:
    """The calls of a rank of a job of this size."""
    for turn in range(kind.rounds):
        is_now = turn >= kind.collects_from
        everyone = "all" if kind.jobs == 1 else f"j{job}:*"
        fence = f"fence {everyone}{' collect' if is_now else ''}"
        yield f"put global k{turn} v"
        yield "commit"
        if not kind.is_late:
            yield fence
        for other in range(size):
            if other != rank:
                if is_now:
                    yield f"get-now j{job}:{other} k{turn}"
                if not is_now or kind.gets_too:
                    yield f"get j{job}:{other} k{turn}"
        if kind.is_late:
            yield fence


def lines_of(kind: Kind, ranks: int) -> Iterator[str]:
    """The lines of a plan of these ranks."""
    yield "rehearsal 2"
    yield from (f"node n{node}" for node in range(kind.nodes))
    size = ranks // kind.jobs
    for job in range(kind.jobs):
        yield f"job j{job}"
        for rank in range(size):
            yield f"rank n{rank * kind.nodes // size}"
            yield from calls_of(kind, job, rank, size)


def seconds_of(words: list[str]) -> tuple[float, str]:
    """The least processor time that a command takes, and the last line that it writes."""
    least, last = float("inf"), ""
    for _ in range(TRIES):
        before = resource.getrusage(resource.RUSAGE_CHILDREN)
        done = subprocess.run(words, stdout=subprocess.PIPE, check=False, text=True)
        after = resource.getrusage(resource.RUSAGE_CHILDREN)
        least = min(least, after.ru_utime - before.ru_utime)
        last = done.stdout.splitlines()[-1] if done.stdout else f"status {done.returncode}"
    return least, last


def measure(program: str, names: list[str]) -> None:
    """Writes a line for each kind and size."""
    with tempfile.TemporaryDirectory() as folder:
        path = f"{folder}/plan"
        for name in names:
            for ranks in SIZES:
                with open(path, "w", encoding="ascii") as file:
                    file.writelines(f"{line}\n" for line in lines_of(KINDS[name], ranks))
                plain, _ = seconds_of([program, "check", "--large", path])
                asked, last = seconds_of([program, "check", "--portable", "--large", path])
                ratio = asked / max(plain, 0.001)
                print(
                    f"{name:10} ranks {ranks:4}  check {plain:6.2f}  portable {asked:6.2f}"
                    f"  ratio {ratio:5.2f}  {last}",
                    flush=True,
                )


if __name__ == "__main__":
    WORDS = sys.argv[1:] or [os.environ.get("WIRE_UP_PROGRAM", "./wire_up")]
    measure(WORDS[0], WORDS[1:] or [*KINDS])
