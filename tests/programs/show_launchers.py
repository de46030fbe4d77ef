"""Shows races, and turns orders round, of some programs under launchers that are there: on one
node, and on two that are none.

Usage: python3 -m tests.programs.show_launchers LAUNCHER..
LAUNCHER is `mpirun`, `prterun` or `srun`; one with `:2` behind it takes two nodes alone. It takes
root. A line for each program says what came of it. What isn't as it must be is tried again; if it
stays so, the status is 1.
"""
import concurrent.futures
import os
import re
import subprocess
import sys
import tempfile
import unittest
from collections.abc import Sequence
from dataclasses import dataclass

from wire_up_tools.run.launchers import Kind, find_launcher
from tests import support
from tests.programs.hold_launchers import (
    AGAIN,
    AT_A_TIME,
    INSIDE,
    TRIES,
    WRONG,
    Place,
    launch,
    name_built,
    what_lacks,
)
from tests.support.live import COMPILED, SOURCES, WITH_PMIX
from tests.support.tapes import COMMAND, PROGRAMS
from tests.support.two_nodes import NODES

SAID = re.compile(r"^wire_up-record: ", re.MULTILINE)
WORDS = (
    "shown", "shown-later", "alike", "not-made", "kept", "turned", "turned-alike", "gave-up"
)
SHOW, TURN = "--show", "--turn"
# Slurm publishes no names. PRRTE answers as if a name was published once, and brings nothing to a
# node of which a process isn't in the fence.
OPEN_MPI_4, WITH_NAMES, EVERY = (Kind.OPEN_MPI_4,), (Kind.OPEN_MPI_4, Kind.PRRTE), tuple(Kind)
# How long a hold lasts where nothing moves, in seconds.
HOLD = "4"


@dataclass(frozen=True)
class Case:
    """A program with its words, on so many processes; what it is asked for, the words that its
    races or orders must have, and the launchers under which they have them; the words where a
    library refuses a name that is there, as OpenPMIx 7 does; and on how many nodes it is tried."""

    processes: int
    words: Sequence[str]
    task: str
    expected: Sequence[str]
    kinds: Sequence[Kind] = WITH_NAMES
    refused: Sequence[str] = ()
    nodes: Sequence[int] = (1, 2)


CASES = (
    Case(2, ("shown", "branch"), SHOW, ["shown"]),
    Case(2, ("shown", "bigsend"), SHOW, ["shown"]),
    Case(3, ("shown", "third"), SHOW, ["shown", "shown-later"], WITH_NAMES, ["shown", "shown"]),
    Case(3, ("shown", "value"), SHOW, ["shown-later"], OPEN_MPI_4),
    Case(2, ("unseen", "barrier"), SHOW, ["shown"]),
    Case(3, ("cases", "wild1"), SHOW, ["shown"]),
    Case(2, ("told",), TURN, ["kept"]),
    Case(3, ("luck", "several"), TURN, ["turned"]),
    Case(4, ("names",), TURN, ["kept", "kept"]),
    Case(3, ("cards", "at-once"), SHOW, ["shown"], EVERY),
    Case(4, ("cards", "carried"), SHOW, ["shown"], OPEN_MPI_4),
    Case(2, ("cards", "fenced"), TURN, ["kept"], EVERY),
    Case(2, ("cards", "own-store"), TURN, ["turned", "kept"], OPEN_MPI_4, (), (2,)),
    Case(2, ("cards", "late"), TURN, ["turned"], OPEN_MPI_4, (), (2,)),
)


def find_words(said: str) -> list[str]:
    """What was said of each race or order, by its first word."""
    lines = [line for line in SAID.sub("", said).splitlines() if re.search(r" app\d*:", line)]
    return [word for word in (line.split(" ")[0] for line in lines) if word in WORDS]


def try_once(place: Place, case: Case, room: str) -> tuple[list[str], bool]:
    """What came of a program, in words, and whether that is as it must be."""
    options = ["--checker", support.program(), "-o", os.path.join(room, "plan"), "--hold", HOLD]
    before = [sys.executable, COMMAND, *options, case.task]
    path, *more = case.words
    ran = launch(place, case.processes, [name_built(place.folder, path), *more], before)
    found = find_words(ran.said)
    if found in (case.expected, case.refused):
        return found, True
    return [*found, f"not {', '.join(case.expected)}", *ran.said.splitlines()], False


def hold(place: Place, case: Case) -> list[tuple[list[str], bool]]:
    """Tries a program until it does as it must, but not often; answers what was seen each time."""
    seen: list[tuple[list[str], bool]] = []
    while len(seen) < TRIES and not (seen and seen[-1][1]):
        with tempfile.TemporaryDirectory(dir=place.folder) as room:
            seen.append(try_once(place, case, room))
    return seen


def hold_launcher(folder: str, name: str, least: str) -> int:
    """Runs all programs under a launcher, on this count of nodes at least, and answers the
    status."""
    launcher, status = find_launcher(name), 0
    cases = [each_case for each_case in CASES if launcher.kind in each_case.kinds]
    counts = range(int(least), len(NODES) + 1)
    every = [(count, case) for count in counts for case in cases if count in case.nodes]
    with concurrent.futures.ThreadPoolExecutor(AT_A_TIME) as pool:
        found = pool.map(lambda item: hold(Place(launcher, item[0], folder), item[1]), every)
        for (nodes, case), tries in zip(every, found):
            for words, is_well in tries:
                said = (name, f"{nodes} node{'s' * (nodes > 1)}", " ".join(case.words), *words)
                mark = "" if is_well else WRONG if (words, is_well) is tries[-1] else AGAIN
                print(*said, sep="; ", end=f"{mark}\n", flush=True)
            status = status if tries[-1][1] else 1
    return status


def build(folder: str) -> None:
    """Builds the recorder, and the programs into a folder."""
    subprocess.run(["make", "-s", "record", "record-mpi"], cwd=support.TOP, check=True)
    asked = ["pkg-config", "--cflags", "--libs", "pmix"]
    of_pmix = subprocess.run(asked, capture_output=True, text=True, check=True).stdout.split()
    for name in dict.fromkeys(each_case.words[0] for each_case in CASES):
        compiler, *words = COMPILED.get(name, ("mpicc", f"{name}.c"))
        words = [os.path.join(PROGRAMS, word) if word.endswith(SOURCES) else word for word in words]
        words += of_pmix if name in WITH_PMIX else []
        subprocess.run([compiler, "-g", "-o", name_built(folder, name), *words], check=True)


def main(words: Sequence[str]) -> int:
    """Runs the command, and answers its status."""
    if words[:1] == [INSIDE]:
        return hold_launcher(*words[1:])
    try:
        support.program()
    except unittest.SkipTest as why:
        print(why, file=sys.stderr)
        return 1
    status = 0
    with tempfile.TemporaryDirectory(prefix="wire-up-") as folder:
        build(folder)
        for word in words:
            name, _, least = word.partition(":")
            lacking = what_lacks(name)
            if lacking:
                print(f"{name}: left out: {lacking} isn't there")
                continue
            # Slurm starts its own daemons.
            nodes = "tests.support.slurm_nodes" if name == "srun" else "tests.support.two_nodes"
            again = ["tests.programs.show_launchers", INSIDE, folder, name, least or "1"]
            command = [sys.executable, "-m", nodes, sys.executable, "-m", *again]
            status |= subprocess.run(command, cwd=support.TOP, check=False).returncode
    return status


if __name__ == "__main__":
    sys.exit(main(sys.argv[1:]))
