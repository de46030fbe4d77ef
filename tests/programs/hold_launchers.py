"""Runs five programs under launchers that are there, by themselves and recorded: on one node, and
on two that are none.

Usage: python3 -m tests.programs.hold_launchers LAUNCHER..
LAUNCHER is `mpirun`, `prterun`, `prun` or `srun`. It takes root. A line for each program says
whether it ended recorded as by itself, how many findings its plan has, whether a replay answers as
its calls were answered, and what the recorder said. What isn't as it must be is tried again; if it
stays so, the status is 1.
"""
import concurrent.futures
import contextlib
import itertools
import os
import shutil
import subprocess
import sys
import tempfile
import time
import unittest
from collections.abc import Iterator, Sequence
from dataclasses import dataclass

from wire_up_tools.files import write_file
from wire_up_tools.run.launchers import AS_ROOT, Kind, Launcher, find_launcher
from tests import support
from tests.support.recorded import IN_PART, OTHERS, why_wrong
from tests.support.tapes import COMMAND, PATIENCE, PROGRAMS
from tests.support.two_nodes import INTERFACE, NODES, SHELL

RECORDED = ("early", "told", "ring", "names", "collectives")
# What fails by itself: Slurm publishes no names.
FAIL = {Kind.SLURM: ("early", "told", "names")}
# How often a program is tried: `mpirun` may mix two lines, `early` can be too early, and a process
# can hear of another while its fence in MPI_Init is open. And how many are run at a time.
TRIES, AT_A_TIME = 3, 2
INSIDE = "--inside"
AGAIN, WRONG = "  <-- tried again", "  <-- WRONG"
RECORDER = "wire_up-record: "
# How long the daemons of `prun` may take to be there, in seconds.
SECONDS = 20
# By which options a launcher is told of a remote shell, an interface and a folder for what it
# keeps; and those by which ranks stand on the hosts of a file, in its order.
DAEMONS = {
    Kind.OPEN_MPI_4: ("--mca", "plm_rsh_agent", "oob_tcp_if_include", "orte_tmpdir_base"),
    Kind.PRRTE: ("--prtemca", "plm_ssh_agent", "prte_if_include", "prte_tmpdir_base"),
}
PLACES = {
    Kind.OPEN_MPI_4: ("--oversubscribe", "--bind-to", "none", "--mca", "rmaps", "seq"),
    Kind.PRRTE: ("--bind-to", "none", "--map-by", "seq:OVERSUBSCRIBE"),
    Kind.SLURM: ("--quiet", "--mpi=pmix", "--distribution=arbitrary"),
}
# Debian tells Open MPI 6 to send messages by the loopback alone.
ENVIRONMENT = {**os.environ, **AS_ROOT, "OMPI_MCA_btl_tcp_if_include": INTERFACE}


@dataclass(frozen=True)
class Place:
    """Where programs run: by a launcher, on so many nodes, in a folder with what is built."""

    launcher: Launcher
    nodes: int
    folder: str


@dataclass(frozen=True)
class Ran:
    """How a program ended, what it wrote, and what else was said."""

    status: int
    lines: Sequence[str]
    said: str

    def is_like(self, other: "Ran") -> bool:
        """Whether another ended so, and wrote the same."""
        return (self.status, self.lines) == (other.status, other.lines)

    @property
    def told(self) -> list[str]:
        """What the recorder said of the plan."""
        lines = (line.partition(RECORDER) for line in self.said.splitlines())
        found = [told for before, sign, told in lines if sign and not before]
        return [text for text in found if not text.startswith("the command ended")]


@dataclass(frozen=True)
class Seen:
    """What became of a program, in the words of its line, and whether that is as it must be."""

    words: Sequence[str]
    is_well: bool


def tell_daemons(kind: Kind, hosts: str, room: str) -> list[str]:
    """The options by which a launcher starts its daemons on the hosts of a file."""
    if kind is Kind.SLURM:
        return []
    option, *names = DAEMONS[kind]
    values = zip(names, (os.environ[SHELL], INTERFACE, room))
    told = itertools.chain.from_iterable((option, name, value) for name, value in values)
    return ["--hostfile", hosts, *told]


@contextlib.contextmanager
def started_daemons(options: Sequence[str], room: str) -> Iterator[str]:
    """Starts the daemons that `prun` needs, which end with this, and gives their address. What a
    program published stays with them: so each run has its own."""
    path, nothing = os.path.join(room, "uri"), subprocess.DEVNULL
    words = ["prte", *options, "--report-uri", path]
    with subprocess.Popen(
        words, stdin=nothing, stdout=nothing, stderr=nothing, env=ENVIRONMENT
    ) as daemon:
        until = time.monotonic() + SECONDS
        while time.monotonic() < until and not (os.path.exists(path) and os.path.getsize(path)):
            time.sleep(0.02)
        try:
            yield f"file:{path}"
        finally:
            daemon.terminate()


def run_words(words: Sequence[str], hosts: str) -> Ran:
    """Runs a command."""
    ran = subprocess.run(
        words,
        stdin=subprocess.DEVNULL,
        capture_output=True,
        text=True,
        errors="replace",
        env={**ENVIRONMENT, "SLURM_HOSTFILE": hosts},
        check=False,
    )
    return Ran(ran.returncode, sorted(ran.stdout.split("\n")), ran.stderr)


def run(place: Place, name: str, before: Sequence[str] = ()) -> Ran:
    """Runs a program, with words before the command line of its launcher."""
    return launch(place, OTHERS[name].processes, [name_built(place.folder, name)], before)


def what_lacks(name: str) -> str:
    """What of a launcher isn't there; empty where it is. That of Slurm takes Munge too."""
    needed = [name, *(["munged"] if name == "srun" else [])]
    return next((word for word in needed if not shutil.which(word)), "")


def launch(place: Place, count: int, words: Sequence[str], before: Sequence[str]) -> Ran:
    """Runs so many processes of a program with its words."""
    kind, program = place.launcher.kind, ["-n", str(count), *words]
    before = [*before, "timeout", "-k", "5", str(PATIENCE), *place.launcher.words]
    with tempfile.TemporaryDirectory(dir=place.folder) as room:
        hosts = os.path.join(room, "hosts")
        write_file(hosts, "".join(f"{NODES[rank % place.nodes]}\n" for rank in range(count)))
        daemons = tell_daemons(kind, hosts, room)
        if place.launcher.name != "prun":
            return run_words([*before, *daemons, *PLACES[kind], *program], hosts)
        with started_daemons(daemons, room) as address:
            there = ["--dvm-uri", address, "--hostfile", hosts]
            return run_words([*before, *there, *PLACES[kind], *program], hosts)


def try_once(place: Place, name: str, room: str) -> Seen:
    """Runs a program by itself and recorded, and holds its plan to what it must have."""
    plan, answers = (os.path.join(room, word) for word in ("plan", "answers"))
    words = ["--checker", support.program(), "-o", plan, "--answers", answers]
    plain, ran = run(place, name), run(place, name, [sys.executable, COMMAND, *words])
    if not plain.is_like(ran):
        ended = f"ends with {ran.status} recorded, and with {plain.status} by itself"
        return Seen([ended, *ran.said.splitlines()], False)
    fails = name in FAIL.get(place.launcher.kind, ())
    if plain.status or fails:
        is_well = plain.status != 0 and fails and IN_PART in ran.said
        return Seen([f"ends with {plain.status} recorded as by itself", *ran.told], is_well)
    count = OTHERS[name].findings
    wrong = why_wrong(support.program(), plan, answers, count)
    # There is no replay of a plan with a race.
    replayed = "" if count else ", and replayed as answered"
    found = f"findings {count} of {count}{replayed}"
    if wrong:
        found = f"{', '.join(wrong.splitlines())}, not findings {count}"
    is_well = not wrong and IN_PART not in ran.said
    return Seen(["ends recorded as by itself", found, *ran.told], is_well)


def hold(place: Place, name: str) -> list[Seen]:
    """Tries a program until it does as it must, but not often; answers what was seen each time."""
    seen: list[Seen] = []
    while len(seen) < TRIES and not (seen and seen[-1].is_well):
        with tempfile.TemporaryDirectory(dir=place.folder) as room:
            seen.append(try_once(place, name, room))
    return seen


def hold_launcher(folder: str, name: str) -> int:
    """Runs all programs under a launcher, where there are nodes, and answers the status."""
    launcher, status = find_launcher(name), 0
    # A launcher may have another one say its version.
    version = " ".join(dict.fromkeys([launcher.name, *launcher.version.split()]))
    every = list(itertools.product((1, len(NODES)), RECORDED))
    with concurrent.futures.ThreadPoolExecutor(AT_A_TIME) as pool:
        found = pool.map(lambda row: hold(Place(launcher, row[0], folder), row[1]), every)
        for (nodes, program), tries in zip(every, found):
            for each_try in tries:
                said = (version, f"{nodes} node{'s' * (nodes > 1)}", program, *each_try.words)
                mark = "" if each_try.is_well else WRONG if each_try is tries[-1] else AGAIN
                print(*said, sep="; ", end=f"{mark}\n", flush=True)
            status = status if tries[-1].is_well else 1
    return status


def name_built(folder: str, name: str) -> str:
    """The path of a built program in a folder."""
    return os.path.join(folder, f"{name}.built")


def build(folder: str) -> None:
    """Builds the recorder, and the programs into a folder."""
    subprocess.run(["make", "-s", "record", "record-mpi"], cwd=support.TOP, check=True)
    for name in RECORDED:
        source = os.path.join(PROGRAMS, f"{name}.c")
        subprocess.run(["mpicc", "-g", "-o", name_built(folder, name), source], check=True)


def main(words: Sequence[str]) -> int:
    """Runs the command, and answers its status."""
    if words[:1] == [INSIDE]:
        return hold_launcher(*words[1:])
    try:
        support.program()
    except unittest.SkipTest as why:
        print(why, file=sys.stderr)
        return 1
    status = 0
    with tempfile.TemporaryDirectory(prefix="wire-up-") as folder:
        build(folder)
        for name in words:
            lacking = what_lacks(name)
            if lacking:
                print(f"{name}: left out: {lacking} isn't there")
                continue
            # Slurm starts its own daemons.
            nodes = "tests.support.slurm_nodes" if name == "srun" else "tests.support.two_nodes"
            again = ["tests.programs.hold_launchers", INSIDE, folder, name]
            words = [sys.executable, "-m", nodes, sys.executable, "-m", *again]
            status |= subprocess.run(words, cwd=support.TOP, check=False).returncode
    return status


if __name__ == "__main__":
    sys.exit(main(sys.argv[1:]))
