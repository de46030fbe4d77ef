"""The launchers: which there is, and the command line by which it starts the ranks of a plan."""
import enum
import os
import re
import shlex
import shutil
import subprocess
from collections.abc import Mapping, Sequence
from dataclasses import dataclass
from pathlib import Path

from wire_up_tools.failures import Refused

SECONDS = 20
# Those that are looked for, in this order.
KNOWN = ("mpirun", "prterun", "srun")
AS_ROOT = {
    f"{name}_ALLOW_RUN_AS_ROOT{end}": "1" for name in ("OMPI", "PRTE") for end in ("", "_CONFIRM")
}


class Kind(enum.Enum):
    """What a launcher understands."""

    OPEN_MPI_4 = "orted"
    PRRTE = "prrte"
    SLURM = "slurm"
    OWN = "own"


@dataclass(frozen=True)
class Launcher:
    """A launcher: the words that begin its command line, and what it says of itself."""

    kind: Kind
    words: Sequence[str]
    version: str

    @property
    def name(self) -> str:
        """How messages name it."""
        return Path(self.words[0]).name

    @property
    def makes_fake_nodes(self) -> bool:
        """Whether it starts its daemons by a remote shell, which can make fake nodes."""
        return self.kind in (Kind.OPEN_MPI_4, Kind.PRRTE)

    @property
    def takes_several_jobs(self) -> bool:
        """Whether a process that it started can start the jobs of a plan."""
        return self.kind in (Kind.OPEN_MPI_4, Kind.PRRTE)


@dataclass(frozen=True)
class Start:
    """What a launcher is to start: a program with its words, on a host for each rank in rank order;
    or with several jobs once, on the first host, with room for all ranks on each of the hosts.

    `folder` is that of the run, and `agent` the remote shell that makes fake nodes, if they are.
    """

    program: Sequence[str]
    hosts: Sequence[str]
    has_several_jobs: bool
    folder: Path
    agent: Path | None

    @property
    def host_file(self) -> Path:
        """The path of the file that has the hosts."""
        return self.folder / "hosts"


def tell_kind(said: str) -> Kind | None:
    """What a launcher is, by what it says of its version."""
    open_mpi = re.search(r"Open MPI\) (\d+)", said)
    if open_mpi:
        return Kind.OPEN_MPI_4 if int(open_mpi[1]) < 5 else Kind.PRRTE
    if "PRRTE" in said or "prte" in said.lower():
        return Kind.PRRTE
    return Kind.SLURM if said.startswith("slurm") else None


def ask_version(path: str) -> str:
    """The first line that a launcher writes of its version. Raises Refused."""
    try:
        ran = subprocess.run(
            [path, "--version"],
            stdin=subprocess.DEVNULL,
            capture_output=True,
            env={**os.environ, **AS_ROOT},
            timeout=SECONDS,
            check=False,
        )
    except (OSError, subprocess.TimeoutExpired):
        raise Refused(f"{path}: doesn't say its version") from None
    said = ran.stdout.decode("utf-8", "replace").strip().splitlines()
    return said[0] if said else ""


def find_launcher(asked: str | None) -> Launcher:
    """The launcher of a name or path, else the first that is there. Raises Refused."""
    found = (shutil.which(each_asked) for each_asked in ([asked] if asked else KNOWN))
    path = next((text for text in found if text), None)
    if not path:
        wanted = asked or " or ".join(KNOWN)
        raise Refused(f"there is no {wanted}: on Debian the package openmpi-bin has mpirun")
    version = ask_version(path)
    kind = tell_kind(version)
    if kind is None:
        raise Refused(
            f"{path}: is no launcher of Open MPI, PRRTE or Slurm: --command takes any other"
        )
    return Launcher(kind, [path], version)


def read_command(command: str) -> Launcher:
    """A command line of the user's. Raises Refused if it isn't there."""
    try:
        words = shlex.split(command)
    except ValueError:
        words = []
    if not words or not shutil.which(words[0]):
        raise Refused(f"--command: there is no {words[0] if words else 'command in it'}")
    return Launcher(Kind.OWN, words, command)


def write_hosts(launcher: Launcher, start: Start) -> str:
    """The text of the file of hosts."""
    if not start.has_several_jobs:
        return "".join(f"{host}\n" for host in start.hosts)
    different = dict.fromkeys(start.hosts)
    return "".join(f"{host} slots={len(start.hosts)}\n" for host in different)


def write_open_mpi_4(start: Start) -> list[str]:
    """The options of `mpirun` of Open MPI 4."""
    words = ["--oversubscribe", "--bind-to", "none", "--hostfile", str(start.host_file)]
    if start.agent:
        words += ["--mca", "plm_rsh_agent", str(start.agent), "--mca", "oob_tcp_if_include", "lo"]
        words += ["--mca", "orte_tmpdir_base", str(start.folder)]
    if start.has_several_jobs:
        return [*words, "-np", "1", "--map-by", "slot"]
    return [*words, "--mca", "rmaps", "seq", "-np", str(len(start.hosts))]


def write_prrte(start: Start) -> list[str]:
    """The options of `prterun`, and of `mpirun` of Open MPI 5."""
    words = ["--bind-to", "none", "--hostfile", str(start.host_file)]
    if start.agent:
        words += ["--prtemca", "plm_ssh_agent", str(start.agent)]
        words += ["--prtemca", "prte_if_include", "v0"]
        words += ["--prtemca", "prte_tmpdir_base", str(start.folder)]
    if start.has_several_jobs:
        return [*words, "-np", "1", "--map-by", "slot:OVERSUBSCRIBE"]
    return [*words, "--map-by", "seq:OVERSUBSCRIBE", "-np", str(len(start.hosts))]


def write_slurm(start: Start) -> list[str]:
    """The options of `srun`."""
    words = ["--quiet", "--mpi=pmix", "--distribution=arbitrary", "--kill-on-bad-exit=0"]
    return [*words, "-n", str(len(start.hosts)), "-c", "1"]


WRITERS = {
    Kind.OPEN_MPI_4: write_open_mpi_4,
    Kind.PRRTE: write_prrte,
    Kind.SLURM: write_slurm,
}


def write_command(launcher: Launcher, start: Start) -> list[str]:
    """The whole command line of a launcher."""
    if launcher.kind is Kind.OWN:
        return [*launcher.words, *start.program]
    return [*launcher.words, *WRITERS[launcher.kind](start), *start.program]


def make_environment(launcher: Launcher, start: Start) -> Mapping[str, str]:
    """The environment of a launcher. Root must say that this is meant."""
    made = dict(os.environ)
    # Among fake nodes every user is root.
    if start.agent or not os.geteuid():
        made.update(AS_ROOT)
    if launcher.kind is Kind.SLURM:
        made["SLURM_HOSTFILE"] = str(start.host_file)
    if start.agent:
        made["TMPDIR"] = str(start.folder)
    return made
