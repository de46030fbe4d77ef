"""Finds which communicators of different processes are the same."""
from collections import Counter
from collections.abc import Hashable, Mapping, Sequence
from dataclasses import dataclass

from wire_up_tools.record.processes import Process, Processes
from wire_up_tools.record.recordings import RecordedCommunicator

# The processes of one side of a communicator, by their ranks.
Side = tuple[Process, ...]
# The processes by their ranks in MPI_COMM_WORLD.
World = Mapping[int, Process]


@dataclass(frozen=True, eq=False)
class Communicator:
    """A communicator as one of its processes has it.

    `identity` is the same in all its processes. `members` are its processes by their ranks, and
    `peers` those that messages and collectives are with: the same, or those of the other side.
    `rank` is that of the process itself.
    """

    identity: int
    rank: int
    members: Side
    peers: Side

    @property
    def has_two_sides(self) -> bool:
        """Whether its processes talk to those of another side."""
        return self.members is not self.peers

    def all_processes(self) -> frozenset[Process]:
        """The processes of both sides."""
        return frozenset(self.members).union(self.peers)


Communicators = Mapping[Process, Mapping[int, Communicator]]


def find_worlds(processes: Processes) -> dict[bytes, dict[int, Process]]:
    """The processes of each job by their ranks in MPI_COMM_WORLD."""
    worlds: dict[bytes, dict[int, Process]] = {job: {} for job in processes.jobs}
    for process in processes.all:
        world = process.recording.world
        if world:
            worlds[process.namespace].setdefault(world.rank, process)
    return worlds


class Identities:
    """A number for each communicator, by what is the same of it in all its processes."""

    def __init__(self) -> None:
        self.found: dict[Hashable, int] = {}

    def find(self, what: Hashable) -> int:
        """The number of a communicator."""
        return self.found.setdefault(what, len(self.found))


def describe(
    process: Process,
    recorded: RecordedCommunicator,
    found: Mapping[int, Communicator],
    sides: Sequence[Side],
) -> Hashable:
    """What is the same of a communicator in all its processes, but for which one it is of those
    that are alike: where it comes from and its members, or its two sides."""
    if len(sides) > 1:
        return (
            "inter",
            *sorted(sides, key=lambda them: [each_process.index for each_process in them]),
        )
    parent = found.get(recorded.parent)
    return (parent.identity if parent else process.namespace, recorded.which, *sides)


def find_own(
    process: Process, world: World, identities: Identities
) -> Mapping[int, Communicator]:
    """The communicators of a process by their numbers, without those of which a process isn't
    recorded."""
    found: dict[int, Communicator] = {}
    alike: Counter[Hashable] = Counter()
    for number, recorded in process.recording.communicators.items():
        ranks = [recorded.ranks]
        ranks += [] if recorded.remote_ranks is None else [recorded.remote_ranks]
        if any(rank not in world for side in ranks for rank in side):
            continue
        sides = [tuple(world[rank] for rank in side) for side in ranks]
        members = sides[0]
        if process not in members or len(set(members)) < len(members):
            continue
        what = describe(process, recorded, found, sides)
        alike[what] += 1
        identity = identities.find((what, alike[what]))
        found[number] = Communicator(identity, members.index(process), members, sides[-1])
    return found


def find_communicators(processes: Processes) -> Communicators:
    """The communicators of each process by their numbers."""
    worlds, identities = find_worlds(processes), Identities()
    return {
        process: find_own(process, worlds[process.namespace], identities)
        for process in processes.all
    }
