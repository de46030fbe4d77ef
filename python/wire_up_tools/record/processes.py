"""Puts recordings in the order of a plan: its nodes, its jobs, and their processes."""
import re
from collections.abc import Iterator, Mapping, Sequence
from dataclasses import dataclass
from functools import cached_property
from typing import NamedTuple

from wire_up_tools.limits import VERSION_1, Limits
from wire_up_tools.record.calls import (
    AnyRank,
    Call,
    Fence,
    Get,
    GetEnd,
    ProcessName,
    ValueKind,
)
from wire_up_tools.record.recordings import PROCESS_LINE, Recording, refuse, refuse_past
from wire_up_tools.words import Words, show

# With these statuses a call never began: the library refused it.
NEVER_BEGAN = (-25, -27, -29, -31, -32, -47)
JOB_SIZE, NUMBER_OF_APPLICATION = b"pmix.job.size", b"pmix.appnum"
# What the name of a node can't have.
NOT_IN_NODES = b":,#*"
# The name of the job of a plan that has one. Of several, each has its number besides.
ONLY_JOB = "app"
# How many missing ranks a refusal names.
NAMED = 5


def find_told_number(
    call: Call, key: bytes, owners: Sequence[ProcessName | None]
) -> int | None:
    """The number that a call got, if it is a get of this key of one of these processes."""
    get = call.action
    if not isinstance(get, Get) or get.keys != (key,) or get.owner not in owners or call.status:
        return None
    value = call.end.value if isinstance(call.end, GetEnd) else None
    read = re.fullmatch(r"\d+:(\d{1,7})", value.detail) if value else None
    return int(read[1]) if read and value and value.kind is ValueKind.NUMBER else None


@dataclass(frozen=True, eq=False)
class Process:
    """A process: its name in the plan, such as `app:0`, a shorter one for the names of messages,
    its node in the plan, its index in the order of all processes, and its recording."""

    namespace: bytes
    rank: int
    name: str
    short_name: str
    node: str
    index: int
    recording: Recording

    @cached_property
    def application(self) -> tuple[bytes, int]:
        """Its job and its number in that, of one program that the job runs: 0 where nobody told
        it."""
        if self.recording.application is not None:
            return self.namespace, self.recording.application
        own = (ProcessName(self.namespace, self.rank), ProcessName(b"", self.rank))
        told = (find_told_number(call, NUMBER_OF_APPLICATION, own) for call in self.recording.calls)
        return self.namespace, next((number for number in told if number is not None), 0)


@dataclass(frozen=True)
class Job:
    """A job: its namespace, its name in the plan, and its processes by their ranks."""

    namespace: bytes
    name: str
    processes: tuple[Process, ...]


@dataclass(frozen=True)
class Processes:
    """The jobs by their namespaces in the order of the plan, all processes, and the words for
    nodes by the names of their hosts. `is_large` says that there are more of any than the plain
    limits allow."""

    jobs: Mapping[bytes, Job]
    all: tuple[Process, ...]
    nodes: Mapping[bytes, str]
    is_large: bool

    def find(self, namespace: bytes, rank: int) -> Process | None:
        """The process of a rank; None where it isn't recorded."""
        job = self.jobs.get(namespace)
        return job.processes[rank] if job and 0 <= rank < len(job.processes) else None


Ranks = Mapping[int, Recording]


def group_by_job(recordings: Sequence[Recording]) -> dict[bytes, Ranks]:
    """The recordings by their namespaces and ranks. Refuses one rank twice."""
    jobs: dict[bytes, dict[int, Recording]] = {}
    for recording in recordings:
        ranks = jobs.setdefault(recording.namespace, {})
        if recording.rank in ranks:
            before, who = (
                ranks[recording.rank].path,
                f"rank {recording.rank} of {show(recording.namespace)}",
            )
            refuse(recording.path, PROCESS_LINE, f"says that it is {who} once more, after {before}")
        ranks[recording.rank] = recording
    return {**jobs}


def find_ranks_in_fence(call: Call, fence: Fence, namespace: bytes) -> Iterator[int]:
    """The ranks of a job that a fence names, if it began."""
    if call.status not in NEVER_BEGAN:
        for name in fence.names:
            if name.namespace == namespace and isinstance(name.rank, int):
                yield name.rank


def find_last_rank(call: Call, namespace: bytes) -> Iterator[int]:
    """The last rank of the job of a caller, if the call is a get of that job's size."""
    size = find_told_number(call, JOB_SIZE, (None, ProcessName(namespace, AnyRank.ALL)))
    if size is not None:
        yield size - 1


class Told(NamedTuple):
    """A rank that a line of a recording tells of."""

    rank: int
    path: str
    line: int


def find_told_ranks(namespace: bytes, recordings: Sequence[Recording]) -> Iterator[Told]:
    """The ranks of a job that recordings tell of: by their heads, by the size of MPI_COMM_WORLD,
    by the job's size that the library told, and by sets of fences."""
    for recording in recordings:
        if recording.namespace == namespace:
            yield Told(recording.rank, recording.path, PROCESS_LINE)
        if recording.world and recording.namespace == namespace:
            yield Told(recording.world.size - 1, recording.path, recording.world.line)
        for call in recording.calls_of_pmix:
            ranks: Iterator[int] = iter(())
            if isinstance(call.action, Fence):
                ranks = find_ranks_in_fence(call, call.action, namespace)
            elif recording.namespace == namespace:
                ranks = find_last_rank(call, namespace)
            yield from (Told(rank, recording.path, call.begins) for rank in ranks)


def refuse_missing(
    namespace: bytes, ranks: Ranks, recordings: Sequence[Recording], most: Limits
) -> None:
    """Refuses a job of which a rank has no recording."""
    last = max(find_told_ranks(namespace, recordings), key=lambda rank: rank.rank)
    count = last.rank + 1
    missing = [number for number in range(min(count, 10 * most.processes)) if number not in ranks]
    if missing:
        some = ", ".join(map(str, missing[:NAMED])) + (", .." if len(missing) > NAMED else "")
        refuse(
            last.path,
            last.line,
            f"says that {show(namespace)} has {count} ranks, "
            f"and there is no recording of {count - len(ranks)} of them: {some}",
        )


def name_nodes(jobs: Sequence[Ranks]) -> dict[bytes, str]:
    """Words for the hosts, in the order in which the processes name them."""
    hosts = dict.fromkeys(ranks[rank].host for ranks in jobs for rank in sorted(ranks))
    words = Words(hosts, NOT_IN_NODES)
    return {host: words[host] for host in hosts}


def make_job(name: str, ranks: Ranks, nodes: Mapping[bytes, str], first: int) -> Job:
    """A job of recordings by their ranks; its first process has the index `first`."""
    prefix = "" if name == ONLY_JOB else f"{name}."
    processes = tuple(
        Process(
            namespace=ranks[rank].namespace,
            rank=rank,
            name=f"{name}:{rank}",
            short_name=f"{prefix}{rank}",
            node=nodes[ranks[rank].host],
            index=first + rank,
            recording=ranks[rank],
        )
        for rank in sorted(ranks)
    )
    return Job(processes[0].namespace, name, processes)


def is_past(most: Limits, jobs: int, processes: int, nodes: int) -> bool:
    """Whether so many are more than some limits."""
    return jobs > most.jobs or processes > most.processes or nodes > most.nodes


def arrange_processes(recordings: Sequence[Recording], most: Limits) -> Processes:
    """Puts recordings in order: jobs by when they began, ranks from 0.

    Raises Refused for recordings that aren't those of whole jobs, or are past the limits.
    """
    by_job = group_by_job(recordings)
    for namespace, ranks in by_job.items():
        refuse_missing(namespace, ranks, recordings, most)
    begun = {of: min(rank.began for rank in ranks.values()) for of, ranks in by_job.items()}
    order = sorted(by_job, key=lambda text: (begun[text], text))
    nodes = name_nodes([by_job[text] for text in order])
    jobs: dict[bytes, Job] = {}
    processes: list[Process] = []
    for number, namespace in enumerate(order):
        name = ONLY_JOB if len(order) == 1 else f"{ONLY_JOB}{number}"
        job = make_job(name, by_job[namespace], nodes, len(processes))
        jobs[namespace] = job
        processes += job.processes
    refuse_past(most.jobs, "jobs", len(jobs))
    refuse_past(most.processes, "processes", len(processes))
    refuse_past(most.nodes, "nodes", len(nodes))
    is_large = is_past(VERSION_1, len(jobs), len(processes), len(nodes))
    return Processes(jobs, tuple(processes), nodes, is_large)
