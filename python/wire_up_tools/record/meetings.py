"""Calls that processes make together: those of one fence, or of one collective."""
import bisect
import sys
from collections.abc import Iterable, Iterator, Mapping, Sequence
from dataclasses import dataclass, field

from wire_up_tools.record.calls import AnyRank, Call, ProcessName
from wire_up_tools.record.names import name_set
from wire_up_tools.record.processes import Process, Processes

# Calls of more processes than this have no names in place of a fence: there would be one for each
# pair.
MOST_NAMED = 32

Members = frozenset[Process]


@dataclass(frozen=True, eq=False)
class JointCalls:
    """The calls of those of some members that made one, in the order of their processes."""

    members: Members
    calls: Mapping[Process, Call]

    @property
    def is_whole(self) -> bool:
        """Whether all members made one."""
        return len(self.calls) == len(self.members)


def join_calls(
    members: Members, calls: Mapping[Process, Sequence[Call]]
) -> Iterator[JointCalls]:
    """The n-th calls of each process that has so many, for each n."""
    for n in range(max(map(len, calls.values()))):
        yield JointCalls(members, {call: them[n] for call, them in calls.items() if n < len(them)})


@dataclass
class Bounds:
    """At which lines of the recording of each process calls begin and end, found out where that is
    asked for: of MPI's calls and, where `of_pmix` doesn't say where they are, of all of PMIx."""

    of_pmix: Mapping[Process, Sequence[int]] | None = None
    found: dict[Process, Sequence[int]] = field(default_factory=dict)

    def find(self, process: Process) -> Sequence[int]:
        """The lines of the recording of one process, in order, but for those of messages."""
        if process not in self.found:
            every = process.recording.calls
            calls = [call for call in every if self.of_pmix is None or not call.is_of_pmix]
            bounds = [call.begins for call in calls] + [call.ends for call in calls if call.ends]
            self.found[process] = sorted([*bounds, *(self.of_pmix or {}).get(process, ())])
        return self.found[process]

    def has_inside(self, process: Process, call: Call) -> bool:
        """Whether a call of a process begins or ends while another one is open."""
        messages, ends = process.recording.messages, call.ends or sys.maxsize
        return any(
            bisect.bisect(them, call.begins) < bisect.bisect_left(them, ends)
            for them in (self.find(process), messages.begins, messages.ends_in_order)
        )

    def has_any(self, meeting: JointCalls) -> bool:
        """Whether a process has one while it is in a call that several made."""
        return any(self.has_inside(each_call, call) for each_call, call in meeting.calls.items())


@dataclass
class Sets:
    """The sets of processes that fences name, found once for each."""

    processes: Processes
    found: dict[tuple[bytes, tuple[ProcessName, ...]], Members | None] = field(
        default_factory=dict
    )
    words: dict[tuple[bytes, Members], str] = field(default_factory=dict)

    def find_members(self, caller: Process, names: tuple[ProcessName, ...]) -> Members | None:
        """The members of a fence; None where one isn't recorded, or the caller isn't one."""
        at = caller.namespace, names
        if at not in self.found:
            self.found[at] = self.read_names(caller, names)
        members = self.found[at]
        return members if members and caller in members else None

    def read_names(self, caller: Process, names: Iterable[ProcessName]) -> Members | None:
        """The processes that a fence names; None where one isn't recorded."""
        found: set[Process] = set()
        for name in names:
            job = self.processes.jobs.get(name.namespace or caller.namespace)
            if not job or name.rank is AnyRank.UNDEFINED:
                return None
            if name.rank is AnyRank.ALL:
                found.update(job.processes)
            else:
                process = self.processes.find(job.namespace, name.rank)
                if not process:
                    return None
                found.add(process)
        return frozenset(found)

    def find_word(self, caller: Process, members: Members) -> str:
        """A set as a word, as the caller of a fence says it."""
        at = caller.namespace, members
        if at not in self.words:
            self.words[at] = name_set(self.processes, caller, members)
        return self.words[at]
