"""Notes the calls that were made while one is open that the plan puts before them: it gives them an
order that the program doesn't."""
import bisect
import sys
from collections.abc import Container, Iterable

from wire_up_tools.record.calls import Call, Get
from wire_up_tools.record.directives import AT_ONCE, has_directive, stands_early
from wire_up_tools.record.meetings import JointCalls
from wire_up_tools.record.messages import Messages
from wire_up_tools.record.pmix_calls import PmixLines, find_owner
from wire_up_tools.record.pmix_fences import PmixFences
from wire_up_tools.record.processes import Process, Processes


def find_early(calls: Iterable[Call], fences: Container[Call]) -> list[tuple[int, int]]:
    """From where to where calls are open that the plan puts before those that were made
    meanwhile, in order and apart from each other. These fences are among them."""
    found: list[tuple[int, int]] = []
    for call in calls:
        if stands_early(call.action) or call in fences:
            ends = call.ends or sys.maxsize
            if found and call.begins < found[-1][1]:
                found[-1] = found[-1][0], max(ends, found[-1][1])
            else:
                found.append((call.begins, ends))
    return found


def has_ended(call: Call, before: Call) -> bool:
    """Whether a call had ended when another began."""
    return call.ends is not None and call.ends < before.begins


class Overlaps:
    """Finds what is settled when a call is made, whatever else is open."""

    def __init__(self, processes: Processes, lines: PmixLines, fences: PmixFences) -> None:
        self.processes = processes
        self.lines = lines
        self.early = fences.find_early()
        self.fences: dict[Process, list[JointCalls]] = {}
        for joint in (joint_calls for them in fences.by_set.values() for joint_calls in them):
            for process in joint.calls:
                self.fences.setdefault(process, []).append(joint)
        for process, them in self.fences.items():
            them.sort(key=lambda joint_calls: joint_calls.calls[process].begins)

    def is_settled(self, process: Process, call: Call) -> bool:
        """Whether a call is a get of what its owner had committed for the last time before a fence
        that both had passed: then it gives the same wherever it stands, and orders nothing."""
        get = call.action
        if not isinstance(get, Get) or call.status != 0 or not get.keys:
            return False
        owner = find_owner(self.processes, process, get)
        if not owner or has_directive(get.directives, *AT_ONCE):
            return False
        done = self.lines.puts.find(owner).done.get(get.keys[0], sys.maxsize)
        fences = (fence.calls for fence in reversed(self.fences.get(process, ())))
        passed = (
            fence[owner] for fence in fences if owner in fence and has_ended(fence[process], call)
        )
        latest = next(passed, None)
        return latest is not None and done < latest.begins

    def count(self, process: Process, messages: Messages) -> int:
        """How many calls of a process get an order that the program doesn't give them."""
        calls = self.lines.calls[process]
        early = find_early(calls, self.early)
        begins, count = [call.begins for call in calls] if early else [], 0
        for first, last in early:
            meanwhile = range(bisect.bisect(begins, first), bisect.bisect_left(begins, last))
            count += sum(not self.is_settled(process, calls[number]) for number in meanwhile)
            count += bisect.bisect_left(messages.begins, last)
            count -= bisect.bisect(messages.begins, first)
        return count


def note_overlaps(
    processes: Processes, lines: PmixLines, fences: PmixFences, *, with_mpi: bool
) -> None:
    """Notes the calls that get such an order."""
    overlaps = Overlaps(processes, lines, fences)
    for process in processes.all:
        messages = process.recording.messages if with_mpi else Messages()
        lines.notes.more_ordered[
            "calls made while one that doesn't block was open: in the plan they come after it"
        ] += overlaps.count(process, messages)
