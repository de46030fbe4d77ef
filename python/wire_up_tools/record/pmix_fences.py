"""Makes lines of the fences of PMIx: the n-th of each member over one set meet.

The making of a group and its end are fences of its processes too, where all of them make the same
calls over its set in the same order.
"""
from collections.abc import Mapping, Sequence
from dataclasses import dataclass

from wire_up_tools.record.calls import Call, Ending, Fence, Group, ProcessName
from wire_up_tools.record.directives import COLLECT, OF_GROUPS, find_ending, has_directive
from wire_up_tools.record.draft import Line, Part
from wire_up_tools.record.meetings import (
    MOST_NAMED,
    Bounds,
    JointCalls,
    Members,
    Sets,
    join_calls,
)
from wire_up_tools.record.names import Spelling
from wire_up_tools.record.notes import Notes
from wire_up_tools.record.processes import NEVER_BEGAN, Process
from wire_up_tools.words import show

REFUSED_GROUPS = (
    "calls that make or end groups, and that the library refused, since they can't change a finding"
)
OTHER_GROUPS = "calls that make or end groups, and aren't known to be fences of their processes"


@dataclass(frozen=True)
class PmixFences:
    """The lines of fences, and the calls of those fences over each set that are fences in the
    plan too."""

    part: Part
    notes: Notes
    by_set: Mapping[Members, Sequence[JointCalls]]

    def find_early(self) -> set[Call]:
        """The calls that don't block and are fences in the plan: they stand where they were made,
        so that all that follows comes after them."""
        meetings = (joint_calls for them in self.by_set.values() for joint_calls in them)
        every = (call for meeting in meetings for call in meeting.calls.values())
        return {
            each_call for each_call in every if find_ending(each_call.action) is not Ending.BLOCKS
        }


def is_collecting(call: Call) -> bool:
    """Whether a call is a fence that collects."""
    action = call.action
    return isinstance(action, Fence) and has_directive(action.directives, COLLECT)


CallsBySet = dict[Members, dict[Process, list[Call]]]


def say_kind(call: Call) -> str:
    """What a fence is: one of those of a group has its name."""
    action = call.action
    if not isinstance(action, Group):
        return "fence"
    return f"{'construct' if action.is_made else 'destruct'} {show(action.name)}"


class OpenGroups:
    """The processes of the groups that a process has made."""

    def __init__(self) -> None:
        self.found: dict[bytes, tuple[ProcessName, ...]] = {}

    def find(self, call: Call) -> tuple[ProcessName, ...] | None:
        """The processes that a fence or a call of a group waits for; None where it isn't known
        that it waits for all of them."""
        action = call.action
        if isinstance(action, Fence):
            return action.names
        assert isinstance(action, Group), "it is a fence or of a group"
        is_plain = (
            all(directive.key in OF_GROUPS for directive in action.directives)
            and not call.has_failed
        )
        before = self.found.pop(action.name, None)
        names = (action.names if action.is_made else before) if is_plain else None
        if names and action.is_made:
            self.found[action.name] = names
        return names


def leave_out_groups(found: CallsBySet, notes: Notes) -> None:
    """Leaves out the calls of groups over a set over which its members make other calls, or the
    same in another order."""
    for members, calls in found.items():
        meetings = list(join_calls(members, calls))
        are_alike = all(
            len(set(map(say_kind, meeting.calls.values()))) == 1 for meeting in meetings
        )
        is_whole = all(each_meeting.is_whole for each_meeting in meetings)
        for process, them in calls.items():
            fences = [call for call in them if isinstance(call.action, Fence)]
            if len(fences) < len(them) and not (are_alike and is_whole):
                notes.left_out[OTHER_GROUPS] += len(them) - len(fences)
                calls[process] = fences


def find_fences(sets: Sets, notes: Notes) -> CallsBySet:
    """The fences over each set, by their processes and in their order."""
    found: CallsBySet = {}
    for process in sets.processes.all:
        groups = OpenGroups()
        for call in process.recording.calls_of_pmix:
            if not isinstance(call.action, (Fence, Group)):
                continue
            names = groups.find(call)
            members = sets.find_members(process, names) if names else None
            if members is None and isinstance(call.action, Group):
                is_refused = call.status in NEVER_BEGAN
                notes.left_out[REFUSED_GROUPS if is_refused else OTHER_GROUPS] += 1
            elif members is None:
                notes.left_out[
                    "fences with processes that aren't recorded, or without the caller"
                ] += 1
            elif call.status in NEVER_BEGAN:
                notes.left_out["fences that failed"] += 1
            else:
                found.setdefault(members, {}).setdefault(process, []).append(call)
    leave_out_groups(found, notes)
    return found


def why_left_out(meeting: JointCalls) -> str | None:
    """Why fences that meet have no lines; None where they have. One that failed at a process is
    left out at all its processes: it ordered nothing for certain."""
    if any(call.has_failed for call in meeting.calls.values()):
        return "fences that failed at one of their processes"
    if not meeting.is_whole and any(call.status == 0 for call in meeting.calls.values()):
        return "fences that ended although a member's call isn't recorded"
    return None


def is_split(meeting: JointCalls, bounds: Bounds) -> bool:
    """Whether a fence that doesn't collect has other calls of its process between its beginning
    and its end: then arriving and leaving must stand apart."""
    calls = meeting.calls
    if len(calls) > MOST_NAMED or any(map(is_collecting, calls.values())):
        return False
    return any(bounds.has_inside(process, call) for process, call in calls.items())


def split(meeting: JointCalls, mark: str, number: int) -> Part:
    """A fence as names: each process publishes one where it arrives, and waits for those of the
    others where it leaves."""
    part = Part()
    for source, call in meeting.calls.items():
        others = meeting.calls.items()
        targets = {
            process: other for process, other in others if process is not source and other.end
        }
        part.add_order(f"{mark}{source.short_name}.{number}", source, call, targets)
    return part


def make_meeting(meeting: JointCalls, sets: Sets) -> Part:
    """The lines of a fence, which meet if all members called it."""
    part = Part()
    lines = []
    for process, call in meeting.calls.items():
        collect = " collect" if is_collecting(call) else ""
        words = f"fence {sets.find_word(process, meeting.members)}{collect}"
        is_fence = isinstance(call.action, Fence)
        remark = None if is_fence else f"# PMIx: {say_kind(call)}"
        lines.append(Line(process, call.begins, words, call, None, None, remark))
    if meeting.is_whole:
        part.add_meeting(lines)
    else:
        part.lines.extend(lines)
    return part


def make_fences(sets: Sets, spelling: Spelling) -> PmixFences:
    """The lines of all fences of PMIx."""
    part, notes, splits = Part(), Notes(), 0
    bounds = Bounds()
    by_set: dict[Members, list[JointCalls]] = {}
    found = find_fences(sets, notes).items()
    for meeting in (call for members, calls in found for call in join_calls(members, calls)):
        why, count = why_left_out(meeting), len(meeting.calls)
        if why:
            notes.left_out[why] += count
        elif is_split(meeting, bounds):
            splits += 1
            part.add(split(meeting, spelling.fence_mark, splits))
            notes.otherwise[
                "calls of fences among which the process called more: "
                f"names that begin with {spelling.fence_mark} stand for them"
            ] += count
        else:
            part.add(make_meeting(meeting, sets))
            by_set.setdefault(meeting.members, []).append(meeting)
    return PmixFences(part, notes, by_set)
