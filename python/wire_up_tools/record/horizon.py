"""Finds up to where each process does what can change a finding: its last call that can race, and
all that other processes learn from it before theirs.

What MPI orders past that needs no lines. In a large recording that is most of it.
"""
from collections.abc import Iterator, Mapping, Sequence
from dataclasses import dataclass, field

from wire_up_tools.limits import VERSION_1
from wire_up_tools.record.draft import Part
from wire_up_tools.record.groups import Group
from wire_up_tools.record.meetings import JointCalls
from wire_up_tools.record.messages import NO_LINE
from wire_up_tools.record.notes import Notes
from wire_up_tools.record.processes import Process

# How often all links are looked at before the search is given up: then everything can matter.
MOST_ROUNDS = 16


@dataclass(frozen=True)
class Horizon:
    """The last line of the recording of each process that can matter. Without any, all do."""

    last: Mapping[Process, int] = field(default_factory=dict)

    def has(self, process: Process, at: int) -> bool:
        """Whether a line of the recording of a process can matter."""
        return not self.last or at <= self.last[process]

    def has_end(self, process: Process, ends: int) -> bool:
        """Whether what a process learns by the end of a call at a line can matter."""
        return ends != NO_LINE and self.has(process, ends)

    def choose_groups(self, groups: Sequence[Group], notes: Notes) -> Sequence[Group]:
        """The groups of which a receive or probe can matter. Notes how many lines the others would
        have."""
        chosen, useless = [], 0
        for group in groups:
            if any(self.has_end(group.target, ends) for ends in group.ends()):
                chosen.append(group)
            else:
                useless += len(group.asked)
        note_useless(useless, notes)
        return chosen

    def choose(self, meetings: Sequence[JointCalls], notes: Notes) -> Sequence[JointCalls]:
        """The collectives that can matter. Notes how many lines the others would have."""
        chosen, useless = [], 0
        for meeting in meetings:
            if any(self.has(process, call.begins) for process, call in meeting.calls.items()):
                chosen.append(meeting)
            else:
                useless += len(meeting.calls)
        note_useless(useless, notes)
        return chosen


def note_useless(count: int, notes: Notes) -> None:
    """Notes that so many lines of MPI's order are left out."""
    notes.left_out["lines of MPI's order, since they can't change a finding"] += count


@dataclass(frozen=True)
class Link:
    """What a process learns at a line of its recording, it learns from a line of another's."""

    __slots__ = ("target", "learns", "source", "tells")

    target: Process
    learns: int
    source: Process
    tells: int


@dataclass(frozen=True)
class Links:
    """What orders processes besides messages: the calls of PMIx, and the collectives of MPI."""

    program: Sequence[Part]
    collectives: Sequence[JointCalls]

    def find_first(self) -> dict[Process, int]:
        """The last line of each process at which it calls what can race, or brings what races."""
        last: dict[Process, int] = {}
        for line in (each_line for part in self.program for each_line in part.lines):
            at = max(line.at, line.call.ends or line.at) if line.is_relevant else 0
            last[line.process] = max(last.get(line.process, 0), at)
        return last

    def links(self) -> Iterator[Link]:
        """What processes learn by waits and fences of PMIx."""
        for part in self.program:
            for line, source in part.awaited.items():
                yield Link(line.process, line.at, source.process, source.at)
            for line, meeting in part.meetings.items():
                for each_line in meeting.lines:
                    yield Link(line.process, line.at, each_line.process, each_line.at)


def extend(last: dict[Process, int], process: Process, at: int) -> bool:
    """Puts the last line of a process further on, if it has to. Answers whether it had to."""
    if at <= last[process]:
        return False
    last[process] = at
    return True


def extend_by_group(last: dict[Process, int], group: Group) -> bool:
    """Takes what processes learn by the messages of a group that is certain."""
    source, target, is_further = group.source, group.target, False
    sent, own = source.recording.messages, target.recording.messages
    for send, number in group.pairs():
        if NO_LINE < own.ends[number] <= last[target]:
            is_further |= extend(last, source, sent.begins[send])
        if NO_LINE < sent.ends[send] <= last[source]:
            is_further |= extend(last, target, own.begins[number])
    return is_further


def extend_by_open_group(last: dict[Process, int], group: Group) -> bool:
    """Takes what processes learn by the messages of a group that could have come otherwise."""
    inbox, is_further = group.inbox, False
    if any(NO_LINE < ends <= last[group.target] for ends in group.ends()):
        for stream in group.streams:
            sender = inbox.find_sender(stream)
            begins = sender.recording.messages.begins[inbox.sent.of_stream(stream)[-1]]
            is_further |= extend(last, sender, begins)
    return is_further


def extend_by_collective(last: dict[Process, int], meeting: JointCalls) -> bool:
    """Takes what processes learn by a collective."""
    calls = meeting.calls
    if not any(call.begins <= last[each_call] for each_call, call in calls.items()):
        return False
    return any([extend(last, each_call, call.begins) for each_call, call in calls.items()])


def find_horizon(
    processes: Sequence[Process],
    links: Links,
    certain: Sequence[Group],
    open_groups: Sequence[Group],
) -> Horizon:
    """Up to where processes do what can matter; everywhere, if that are few calls."""
    count = sum(group.message_count for them in (certain, open_groups) for group in them)
    count += len(links.collectives)
    if count <= VERSION_1.calls:
        return Horizon()
    last = {**dict.fromkeys(processes, 0), **links.find_first()}
    of_pmix = list(links.links())
    for _ in range(MOST_ROUNDS):
        further = [extend_by_open_group(last, group) for group in reversed(open_groups)]
        further += [extend_by_group(last, each_group) for each_group in reversed(certain)]
        further += [
            extend_by_collective(last, collective) for collective in reversed(links.collectives)
        ]
        further += [
            extend(last, link.source, link.tells)
            for link in of_pmix
            if link.learns <= last[link.target]
        ]
        if not any(further):
            return Horizon(last)
    return Horizon()
