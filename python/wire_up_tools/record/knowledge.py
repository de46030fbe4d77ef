"""What each process knows of the others in one run of a draft."""
from collections.abc import Mapping, Sequence
from dataclasses import dataclass

from wire_up_tools.record.draft import Draft, Line, Meeting
from wire_up_tools.record.processes import Process

# For each process a number that grows, such as a line of its recording.
Latest = Mapping[Process, int]


def merge(them: Sequence[Latest]) -> Latest:
    """The latest of each process in any of the maps."""
    some = list({id(latest): latest for latest in them if latest}.values())
    if len(some) < 2:
        return some[0] if some else {}
    found = dict(some[0])
    for each_id in some[1:]:
        for process, at in each_id.items():
            if found.get(process, -1) < at:
                found[process] = at
    return found


def find_heard(draft: Draft) -> set[Line]:
    """The lines that tell something to those that wait for them or meet them."""
    return {*draft.awaited.values(), *draft.meetings}


@dataclass(frozen=True)
class Told:
    """What a line tells: the version of its process, and what that process knew."""

    __slots__ = ("process", "version", "known")

    process: Process
    version: int
    known: Latest


class Knowledge:
    """What each process knows: up to which version of each other.

    The version of a process is a new one whenever it has called what can race, or has learnt
    something. So who knows a version knows all that was known in it.
    """

    def __init__(self, draft: Draft) -> None:
        self.draft = draft
        self.heard = find_heard(draft)
        self.versions = dict.fromkeys(draft.lines, 0)
        self.known: dict[Process, Latest] = {line: {} for line in draft.lines}
        self.told: dict[Line, Told] = {}
        self.met: dict[Meeting, Latest] = {}

    def reach(self, line: Line) -> None:
        """Takes a line that its process reaches, and keeps what it tells."""
        process = line.process
        if line.is_relevant:
            self.versions[process] += 1
        if line in self.heard:
            self.told[line] = Told(process, self.versions[process], self.known[process])

    def learn(self, line: Line) -> bool:
        """Takes a line that its process passes. Answers whether that tells it anything new."""
        process, meeting = line.process, self.draft.meetings.get(line)
        if meeting:
            news = self.learn_in_meeting(process, meeting)
        else:
            source = self.draft.awaited.get(line)
            news = source is not None and self.learn_from(process, self.told[source])
        self.versions[process] += news
        return news

    def learn_in_meeting(self, process: Process, meeting: Meeting) -> bool:
        """Takes what all know who meet. Answers whether any of it is new."""
        met, known = self.meet(meeting), self.known[process]
        if all(
            known.get(each_process, 0) >= version
            for each_process, version in met.items()
            if each_process is not process
        ):
            return False
        self.known[process] = met
        return True

    def learn_from(self, process: Process, told: Told) -> bool:
        """Takes what a line tells. Answers whether it is new."""
        known = self.known[process]
        if told.process is process or known.get(told.process, 0) >= told.version:
            return False
        self.known[process] = merge([known, told.known, {told.process: told.version}])
        return True

    def meet(self, meeting: Meeting) -> Latest:
        """What all know who meet."""
        if meeting not in self.met:
            told = [self.told[line] for line in meeting.lines]
            versions = {line.process: line.version for line in told}
            self.met[meeting] = merge([*(line.known for line in told), versions])
        return self.met[meeting]
