"""Takes out of a draft what adds no order between calls that can race."""
from collections.abc import Iterable
from dataclasses import dataclass

from wire_up_tools.record.draft import Draft, Line, Meeting, Step, walk
from wire_up_tools.record.knowledge import Knowledge
from wire_up_tools.record.notes import Notes


@dataclass(frozen=True)
class Candidate:
    """A line that could go: the how many-th line it was that was passed, and whether it told its
    process nothing new."""

    line: Line
    count: int
    adds_nothing: bool


@dataclass(frozen=True)
class Shortened:
    """A draft without what can't change a finding, and how much that was."""

    draft: Draft
    notes: Notes


def is_waiting_get(line: Line) -> bool:
    """Whether a line is a get that waits, and that ended."""
    return line.verb == "get" and line.call.end is not None


def can_go(draft: Draft, line: Line) -> bool:
    """Whether a line is one of those that may be taken out: it is a get that waits, waits for a
    name that stands for an order, or is a fence that stands for a collective of MPI."""
    return is_waiting_get(line) if line.is_of_program else (
        line.remark is not None or line in draft.awaited
    )


def find_candidates(draft: Draft) -> tuple[list[Candidate], int]:
    """The lines that could go, as one run passes them; and how many were passed up to the last
    that can race, or bring what races."""
    knowledge, found, count, last = Knowledge(draft), [], 0, 0
    for step, line in walk(draft):
        if step is Step.REACHED:
            knowledge.reach(line)
            continue
        count += 1
        adds_nothing = not knowledge.learn(line)
        if line.is_relevant:
            last = count
        elif can_go(draft, line):
            found.append(Candidate(line, count, adds_nothing))
    return found, last


def find_useless_fences(draft: Draft, useless: Iterable[Line]) -> set[Line]:
    """The fences that stand for collectives, of which all lines are useless."""
    meetings: dict[Meeting, list[Line]] = {}
    for line in useless:
        meetings.setdefault(draft.meetings[line], []).append(line)
    whole = (them for meeting, them in meetings.items() if len(them) == len(meeting.lines))
    return {line for them in whole for line in them}


def leave_out(draft: Draft, gone: set[Line]) -> Draft:
    """A draft without some lines, and without the names that nobody waits for then."""
    awaited = {line: source for line, source in draft.awaited.items() if line not in gone}
    heard = set(awaited.values())
    meetings = {line: meeting for line, meeting in draft.meetings.items() if line not in gone}

    def is_kept(line: Line) -> bool:
        is_unheard = line.order is not None and line not in awaited and line not in heard
        return line not in gone and not is_unheard

    lines = {process: list(filter(is_kept, them)) for process, them in draft.lines.items()}
    return Draft(lines, awaited, meetings)


def shorten(draft: Draft) -> Shortened:
    """Takes out lines that can't change a finding, since they add no order between calls that can
    race: gets that wait for what is surely there, messages whose receiver knows already all that
    its sender knows, and all of MPI's order after the last such call."""
    passed, last = find_candidates(draft)
    gets = {
        candidate.line
        for candidate in passed
        if candidate.line.is_of_program and candidate.adds_nothing
    }
    of_mpi = [candidate for candidate in passed if not candidate.line.is_of_program]
    useless = [
        candidate.line for candidate in of_mpi if candidate.adds_nothing or candidate.count > last
    ]
    gone = {line for line in useless if line.remark is None}
    gone |= find_useless_fences(draft, (line for line in useless if line.remark is not None))
    notes = Notes()
    notes.left_out["lines of MPI's order, since they can't change a finding"] += len(gone)
    notes.left_out["gets, since they can't change a finding"] += len(gets)
    return Shortened(leave_out(draft, gone | gets), notes)
