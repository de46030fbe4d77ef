"""Matches collectives: which calls of different processes met, and for whom each waited."""
from collections.abc import Mapping, Sequence
from dataclasses import dataclass

from wire_up_tools.record.calls import Call, Collective, CollectiveEnd, Sources
from wire_up_tools.record.communicators import Communicator, Communicators
from wire_up_tools.record.meetings import JointCalls, Members, join_calls
from wire_up_tools.record.notes import Notes
from wire_up_tools.record.processes import Process, Processes
from wire_up_tools.record.unseen import UNEQUAL, note_unfit_collectives


@dataclass(frozen=True)
class Collectives:
    """The collectives of several processes, each by those that called it together. `left_to_luck`
    counts all ends that another run may have found open."""

    meetings: Sequence[JointCalls]
    left_to_luck: int
    notes: Notes


def find_name(call: Call) -> str:
    """The name of a collective, such as `barrier`."""
    return call.action.name if isinstance(call.action, Collective) else ""


def find_communicator(
    communicators: Communicators, process: Process, call: Call
) -> Communicator:
    """The communicator of a collective as its caller has it. Raises KeyError for one that isn't
    recorded."""
    assert isinstance(call.action, Collective), "collectives have communicators"
    return communicators[process][call.action.communicator]


@dataclass
class CallsByCommunicator:
    """The collectives of each process in one communicator, in their order."""

    members: Members
    calls: dict[Process, list[Call]]


def find_calls(
    processes: Processes, communicators: Communicators, notes: Notes
) -> Mapping[int, CallsByCommunicator]:
    """The collectives in each communicator."""
    found: dict[int, CallsByCommunicator] = {}
    for process in processes.all:
        known = communicators[process]
        for call in process.recording.calls:
            if not isinstance(call.action, Collective):
                continue
            own = known.get(call.action.communicator)
            if not own:
                notes.left_out["collectives in communicators that aren't recorded"] += 1
                continue
            if own.identity not in found:
                found[own.identity] = CallsByCommunicator(own.all_processes(), {})
            found[own.identity].calls.setdefault(process, []).append(call)
    return found


def join_alike(of: CallsByCommunicator, notes: Notes) -> list[JointCalls]:
    """The collectives of a communicator that met, up to the first of which the processes called
    different ones."""
    found: list[JointCalls] = []
    for meeting in join_calls(of.members, of.calls):
        if len({find_name(call) for call in meeting.calls.values()}) > 1:
            rest = sum(max(len(them) - len(found), 0) for them in of.calls.values())
            notes.left_out["collectives that can't be matched"] += rest
            notes.more_ordered[UNEQUAL] += 1
            break
        found.append(meeting)
    return found


def find_collectives(processes: Processes, communicators: Communicators) -> Collectives:
    """The collectives of several processes that met. They meet by their order in a
    communicator."""
    notes, meetings, left_to_luck = Notes(), [], 0
    for of in find_calls(processes, communicators, notes).values():
        left_to_luck += sum(
            process.is_left_to_luck for them in of.calls.values() for process in them
        )
        note_unfit_collectives(of.members, [*of.calls.values()], notes)
        met = join_alike(of, notes)
        meetings += met if len(of.members) > 1 else []
    return Collectives(meetings, left_to_luck, notes)


def find_awaited(own: Communicator, call: Call) -> Sequence[Process]:
    """The processes for whose data a process waited in a collective of a communicator."""
    process, end = own.members[own.rank], call.end
    if not isinstance(end, CollectiveEnd) or end.sources is Sources.NONE:
        return ()
    if end.sources is Sources.ALL:
        them: Sequence[Process] = own.peers
    elif end.sources is Sources.BELOW:
        them = own.members[:own.rank]
    else:
        them = [own.peers[rank] for rank in end.sources if rank < len(own.peers)]
    return [each_process for each_process in them if each_process is not process]


def count_awaited(own: Communicator, call: Call) -> int:
    """For how many processes a process waited in a collective of a communicator."""
    end = call.end
    if isinstance(end, CollectiveEnd) and end.sources is Sources.ALL and not own.has_two_sides:
        return len(own.members) - 1
    return len(find_awaited(own, call))
