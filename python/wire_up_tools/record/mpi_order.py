"""Decides in which order MPI puts what the processes do.

- A message: what its sender did before it sent comes before what its receiver does after it has
  received. That is a name which the one publishes and the other waits for.
- A send that ends after its receive has begun (a synchronous one) waits for that too.
- A receive that could get messages of several processes orders what holds in every run, whichever
  it got (wildcard_receives.py).
- A collective in which all processes wait for all is a fence. Any other is names: each process
  waits for those whose data it needs.
- An end that another run may have found open, since a poll succeeded or it was one of several,
  orders nothing with --strict. Nor does a message whose peer may have been named by one of any
  source, or by the first of several requests.

Which receive got which message is found by grouping.py; where that isn't certain, nothing is
ordered, and the head of the plan says so.
"""
from collections.abc import Iterable, Iterator, Sequence
from dataclasses import dataclass, replace

from wire_up_tools.record.calls import Call, Luck
from wire_up_tools.record.collectives import (
    Collectives,
    count_awaited,
    find_awaited,
    find_collectives,
    find_communicator,
    find_name,
)
from wire_up_tools.record.communicators import Communicators, find_communicators
from wire_up_tools.record.draft import Line, Ordered, Part
from wire_up_tools.record.grouping import find_groups
from wire_up_tools.record.groups import Group
from wire_up_tools.record.horizon import Horizon, Links, find_horizon, note_useless
from wire_up_tools.record.inboxes import find_inboxes
from wire_up_tools.record.meetings import MOST_NAMED, Bounds, JointCalls, Sets
from wire_up_tools.record.messages import RECEIVE
from wire_up_tools.record.names import MessageNames, Spelling
from wire_up_tools.record.pmix_fences import PmixFences
from wire_up_tools.record.processes import Process, Processes
from wire_up_tools.record.unseen import has_unknown_sends, note_unfit_messages, note_unseen

# Collectives in which all processes wait for all, even if none of them is known to have ended.
BARRIERS = ("barrier", "ibarrier")


@dataclass(frozen=True)
class MessageOrder:
    """The order of messages, without `open_groups`, which aren't ordered yet: their names come
    from `names`. What is past the `horizon` isn't ordered."""

    ordered: Ordered
    open_groups: Sequence[Group]
    names: MessageNames
    horizon: Horizon


@dataclass(frozen=True)
class MpiOrder:
    """The order that MPI gives, by messages and by collectives."""

    messages: MessageOrder
    collectives: Ordered


# --- messages ---


def order_messages(
    processes: Processes,
    communicators: Communicators,
    links: Links,
    names: MessageNames,
    luck: Luck,
) -> MessageOrder:
    """The order of messages, and the groups whose order isn't certain."""
    unknown = {process for process in processes.all if has_unknown_sends(process.recording)}
    lacking = {
        process for process in processes.all if not process.recording.has_finalized
    } | unknown
    inboxes = find_inboxes(processes, communicators)
    certain: list[Group] = []
    open_groups: list[Group] = []
    ordered = Ordered(notes=inboxes.notes)
    note_unseen(processes, ordered.notes)
    for inbox in inboxes.found.values():
        is_cut = any(peer in lacking for peer in inbox.peers)
        is_open = not unknown.isdisjoint(inbox.peers)
        sorted_inbox = inbox.sort()
        groups = find_groups(sorted_inbox)
        note_unfit_messages(sorted_inbox, groups, ordered.notes)
        for group in groups:
            is_matched = group.is_matched(is_cut=is_cut) and not is_open
            if not is_matched or (is_cut and group.is_from_any):
                left_out = ordered.notes.left_out
                left_out["messages that can't be matched for certain"] += group.match.receive_count
            elif group.is_certain:
                certain.append(group)
            else:
                open_groups.append(group)
    horizon = find_horizon(processes.all, links, certain, open_groups)
    for found in certain:
        order_pairs(found, horizon, names, luck, ordered)
    return MessageOrder(ordered, open_groups, names, horizon)


def order_pairs(
    group: Group, horizon: Horizon, names: MessageNames, luck: Luck, ordered: Ordered
) -> None:
    """Orders messages and receives that are the same pairs in every run, besides what is ordered.

    Where a receive isn't there (one that failed), the next ones get a message that was sent
    before theirs. That is less order for the receiver, but would be more for a sender that waited
    for its receive: so then it has none.
    """
    source, target = group.source, group.target
    sent, own = source.recording.messages, target.recording.messages
    if source is target:
        asked = map(group.inbox.asked.__getitem__, group.match.asked)
        ordered.left_to_luck += sum(map(own.is_left_to_luck, asked))
        return
    is_all, useless = group.is_all, 0
    for send, number in choose_pairs(group, luck, ordered):
        waits = bool(sent.ends[send] and is_all and own.verbs[number] == RECEIVE)
        ordered.left_to_luck += waits and sent.is_left_to_luck(send)
        waits = waits and not (luck is Luck.IS_LEFT_OUT and sent.is_left_to_luck(send))
        is_useful = horizon.has_end(target, own.ends[number])
        if not (is_useful or waits and horizon.has_end(source, sent.ends[send])):
            useless += 1
            continue
        name, begun, got = names.next(source, target), sent.make_call(send), own.make_call(number)
        ordered.part.add_order(name, source, begun, {target: got})
        if waits:
            ordered.part.add_order(f"{name}.begun", target, got, {source: begun})
    note_useless(useless, ordered.notes)


def choose_pairs(group: Group, luck: Luck, ordered: Ordered) -> Iterator[tuple[int, int]]:
    """The pairs of a group that order something, and counts them and those left to luck. Behind a
    message whose peer may have been chosen by another all are."""
    inbox, own, is_chosen = group.inbox, group.target.recording.messages, False
    for send, index in zip(group.match.sends, group.match.asked):
        number = inbox.asked[index]
        is_chosen = is_chosen or inbox.is_chosen(index, send)
        is_luck = is_chosen or own.is_left_to_luck(number)
        ordered.left_to_luck += is_luck
        if not (is_luck and luck is Luck.IS_LEFT_OUT):
            ordered.count += 1
            yield send, number


# --- collectives ---


def find_bounds(program: Sequence[Part]) -> Bounds:
    """At which lines of recordings calls begin and end that can race, or that order others: not
    gets that wait."""
    of_pmix: dict[Process, list[int]] = {}
    for line in (each_line for part in program for each_line in part.lines):
        if line.is_of_program and line.verb != "get":
            of_pmix.setdefault(line.process, []).append(line.at)
    return Bounds(of_pmix)


@dataclass(frozen=True)
class Waiting:
    """For whom processes waited in collectives, as far as that orders them."""

    communicators: Communicators
    luck: Luck

    def awaits_none(self, call: Call) -> bool:
        """Whether nothing is taken from the end of a collective."""
        return call.is_left_to_luck and self.luck is Luck.IS_LEFT_OUT

    def find(self, process: Process, call: Call) -> Sequence[Process]:
        """The processes for whose data a process waited."""
        own = find_communicator(self.communicators, process, call)
        return () if self.awaits_none(call) else find_awaited(own, call)

    def is_for_all(self, meeting: JointCalls) -> bool:
        """Whether all processes called a collective, and each that ended waited for all others.
        If none has ended, it must be one in which all wait."""
        ended = [(each_call, call) for each_call, call in meeting.calls.items() if call.end]
        if not meeting.is_whole or any(self.awaits_none(call) for _, call in ended):
            return False
        owns = (
            (find_communicator(self.communicators, process, call), call) for process, call in ended
        )
        if any(count_awaited(own, call) != len(meeting.members) - 1 for own, call in owns):
            return False
        return bool(ended) or find_name(next(iter(meeting.calls.values()))) in BARRIERS


def sort_fences(process: Process, fences: Sequence[JointCalls]) -> Sequence[JointCalls]:
    """The fences that a process calls, in its order."""
    own = (fence for fence in fences if process in fence.calls)
    return sorted(own, key=lambda joint_calls: joint_calls.calls[process].begins)


def is_one_order(members: Iterable[Process], fences: Sequence[JointCalls]) -> bool:
    """Whether fences over one set come in the same order in all its processes, as far as each
    calls them."""
    orders = [sort_fences(member, fences) for member in members]
    longest = max(orders, key=len)
    return all(order == longest[:len(order)] for order in orders)


def choose_fences(
    meetings: Sequence[JointCalls], waiting: Waiting, fences: PmixFences, bounds: Bounds
) -> set[JointCalls]:
    """Which collectives are fences: all their processes are there and wait for all, and call
    nothing in them that could race. Over each set the fences must come in the same order in all
    processes, those of PMIx among them; else none over this set is."""
    by_set: dict[frozenset[Process], list[JointCalls]] = {}
    for meeting in meetings:
        if waiting.is_for_all(meeting) and not bounds.has_any(meeting):
            by_set.setdefault(meeting.members, []).append(meeting)
    return {
        joint_calls
        for members, them in by_set.items()
        if is_one_order(members, [*fences.by_set.get(members, ()), *them])
        for joint_calls in them
    }


def order_by_fence(meeting: JointCalls, sets: Sets) -> Ordered:
    """A collective as a fence."""
    ordered = Ordered(count=1)
    ordered.part.add_meeting([
        Line(
            process=process,
            at=call.begins,
            said=f"fence {sets.find_word(process, meeting.members)}",
            call=call,
            value=None,
            order=None,
            remark=f"# MPI: {find_name(call)}",
        )
        for process, call in meeting.calls.items()
    ])
    return ordered


def order_by_names(meeting: JointCalls, waiting: Waiting, mark: str, number: int) -> Ordered:
    """A collective as names, which begin with the mark: each process publishes one when it begins,
    if another waits for it, and waits for others when it ends."""
    ordered, calls = Ordered(), meeting.calls
    waits = {
        process: [
            each_process for each_process in waiting.find(process, call) if each_process in calls
        ]
        for process, call in calls.items()
    }
    if sum(map(len, waits.values())) > MOST_NAMED * (MOST_NAMED - 1):
        ordered.notes.left_out["collectives that are no fence, among too many processes"] += 1
        return ordered
    for source in dict.fromkeys(each_process for them in waits.values() for each_process in them):
        targets = {
            other_process: calls[other_process]
            for other_process, them in waits.items()
            if source in them
        }
        name = f"{mark}{source.short_name}.all.{number}"
        ordered.part.add_order(name, source, calls[source], targets)
    ordered.count += any(waits.values())
    return ordered


def order_collectives(
    collectives: Collectives, waiting: Waiting, fences: set[JointCalls], sets: Sets, mark: str
) -> Ordered:
    """The order of collectives, some of which are fences, and the others names that begin with the
    mark."""
    ordered = Ordered(notes=collectives.notes, left_to_luck=collectives.left_to_luck)
    for number, meeting in enumerate(collectives.meetings, 1):
        if meeting in fences:
            ordered.add(order_by_fence(meeting, sets))
        else:
            ordered.add(order_by_names(meeting, waiting, mark, number))
    return ordered


def order_by_mpi(
    sets: Sets, spelling: Spelling, program: Sequence[Part], fences: PmixFences, luck: Luck
) -> MpiOrder:
    """The order that MPI gives to the processes whose calls of PMIx are the parts of `program`,
    fences among them."""
    processes, mark = sets.processes, spelling.mpi_mark
    communicators = find_communicators(processes)
    collectives = find_collectives(processes, communicators)
    links = Links(program, collectives.meetings)
    messages = order_messages(processes, communicators, links, MessageNames(mark), luck)
    useful = replace(
        collectives, meetings=messages.horizon.choose(collectives.meetings, collectives.notes)
    )
    waiting, bounds = Waiting(communicators, luck), find_bounds(program)
    chosen = choose_fences(useful.meetings, waiting, fences, bounds)
    ordered = order_collectives(useful, waiting, chosen, sets, mark)
    ordered.count += len(collectives.meetings) - len(useful.meetings)
    return MpiOrder(messages, ordered)
