"""Finds signs that calls of MPI weren't seen. Then a call that was seen may be matched with one
that it didn't meet, and the plan be more ordered than the program."""
import re
from collections.abc import Sequence

from wire_up_tools.record.calls import Call, Collective
from wire_up_tools.record.groups import Group, SortedInbox
from wire_up_tools.record.notes import Notes
from wire_up_tools.record.processes import Process, Processes
from wire_up_tools.record.recordings import Recording
from wire_up_tools.record.streams import MISSED

# Functions that are only counted, and that send, or that receive or may leave a message there.
UNKNOWN_START = "MPI_Start of a request that isn't known"
SENDS = re.compile(rf"MPI_(Isendrecv\w*|\w*send\w*_c)|{UNKNOWN_START}")
RECEIVES = re.compile(r"MPI_(\w*recv\w*|\w*probe\w*|Request_free.*|Cancel)")
MISFIT = (
    "inboxes in which messages and receives don't fit: calls of MPI weren't seen, "
    "and those that were may be matched wrongly"
)
UNEQUAL = (
    "communicators in which the collectives of the processes don't fit: calls of MPI weren't seen, "
    "and those that were may be matched wrongly"
)
STARTED = "starts of requests that aren't known: what they send or receive isn't matched"
FAILED = (
    "collectives that failed, or were left by a jump: whether they met those of the others isn't "
    "known"
)


def note_unseen(processes: Processes, notes: Notes) -> None:
    """Notes what the processes are known to have called past the recorder, or what isn't known of
    what they called."""
    for process in processes.all:
        notes.more_ordered.update(process.recording.unseen)
        notes.more_ordered[STARTED] += process.recording.others[UNKNOWN_START]


def has_unknown_sends(recording: Recording) -> bool:
    """Whether a process made calls that send, and that are only counted."""
    return any(map(SENDS.fullmatch, recording.others))


def has_all_messages(inbox: SortedInbox) -> bool:
    """Whether recordings have all that was sent to a process in a communicator, and all that it
    received there, unless calls weren't seen."""
    recordings = [inbox.target.recording, *(peer.recording for peer in inbox.peers)]
    return all(recording.has_finalized for recording in recordings) and not any(
        pattern.fullmatch(name)
        for recording in recordings
        for name in recording.others
        for pattern in (SENDS, RECEIVES)
    )


def note_unfit_messages(inbox: SortedInbox, groups: Sequence[Group], notes: Notes) -> None:
    """Notes where messages to a process, which are in groups, and its receives don't fit."""
    asked_count = sum(len(group.streams) for group in groups)
    is_any_left = MISSED not in inbox.got and asked_count < len(inbox.streams)
    is_unfit = is_any_left or any(group.match.is_unfit for group in groups)
    if is_unfit and has_all_messages(inbox):
        notes.more_ordered[MISFIT] += 1


def note_unfit_collectives(
    members: frozenset[Process], calls: Sequence[Sequence[Call]], notes: Notes
) -> None:
    """Notes where the members of a communicator, which all came to their end, made calls of
    collectives in it that don't fit, or some that may have met none."""
    count = {len(them) for them in calls}
    is_whole = len(calls) == len(members)
    are_over = all(member.recording.has_finalized for member in members)
    if are_over and (len(count) > 1 or not is_whole):
        notes.more_ordered[UNEQUAL] += 1
    if len(members) > 1:
        notes.more_ordered[FAILED] += sum(
            call.has_failed or (are_over and is_left(call)) for them in calls for call in them
        )


def is_left(call: Call) -> bool:
    """Whether a collective that blocks didn't end."""
    action = call.action
    return not call.end and isinstance(action, Collective) and not action.name.startswith("i")
