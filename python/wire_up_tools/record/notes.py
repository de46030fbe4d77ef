"""Notes what a plan can't say of the program: the head of the plan tells it."""
from collections import Counter
from collections.abc import Iterable, Sequence
from dataclasses import dataclass, field

from wire_up_tools.left_out import can_hide
from wire_up_tools.record.calls import (
    Call,
    Ending,
    Fence,
    Get,
    Lookup,
    Publish,
    Unpublish,
)
from wire_up_tools.record.directives import (
    KNOWN,
    find_ending,
    gives_up,
    say_directive,
    stands_early,
)
from wire_up_tools.record.file_calls import Files, count_file_calls
from wire_up_tools.record.luck import count_shared_windows, is_of_luck, say_of_luck
from wire_up_tools.record.messages import Messages
from wire_up_tools.record.processes import Processes
from wire_up_tools.record.recordings import NO_USE, Recording

# Calls whose end the plan takes to be waited for: gets that can stand anywhere, and others.
WAITED_FOR = (
    "of the program that don't block and ended before others: in the plan it waited for them"
)
FLOATING, UNAWAITED = f"gets {WAITED_FOR}", f"calls {WAITED_FOR}"
# Stands for the functions that own code refers to where the recording doesn't tell them.
NOT_NOTED = "(not noted)"
# What counts the gets of the program that look into its own store alone, and what is said of them.
OF_OWN_STORE = "PMIx_Get_of_own_store"
OWN_STORE = (
    "gets of what is in the caller's own store (pmix.optional): in the plan they find all that was "
    "brought to its node"
)
# Functions by which processes are started. A library of MPI calls them too.
STARTING = ("PMIx_Spawn", "PMIx_Spawn_nb")


@dataclass(frozen=True)
class Notes:
    """What a plan can't say of the program, each with how often that was: where the run was cut
    off; what was left out; what is more ordered than the program, so that a race can be missed;
    after what another run may do otherwise; what is written otherwise; and the functions to which
    the program's own code refers that can lead to a call of PMIx."""

    cut_off: Counter[str] = field(default_factory=Counter)
    left_out: Counter[str] = field(default_factory=Counter)
    more_ordered: Counter[str] = field(default_factory=Counter)
    of_luck: Counter[str] = field(default_factory=Counter)
    otherwise: Counter[str] = field(default_factory=Counter)
    uses: Counter[str] = field(default_factory=Counter)

    @property
    def can_call_pmix(self) -> bool:
        """Whether what luck decides can lead to a call of PMIx by the program's own code."""
        return any(self.uses.values())

    def add(self, others: "Notes") -> None:
        """Takes other notes too, also those that say that something was never so."""
        self.cut_off.update(others.cut_off)
        self.left_out.update(others.left_out)
        self.more_ordered.update(others.more_ordered)
        self.of_luck.update(others.of_luck)
        self.otherwise.update(others.otherwise)
        self.uses.update(others.uses)

    def list_left_out(self, *, can_hide_race: bool) -> dict[str, int]:
        """What was left out that can hide a race, or else that can't."""
        return {
            text: n for text, n in self.left_out.items() if n and can_hide(text) == can_hide_race
        }


def note_recording(recording: Recording, files: Files, notes: Notes) -> None:
    """Notes what a recording lacks, and what of it has no line."""
    if recording.is_cut:
        notes.cut_off["last lines of recordings, which were cut"] += 1
    if not recording.has_finalized:
        notes.cut_off[
            "processes whose recordings end before PMIx_Finalize: how they went on isn't known"
        ] += 1
    notes.more_ordered.update(recording.unseen_pmix)
    uses = recording.uses.decode() if recording.uses else NOT_NOTED
    notes.uses[uses] += recording.uses != NO_USE
    note_counted(recording, notes, are_written=files.are_written)
    note_files(recording, files, notes)
    for name, count in recording.polls.items():
        notes.of_luck[f"calls of {name} that found nothing"] += count
    for name, count in recording.found.items():
        notes.of_luck[f"calls of {name} that found a request complete"] += count
    if len(recording.threads) > 1 or recording.by_threads:
        notes.more_ordered[
            "processes that called from several threads: "
            "their calls stand in the order in which they began"
        ] += 1


def note_counted(recording: Recording, notes: Notes, *, are_written: bool) -> None:
    """Notes the calls that are only counted."""
    for name, count in recording.others.items():
        if name == OF_OWN_STORE:
            notes.more_ordered[OWN_STORE] += count
        elif is_of_luck(name, are_written=are_written):
            notes.of_luck[say_of_luck(name)] += count
        else:
            notes.left_out[f"calls of {name}"] += count
    notes.of_luck["calls of MPI_Win_allocate_shared"] += count_shared_windows(recording)


def note_files(recording: Recording, files: Files, notes: Notes) -> None:
    """Notes the calls on names of files, of which others may decide some."""
    of_luck, others = count_file_calls(recording.files, files)
    for noted, counted in ((notes.of_luck, of_luck), (notes.left_out, others)):
        noted.update({f"calls of {name}": count for name, count in counted.items()})


def count_starts(recordings: Iterable[Recording]) -> int:
    """How many calls started processes."""
    return sum(recording.others.get(name, 0) for recording in recordings for name in STARTING)


def note_missing(processes: Processes, notes: Notes) -> None:
    """Notes processes that were there, and left no recording."""
    recordings = [process.recording for process in processes.all]
    for job in processes.jobs.values():
        size = max(process.recording.job_size or 0 for process in job.processes)
        notes.more_ordered[
            "processes of a job that left no recording: their calls aren't in the plan"
        ] += max(0, size - len(job.processes))
    jobs, starts = len(processes.jobs), count_starts(recordings)
    if jobs == 1:
        notes.more_ordered[
            "calls that started processes which left no recording: their calls aren't in the plan"
        ] += starts
    elif not starts:
        notes.more_ordered[
            "jobs that none of them started: in the plan all run at one time, and share names"
        ] += jobs


def note_directives(call: Call, notes: Notes, *, has_jobs: bool) -> None:
    """Notes the directives of a call that a plan can't have, which has several jobs or one."""
    action = call.action
    notes.more_ordered[
        "waits for less than a minute at most (pmix.timeout): in the plan they wait for an answer"
    ] += not call.has_failed and gives_up(action)
    if isinstance(action, (Fence, Get, Publish, Lookup, Unpublish)):
        for directive in action.directives:
            if directive.key not in KNOWN:
                said = say_directive(action, directive, has_jobs=has_jobs)
                notes.left_out[f"directives {said}"] += 1


def is_floating(call: Call) -> bool:
    """Whether a call is a get of the program that doesn't block, waits for its key, and has it."""
    action = call.action
    is_get = isinstance(action, Get) and not stands_early(action)
    return is_get and find_ending(action) is Ending.CALLS_PROGRAM and call.status == 0


def note_unawaited(calls: Sequence[Call], messages: Messages, notes: Notes) -> None:
    """Notes the calls of the program that didn't block, ended, and were followed by others."""
    last = max(calls[-1].begins if calls else 0, messages.begins[-1] if messages.begins else 0)
    ended = (call for call in calls if call.is_of_pmix and call.ends and call.ends < last)
    unawaited = [call for call in ended if find_ending(call.action) is Ending.CALLS_PROGRAM]
    floating = sum(is_floating(call) for call in unawaited)
    notes.more_ordered[FLOATING] += floating
    notes.more_ordered[UNAWAITED] += len(unawaited) - floating
