"""Makes the draft of a plan from recordings: all stages, one after another."""
from collections.abc import Sequence
from dataclasses import dataclass, replace

from wire_up_tools.failures import Refused
from wire_up_tools.limits import VERSION_1, Limits
from wire_up_tools.record.calls import Luck
from wire_up_tools.record.applications import note_applications
from wire_up_tools.record.connecting import settle_connecting
from wire_up_tools.record.draft import Draft, Part, Step, make_draft, walk
from wire_up_tools.record.floating import drop_floating
from wire_up_tools.record.meetings import Sets
from wire_up_tools.record.mpi_order import MpiOrder, order_by_mpi
from wire_up_tools.record.names import Spelling, find_spelling
from wire_up_tools.record.notes import Notes
from wire_up_tools.record.wildcard_receives import note_open_groups, order_open_groups
from wire_up_tools.record.overlaps import note_overlaps
from wire_up_tools.record.pmix_calls import make_lines
from wire_up_tools.record.pmix_fences import PmixFences, make_fences
from wire_up_tools.record.pmix_waits import find_waits
from wire_up_tools.record.processes import Processes, arrange_processes
from wire_up_tools.record.recordings import Recording, refuse_past
from wire_up_tools.record.shortening import shorten


@dataclass(frozen=True)
class Choices:
    """What is taken from recordings: the order of MPI, unless `with_mpi` is false; with `is_strict`
    none from ends that another run may have found open; and none from gets that don't block,
    without `has_floating`. `most` are the limits."""

    with_mpi: bool = True
    is_strict: bool = False
    most: Limits = VERSION_1
    has_floating: bool = True

    @property
    def luck(self) -> Luck:
        """What is made of such ends."""
        return Luck.IS_LEFT_OUT if self.is_strict else Luck.IS_TAKEN


@dataclass(frozen=True)
class MpiSummary:
    """How many messages and collectives MPI orders, and how many ends of requests another run may
    have found open. `verdicts` are those with and without --strict, if they differ, and
    `strict_races` the first races that are found with it alone."""

    message_count: int = 0
    collective_count: int = 0
    left_to_luck: int = 0
    verdicts: str | None = None
    strict_races: Sequence[str] = ()


@dataclass(frozen=True)
class Tested:
    """What was found out of a plan by asking the checker: what the library `answered` otherwise
    than the rules, if it did; which calls it is known to answer by which rank is fast; what more is
    known of the library; whether each run of the program makes the calls of the plan, if it goes by
    them alone; and on which libraries each run does as the rules say."""

    answered: str | None = None
    timed: Sequence[str] = ()
    of_library: str | None = None
    is_of_each_run: bool = False
    portable: str | None = None


@dataclass(frozen=True)
class Plan:
    """All that the text of a plan says. One of several runs says where they part."""

    choices: Choices
    processes: Processes
    spelling: Spelling
    draft: Draft
    notes: Notes
    mpi: MpiSummary
    run_count: int = 1
    partings: Sequence[str] = ()
    tested: Tested = Tested()


def refuse_too_many(parts: Sequence[Part], most: Limits) -> None:
    """Refuses lines that no plan has room for, without gets that may still go."""
    lines = (line for part in parts for line in part.lines)
    refuse_past(most.calls, "calls", sum(line.verb != "get" for line in lines))


def refuse_waiting(draft: Draft) -> None:
    """Refuses a plan in which a call waits for ever that ended: then all that follows it would be
    ruled out."""
    passed = {line for step, line in walk(draft) if step is Step.PASSED}
    for process, lines in draft.lines.items():
        for number, line in enumerate(lines, 1):
            if line.call.end and line not in passed:
                raise Refused(
                    f"{process.recording.path}: line {line.call.begins}: "
                    f"call {number} of {process.name}, `{line.words}`, ended, "
                    "but in a plan of these recordings it would wait for ever, "
                    "or stand after a call that does"
                )


def order_program(
    sets: Sets, spelling: Spelling, program: Sequence[Part], fences: PmixFences, luck: Luck
) -> MpiOrder:
    """The order that MPI gives to the lines of a program, with that of messages which could have
    come otherwise."""
    order = order_by_mpi(sets, spelling, program, fences, luck)
    messages = order.messages
    if messages.open_groups:
        known = [*program, messages.ordered.part, order.collectives.part]
        groups = messages.horizon.choose_groups(messages.open_groups, messages.ordered.notes)
        more = order_open_groups(sets.processes, known, groups, messages.names, luck)
        messages.ordered.add(more)
        messages.ordered.add(note_open_groups(messages.open_groups))
    return order


def summarize(order: MpiOrder) -> MpiSummary:
    """What the head of a plan says of MPI's order."""
    messages, collectives = order.messages.ordered, order.collectives
    left_to_luck = messages.left_to_luck + collectives.left_to_luck
    return MpiSummary(messages.count, collectives.count, left_to_luck)


def make_plan(recordings: Sequence[Recording], choices: Choices) -> Plan:
    """Makes a plan of recordings, without what can't change a finding where it is large. Raises
    Refused for recordings that make none."""
    plan = make_whole_plan(recordings, choices)
    if plan.draft.count <= VERSION_1.calls:
        return plan
    shortened = shorten(plan.draft)
    plan.notes.add(shortened.notes)
    return replace(plan, draft=shortened.draft)


def make_whole_plan(recordings: Sequence[Recording], choices: Choices) -> Plan:
    """Makes a plan of recordings, of any size. Raises Refused for recordings that make none."""
    processes = arrange_processes(recordings, choices.most)
    spelling, sets = find_spelling(processes), Sets(processes)
    fences = make_fences(sets, spelling)
    calls = make_lines(processes, spelling, with_mpi=choices.with_mpi)
    note_overlaps(processes, calls, fences, with_mpi=choices.with_mpi)
    if not choices.has_floating:
        drop_floating(calls.part)
    calls.notes.add(fences.notes)
    parts, notes, mpi = [calls.part, fences.part], calls.notes, MpiSummary()
    refuse_too_many(parts, choices.most)
    parts.append(find_waits(make_draft(processes, parts)))
    if choices.with_mpi:
        order = order_program(sets, spelling, parts, fences, choices.luck)
        parts += [order.messages.ordered.part, order.collectives.part]
        notes.add(order.messages.ordered.notes)
        notes.add(order.collectives.notes)
        mpi = summarize(order)
    draft = make_draft(processes, parts)
    refuse_waiting(draft)
    note_applications(draft, calls.part, notes)
    settle_connecting(processes, draft, notes)
    return Plan(choices, processes, spelling, draft, notes, mpi)
