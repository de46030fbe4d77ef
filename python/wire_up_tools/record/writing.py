"""Writes the text of a plan, with comments at its head about all that it can't say; and how its
calls ended, in the form of a report."""
from collections.abc import Iterable, Iterator, Sequence
from dataclasses import dataclass
from datetime import datetime, timezone

from wire_up_tools.limits import VERSION_1
from wire_up_tools.record.calls import (
    Collective,
    LookupEnd,
    MessageEnd,
    Probe,
    Receive,
    Send,
    Value,
)
from wire_up_tools.record.draft import Line
from wire_up_tools.record.places import Places
from wire_up_tools.record.planning import Plan
from wire_up_tools.record.processes import Process
from wire_up_tools.record.recordings import refuse_past
from wire_up_tools.report.singular import say_counted
from wire_up_tools.words import (
    ANSWERED,
    CUT_OFF,
    EACH_RUN_SENTENCE,
    LEFT_OUT,
    LEFT_OUT_HARMLESS,
    LEFT_TO_LUCK,
    MORE_ORDERED,
    MPI_COMMENT,
    OTHERWISE_AFTER,
    OTHERWISE_ALONE,
    OWN_CODE,
    PARTED,
    PLACE_COMMENT,
    RECORDED_BY,
    STRICT_ALONE,
    TAKEN,
    TIMED,
    UNKNOWN_PLACE,
    VERDICTS,
    WITHOUT_MPI,
    WRITTEN_OTHERWISE,
    make_printable,
    show,
)

STATUSES = {
    0: "PMIX_SUCCESS",
    -1: "PMIX_ERROR",
    -15: "PMIX_ERR_WOULD_BLOCK",
    -24: "PMIX_ERR_TIMEOUT",
    -25: "PMIX_ERR_UNREACH",
    -27: "PMIX_ERR_BAD_PARAM",
    -29: "PMIX_ERR_OUT_OF_RESOURCE",
    -31: "PMIX_ERR_INIT",
    -32: "PMIX_ERR_NOMEM",
    -46: "PMIX_ERR_NOT_FOUND",
    -47: "PMIX_ERR_NOT_SUPPORTED",
    -49: "PMIX_ERR_COMM_FAILURE",
    -52: "PMIX_ERR_PARTIAL_SUCCESS",
    -53: "PMIX_ERR_DUPLICATE_KEY",
    -60: "PMIX_ERR_EMPTY",
    -61: "PMIX_ERR_LOST_CONNECTION",
    -62: "PMIX_ERR_EXISTS_OUTSIDE_SCOPE",
    -104: "PMIX_QUERY_PARTIAL_SUCCESS",
}
# The comments for which there may be no room.
LEFT_AWAY = (PLACE_COMMENT, f"{MPI_COMMENT}send", f"{MPI_COMMENT}receive")
# The statuses of lookups that found a name at least.
SUCCEEDED, NOT_FOUND = (0, -52), -46
SUCCESS, WAITING, UNREACHED = STATUSES[0], "waiting", "unreached"


# --- the head ---


def say_recordings(plan: Plan) -> Iterator[str]:
    """When was recorded, and what the jobs and nodes are."""
    recordings = [process.recording for process in plan.processes.all]
    when = datetime.fromtimestamp(min(recording.began for recording in recordings), timezone.utc)
    libraries = ", ".join(sorted({make_printable(recording.library) for recording in recordings}))
    yield f"# {RECORDED_BY} on {when:%Y-%m-%d}: {len(recordings)} processes, {libraries}"
    for job in plan.processes.jobs.values():
        yield f"# The job {job.name} is the namespace {show(job.namespace)}."
    for host, name in plan.processes.nodes.items():
        if host != name.encode():
            yield f"# The node {name} is the host {show(host)}."


def say_words(plan: Plan) -> Iterator[str]:
    """Which words stand for which keys and names, where they aren't the same."""
    for what, words in (("key", plan.spelling.keys), ("name", plan.spelling.names)):
        for text in words.renamed:
            yield f"# The {what} {words[text]} is {show(text)}."


def say_luck(plan: Plan) -> Iterator[str]:
    """How many ends another run may have found open, and the verdicts with and without them."""
    mpi = plan.mpi
    if mpi.left_to_luck:
        what = "nothing is taken from them" if plan.choices.is_strict else TAKEN
        why = "a poll that succeeded, one of several, a peer that a message named"
        yield f"# {mpi.left_to_luck} {LEFT_TO_LUCK} ({why}): {what}."
    if mpi.verdicts:
        yield f"# {VERDICTS}{mpi.verdicts}"


def say_mpi(plan: Plan) -> Iterator[str]:
    """What of MPI's order the plan has."""
    mpi, choices = plan.mpi, plan.choices
    if plan.run_count > 1:
        yield f"# {plan.run_count} runs: the calls that all made, in the order that all gave them."
        mark = plan.spelling.mpi_mark
        yield f"# No call of PMIx made the lines of names that begin with `{mark}`."
    elif mpi.message_count or mpi.collective_count:
        messages = say_counted(f"{mpi.message_count} messages")
        counts = f"{messages} and {say_counted(f'{mpi.collective_count} collectives')}"
        yield (
            f"# MPI's order: {counts}. "
            "No call of PMIx made the lines of names that begin with"
        )
        yield f"# `{plan.spelling.mpi_mark}`, and the fences below a line `# MPI: ..`."
    yield from say_luck(plan)
    if mpi.strict_races:
        yield f"# {STRICT_ALONE}"
        yield from (f"#   {race}" for race in mpi.strict_races)
    if not choices.with_mpi or not any(process.recording.world for process in plan.processes.all):
        yield (
            f"# {WITHOUT_MPI}: if MPI orders the calls of a race, it is reported all the same."
        )


def is_by_mpi_alone(plan: Plan) -> bool:
    """Whether what another run may do otherwise leads to no call of PMIx but MPI's own, and hides
    no finding among these."""
    return not plan.notes.can_call_pmix and not plan.mpi.verdicts


def say_own_code(plan: Plan) -> Iterator[str]:
    """That what luck decides leads to no call of PMIx, where it decides something."""
    if is_by_mpi_alone(plan) and (plan.mpi.left_to_luck or any(plan.notes.of_luck.values())):
        yield f"# {OWN_CODE}"


def list_notes(plan: Plan) -> Iterator[tuple[str, Sequence[str]]]:
    """What the plan can't say: titles, each with the lines below it."""
    notes = plan.notes
    yield PARTED, list(plan.partings)
    for title, counted in (
        (CUT_OFF, notes.cut_off),
        (LEFT_OUT, notes.list_left_out(can_hide_race=True)),
        (MORE_ORDERED, notes.more_ordered),
        (OTHERWISE_ALONE if is_by_mpi_alone(plan) else OTHERWISE_AFTER, notes.of_luck),
        (WRITTEN_OTHERWISE, notes.otherwise),
        (LEFT_OUT_HARMLESS, notes.list_left_out(can_hide_race=False)),
    ):
        yield title, [f"{count} {what}" for what, count in sorted(counted.items()) if count]


def say_notes(plan: Plan) -> Iterator[str]:
    """What the plan can't say, in lists."""
    for title, them in list_notes(plan):
        if them:
            yield f"# {title}"
            yield from (f"#   {text}" for text in them)


def say_tested(plan: Plan) -> Iterator[str]:
    """What the checker was asked of the plan: whether it holds of each run of the program, or what
    the library answered otherwise than the rules."""
    tested = plan.tested
    if tested.is_of_each_run:
        yield f"# {EACH_RUN_SENTENCE}"
    lists = (ANSWERED, [tested.answered] if tested.answered else []), (TIMED, tested.timed)
    for title, said in lists:
        if said:
            yield f"# {title}"
            yield from (f"#   {line}" for line in said)


def say_head(plan: Plan) -> list[str]:
    """The comments at the head of the plan."""
    mpi = [*say_mpi(plan), *say_own_code(plan)]
    of_plan = [*say_recordings(plan), *say_tested(plan), *say_words(plan)]
    return [*of_plan, *mpi, *say_notes(plan)]


# --- the plan ---


def find_texts(process: Process, places: Places | None) -> dict[str | None, str]:
    """The texts of the places of a process, by their numbers, as far as they are known."""
    if not places:
        return {}
    recording = process.recording
    found = ((number, places.find(recording, number)) for number in recording.places)
    return {number: text for number, text in found if text}


def say_order(line: Line) -> str | None:
    """The comment above a line that stands for a message or a collective; None for another."""
    action, end = line.call.action, line.call.end
    if line.order is None or line.is_of_program:
        return None
    if isinstance(action, Collective):
        return f"{MPI_COMMENT}{action.name}"
    if isinstance(action, Send):
        return f"{MPI_COMMENT}send, tag {action.tag}"
    if not isinstance(action, (Receive, Probe)):
        return None
    of_any = " from any source" if action.source is None else ""
    tag = f", tag {end.tag}" if isinstance(end, MessageEnd) else ""
    return f"{MPI_COMMENT}receive{of_any}{tag}"


def write_script(lines: Iterable[Line], texts: dict[str | None, str]) -> Iterator[str]:
    """The lines of one process. Where another place of the program begins, a comment says so."""
    place = UNKNOWN_PLACE
    for line in lines:
        here = texts.get(line.call.place, UNKNOWN_PLACE)
        if here != place:
            yield f"{PLACE_COMMENT}{here}"
            place = here
        remark = line.remark or say_order(line)
        if remark:
            yield remark
        yield line.words


def write_body(plan: Plan, places: Places | None) -> list[str]:
    """The lines of the plan below its head."""
    lines = ["rehearsal 1", *(f"node {node}" for node in plan.processes.nodes.values())]
    for job in plan.processes.jobs.values():
        lines.append(f"job {job.name}")
        for process in job.processes:
            lines.append(f"rank {process.node}")
            texts = find_texts(process, places)
            lines += write_script(plan.draft.lines[process], texts)
    return lines


def join_lines(head: Sequence[str], body: Sequence[str], *, is_large: bool) -> str:
    """The text of head and body, which says where only --large reads it."""
    size = sum(map(len, head)) + sum(map(len, body)) + len(head) + len(body)
    more = ["# Larger than the plain limits: `wire_up check --large` reads it."]
    is_past = is_large or size > VERSION_1.plan_bytes
    return "".join(f"{word}\n" for word in [*head, *(more if is_past else []), *body])


def write_plan(plan: Plan, places: Places | None = None) -> str:
    """The text of a plan, with where its calls come from if there is room for that.

    Raises Refused for a plan that is past the limits.
    """
    most, count = plan.choices.most, plan.draft.count
    refuse_past(most.calls, "calls", count)
    is_large = plan.processes.is_large or count > VERSION_1.calls
    head, body = say_head(plan), write_body(plan, places)
    text = join_lines(head, body, is_large=is_large)
    if len(text) > (most if is_large else VERSION_1).plan_bytes:
        body = [each_text for each_text in body if not each_text.startswith(LEFT_AWAY)]
        text = join_lines(head, body, is_large=is_large)
    refuse_past(most.plan_bytes, "bytes", len(text))
    return text


# --- how the calls ended ---


def say_end(line: Line) -> str:
    """How the call of a line ended. A lookup of several names succeeds if one is there."""
    end = line.call.end
    if line.is_of_program and isinstance(end, LookupEnd) and end.status in SUCCEEDED:
        return SUCCESS if line.value else STATUSES[NOT_FOUND]
    if line.is_of_program or not (end or line.verb == "publish"):
        status = end.status if end else 0
        return STATUSES.get(status, f"PMIX_STATUS_{status}") if end else WAITING
    return SUCCESS


@dataclass(frozen=True)
class Answered:
    """How the call of a line ended: its number in its process, its status, and what it got."""

    line: Line
    number: int
    status: str
    value: Value | None

    def write(self, value: str) -> str:
        """This as a line of a report, with the word of the value, if that isn't empty."""
        said = f"{self.line.process.name} {self.number} {self.line.verb} {self.status}"
        return f"{said} {value}" if value else said


def list_answers(plan: Plan) -> Iterator[Answered]:
    """How the calls of a plan ended, in the order of a report."""
    for process in plan.processes.all:
        is_over = False
        for number, line in enumerate(plan.draft.lines[process], 1):
            said = UNREACHED if is_over else say_end(line)
            is_over = is_over or said == WAITING
            yield Answered(line, number, said, line.value if said == SUCCESS else None)


def write_answers(plan: Plan) -> str:
    """How the calls of a plan ended, in the form of a report."""
    answers, waiting = [], 0
    for answer in list_answers(plan):
        answers.append(answer.write(answer.value.word if answer.value else ""))
        waiting += answer.status == WAITING
    return "".join(f"{answer}\n" for answer in [*answers, f"waiting {waiting}"])
