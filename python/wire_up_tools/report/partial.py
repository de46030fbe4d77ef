"""Why a verdict holds only in part: what the head of a recorded plan, or of its pattern, says that
can hide a race."""
import re
from collections.abc import Sequence

from wire_up_tools import words
from wire_up_tools.left_out import can_hide
from wire_up_tools.plan import Plan, list_below
from wire_up_tools.report.phrases import count_of, list_names
from wire_up_tools.report.singular import say_counted
from wire_up_tools.report.tried import say_turned

POLLED = re.compile(rf"(\d+) {words.LEFT_TO_LUCK} .*: (?:({words.TAKEN})|.*)\.")
# How a recording that was cut off shows among the lists of the head.
CUT_OFF = re.compile(r"(\d+) (processes whose recordings end before|last lines of recordings)\b.*")


def find_reasons(plan: Plan) -> list[str]:
    """Why the verdict on a plan holds only in part; none where it holds whole."""
    if not plan.is_recorded:
        return []
    head = plan.declared.head
    reasons = [say_answered(plan), say_parted(head), *say_turned(plan), *find_hidden(head)]
    reasons.append(say_timed(plan))
    return [reason for reason in reasons if reason]


def find_in_head(head: Sequence[str]) -> list[str]:
    """Why the verdict on a pattern holds only in part, by the head that the recorder wrote."""
    return [text for text in [say_parted(head), *find_hidden(head)] if text]


def find_hidden(head: Sequence[str]) -> list[str]:
    """What a head says that can hide a race in one run."""
    cut_off, left_out = say_cut_off(head), say_left_out(head)
    ordered = [say_counted(text) for text in list_below(head, words.MORE_ORDERED)]
    reasons = [cut_off, say_polled(head), *ordered, say_received(head), left_out]
    return [reason for reason in reasons if reason]


def find_verdicts(plan: Plan) -> str | None:
    """The verdicts with and without the order of polls, where the recorder says that they
    differ."""
    return find_both(plan.declared.head)


def find_both(head: Sequence[str]) -> str | None:
    """The verdicts with and without the order of polls that a head has."""
    said = (text for text in head if text.startswith(words.VERDICTS))
    return next((line.removeprefix(words.VERDICTS) for line in said), None)


def is_of_each_run(plan: Plan) -> bool:
    """Whether the recorder says that each run of the program makes the calls of the plan, if it
    goes by them alone."""
    return plan.is_recorded and words.EACH_RUN_SENTENCE in plan.declared.head


def say_answered(plan: Plan) -> str | None:
    """Which calls the library that was recorded answered otherwise than the rules."""
    said = plan.list_in_head(words.ANSWERED)
    if not said:
        return None
    return f"the verdict doesn't hold of this library's run, which answered otherwise {said[0]}"


def say_timed(plan: Plan) -> str | None:
    """Which calls the library that was recorded is known to answer by which rank is fast."""
    named = plan.list_in_head(words.TIMED)
    if not named:
        return None
    return f"the reply can depend on which rank is fast: {list_names(named)}"


def say_polled(head: Sequence[str]) -> str | None:
    """Of how many polls the order of one run is taken, and what the verdict is without."""
    found = next(filter(None, map(POLLED.fullmatch, head)), None)
    if not found or is_by_mpi_alone(head):
        return None
    verdicts = find_both(head)
    both = f": {verdicts}" if verdicts else ""
    polled = count_of(int(found[1]), "polled request")
    if not found[2]:
        return f"another run may find {polled} open, and do otherwise{both}"
    return f"the order of {polled} is that of this run{both}"


def say_received(head: Sequence[str]) -> str | None:
    """What could have come otherwise, so that another run may do something else."""
    listed = [say_counted(text) for text in list_below(head, words.OTHERWISE_AFTER)]
    return f"another run may do otherwise after {list_names(listed)}" if listed else None


def is_by_mpi_alone(head: Sequence[str]) -> bool:
    """Whether the head says that what luck decides leads to no call of PMIx but MPI's own."""
    return words.OWN_CODE in head


def say_awaited(plan: Plan) -> str | None:
    """On what the order rests that gets have which don't block; None where there are none, or that
    order is said to hide what another lacks."""
    if not any(text.endswith(words.AWAITED) for text in plan.list_in_head(words.WRITTEN_OTHERWISE)):
        return None
    return (
        "Gets that don't block stand where they ended, as if the program waited for them. If it "
        "polls for them, another run may do otherwise."
    )


def say_own_code(plan: Plan) -> str | None:
    """What luck decides that leads to no call of PMIx, and on what that rests; None where it
    decides nothing, or can lead to one."""
    if not is_by_mpi_alone(plan.declared.head):
        return None
    listed = [say_counted(text) for text in plan.list_in_head(words.OTHERWISE_ALONE)]
    of_luck = list_names(listed) if listed else "requests that it may find open"
    return (
        f"Another run may do otherwise after {of_luck}, but makes no call of PMIx by that. "
        f"{words.OWN_CODE}"
    )


def say_parted(head: Sequence[str]) -> str | None:
    """Where several runs parted."""
    partings = list_below(head, words.PARTED)
    return f"the runs part: {'; '.join(partings)}" if partings else None


def say_cut_off(head: Sequence[str]) -> str | None:
    """How many recordings were cut off."""
    titles = (words.CUT_OFF, words.LEFT_OUT, words.WRITTEN_OTHERWISE)
    listed = [text for title in titles for text in list_below(head, title)]
    found = (CUT_OFF.fullmatch(text) for text in listed)
    count = max((int(hit[1]) for hit in found if hit), default=0)
    if not count:
        return None
    said = count_of(count, "recording ends", "recordings end")
    return f"the run was cut off, {said} early: what came then isn't known"


def hides_race(plan: Plan) -> bool:
    """Whether something was left out that can hide a race."""
    head = plan.declared.head
    return bool(say_left_out(head) or say_cut_off(head))


def say_left_out(head: Sequence[str]) -> str | None:
    """What was left out that can hide a race."""
    counted = (text.partition(" ") for text in list_below(head, words.LEFT_OUT))
    found = [f"{count} {what}" for count, _, what in counted if can_hide(what)]
    found = [say_counted(text) for text in found if not CUT_OFF.fullmatch(text)]
    return f"not in the plan: {list_names(found)}" if found else None
