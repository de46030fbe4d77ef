"""The verdict of a report in words: what was found, what it means, and how large the plan is."""
from collections.abc import Sequence

from wire_up_tools.left_out import can_order
from wire_up_tools.portable import say_promise
from wire_up_tools.report.causes import Cause
from wire_up_tools.report.contents import Report
from wire_up_tools.report.findings import MOST_GROUPS, Finding, Kind
from wire_up_tools.report.library_page import say_otherwise
from wire_up_tools.report.partial import (
    hides_race,
    is_of_each_run,
    say_awaited,
    say_own_code,
)
from wire_up_tools.report.patterns import find_groups, say_counterexample
from wire_up_tools.report.phrases import count_of
from wire_up_tools.report.placements import Placed
from wire_up_tools.report.runs import SECONDS, Outcome
from wire_up_tools.report.tried import find_tried, say_all_kept, say_in_vain, say_no_alarms
from wire_up_tools.words import EACH_RUN_SENTENCE

# What helps where a counterexample is smaller than a job can be.
SMALL = "If a group can't be that small in your job, say its least number, as in `many {} min N`."
# The same where the program itself showed the race.
SHOWN_IN_PROGRAM = (
    "The rules alone gave no two runs that differ, as far as they were tried; your program did."
)
# What it means that there are no two runs.
WITHOUT_RUNS = {
    Outcome.REWRITE: (
        "Both puts are calls of one rank, and always come in this order. "
        "What another rank gets depends on when it asks, so there is no pair of runs to show."
    ),
    Outcome.ABSENT: (
        "This wire_up has no command that looks for two runs. "
        "The finding says that no chain of events orders the two calls. "
        "It doesn't say that both orders happen, or that the replies differ."
    ),
    Outcome.NOT_SHOWN: (
        "No run that was tried shows a difference. That isn't a proof that there is none: "
        "no chain of events orders the two calls, and other runs may differ."
    ),
    Outcome.LARGE: (
        "No runs were looked for: wire_up witness takes no plan past the limits of its version."
    ),
    Outcome.LATE: (
        f"No runs were looked for: {SECONDS} seconds went to others, or the plan is large."
    ),
}


def say_without_runs(report: Report, finding: Finding, outcome: Outcome) -> str:
    """What it means that there are no two runs of the plan for a finding."""
    tried = find_tried(report.plan, finding)
    if tried and tried.word.startswith("shown") and outcome is Outcome.NOT_SHOWN:
        return SHOWN_IN_PROGRAM
    return WITHOUT_RUNS[outcome]


def say_found(report: Report) -> str:
    """What was found, counted, and which calls fail or never end."""
    said = say_races(report)
    if said and report.reasons:
        said += "; others may be missed"
    more = say_elsewhere(report)
    nothing = f"no race seen{more}, in part" if report.reasons else f"no race{more}"
    of_pattern = say_counterexample(report.plan) if report.is_counterexample else ""
    parts = [said or nothing, of_pattern, say_ends(report), more * bool(said)]
    return "; ".join(filter(None, parts))


def say_elsewhere(report: Report) -> str:
    """What is found on other placements than that written; nothing where that isn't known."""
    if not report.elsewhere or report.elsewhere.fault:
        return ""
    count = sum(cause.count for cause in report.elsewhere.causes)
    if report.causes:
        return f"{count_of(count, 'more race')} on other placements" if count else ""
    if count:
        return f" on the placement written, {count_of(count, 'race')} on others"
    return " on any placement"


def say_ranks(placed: Placed) -> str:
    """On which placement a cause is found."""
    return f"With {' and '.join(placed.ranks)} on one node"


def say_placements(report: Report) -> list[str]:
    """What is found on the placement written, and what on others; nothing where that isn't known or
    is the same."""
    elsewhere = report.elsewhere
    if elsewhere and elsewhere.fault:
        return [f"Other placements weren't judged: {elsewhere.fault}."]
    if not elsewhere or not elsewhere.causes:
        return []
    said = [f"On the placement written: {say_races(report) or 'nothing'}"]
    placed: dict[str, list[int]] = {say_ranks(each_placed): [] for each_placed in elsewhere.placed}
    for each_placed in elsewhere.placed:
        placed[say_ranks(each_placed)].append(each_placed.cause.count)
    said += [f"{ranks[0].lower()}{ranks[1:]}: {say_such(row)}" for ranks, row in placed.items()]
    return [f"{'; '.join(said)}."]


def say_such(counts: Sequence[int]) -> str:
    """How many races such as those told of a placement there are, by the counts of its causes."""
    such = "races such as these" if len(counts) > 1 else "races such as this"
    return count_of(sum(counts), "this race", such).removeprefix("1 ")


def say_pattern(report: Report) -> list[str]:
    """How the counterexample of a pattern is written to a file."""
    if not report.pattern:
        return []
    command = f"wire_up check --pattern {report.name} > {report.plan_name}"
    said = [f"The plan below is one of the pattern; this writes it: {command}"]
    groups = find_groups(report.pattern)
    return [*said, SMALL.format(groups[0])] if groups else said


def say_besides(report: Report) -> list[str]:
    """What is said below the verdict: of the pattern, of other placements, of a library, and of the
    program's own code."""
    of_library = say_libraries(report)
    of_library += [say_otherwise(report.judged)] if report.judged else []
    is_of_runs = not report.causes and is_of_each_run(report.plan)
    all_kept = say_all_kept(report.plan) if is_of_runs else None
    of_runs = [" ".join(filter(None, [EACH_RUN_SENTENCE, all_kept]))] if is_of_runs else []
    of_code = [text for text in (say_own_code(report.plan), say_awaited(report.plan)) if text]
    said = [*of_runs, *say_pattern(report), *say_placements(report), *of_library, *of_code]
    said += () if all_kept else say_in_vain(report.plan)
    return [*said, *say_no_alarms(report.plan)]


def say_libraries(report: Report) -> list[str]:
    """For which libraries the plan is portable; nothing where that isn't known."""
    if report.is_past_limits:
        return ["For which libraries so large a plan is portable, check --large --portable tells."]
    return [say_promise(report.portable)] if report.portable else []


def say_reasons(report: Report) -> str:
    """Why the verdict holds only in part, in brackets; nothing where it holds whole."""
    return f"({'; '.join(report.reasons)})" if report.reasons else ""


def say_line(report: Report) -> str:
    """What was found, with why that holds only in part."""
    return " ".join(filter(None, [say_found(report), say_reasons(report)]))


def may_be_ordered(report: Report) -> bool:
    """Whether what was left out can order the calls of a race that was found."""
    is_race = any(cause.first.kind is not Kind.REWRITE for cause in report.causes)
    return is_race and any(can_order(text.partition(" ")[2]) for text in report.left_out)


def say_recording(report: Report) -> str:
    """That the plan is recorded, and whether what was left out can hide a race."""
    if not report.left_out:
        return "A recording, with nothing left out"
    if hides_race(report.plan):
        return "A recording, with calls left out that can hide a race"
    besides = "apart from that, " if report.reasons else ""
    ordered = ", but can order the calls of one" if may_be_ordered(report) else ""
    return f"A recording; {besides}what is left out can hide no race{ordered}"


def say_races(report: Report) -> str:
    """The findings, counted; nothing where there are none."""
    count = sum(cause.count for cause in report.causes)
    rewrites = sum(cause.count for cause in report.causes if cause.first.kind is Kind.REWRITE)
    said = []
    if count > rewrites:
        said.append(count_of(count - rewrites, "race"))
    if rewrites:
        said.append(count_of(rewrites, "key put twice", "puts of keys put before"))
    is_cut = sum(len(cause.groups) for cause in report.causes) >= MOST_GROUPS
    return "at least " * is_cut + " and ".join(said)


def say_ends(report: Report) -> str:
    """How many calls fail, and how many ranks wait for ever; nothing where none does."""
    fails = [count_of(report.failed, "call fails", "calls fail")] if report.failed else []
    return ", ".join([*fails, *([say_waiting(report)] if report.waits else [])])


def say_verdict(report: Report) -> str:
    """The verdict in a sentence."""
    if report.causes:
        has_many = sum(cause.count for cause in report.causes) > 1
        kinds = f"They come from {count_of(len(report.causes), 'mistake')}. " if has_many else ""
        return f"{kinds}{say_doubt(report)}"
    ends = say_ends(report).replace(", ", " and ")
    end = ends or "no call fails and no rank waits for ever"
    whole = "As far as the plan goes, w" if report.reasons else "W"
    return f"{whole}hichever ranks are fast, every call ends in the same way: {end}."


def say_doubt(report: Report) -> str:
    """What findings mean for the program."""
    if any(cause.first.kind is not Kind.REWRITE for cause in report.causes):
        return "The replies of some calls may depend on which rank is fast."
    return (
        "A rank that gets such a key may see its first value or its second: a bug, unless either "
        "will do."
    )


def say_waiting(report: Report) -> str:
    """How many ranks wait for ever."""
    return f"{count_of(len(report.waits), 'rank waits', 'ranks wait')} for ever"


def say_size(report: Report) -> str:
    """How large the plan is."""
    plan = report.plan
    jobs, calls = plan.declared.jobs, count_of(plan.call_count, "call")
    in_jobs = f" in {count_of(len(jobs), 'job')}" if len(jobs) > 1 else ""
    kept = ", what gets bring is kept" if plan.declared.keeps else ""
    nodes = count_of(len(plan.declared.nodes), "node")
    return f"{count_of(len(plan.ranks), 'rank')} on {nodes}{in_jobs}, {calls}{kept}"


def say_count(cause: Cause) -> str:
    """How many findings a cause has."""
    return count_of(cause.count, "finding" if cause.first.kind is Kind.REWRITE else "race")
