"""Finds what the checker says with and without the order of ends that another run may have found
open, where that differs; on other placements of the ranks; and of several runs, of what they share
and of each by itself. And on which libraries the plan is portable; and what the library that was
recorded answered otherwise than the rules, or is known to answer so, where it isn't."""
import re
from collections.abc import Iterator, Sequence

from wire_up_tools.checker import Checker
from wire_up_tools.failures import Refused
from wire_up_tools.plan_reading import read_plan
from wire_up_tools.portable import Portable, find_portable, say_portable, say_unjudged
from wire_up_tools.record.partings import Run
from wire_up_tools.record.planning import Plan, Tested
from wire_up_tools.record.premises import test_premises
from wire_up_tools.record.writing import write_plan
from wire_up_tools.run.expected import expect
from wire_up_tools.run.libraries.judging import MOST_CALLS, Judged, judge
from wire_up_tools.run.libraries.traits import Library, find_recorded
from wire_up_tools.words import make_printable

NOTHING = "findings 0"
ANYWHERE = "--anywhere"
# How many calls are named whose reply can depend on which rank is fast.
NAMED = 4


def find_verdict(checker: Checker, plan: str, *options: str) -> str | None:
    """The last line that the checker writes about a plan; None where it writes none."""
    try:
        answer = checker.ask("check", *options, plan=plan.encode())
    except OSError:
        return None
    return answer.stdout.splitlines()[-1] if answer.status in (0, 1) and answer.stdout else None


def compare_verdicts(checker: Checker, plan: str, strict_plan: str) -> str | None:
    """The verdicts on a plan and on one that takes nothing from what was left to luck, if they
    differ."""
    found, strict = find_verdict(checker, plan), find_verdict(checker, strict_plan)
    if found is None or strict is None or found == strict:
        return None
    return f"{found}, and {strict} with --strict"


def finds_nothing(checker: Checker, *plans: str) -> bool:
    """Whether the checker finds nothing in any of these plans."""
    return all(find_verdict(checker, plan) == NOTHING for plan in plans)


def judge_placements(checker: Checker, plan: str) -> str | None:
    """What is found on other placements of the ranks alone; None where nothing is, where something
    is found as the plan is placed, or where the checker judges no other placements."""
    try:
        if not checker.takes("check", ANYWHERE):
            return None
    except OSError:
        return None
    found, anywhere = find_verdict(checker, plan), find_verdict(checker, plan, ANYWHERE)
    if found != NOTHING or anywhere in (None, NOTHING):
        return None
    return f"{found} on the nodes of this run, and {anywhere} on other placements of its ranks"


def judge_runs(
    checker: Checker, plan: str, own_plans: Sequence[str], do_part: bool
) -> Iterator[str]:
    """The verdict on what several runs share, with whether it holds for each run, whose own plans
    are given."""
    found = find_verdict(checker, plan)
    if found is None:
        return
    each = [find_verdict(checker, each_plan) or "no verdict" for each_plan in own_plans]
    if found == NOTHING and not do_part:
        yield f"{found}: it holds for each of the {len(each)} runs"
    else:
        yield f"what the runs share has {found}; by themselves they have {', '.join(each)}"


def find_library(plan: Plan) -> Library | None:
    """The library that was recorded; None where nothing is known of it."""
    first = plan.processes.all[0].recording
    return find_recorded(first.library, first.namespace.decode("ascii", "replace"))


def judge_library(
    checker: Checker, plan: Plan, data: bytes, portable: Portable | None
) -> Judged | None:
    """What the library that was recorded is known to make of a plan, whose text is given; None
    where nothing is known of it, where the plan is portable for it, or is too large."""
    library = find_library(plan)
    if library is None or plan.draft.count > MOST_CALLS:
        return None
    if portable and portable.is_for(library.name):
        return None
    try:
        return judge(read_plan(data), library, expect(checker, data))
    except (Refused, OSError):
        return None


def keeps_rules(plan: Plan, portable: Portable) -> bool:
    """Whether a plan is portable for the library that was recorded, or none is known to have
    been."""
    library, recorded = find_library(plan), plan.processes.all[0].recording.library
    if not recorded:
        return True
    is_judged = library is not None and portable.is_judged(library.name, recorded)
    return is_judged and library is not None and portable.is_for(library.name)


def say_of_libraries(plan: Plan, portable: Portable) -> str:
    """For which libraries a plan is portable, and whether for the one that was recorded, if that
    is judged."""
    library, said = find_library(plan), say_portable(portable)
    recorded = make_printable(plan.processes.all[0].recording.library)
    if not recorded:
        return said
    if library is None or not portable.is_judged(library.name, recorded):
        return said + say_unjudged(recorded, library.host.split()[0] if library else "")
    is_for = "is one of these" if portable.is_for(library.name) else "is none of these"
    return f"{said}; {recorded.split(' (')[0]}, which was recorded, {is_for}"


def say_judged(judged: Judged, recorded: str) -> str:
    """How many calls a library answers otherwise, and which of them make the verdict say less. What
    is known was measured with one version: where another was recorded, that is said."""
    library, version = judged.library, make_printable(recorded).split(" (")[0]
    is_same = re.match(rf"{re.escape(library.version)}(?!\d)", version)
    head = "" if is_same else f"{version} was recorded, and "
    was = ", which was recorded," if is_same else ""
    said = (
        f"{head}{library.version}{was} is known to answer {len(judged.found)} of "
        f"{judged.calls} calls otherwise than the rules (wire_up-run --predict {library.name} "
        "names them)"
    )
    if not judged.timed:
        return said
    named = ", ".join(list_timed(judged))
    return f"{said}; the verdict says less of {named}: the reply can depend on which rank is fast"


def list_timed(judged: Judged) -> list[str]:
    """The first calls whose reply can depend on which rank is fast, and how many more there are."""
    places = [f"{place}" for place in judged.timed]
    rest = len(places) - NAMED
    if rest <= 0:
        return places
    return [*places[: NAMED - 1], f"{places[NAMED - 1]} and {rest} more"]


def test_plan(checker: Checker, plan: Plan, runs: Sequence[Run]) -> Tested:
    """What the checker tells of a plan and of the runs that it is made of: whether what its verdict
    rests on is so, and what is known of the library that was recorded."""
    premises = [test_premises(checker, each_run.plan) for each_run in runs]
    said = [
        f"{f'in run {number}, ' * (len(runs) > 1)}{each_premises.differing.say(run.places)}"
        for number, (each_premises, run) in enumerate(zip(premises, runs), 1)
        if each_premises.differing
    ]
    data = write_plan(plan).encode()
    portable = find_portable(checker, data)
    judged = judge_library(checker, plan, data, portable)
    timed = list_timed(judged) if judged else []
    do_hold = all(premise.hold for premise in premises) and not plan.partings and not timed
    is_clean = len(runs) == 1 or do_hold and find_verdict(checker, data.decode()) == NOTHING
    recorded = plan.processes.all[0].recording.library
    of_library = say_judged(judged, recorded) if judged and judged.found else None
    of_libraries = say_of_libraries(plan, portable) if portable else None
    answered = said[0] if said else None
    return Tested(answered, timed, of_library, do_hold and is_clean, of_libraries)
