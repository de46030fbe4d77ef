"""Makes the pattern of a recorded plan, with what the plan can't say at its head."""
from collections.abc import Sequence
from dataclasses import replace

from wire_up_tools.failures import Refused
from wire_up_tools.record.draft import Line
from wire_up_tools.record.patterns.finding import Broken
from wire_up_tools.record.patterns.indexing import index_numbers, index_order
from wire_up_tools.record.patterns.scripts import Script
from wire_up_tools.record.patterns.writing import Pattern, make_pattern, say_broken
from wire_up_tools.record.planning import Plan
from wire_up_tools.record.writing import list_notes, say_luck, say_own_code
from wire_up_tools.words import LEFT_OUT_HARMLESS, WRITTEN_OTHERWISE

# A job of so many ranks tells nothing of loops: any plan of it fits a pattern.
TOO_FEW = 2


def list_scripts(plan: Plan) -> list[Script]:
    """What each process of a plan calls, with the ranks in the names of MPI's order as indices."""
    ranks = {each_line.short_name: each_line.name for each_line in plan.draft.lines}

    def cut(line: Line) -> Sequence[str]:
        words = line.words.split(" ")
        return [words[0], index_order(words[1], ranks), *words[2:]] if line.order else words

    return [
        Script(process.name, process.name.rpartition(":")[0], list(map(cut, lines)))
        for process, lines in plan.draft.lines.items()
    ]


def find_pattern(plan: Plan) -> Pattern:
    """The pattern of a plan. Raises Refused, with the call that breaks it."""
    for job in plan.processes.jobs.values():
        if len(job.processes) == TOO_FEW:
            raise Refused(
                f"there is no pattern: the job {job.name} has {TOO_FEW} ranks, and any plan of "
                f"{TOO_FEW} fits one: record {TOO_FEW + 1} or more"
            )
    scripts = list_scripts(plan)
    indexed = index_numbers(scripts)
    found = make_pattern(indexed)
    if isinstance(found, Broken) and indexed != scripts:
        # A number below that of the ranks may be none.
        plain = make_pattern(scripts)
        found = plain if isinstance(plain, Pattern) else found
    if isinstance(found, Broken):
        raise Refused(f"there is no pattern: {say_broken(found, scripts)}")
    return replace(found, text=add_notes(found.text, plan))


def add_notes(text: str, plan: Plan) -> str:
    """A pattern with what its plan can't say behind the first line."""
    first, _, rest = text.partition("\n")
    lines = [first, *say_luck(plan), *say_own_code(plan)]
    for title, them in list_notes(plan):
        if them and title not in (WRITTEN_OTHERWISE, LEFT_OUT_HARMLESS):
            lines += [f"# {title}", *(f"#   {each_text}" for each_text in them)]
    return "\n".join([*lines, rest])


def holds_in_part(plan: Plan) -> bool:
    """Whether a verdict over a plan holds only in part."""
    noted = (plan.notes.cut_off, plan.notes.more_ordered)
    return bool(plan.partings) or any(any(counter.values()) for counter in noted)
