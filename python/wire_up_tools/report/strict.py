"""What is found with --strict alone: the races that the head of a recorded plan names, and how one
sees them as a report has races.

They race if an end of a request that the run found could come later, as the recorder says: then
nothing orders their calls.
"""
from collections.abc import Sequence

from wire_up_tools import words
from wire_up_tools.plan import Plan
from wire_up_tools.report.findings import Finding, read_line

TITLE = "With --strict alone"
MEANING = (
    "In this run a request had ended, or one of several, or a message had come, before the program "
    "went on. Another run may find it otherwise: then nothing orders these two calls."
)
# How the plan is made that has these races, where the recordings are kept.
KEEP = "Record with --keep runs, so that the recordings stay in the folder runs."
COMMANDS = ("wire_up-record --strict -o strict.plan --from runs", "wire_up-report strict.plan")
SHOWS = "Then these show each such race with its two runs:"


def has_more(plan: Plan) -> bool:
    """Whether something else is found with --strict, and the plan was made without it."""
    head = plan.declared.head
    is_taken = any(text.endswith(f"{words.TAKEN}.") for text in head)
    return is_taken and any(text.startswith(words.VERDICTS) for text in head)


def find_strict(plan: Plan) -> Sequence[Finding]:
    """The races that the head of a plan names, as far as the plan has their calls."""
    found = []
    for line in plan.list_in_head(words.STRICT_ALONE):
        try:
            found.append(read_line(plan, line))
        except (LookupError, ValueError):
            continue
    return found
