"""Which of what a recorded plan leaves out can hide a race: one rule for what the recorder says,
for the head of the plan, and for pages."""
import re

# What can hide no race: it changes nothing that others see, or what it does is judged otherwise; or
# it is a part of MPI's order, and without it the plan is less ordered than the program. A message
# in a communicator that isn't known is taken for none in another. Of events those are told of that
# have a handler.
HARMLESS = re.compile(
    r"gets of a wildcard rank|(gets|puts) of reserved keys|puts for the process alone"
    r"|gets of what is put for the process alone|.*, since they can't change a finding"
    r"|calls of MPI_\w+( in a communicator that isn't known)?"
    r"|calls of PMIx_(Store_internal|Job_control|Query_info|Log|Notify_event)(_nb)?"
    r"|directives pmix\.(timeout|persist|range)"
    r"|(collectives|messages|receives) .*"
)
# What orders processes, so that a race may be none in the program.
ORDERING = re.compile(
    r"calls of (MPI_\w+|PMIx_(Connect|Spawn))\b.*|(collectives|messages|receives) .*"
)


def can_hide(what: str) -> bool:
    """Whether something that is left out, in the words of the head of a plan without its count, can
    hide a race."""
    return not HARMLESS.fullmatch(what)


def can_order(what: str) -> bool:
    """Whether something that is left out, in the same words, can order the calls of a race."""
    return bool(ORDERING.fullmatch(what))
