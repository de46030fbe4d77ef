"""What the directives of calls of PMIx say."""
import re

from wire_up_tools.record.calls import (
    NO,
    Action,
    Directives,
    Ending,
    Fence,
    Get,
    Group,
    Lookup,
    Pair,
    Publish,
    Unpublish,
    Value,
    ValueKind,
)
from wire_up_tools.words import show

COLLECT, WAIT = b"pmix.collect", b"pmix.wait"
TIMEOUT, PERSISTENCE, RANGE = b"pmix.timeout", b"pmix.persist", b"pmix.range"
# From so many seconds on a time is as good as none: Open MPI gives ten minutes.
LONG = 60
# How long a name stays, as the numbers of pmix_common.h: until it is unpublished, until it is read,
# or until its process ends, its application, or the session, which all that is recorded is in. The
# standard's default is the application.
UNTIL_UNPUBLISHED, FIRST_READ, OF_PROCESS, OF_APPLICATION, OF_SESSION = range(5)
# Whom a name is for, as the numbers of pmix_common.h: the resource manager, the node, the
# namespace, the session (the standard's default), all, those of a list, or the process alone. In a
# plan it is for all.
RANGES, OF_NAMESPACE, USUAL_RANGES = range(1, 8), 3, (4, 5)
# Directives of a get that doesn't wait; with the first one it looks into the caller's own store.
OPTIONAL = b"pmix.optional"
AT_ONCE = (b"pmix.immediate", OPTIONAL)
KNOWN = (COLLECT, WAIT, *AT_ONCE)
# Directives of a group with which all its processes still wait for all.
OF_GROUPS = (
    b"pmix.grp.actxid",
    b"pmix.grp.endpt",
    b"pmix.grp.info",
    b"pmix.grp.lclid",
    b"pmix.timeout",
)


def is_true(value: Value) -> bool:
    """Whether a library takes the value of a directive as true, as OpenPMIx does: a number that
    isn't of the type `bool` isn't, and a text may say yes or no."""
    if value.kind in (ValueKind.NUMBER, ValueKind.REAL, ValueKind.OTHER):
        return value.detail.startswith("1:") and value != NO
    text = value.text.strip().lower()
    if value.kind is not ValueKind.TEXT or not text:
        return True
    number = re.match(rb"\d+", text)
    return int(number[0]) != 0 if number else text.startswith((b"yes", b"true"))


def has_directive(directives: Directives, *keys: bytes) -> bool:
    """Whether a call has one of the directives, and not as false."""
    return any(directive.key in keys and is_true(directive.value) for directive in directives)


def is_to_wait(lookup: Lookup) -> bool:
    """Whether a lookup is to wait: for as many names as a number says, or for all."""
    return any(directive.key == WAIT and directive.value != NO for directive in lookup.directives)


def gives_up(action: Action) -> bool:
    """Whether a call waits for others, and for a short time at most."""
    if not isinstance(action, (Fence, Get, Group, Lookup)):
        return False
    if isinstance(action, Get) and has_directive(action.directives, *AT_ONCE):
        return False
    if isinstance(action, Lookup) and not is_to_wait(action):
        return False
    times = (directive.value.seconds for directive in action.directives if directive.key == TIMEOUT)
    return any(time is not None and 0 < time < LONG for time in times)


def is_usual_range(action: Action, of: Pair) -> bool:
    """Whether a range is taken for that of a plan: all processes.

    That of a lookup can hide no race: with it fewer names are found, and what was answered is held
    to the replay. MPI_Lookup_name of Open MPI 5.0.7 gives a number that it never set, another one
    in each run. Of a publish it isn't known for whom a name of such a range is.
    """
    number = of.value.number
    if isinstance(action, Lookup):
        return number is not None
    if number is None or number in RANGES:
        return number in USUAL_RANGES
    return not isinstance(action, Publish)


def say_directive(action: Action, of: Pair, *, has_jobs: bool) -> str:
    """A directive that a plan can't have, and what of it isn't taken for what a plan does, which
    has several jobs or one."""
    name = show(of.key)
    if of.key == TIMEOUT and of.value.seconds is None:
        return f"{name} of a time that can't be read"
    if of.key != RANGE or is_usual_range(action, of):
        return name
    is_all = of.value.number == OF_NAMESPACE and not has_jobs
    return name if is_all else f"{name} of some processes"


def find_persistence(action: Action) -> int | None:
    """How long a name stays that a call publishes; None where that isn't known. The recorder once
    didn't tell it: then it stays."""
    if not isinstance(action, Publish):
        return None
    told = next(
        (directive.value for directive in action.directives if directive.key == PERSISTENCE), None
    )
    if told is None:
        return OF_APPLICATION
    return UNTIL_UNPUBLISHED if told.kind is ValueKind.TYPE else told.number


def goes_away(action: Action, lookups: int) -> bool:
    """Whether a name that is published, and looked up so often, goes away by itself while others of
    its application may look it up, or perhaps does."""
    how = find_persistence(action)
    stays = how in (UNTIL_UNPUBLISHED, OF_APPLICATION, OF_SESSION)
    return not stays and (how != FIRST_READ or lookups > 1)


def find_ending(action: Action) -> Ending:
    """How the caller learns that a call has ended. Of MPI's calls that isn't asked."""
    if isinstance(action, (Fence, Get, Publish, Lookup, Unpublish)):
        return action.ending
    return Ending.BLOCKS


def stands_early(action: Action) -> bool:
    """Whether a call that doesn't block stands where it was made, so that all that follows comes
    after it in the plan. A get that waits stands where it ended. Of a fence the action doesn't tell
    it: names may stand in its place."""
    if isinstance(action, Fence) or find_ending(action) is Ending.BLOCKS:
        return False
    if isinstance(action, Get):
        return has_directive(action.directives, *AT_ONCE)
    return True
