"""Where in the program a call comes from, and what its rank calls before and after a helper.

A place may have functions that called each other: then the line that calls a helper comes first,
and the line of the helper stands beside it.
"""
import collections
import functools
import itertools
from collections.abc import Iterable, Sequence

from wire_up_tools.plan import Call, Plan
from wire_up_tools.report.language import name_bare
from wire_up_tools.words import INTO, MAIN, UNKNOWN_PLACE


# What a helper does beside a call, so that it is one thing that it does.
SHARING = dict.fromkeys(("put", "commit"), frozenset(("put", "commit")))


def list_later(plan: Plan, call: Call) -> Iterable[Call]:
    """The calls of a rank after one of them."""
    return itertools.islice(plan.calls_of[call.rank.name], call.number, None)


def name_spot(plan: Plan, call: Call) -> str:
    """Where a call comes from: the line, with the function if that isn't the main one; of a helper
    the line that calls it; else the number of the call."""
    frames = list_frames(call)
    if not frames:
        return f"its call {call.number}"
    if not is_helper(plan, call):
        return name_frame(frames[-1])
    is_enough = is_alone(plan, call)
    return name_frame(frames[-2]) + f" in {frames[-1]}" * (not is_enough)


def tell_call(plan: Plan, call: Call) -> str:
    """A call with the line from which it comes, or else with its number."""
    if call.place:
        return f"{name_bare(call)} of {name_spot(plan, call)}"
    return f"{name_bare(call)} (call {call.number} of {call.rank.name})"


def tell_own(plan: Plan, call: Call) -> str:
    """The same of a call whose rank is named with it."""
    if call.place:
        return f"the {tell_call(plan, call)}"
    return f"its {name_bare(call)} (call {call.number})"


def name_shown(plan: Plan, call: Call) -> str:
    """The line that is shown first of where a call comes from, as short as it can be."""
    return name_frame(choose_place(plan, call)) or f"its call {call.number}"


def name_frame(frame: str) -> str:
    """The line of a frame, with the function if that isn't the main one."""
    return cut_line(frame) if cut_function(frame) in MAIN else frame


def name_line(call: Call) -> str:
    """The line of a call that has a place: `a.c:3` of `main (a.c:3)`."""
    return cut_line(find_own(call))


def say_place(plan: Plan, call: Call) -> str:
    """Where a call comes from, with what stands beside that."""
    return ", ".join(list_places(plan, call))


def choose_place(plan: Plan, call: Call) -> str:
    """The place of a call that is shown first and names a line, if one is known."""
    frames = list_frames(call)
    return frames[-2] if frames and is_helper(plan, call) else find_own(call)


def list_places(plan: Plan, call: Call) -> list[str]:
    """Where a call comes from: first the line that calls a helper, and then that of the helper, and
    what called these. Where it isn't known what called a helper, the lines around it come first."""
    frames = list_frames(call)
    if not frames:
        return [UNKNOWN_PLACE]
    if len(frames) > 1:
        at = len(frames) - 1 - is_helper(plan, call)
        below = [f"in {frame}" for frame in frames[at + 1:]]
        return [frames[at], *below, *(f"called from {frame}" for frame in reversed(frames[:at]))]
    around = say_around(plan, call)
    return [around, f"in {frames[0]}"] if around else frames


def say_around(plan: Plan, call: Call) -> str:
    """Between which lines a call of a helper comes: those of the nearest calls that other functions
    make before and after it, as far as these are known.

    Nothing for a call of the main program.
    """
    if find_function(call) in MAIN:
        return ""
    earlier = list(itertools.islice(plan.calls_of[call.rank.name], call.number - 1))
    before = next(
        (each_call for each_call in reversed(earlier) if is_elsewhere(each_call, call)), None
    )
    after = next(
        (each_call for each_call in list_later(plan, call) if is_elsewhere(each_call, call)), None
    )
    if before and after:
        return f"between {name_line(before)} and {name_line(after)}"
    if before:
        return f"after {name_line(before)}"
    return f"before {name_line(after)}" if after else ""


def is_elsewhere(one: Call, other: Call) -> bool:
    """Whether a call is known to come from another function than another call."""
    return one.place is not None and find_function(one) != find_function(other)


# --- helpers ---


def is_helper(plan: Plan, call: Call) -> bool:
    """Whether the function that makes a call is a helper: it makes no other beside it, or it is
    called from several places. What called it must be known."""
    is_called = len(list_frames(call)) > 1
    return is_called and (find_own(call) in find_shared(plan) or is_alone(plan, call))


def is_alone(plan: Plan, call: Call) -> bool:
    """Whether a call is the only one that its function makes when it is called: puts with their
    commit count as one."""
    calls, at = plan.calls_of[call.rank.name], call.number - 1
    before = itertools.takewhile(lambda each_call: is_within(each_call, call), reversed(calls[:at]))
    after = itertools.takewhile(lambda each_call: is_within(each_call, call), calls[at + 1:])
    return {each_call.verb for each_call in (*before, *after)} <= SHARING.get(
        call.verb, frozenset()
    )


def is_within(one: Call, other: Call) -> bool:
    """Whether a call may be of the function that makes another, called at the same place."""
    outer, outer_too = list_frames(one)[:-1], list_frames(other)[:-1]
    is_same = not outer or outer == outer_too
    return is_same and find_function(one) == find_function(other)


@functools.lru_cache(1)
def find_shared(plan: Plan) -> frozenset[str]:
    """The places that make calls in functions which are called from several places."""
    outer: dict[str, set[Sequence[str]]] = collections.defaultdict(set)
    for place in {call.place for call in plan.list_single() if call.place}:
        frames = place.split(INTO)
        outer[frames[-1]].add(tuple(frames[:-1]))
    return frozenset(place for place, called in outer.items() if len(called) > 1)


# --- the words of a place ---


def list_frames(call: Call) -> list[str]:
    """The functions that called each other up to a call, each with its line."""
    return call.place.split(INTO) if call.place else []


def find_own(call: Call) -> str:
    """The line that makes a call, with its function."""
    return (call.place or "").rpartition(INTO)[2]


def find_function(call: Call) -> str:
    """The function that makes a call, by the place: `main` of `main (a.c:3)`."""
    return cut_function(find_own(call))


def cut_function(frame: str) -> str:
    """The function that is named with a line."""
    return frame.rpartition(" (")[0] or frame


def cut_line(frame: str) -> str:
    """The line that is named with a function."""
    return frame.rpartition(" (")[2].removesuffix(")")
