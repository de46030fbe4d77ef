"""Why an order of two calls wasn't made."""
from dataclasses import dataclass, replace

from wire_up_tools.record.showing.held_runs import HeldRun
from wire_up_tools.record.showing.naming import Target, mask
from wire_up_tools.record.showing.traces import TracedCall

# What it means that a process stood in a call, or had left one; and that it went on.
BY_LIBRARY = "ordered by this library alone, if at all: another one may show it"
BY_OTHER_MEANS = "ordered by what isn't recorded, or not at all"
# What it means where the plan has no race of the two.
BY_PLAN = "the plan orders them so"
WENT_ON = "a longer --hold may show it"
IN_CALLBACK = "a callback of the library made it, where no call can be held"
# Verbs of records whose ends aren't noted.
WITHOUT_END = "send"
# A call that began so short before a hold ended, in seconds, shows that its process went on. The
# times of recordings can be wrong by the other number.
RECENT, MARGIN = 0.4, 0.05


@dataclass(frozen=True)
class Missed:
    """Why an order wasn't made, and what that means, if that is known."""

    why: str
    meaning: str = ""

    def __str__(self) -> str:
        return f"{self.why}: {self.meaning}" if self.meaning else self.why


def explain_by_plan(missed: Missed | None) -> Missed | None:
    """Why an order wasn't made of two calls that don't race in the plan."""
    is_waiting = missed is not None and missed.meaning in (BY_LIBRARY, BY_OTHER_MEANS)
    return replace(missed, meaning=BY_PLAN) if missed and is_waiting else missed


def shorten(call: TracedCall) -> str:
    """What a call is, in few words."""
    words = mask(call.text).split(" ")
    if words[0] == "collective":
        return f"MPI_{words[1].capitalize()}"
    if words[0] in ("receive", "probe"):
        return f"a {words[0]} from {words[2]}, tag {words[3]}"
    return call.told if call.is_of_pmix else " ".join(words[:4])


def tell_standing(run: HeldRun, process: str, when: float) -> Missed:
    """Where a process stood when a hold ended, in seconds since 1970."""
    trace, before = run.traces.get(process), when - MARGIN
    calls = [call for call in trace.calls if call.began <= before] if trace else []
    calls = [call for call in calls if call.is_compared or not call.is_of_pmix]
    if not calls:
        return Missed(f"{process} had called nothing yet")
    last = calls[-1]
    ended = last.began if last.text.startswith(WITHOUT_END) else last.ended
    is_open = ended is None or ended > before
    since = when - (last.began if is_open or ended is None else ended)
    how = "stood in" if is_open else "had left"
    why = f"{process} {how} {shorten(last)} for {since:.1f} s"
    if since < RECENT:
        return Missed(why, WENT_ON)
    return Missed(why, BY_LIBRARY if is_open else BY_OTHER_MEANS)


def find_missed(run: HeldRun, first: Target, second: Target) -> Missed | None:
    """Why the first of two calls wasn't over before the second went on; None if it was. They are
    the first two that the run names."""
    one, other = run.courses[1], run.courses[2]
    for target, course in ((first, one), (second, other)):
        if course.is_passed:
            return Missed(f"{target.place} wasn't held", IN_CALLBACK)
    if one.came is None and other.came is None:
        return Missed(f"neither {first.place} nor {second.place} came")
    if other.came is None:
        return Missed(f"{second.place} didn't come")
    if other.late is None:
        return None if one.over or one.gone else Missed(f"{first.place} didn't come")
    if one.came is not None and one.came < other.late:
        return Missed(f"{second.place} was held, and {first.place} came but wasn't over")
    return tell_standing(run, first.process, other.late)
