"""Why ranks wait for ever, in a plan without findings."""
import itertools
from collections.abc import Mapping, Sequence
from dataclasses import dataclass

from wire_up_tools.plan import Call
from wire_up_tools.report.orders import Order
from wire_up_tools.report.phrases import VALUE_WIDTH, cut, list_names, pick
from wire_up_tools.report.replies import WaitingAt


@dataclass(frozen=True)
class Wait:
    """A call that waits for ever: why, in words, and the ranks for which it waits."""

    call: Call
    reason: str
    ranks: Sequence[str] = ()


@dataclass(frozen=True)
class Situation:
    """A plan, what waits for what in it, and at which call each rank waits for ever."""

    order: Order
    waiting_at: WaitingAt

    def is_reached(self, call: Call) -> bool:
        """Whether a rank comes to a call, as one that waits there does."""
        end = self.waiting_at[call.rank.name]
        return end is None or call.number <= end


def find_waits(order: Order, waiting_at: WaitingAt) -> list[Wait]:
    """The calls that wait for ever, in rank order."""
    plan, situation = order.plan, Situation(order, waiting_at)
    ends = ((rank.name, waiting_at[rank.name]) for rank in plan.ranks)
    calls = [plan.find_call(name, end) for name, end in ends if end is not None]
    explain = {"fence": explain_fence, "get": explain_get}
    return [explain.get(call.verb, explain_lookup)(situation, call) for call in calls]


def explain_fence(situation: Situation, call: Call) -> Wait:
    """Why a fence waits for ever."""
    plan = situation.order.plan
    meeting = plan.meeting_of[call]
    came = {each_call.rank.name for each_call in meeting.calls if situation.is_reached(each_call)}
    calling = {each_call.rank.name for each_call in meeting.calls}
    missing = [
        rank.name for rank in plan.ranks if rank.name in meeting.members and rank.name not in came
    ]
    absent = [name for name in missing if name not in calling]
    late = [name for name in missing if name in calling]
    said = []
    if absent:
        verb = pick(len(absent), "never calls", "never call")
        said.append(f"{list_names(absent)} {verb} this fence")
    if late:
        verb = pick(len(late), "waits", "wait")
        said.append(f"{list_names(late)} {verb} for ever before this fence")
    return Wait(call, " and ".join(said), late)


def explain_get(situation: Situation, call: Call) -> Wait:
    """Why a get waits for ever."""
    owner, key, uses = call.target, cut(call.about, VALUE_WIDTH), situation.order.uses
    if owner == call.rank.name:
        return Wait(call, f"the rank itself hasn't put {key} before")
    puts = uses.puts.get((owner, call.about), ())
    if not puts:
        return Wait(call, f"{owner} never puts {key}")
    commit = next(filter(None, map(uses.find_commit, puts)), None)
    if not commit:
        return Wait(call, f"{owner} puts {key} and never commits it")
    said = f"{owner} commits {key} by its call {commit.number}, and waits for ever before it"
    return Wait(call, said, [owner])


def explain_lookup(situation: Situation, call: Call) -> Wait:
    """Why a lookup waits for ever."""
    name, publishes = cut(call.about, VALUE_WIDTH), situation.order.uses.publishes
    calls = publishes.get(call.about, ())
    if not calls:
        return Wait(call, f"nobody publishes {name}")
    late = [each_call.rank.name for each_call in calls if not situation.is_reached(each_call)]
    if len(late) < len(calls):
        return Wait(call, f"{name} is published and taken away again", late)
    verb = pick(len(late), "waits", "wait")
    said = f"{list_names(late)} would publish {name} later, and {verb} for ever before that"
    return Wait(call, said, late)


def find_circle(waits: Sequence[Wait]) -> Sequence[str]:
    """Ranks that wait for each other in a circle; none where there is no circle."""
    ranks_of = {wait.call.rank.name: wait.ranks for wait in waits}
    known: set[str] = set()
    for start in ranks_of:
        way, end = follow_waits(start, ranks_of, known)
        if end in way:
            return list(itertools.dropwhile(lambda rank: rank != end, way))
        known.update(way)
    return []


def follow_waits(
    start: str, ranks_of: Mapping[str, Sequence[str]], known: set[str]
) -> tuple[list[str], str | None]:
    """The ranks from one to the next for which it waits, and the rank after the last, if any."""
    way: list[str] = []
    at: str | None = start
    while at is not None and at not in known and at not in way:
        way.append(at)
        at = next((rank for rank in ranks_of[at] if rank in ranks_of), None)
    return way, at
