"""What waits for what in a plan, by the rules of docs/plan-format.md, and how deep each call is.

A call is one event, and a fence is two: to arrive and to leave. What all that leave a fence wait
for is one event more. The depth of an event is the length of the longest chain that leads to it.

Only the *stops* of a rank are kept, which are the calls at which it waits for others: what stands
between two of them comes one after another. So a plan may have millions of calls.
"""
import bisect
import collections
from collections.abc import Iterable, Mapping, Sequence
from dataclasses import dataclass, field

from wire_up_tools.plan import Call, Entry, Meeting, Plan, Rank, last_of
from wire_up_tools.report.uses import Uses, find_uses


@dataclass(frozen=True)
class Stop:
    """A call at which a rank waits, by its number: for a call of another rank, or in a fence."""

    number: int
    awaited: Call | None
    meeting: Meeting | None


@dataclass(frozen=True)
class Reach:
    """How far a rank has come: up to a call, and whether it has left it, if that is a fence."""

    number: int
    has_left: bool

    def passes(self, other: "Reach") -> bool:
        """Whether it is further than another."""
        return (self.number, self.has_left) > (other.number, other.has_left)


START = Reach(0, has_left=True)


@dataclass(frozen=True, eq=False)
class Order:
    """What waits for what in a plan: the stops of each rank with the depths of their last events,
    and the depth of each fence by its number."""

    plan: Plan
    uses: Uses
    stops: Mapping[Rank, Sequence[Stop]]
    depths: Mapping[Rank, Sequence[int]]
    meeting_depths: Sequence[int]

    def depth_of(self, call: Call) -> int:
        """How deep a call stands; a fence by the arrival at it."""
        stops = self.stops[call.rank]
        at = bisect.bisect_left(stops, call.number, key=lambda stop: stop.number)
        if at < len(stops) and stops[at].number == call.number and not stops[at].meeting:
            return self.depths[call.rank][at]
        number, depth = (stops[at - 1].number, self.depths[call.rank][at - 1]) if at else (0, -1)
        return depth + call.number - number

    def depth_of_meeting(self, meeting: Meeting) -> int:
        """How deep a fence stands: below all arrivals at it."""
        return self.meeting_depths[meeting.number]

    def is_before(self, one: Call, other: Call) -> bool:
        """Whether a chain leads from one call to another; from and to a fence by the arrival."""
        reached = self.find_earlier(other).get(one.rank, START)
        return one is not other and reached.number >= one.number

    def find_earlier(self, call: Call) -> dict[Rank, Reach]:
        """How far each rank has surely come when a call comes."""
        return Backwards(self).find(call)

    def find_nearest(self, rank: Rank, call: Call) -> Call | None:
        """The last call of a rank from which a chain leads to a call."""
        reached = self.find_earlier(call).get(rank, START)
        number = reached.number - (call.rank is rank)
        return self.plan.find_call(rank.name, number) if number > 0 else None


class Backwards:
    """Goes back from a call to all that is before it."""

    def __init__(self, order: Order) -> None:
        self.order = order
        self.reached: dict[Rank, Reach] = {}
        # What of each rank is still to be looked at: from where, and to where.
        self.waiting: list[tuple[Rank, Reach, Reach]] = []

    def find(self, call: Call) -> dict[Rank, Reach]:
        """How far each rank has surely come when a call comes."""
        self.reach(call.rank, Reach(call.number, has_left=False))
        while self.waiting:
            self.look(*self.waiting.pop())
        return self.reached

    def reach(self, rank: Rank, reach: Reach) -> None:
        """Notes that a rank has come so far."""
        before = self.reached.get(rank, START)
        if reach.passes(before):
            self.reached[rank] = reach
            self.waiting.append((rank, before, reach))

    def look(self, rank: Rank, start: Reach, end: Reach) -> None:
        """Looks for what a rank waited on its way from one call to another."""
        stops = self.order.stops[rank]
        at = bisect.bisect_left(stops, start.number, key=lambda each_stop: each_stop.number)
        while at < len(stops) and stops[at].number <= end.number:
            stop = stops[at]
            has_left = stop.number < end.number or end.has_left
            if stop.awaited:
                self.reach(stop.awaited.rank, Reach(stop.awaited.number, has_left=True))
            elif stop.meeting and has_left:
                for call in stop.meeting.calls:
                    self.reach(call.rank, Reach(call.number, has_left=False))
            at += 1


def find_order(plan: Plan) -> Order:
    """What waits for what in a plan."""
    uses = find_uses(plan)
    stops = {rank: find_stops(plan, uses, rank) for rank in plan.ranks}
    sweep = Sweep(plan, stops)
    sweep.go()
    return Order(plan, uses, stops, sweep.depths, sweep.meeting_depths)


# --- where ranks wait ---


def find_stops(plan: Plan, uses: Uses, rank: Rank) -> list[Stop]:
    """The stops of a rank: what it has waited for before isn't waited for again."""
    found: list[Stop] = []
    known = Known()
    for entry in plan.list_outline(rank):
        meeting = plan.meeting_of.get(entry) if isinstance(entry, Call) else None
        if meeting:
            found.append(Stop(last_of(entry), None, meeting))
            known.meet(meeting)
            continue
        for number, awaited in list_awaited(uses, entry):
            if known.reach(awaited):
                found.append(Stop(number, awaited, None))
    return found


def list_awaited(uses: Uses, entry: Entry) -> Iterable[tuple[int, Call]]:
    """The calls of others for which the calls of an entry wait, with the numbers of these."""
    if isinstance(entry, Call):
        awaited = uses.find_awaited(entry)
        return [(entry.number, awaited)] if awaited else []
    if entry.verb != "get":
        return []
    found = (uses.find_bringer(target, entry.about) for target in entry.targets)
    return [(number, stop) for number, stop in enumerate(found, entry.first) if stop]


class Known:
    """How far a rank knows others to have come, by what it waited for."""

    def __init__(self) -> None:
        self.reached: dict[str, int] = {}
        self.meetings: list[Meeting] = []

    def meet(self, meeting: Meeting) -> None:
        """Takes a fence that the rank has left."""
        if meeting.is_whole:
            self.meetings.append(meeting)

    def find_arrival(self, name: str) -> int:
        """The number of the call at which a rank came to the last fence that both have left."""
        met = (
            meeting.numbers[name] for meeting in reversed(self.meetings) if name in meeting.numbers
        )
        return next(met, 0)

    def reach(self, call: Call) -> bool:
        """Takes a call for which the rank waits. Answers whether it didn't know of it."""
        name = call.rank.name
        if max(self.find_arrival(name), self.reached.get(name, 0)) >= call.number:
            return False
        self.reached[name] = call.number
        return True


# --- depths ---


@dataclass
class Sweep:
    """Goes through the stops of all ranks, each after what it waits for.

    `depths` are those of the stops that have come, and `waiting` says which ranks wait for a rank
    to go on.
    """

    plan: Plan
    stops: Mapping[Rank, Sequence[Stop]]
    depths: dict[Rank, list[int]] = field(init=False)
    meeting_depths: list[int] = field(init=False)
    arrived: list[int] = field(init=False)
    waiting: dict[Rank, list[Rank]] = field(init=False)
    ready: "collections.deque[Rank]" = field(init=False)
    is_there: set[tuple[Rank, int]] = field(default_factory=set)

    def __post_init__(self) -> None:
        self.depths = {rank: [] for rank in self.plan.ranks}
        self.meeting_depths = [0] * len(self.plan.meetings)
        self.arrived = [0] * len(self.plan.meetings)
        self.waiting = collections.defaultdict(list)
        self.ready = collections.deque(self.plan.ranks)

    def go(self) -> None:
        """Goes to the end. In a circle, what comes before a stop in its rank counts alone."""
        while True:
            while self.ready:
                self.serve(self.ready.popleft())
            stuck = [
                each_rank
                for each_rank in self.plan.ranks
                if len(self.depths[each_rank]) < len(self.stops[each_rank])
            ]
            if not stuck:
                return
            for rank in stuck:
                self.take_alone(rank)
            self.ready.extend(stuck)

    def serve(self, rank: Rank) -> None:
        """Passes the stops of a rank up to the first at which it must wait."""
        stops, depths = self.stops[rank], self.depths[rank]
        while len(depths) < len(stops):
            depth = self.find_depth(rank, stops[len(depths)])
            if depth is None:
                return
            self.take(rank, depth)

    def take(self, rank: Rank, depth: int) -> None:
        """Passes the next stop of a rank."""
        self.depths[rank].append(depth)
        self.ready.extend(self.waiting.pop(rank, ()))

    def take_alone(self, rank: Rank) -> None:
        """Passes the next stop of a rank without what it waits for."""
        stop = self.stops[rank][len(self.depths[rank])]
        fence = 1 + self.meeting_depths[stop.meeting.number] if stop.meeting else 0
        self.take(rank, max(self.come(rank, stop.number) + bool(stop.meeting), fence))

    def come(self, rank: Rank, number: int) -> int:
        """The depth of a call after the last stop that was passed."""
        depths = self.depths[rank]
        last = self.stops[rank][len(depths) - 1].number if depths else 0
        return (depths[-1] if depths else -1) + number - last

    def find_depth(self, rank: Rank, stop: Stop) -> int | None:
        """The depth of the last event of a stop; None if what it waits for hasn't come."""
        own = self.come(rank, stop.number)
        if stop.meeting:
            return self.find_leaving(rank, stop.meeting, own)
        awaited = stop.awaited
        assert awaited
        other, stops = awaited.rank, self.stops[awaited.rank]
        needed = bisect.bisect_left(stops, awaited.number, key=lambda each_stop: each_stop.number)
        if len(self.depths[other]) < needed:
            self.waiting[other].append(rank)
            return None
        last = stops[needed - 1].number if needed else 0
        depth = self.depths[other][needed - 1] if needed else -1
        return max(own, depth + awaited.number - last + 1)

    def find_leaving(self, rank: Rank, meeting: Meeting, own: int) -> int | None:
        """The depth of leaving a fence; None if not all have come."""
        number = meeting.number
        if (rank, number) not in self.is_there:
            self.is_there.add((rank, number))
            self.arrived[number] += 1
            self.meeting_depths[number] = max(self.meeting_depths[number], own + 1)
            if self.arrived[number] == len(meeting.calls):
                self.ready.extend(call.rank for call in meeting.calls if call.rank is not rank)
        if self.arrived[number] < len(meeting.calls):
            return None
        return self.meeting_depths[number] + 1
