"""A small checker of plans, written from the definitions in crates/wire_runs/specs: which events
are live and which come before which, what is found on a placement, where a run ends, and what its
get-nows answer.

What doesn't depend on the nodes is made once for all placements of a plan. Calls and events are
those of pattern_calls.py.
"""
from bisect import bisect
from collections import defaultdict
from collections.abc import Iterator, Sequence
from typing import NamedTuple

from tests.models.pattern_calls import Call, Script, Sync, is_reserved


LOCAL, REMOTE = b"local", b"remote"
SUCCESS, NOT_FOUND, OUTSIDE = (
    b"PMIX_SUCCESS",
    b"PMIX_ERR_NOT_FOUND",
    b"PMIX_ERR_EXISTS_OUTSIDE_SCOPE",
)
# The reserved keys of which each rank has a value.
MAPPED = (
    b"PMIX_RANK",
    b"PMIX_JOB_SIZE",
    b"PMIX_LOCAL_RANK",
    b"PMIX_NODE_RANK",
    b"PMIX_HOSTNAME",
)

# An event; the number of events of each rank that are before something; the arrivals at a fence.
Event = tuple[int, int]
Clock = list[int]
Arrivals = list[Event]
Fence = tuple[frozenset[int], int]


class Finding(NamedTuple):
    """Two calls, each by its rank and its number from 0, the lower one first, and what on."""

    lower: tuple[int, int]
    higher: tuple[int, int]
    about: bytes


class Delivery(NamedTuple):
    """A way by which a key comes to other nodes: those of these ranks, with these events, in rank
    order."""

    reached: frozenset[int]
    events: Arrivals


class Get(NamedTuple):
    """A live get-now of a key that another rank puts once and then commits: the get-now, the owner
    and the key with its scope, the commit, and the deliveries to other nodes."""

    event: Event
    owner: int
    key: bytes
    scope: bytes
    commit: Event
    deliveries: list[Delivery]


class Plan:
    """The scripts of a plan, which of their events are live, and the order of those."""

    def __init__(self, keeps: bool, scripts: Sequence[Script]) -> None:
        self.keeps, self.scripts, self.ranks = keeps, scripts, range(len(scripts))
        # How many events of each rank are live: the first ones, as each waits for the one before.
        self.live = [0 for _ in scripts]
        # The live events of each rank that waited for other ranks, and what is before each.
        self.marks: list[list[int]] = [[] for _ in scripts]
        self.clocks: list[list[Clock]] = [[] for _ in scripts]
        # The arrivals at each fence that was asked about, and what is before its end.
        self.known: dict[Fence, Arrivals | None] = {}
        self.met: dict[Fence, Clock] = {}
        self.find_live()

    # Which events are live, and their order.

    def find_live(self) -> None:
        """Takes the events of each rank as far as their sources are live, until none is left."""
        done = [0 for _ in self.ranks]
        moved = True
        while moved:
            moved = False
            for rank in self.ranks:
                syncs, so_far = self.scripts[rank].syncs, self.live[rank]
                while done[rank] < len(syncs) and self.takes(rank, syncs[done[rank]]):
                    done[rank] += 1
                rest = syncs[done[rank]:]
                self.live[rank] = rest[0].at if rest else self.scripts[rank].count
                moved = moved or self.live[rank] > so_far

    def takes(self, rank: int, sync: Sync) -> bool:
        """Takes an event that may wait, unless it waits: all before it in its rank are live."""
        self.live[rank] = sync.at
        elsewhere = self.before_elsewhere(rank, sync)
        if elsewhere is None:
            return False
        if elsewhere:
            here = self.clocks[rank][-1] if self.clocks[rank] else [0 for _ in self.ranks]
            self.marks[rank].append(sync.at)
            self.clocks[rank].append([max(pair) for pair in zip(here, elsewhere)])
        return True

    def before_elsewhere(self, rank: int, sync: Sync) -> Clock | None:
        """What is before an event by its sources in other ranks, which may be nothing; None while
        one of them isn't live, and if the scripts rule the event out."""
        call = sync.call
        if call.verb == b"fence":
            return self.before_leave((call.members, sync.turn))
        if call.verb == b"lookup-wait":
            publish = self.only_publish(call.key)
            return [] if publish is None else self.through(publish)
        owner = self.scripts[call.owner]
        puts = owner.puts.get(call.key, [])
        if owner.rank == rank:
            return [] if puts and puts[0] < sync.at else None
        commit = owner.commit.get(call.key)
        if commit is not None:
            return self.through((owner.rank, commit))
        return [] if len(puts) > 1 else None

    def before_leave(self, fence: Fence) -> Clock | None:
        """What is before the end of a fence, once all arrivals at it are live."""
        if fence not in self.met:
            arrivals = self.arrivals(fence)
            if arrivals is None or not all(self.is_live(arrival) for arrival in arrivals):
                return None
            self.met[fence] = [
                max(pair) for pair in zip(*(self.upto(arrival) for arrival in arrivals))
            ]
        return self.met[fence]

    def arrivals(self, fence: Fence) -> Arrivals | None:
        """The arrivals at a fence, in rank order, or None if a member doesn't call it."""
        if fence not in self.known:
            members, turn = fence
            calls = [
                (member, self.scripts[member].arrivals.get(members, []))
                for member in sorted(members)
            ]
            is_full = all(turn < len(its) for _, its in calls)
            self.known[fence] = (
                [(number, its[turn][0]) for number, its in calls] if is_full else None
            )
        return self.known[fence]

    def only_publish(self, name: bytes) -> Event | None:
        """The publish of a name that is published once and that no call takes away, or None."""
        if any(name in script.takes for script in self.scripts):
            return None
        events = [
            (script.rank, at) for script in self.scripts for at in script.published.get(name, [])
        ]
        return events[0] if len(events) == 1 else None

    def is_live(self, event: Event) -> bool:
        return event[1] < self.live[event[0]]

    def through(self, event: Event) -> Clock | None:
        """What is before an event, and the event itself; None while it isn't live."""
        return self.upto(event) if self.is_live(event) else None

    def upto(self, event: Event) -> Clock:
        """What is before a live event, and the event itself."""
        rank, at = event
        mark = bisect(self.marks[rank], at)
        clock = self.clocks[rank][mark - 1][:] if mark else [0 for _ in self.ranks]
        clock[rank] = at + 1
        return clock

    def is_before(self, one: Event, other: Event) -> bool:
        """Whether one event is before another, both of them live."""
        rank, at = other
        if one[0] == rank:
            return one[1] < at
        mark = bisect(self.marks[rank], at)
        return bool(mark) and one[1] < self.clocks[rank][mark - 1][one[0]]

    def is_unordered(self, one: Event, other: Event) -> bool:
        """Whether both are live, and neither is before the other."""
        if not self.is_live(one) or not self.is_live(other):
            return False
        return not self.is_before(one, other) and not self.is_before(other, one)

    # What is found on every placement.

    def place(self, event: Event) -> tuple[int, int]:
        """The rank of an event, and the number of its call."""
        return event[0], self.scripts[event[0]].call_at[event[1]]

    def verb(self, event: Event) -> bytes:
        return self.scripts[event[0]].call(event[1]).verb

    def rewrites(self) -> list[Finding]:
        """The rewrites, by their later puts."""
        found = []
        for script in (each_script for each_script in self.scripts if each_script.has_rewrites):
            for key, its in script.puts.items():
                first, *later = (self.place((script.rank, number)) for number in its)
                found += [Finding(first, pair, key) for pair in later]
        return sorted(found, key=lambda finding: finding.higher)

    def race(self, one: Event, other: Event, about: bytes) -> Finding:
        lower, higher = sorted((self.place(one), self.place(other)))
        return Finding(lower, higher, about)

    def name_races(self) -> set[Finding]:
        """The races on names."""
        calls: dict[bytes, list[Event]] = defaultdict(list)
        for script in self.scripts:
            for name, its in script.on_name.items():
                calls[name] += [(script.rank, number) for number in its]
        return {
            self.race(one, other, b"name " + name)
            for name, its in calls.items()
            for one in its
            if self.verb(one) in (b"publish", b"unpublish")
            for other in its
            if one[0] != other[0] and self.is_unordered(one, other)
        }

    # What depends on the placement: the get-nows of other ranks' keys.

    def gets(self) -> Iterator[Get]:
        """The live get-nows of keys that another rank puts once and then commits."""
        for script in self.scripts:
            for at in script.reads:
                call = script.call(at)
                owner = self.scripts[call.owner]
                commit = owner.commit.get(call.key)
                if commit is not None and self.is_live((script.rank, at)):
                    scope = owner.call(owner.puts[call.key][0]).scope
                    ways = [*self.deliveries(owner, call.key, commit)] if scope != LOCAL else []
                    event, stores = (script.rank, at), (owner.rank, commit)
                    yield Get(event, owner.rank, call.key, scope, stores, ways)

    def deliveries(self, owner: Script, key: bytes, commit: int) -> Iterator[Delivery]:
        """The deliveries of a key that isn't local to its owner's node."""
        for members, its in owner.arrivals.items():
            for turn, (at, _) in enumerate(its):
                events = self.collecting((members, turn)) if at > commit else None
                if events:
                    yield Delivery(members, events)
        for script in self.scripts if self.keeps else ():
            for sync in script.syncs:
                asked = (sync.call.verb, sync.call.owner, sync.call.key)
                if asked == (b"get", owner.rank, key) and self.is_live((script.rank, sync.at)):
                    yield Delivery(frozenset([script.rank]), [(script.rank, sync.at)])

    def collecting(self, fence: Fence) -> Arrivals | None:
        """The arrivals at a fence, if all are live and say collect."""
        members, turn = fence
        events = self.arrivals(fence) or []
        is_well = all(
            self.is_live(event) and self.scripts[event[0]].arrivals[members][turn][1]
            for event in events
        )
        return events if is_well else None


class Verdict:
    """A plan with what decides what is found on each placement. A placement is the node of each
    rank, as a number."""

    def __init__(self, plan: Plan) -> None:
        self.plan, self.rewrites, self.names = plan, plan.rewrites(), plan.name_races()
        self.gets = {get.event: get for get in plan.gets()}
        self.racing = [get for get in self.gets.values() if self.may_race(get)]

    def may_race(self, get: Get) -> bool:
        """Whether a get-now may race on some placement."""
        return bool(get.deliveries) or self.plan.is_unordered(get.commit, get.event)

    def is_clean_everywhere(self) -> bool:
        """Whether it is clear without a placement that nothing is found."""
        return not self.rewrites and not self.names and not self.racing

    def findings(self, nodes: Sequence[int]) -> list[Finding]:
        """The findings on a placement: the rewrites, and then the races."""
        found = set(self.names)
        for get in self.racing:
            about = b"key %d %s" % (get.owner, get.key)
            found |= {
                self.plan.race(source, get.event, about) for source in self.sources(get, nodes)
            }
        return self.rewrites + sorted(found)

    def sources(self, get: Get, nodes: Sequence[int]) -> Iterator[Event]:
        """The events with which a get-now races."""
        if nodes[get.owner] == nodes[get.event[0]]:
            if self.plan.is_unordered(get.commit, get.event):
                yield get.commit
            return
        reaching = self.reaching(get, nodes)
        late = [
            [pair for pair in its if not self.plan.is_before(pair, get.event)] for its in reaching
        ]
        if all(late):
            for lacking, its in zip(late, reaching):
                if not any(self.plan.is_before(get.event, pair) for pair in its):
                    yield lacking[0]

    def reaching(self, get: Get, nodes: Sequence[int]) -> list[Arrivals]:
        """The events of each delivery to the node of a get-now."""
        node = nodes[get.event[0]]
        return [
            delivery.events
            for delivery in get.deliveries
            if any(nodes[rank] == node for rank in delivery.reached)
        ]

    # What a get-now that is answered replies, where nothing is found.

    def status(self, event: Event, call: Call, nodes: Sequence[int]) -> bytes:
        """The status that a get-now replies."""
        if is_reserved(call.key):
            return SUCCESS if call.key in MAPPED else NOT_FOUND
        if call.owner == event[0]:
            puts = self.plan.scripts[call.owner].puts.get(call.key, [])
            return SUCCESS if puts and puts[0] < event[1] else NOT_FOUND
        get = self.gets.get(event)
        if get is None:
            return NOT_FOUND
        if nodes[get.owner] == nodes[event[0]]:
            return self.near_status(get)
        is_sure = any(
            all(self.plan.is_before(pair, event) for pair in its)
            for its in self.reaching(get, nodes)
        )
        return SUCCESS if is_sure else NOT_FOUND

    def near_status(self, get: Get) -> bytes:
        """The status of a get-now on the owner's node."""
        if not self.plan.is_before(get.commit, get.event):
            return NOT_FOUND
        return OUTSIDE if get.scope == REMOTE else SUCCESS


class Run:
    """A run of a plan to its end, in which the lowest rank that can go on does. How far each rank
    comes doesn't depend on the nodes."""

    def __init__(self, plan: Plan) -> None:
        self.plan = plan
        # How many calls of each rank are answered.
        self.at = [0 for _ in plan.ranks]
        self.arrived: set[Event] = set()
        self.put: list[set[bytes]] = [set() for _ in plan.ranks]
        self.committed: list[set[bytes]] = [set() for _ in plan.ranks]
        self.publisher: dict[bytes, int] = {}
        rank = self.next_rank()
        while rank is not None:
            self.step(rank)
            rank = self.next_rank()

    def next_rank(self) -> int | None:
        return next((rank for rank in self.plan.ranks if self.is_ready(rank)), None)

    def stands_at(self, rank: int) -> Call | None:
        """The call that a rank hasn't been answered, if there is one."""
        calls = self.plan.scripts[rank].calls
        return calls[self.at[rank]] if self.at[rank] < len(calls) else None

    def event(self, rank: int) -> Event:
        return rank, self.plan.scripts[rank].firsts[self.at[rank]]

    def is_ready(self, rank: int) -> bool:
        """Whether a rank can take a step."""
        call = self.stands_at(rank)
        if call is None:
            return False
        if call.verb == b"fence" and self.event(rank) in self.arrived:
            its = self.plan.scripts[rank].arrivals[call.members]
            turn = [at for at, _ in its].index(self.event(rank)[1])
            events = self.plan.arrivals((call.members, turn))
            return events is not None and all(event in self.arrived for event in events)
        if is_reserved(call.key):
            return True
        if call.verb == b"lookup-wait":
            return call.key in self.publisher
        if call.verb == b"get":
            seen = self.put if call.owner == rank else self.committed
            return call.key in seen[call.owner]
        return True

    def step(self, rank: int) -> None:
        """Takes the next step of a rank that is ready."""
        call = self.stands_at(rank)
        if call is None:
            raise ValueError(f"rank {rank} has no step left")
        if call.verb == b"fence" and self.event(rank) not in self.arrived:
            self.arrived.add(self.event(rank))
            return
        self.at[rank] += 1
        if call.verb == b"commit":
            self.committed[rank] |= self.put[rank]
        elif not is_reserved(call.key):
            self.write(rank, call)

    def write(self, rank: int, call: Call) -> None:
        """Does what a call on a key or a name changes."""
        if call.verb == b"put":
            self.put[rank].add(call.key)
        elif call.verb == b"publish":
            self.publisher.setdefault(call.key, rank)
        elif call.verb == b"unpublish":
            for name in [*self.publisher] if call.key == b"*" else [call.key]:
                if self.publisher.get(name) == rank:
                    del self.publisher[name]


def answered(plan: Plan) -> list[int]:
    """How many calls of each rank are answered in the end, where nothing is found. Every live event
    comes, unless a rank waits for a name that isn't published once for good."""
    waiting = (
        sync.call.key
        for script in plan.scripts
        for sync in script.syncs
        if sync.call.verb == b"lookup-wait"
    )
    if any(plan.only_publish(name) is None for name in waiting):
        return Run(plan).at
    return [
        script.call_at[live] if live < script.count else len(script.calls)
        for script, live in zip(plan.scripts, plan.live)
    ]
