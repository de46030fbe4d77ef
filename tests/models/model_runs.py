"""Runs of the model of plans (model.py), written from the same documents: the reports of runs, and
the four runs that may show a race, as docs/commands.md has them."""
from collections.abc import Sequence
from typing import NamedTuple

from tests.models.model import (
    BAD_PARAM,
    DUPLICATE,
    NAME_VERBS,
    NOT_FOUND,
    OUTSIDE,
    STAR,
    SUCCESS,
    Event,
    Fence,
    Plan,
    Put,
    is_reserved,
    reaches,
)


class Shown(NamedTuple):
    """What shows a race: the first event of the call that ends differently, and the runs in which x
    and in which y comes first."""

    event: Event
    first: "Run"
    second: "Run"


def value_of(put: Put | None) -> bytes:
    """The reply to a get that sees a pair, or nothing."""
    return SUCCESS + b" " + put.value if put else NOT_FOUND


class Run:
    """A run of a plan, and the state to which it has come."""

    def __init__(self, plan: Plan) -> None:
        self.plan, self.at = plan, [0 for _ in plan.ranks]
        self.order: list[int] = []
        # When each event was taken, and the replies, by the first event of each call.
        self.taken: dict[Event, int] = {}
        self.replies: dict[Event, bytes] = {}
        # The pairs that each rank has put and those that it has committed, by key, and what it had
        # committed when it arrived at each fence.
        self.put: list[dict[bytes, Put]] = [{} for _ in plan.ranks]
        self.committed: list[dict[bytes, Put]] = [{} for _ in plan.ranks]
        self.arrived: dict[Event, dict[bytes, Put]] = {}
        # Who published what under each name, and what gets brought, by node, owner and key.
        self.names: dict[bytes, tuple[int, bytes]] = {}
        self.kept: dict[tuple[bytes, int, bytes], Put | None] = {}

    def next(self, rank: int) -> Event | None:
        """The event at which a rank stands, or None."""
        return self.plan.events[rank][self.at[rank]]

    def is_complete(self, fence: Fence) -> bool:
        """Whether all members have arrived at a fence."""
        arrivals = self.plan.arrivals[fence]
        return len(arrivals) == len(fence.members) and all(
            arrival in self.arrived for arrival in arrivals.values()
        )

    def is_ready(self, rank: int) -> bool:
        """Whether a rank can take a step."""
        event = self.next(rank)
        if not event:
            return False
        verb, *words = self.plan.words(event)
        if event.leaves:
            return self.is_complete(self.plan.fence_of[event._replace(leaves=False)])
        if verb == b"lookup-wait" and not is_reserved(words[0]):
            return words[0] in self.names
        if verb == b"get" and not is_reserved(words[1]):
            owner = self.plan.rank_of[words[0]]
            return words[1] in (self.put if owner == rank else self.committed)[owner]
        return True

    def step(self, rank: int) -> None:
        """Takes the next step of a rank, which is ready."""
        event = self.next(rank)
        if event is None:
            raise ValueError(f"rank {rank} has no step left")
        self.taken[event] = len(self.order)
        self.order.append(rank)
        self.at[rank] += 1
        if self.plan.words(event)[0] == b"fence" and not event.leaves:
            self.arrived[event] = self.committed[rank]
        else:
            self.replies[event._replace(leaves=False)] = self.reply(event, *self.plan.words(event))

    def reply(self, event: Event, verb: bytes, *words: bytes) -> bytes:
        """Does what a call does, and answers its reply."""
        if verb in (b"get", b"get-now"):
            return self.take_get(event.rank, verb, *words)
        if verb in NAME_VERBS:
            return self.take_name(event.rank, verb, *words)
        if verb == b"put":
            scope, key, value = words
            if is_reserved(key):
                return BAD_PARAM
            self.put[event.rank][key] = Put(event.call, scope, value)
        elif verb == b"commit":
            self.committed[event.rank] = dict(self.put[event.rank])
        return SUCCESS

    def take_get(self, rank: int, verb: bytes, proc: bytes, key: bytes) -> bytes:
        """A `get` that waits no longer, or a `get-now`."""
        owner, node = self.plan.rank_of[proc], self.plan.nodes[rank]
        is_near = self.plan.nodes[owner] == node
        if is_reserved(key):
            return self.mapped(owner, key)
        if owner == rank:
            return value_of(self.put[owner].get(key))
        if verb == b"get-now" and not is_near:
            return value_of(self.brought(node, owner, key))
        seen = self.committed[owner].get(key)
        if seen and not reaches(seen.scope, is_near):
            return OUTSIDE
        if verb == b"get" and self.plan.keeps:
            self.kept[node, owner, key] = seen
        return value_of(seen)

    def brought(self, node: bytes, owner: int, key: bytes) -> Put | None:
        """The pair of a rank that fences and gets brought to another node: of two, the one that was
        put later."""
        by_fence, by_get = None, self.kept.get((node, owner, key))
        for event in sorted(each_event for each_event in self.arrived if each_event.rank == owner):
            fence = self.plan.fence_of[event]
            if self.is_complete(fence) and self.plan.collects_to(fence, node):
                by_fence = self.arrived[event].get(key)
        return max(
            (put for put in (by_fence, by_get) if put and reaches(put.scope, False)), default=None
        )

    def mapped(self, rank: int, key: bytes) -> bytes:
        """The reply about a reserved key of a rank."""
        proc, procs = self.plan.procs[rank], self.plan.procs
        there = {
            b"PMIX_RANK": b"%d" % proc.rank,
            b"PMIX_JOB_SIZE": b"%d" % sum(each_proc.job == proc.job for each_proc in procs),
            b"PMIX_LOCAL_RANK": b"%d"
            % sum(
                (each_proc.job, each_proc.node) == (proc.job, proc.node)
                for each_proc in procs[:rank]
            ),
            b"PMIX_NODE_RANK": b"%d"
            % sum(each_proc.node == proc.node for each_proc in procs[:rank]),
            b"PMIX_HOSTNAME": proc.node,
        }
        return SUCCESS + b" " + there[key] if key in there else NOT_FOUND

    def take_name(self, rank: int, verb: bytes, name: bytes, value: bytes = b"") -> bytes:
        """A call on a name, or on all of them."""
        if [verb, name] == STAR:
            self.names = {
                name: each_name for name, each_name in self.names.items() if each_name[0] != rank
            }
            return SUCCESS
        if is_reserved(name):
            return BAD_PARAM
        publisher, published = self.names.get(name, (None, b""))
        if verb == b"publish":
            self.names.setdefault(name, (rank, value))
            return SUCCESS if publisher is None else DUPLICATE
        if verb == b"unpublish" and publisher == rank:
            del self.names[name]
            return SUCCESS
        if publisher is None or verb == b"unpublish":
            return NOT_FOUND
        return SUCCESS + b" " + published

    def go(self, held: Event | None = None, towards: Event | None = None) -> "Run":
        """Goes on until nobody can: the lowest rank that can take a step does. The rank of an event
        that is held back takes it only if no other can go on. If it goes towards an event, only
        what is before that one is taken."""
        while True:
            able = (each_rank for each_rank in self.plan.ranks if self.can_go(each_rank, towards))
            rank = next(able, None)
            if rank is None:
                return self
            self.step(next(able, rank) if self.next(rank) == held else rank)

    def can_go(self, rank: int, towards: Event | None) -> bool:
        """Whether a rank can take a step, and one that is before an event if that is given."""
        event = self.next(rank)
        if event is None or not self.is_ready(rank):
            return False
        return not towards or self.plan.is_before(event, towards)

    def end(self, event: Event) -> bytes:
        """What became of a call, given by its first event."""
        here = self.next(event.rank)
        if not here or here.call != event.call:
            return self.replies.get(event, b"unreached")
        return b"ready" if self.is_ready(event.rank) else b"waiting"

    def report(self) -> bytes:
        """The report."""
        lines = [
            b"%s %s %s\n" % (self.plan.call_text(event), self.plan.words(event)[0], self.end(event))
            for event in self.plan.firsts
        ]
        waiting = sum(bool(self.next(rank)) and not self.is_ready(rank) for rank in self.plan.ranks)
        return b"".join(lines) + b"waiting %d\n" % waiting


def followed(plan: Plan, steps: Sequence[bytes]) -> tuple[Run, int | None]:
    """The run of an order, each step a PROC, and None; or the run before the first step that can't
    be taken, and that step's number."""
    run = Run(plan)
    for number, word in enumerate(steps, 1):
        if not run.is_ready(plan.rank_of[word]):
            return run, number
        run.step(plan.rank_of[word])
    return run, None


# The four runs that may show a race.


def needed(plan: Plan, x: Event, y: Event) -> Run | None:
    """The run with only what is needed for x, then x, only what is needed for y, then y, and then
    everything. None if one can't come."""
    run = Run(plan)
    for event in (x, y):
        run.go(towards=event)
        if run.next(event.rank) != event or not run.is_ready(event.rank):
            return None
        run.step(event.rank)
    return run.go()


def is_first(run: Run, x: Event, y: Event) -> bool:
    """Whether x comes in a run, and y doesn't come before it."""
    return x in run.taken and run.taken[x] < run.taken.get(y, len(run.order))


def witness(plan: Plan, x: Event, y: Event) -> Shown | None:
    """What shows a race of two calls, each given by its first event, or None if the four runs
    don't. In which order the runs are laid side by side, and that x is looked at before y, is how
    the program has it; the documents leave it open."""
    firsts = [Run(plan).go(held=y), needed(plan, x, y)]
    seconds = [Run(plan).go(held=x), needed(plan, y, x)]
    for one, other in ((0, 0), (1, 1), (0, 1), (1, 0)):
        first, second = firsts[one], seconds[other]
        if first and second and is_first(first, x, y) and is_first(second, y, x):
            for event in (x, y):
                if first.end(event) != second.end(event):
                    return Shown(event, first, second)
    return None


def witness_text(plan: Plan, shown: Shown) -> bytes:
    """What `witness P N Q M` writes of what shows a race."""
    ends = [b"shown %s %s" % (plan.call_text(shown.event), plan.words(shown.event)[0])]
    ends += [b"first " + shown.first.end(shown.event), b"second " + shown.second.end(shown.event)]
    orders = [
        [b"order %d" % len(run.order), *(plan.spelt[number] for number in run.order)]
        for run in shown[1:]
    ]
    return b"".join(end + b"\n" for end in [*ends, *orders[0], *orders[1]])
