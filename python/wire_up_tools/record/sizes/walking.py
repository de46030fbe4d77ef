"""One run of a plan: each call once the calls are there that it waits for."""
from collections import Counter
from collections.abc import Iterator, Sequence
from typing import NamedTuple

from wire_up_tools.record.draft import Step
from wire_up_tools.record.sizes.plans import Call, SizedPlan

# A fence: its members, and the how many-th it is of them.
Fence = tuple[tuple[str, ...], int]


class Source(NamedTuple):
    """A call that another one waits for, and its rank."""

    rank: str
    call: Call


class Event(NamedTuple):
    """A call is reached, which is told of fences alone, or passed: then with all whom it waited
    for."""

    step: Step
    rank: str
    call: Call
    sources: Sequence[Source] = ()


class Walk:
    """A run of a plan, with the order of MPI or without it."""

    def __init__(self, plan: SizedPlan, with_order: bool) -> None:
        self.plan = plan
        self.calls = {
            rank: list(calls) if with_order else plan.list_program(rank)
            for rank, calls in plan.calls.items()
        }
        self.keys = {
            (rank, call.words[2]) for rank in plan.ranks for call in plan.calls[rank]
            if call.verb == "put"
        }
        self.publishers = Counter(
            call.words[1] for them in plan.calls.values() for call in them if call.verb == "publish"
        )
        self.open: dict[str, list[str]] = {rank: [] for rank in plan.ranks}
        self.committed: dict[tuple[str, str], Source] = {}
        self.published: dict[str, Source] = {}
        self.counts: Counter[tuple[str, tuple[str, ...]]] = Counter()
        self.arrived: dict[Fence, list[Source]] = {}
        self.standing: dict[str, Fence] = {}

    def take(self) -> Iterator[Event]:
        """The events of the run, as far as it goes."""
        at, has_moved = dict.fromkeys(self.calls, 0), True
        while has_moved:
            has_moved = False
            for rank, calls in self.calls.items():
                for call in calls[at[rank]:]:
                    if call.verb == "fence" and rank not in self.standing:
                        self.arrive(rank, call)
                        yield Event(Step.REACHED, rank, call)
                    sources = self.find_sources(rank, call)
                    if sources is None:
                        break
                    yield Event(Step.PASSED, rank, call, sources)
                    self.note(rank, call)
                    at[rank] += 1
                    has_moved = True

    def arrive(self, rank: str, call: Call) -> None:
        """Lets a rank arrive at a fence."""
        members = tuple(self.plan.find_members(call.words[1]))
        self.counts[rank, members] += 1
        fence = members, self.counts[rank, members]
        self.standing[rank] = fence
        self.arrived.setdefault(fence, []).append(Source(rank, call))

    def find_sources(self, rank: str, call: Call) -> Sequence[Source] | None:
        """What a call waited for; None where it waits still. Whose publish a lookup waits for isn't
        known where there are several."""
        if call.verb == "fence":
            fence = self.standing[rank]
            them = self.arrived[fence]
            return them if len(them) == len(fence[0]) else None
        if call.verb == "get" and call.words[1] != rank:
            wanted = call.words[1], call.words[2]
            if wanted in self.committed:
                return [self.committed[wanted]]
            return None if wanted in self.keys else ()
        if call.verb == "lookup-wait":
            found = self.published.get(call.words[1])
            if found is None:
                return None
            return [found] if self.publishers[call.words[1]] == 1 else ()
        return ()

    def note(self, rank: str, call: Call) -> None:
        """Notes what a call that is passed has done."""
        if call.verb == "fence":
            del self.standing[rank]
        elif call.verb == "put":
            self.open[rank].append(call.words[2])
        elif call.verb == "commit":
            for key in self.open[rank]:
                self.committed.setdefault((rank, key), Source(rank, call))
            self.open[rank] = []
        elif call.verb == "publish":
            self.published.setdefault(call.words[1], Source(rank, call))
