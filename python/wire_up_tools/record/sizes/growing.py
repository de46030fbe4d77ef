"""What it takes MPI to let ranks know of each other. What is known of any number of ranks must rest
on something that grows with it."""
from collections.abc import Mapping, Sequence, Set
from dataclasses import dataclass

from wire_up_tools.record.draft import Step
from wire_up_tools.record.sizes.plans import Call, SizedPlan
from wire_up_tools.record.sizes.walking import Source, Walk

# The first and the last number of the program's calls that a rank has made in a part of a run.
Part = tuple[int, int]


@dataclass
class Tally:
    """How many messages each rank got, how many of its own were waited for, and the longest chain
    of them behind each rank and behind each call."""

    got: dict[str, int]
    gave: dict[str, int]
    depth: dict[str, int]
    reached: dict[Call, int]

    def add(self, rank: str, sources: Sequence[Source], is_fence: bool) -> None:
        """Adds that a rank waited for calls: a message may be its own, a fence is met by others."""
        depths = [self.reached.get(source.call, 0) + 1 for source in sources]
        self.depth[rank] = max([self.depth[rank], *depths])
        for source in sources:
            if source.rank != rank or not is_fence:
                self.got[rank] += 1
                self.gave[source.rank] += 1

    @property
    def total(self) -> int:
        """The most that a rank got, the most that were waited for, and the longest chain."""
        return sum(max(counts.values()) for counts in (self.got, self.gave, self.depth))


def measure(plan: SizedPlan, parts: Mapping[str, Part], known: Set[str]) -> int:
    """How much MPI does in a part of each rank to tell of where the parts of the ranks that are
    `known` begin: the most messages that a rank gets, the most of one rank that are waited for, and
    the longest chain."""
    made = dict.fromkeys(plan.ranks, 0)
    tally = Tally(dict(made), dict(made), dict(made), {})
    told, telling = set[str](), set[Call]()
    for step, rank, call, sources in Walk(plan, True).take():
        first, last = parts[rank]
        heard = [source for source in sources if source.call in telling]
        if heard or rank in known and made[rank] >= first:
            told.add(rank)
        if step is Step.REACHED or call.verb in ("publish", "commit"):
            tally.reached[call] = tally.depth[rank]
            telling.update({call} if rank in told else ())
        if step is Step.REACHED:
            continue
        if call.is_order and first <= made[rank] <= last:
            tally.add(rank, heard, call.verb == "fence")
        elif call.verb == "fence":
            depths = [tally.reached[source.call] for source in heard]
            tally.depth[rank] = max([tally.depth[rank], *depths])
        made[rank] += not call.is_order
    return tally.total
