"""Lets the ranks take their steps in an order, as far as the library lets them."""
import collections
import enum
import time
from collections.abc import Mapping, Sequence
from dataclasses import dataclass, field

from wire_up_tools.plan import Plan
from wire_up_tools.run.ranks import LiveRank

# How long a fence may take to arrive: the library says when it is left, and not when it arrived.
ARRIVAL_SECONDS = 0.05


class Kind(enum.Enum):
    """What a step is."""

    CALL = "call"
    ARRIVE = "arrive"
    LEAVE = "leave"


@dataclass(frozen=True)
class Step:
    """A step of an order: its rank, what it is, and the number of its call."""

    rank: str
    kind: Kind
    number: int

    @property
    def name(self) -> str:
        """How messages name its call."""
        return f"{self.rank} {self.number}"


def read_steps(plan: Plan, order: Sequence[str]) -> list[Step]:
    """The steps of an order, which the checker took: a fence is two."""
    events = {
        rank: [
            Step(rank, kind, call.number)
            for call in calls
            for kind in ((Kind.ARRIVE, Kind.LEAVE) if call.verb == "fence" else (Kind.CALL,))
        ]
        for rank, calls in plan.calls_of.items()
    }
    count: collections.Counter[str] = collections.Counter()
    steps = []
    for rank in order:
        steps.append(events[rank][count[rank]])
        count[rank] += 1
    return steps


@dataclass(eq=False)
class Turns:
    """Which step comes next. `patience` is how long one may take, in seconds; those that took
    longer are `late`. With `is_open_ended` all ranks go on freely at the end."""

    steps: Sequence[Step]
    ranks: Mapping[str, LiveRank]
    patience: float
    is_open_ended: bool
    at: int = 0
    given: float = 0.0
    is_given: bool = False
    is_over: bool = False
    late: list[str] = field(default_factory=list)

    def go_on(self) -> None:
        """Lets the next steps be taken, as far as those before are."""
        while not self.is_over:
            if self.at == len(self.steps):
                self.finish()
            elif not self.is_taken():
                return
            else:
                self.at, self.is_given = self.at + 1, False

    def finish(self) -> None:
        """Lets all ranks go on, if they are to."""
        self.is_over = True
        if self.is_open_ended:
            for live_rank in self.ranks.values():
                live_rank.channel.send("free")

    def is_taken(self) -> bool:
        """Whether the next step is taken, or has taken too long. Gives the turn, if it isn't
        yet."""
        step, now = self.steps[self.at], time.monotonic()
        live = self.ranks[step.rank]
        if not self.is_given:
            self.is_given, self.given = True, now
            if step.kind is not Kind.LEAVE:
                live.channel.send("step")
        if len(live.replies) >= step.number:
            return True
        is_in_it = live.is_in_call and len(live.replies) == step.number - 1
        if step.kind is Kind.ARRIVE and is_in_it and now - live.began > ARRIVAL_SECONDS:
            return True
        if now - self.given > self.patience:
            self.late.append(step.name)
            return True
        return False
