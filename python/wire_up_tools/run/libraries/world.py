"""What ranks and servers know while the steps of a plan are taken by the rules of a library."""
import collections
from collections.abc import Mapping
from dataclasses import dataclass, field

from wire_up_tools.plan import Call, Plan, Rank
from wire_up_tools.plan_reading import find_sets
from wire_up_tools.run.libraries.rules import Rule
from wire_up_tools.run.libraries.traits import Traits

# Keys with their values.
Values = dict[str, str]


@dataclass(frozen=True)
class Held:
    """A put: its scope, its key and its value."""

    scope: str
    key: str
    value: str


@dataclass(frozen=True)
class Published:
    """A value under a name, and who published it."""

    owner: Rank
    value: str


@dataclass(frozen=True)
class Arrival:
    """A rank at a fence: whether it collects, and what it had committed for other nodes."""

    collects: bool
    values: Mapping[str, str]


@dataclass(eq=False)
class Owner:
    """What a rank has put and committed. `held` waits for the next commit; `here` is for its own
    node and `elsewhere` for others, and `committed` has the scope of the last commit of a key. A
    commit may have no key: `commits` counts them all."""

    put: dict[str, Held] = field(default_factory=dict)
    held: list[Held] = field(default_factory=list)
    here: Values = field(default_factory=dict)
    elsewhere: Values = field(default_factory=dict)
    committed: dict[str, Held] = field(default_factory=dict)
    commits: int = 0

    def commit(self) -> None:
        """Hands all that is held to the server."""
        self.commits += 1
        for held in self.held:
            self.committed[held.key] = held
            if held.scope != "remote":
                self.here[held.key] = held.value
            if held.scope != "local":
                self.elsewhere[held.key] = held.value
        self.held.clear()


@dataclass(eq=False)
class Request:
    """What a node asks of a rank elsewhere: the key of the get that came first."""

    key: str
    is_answered: bool = False


@dataclass(eq=False)
class World:
    """All that is known. `on_node` is what a node has of a rank elsewhere, `by_fences` what fences
    brought where that is kept apart, and `in_caller` what a rank has been given of another.
    `asked` is the key for which a rank waits, of a rank that had made so many commits before.
    `requests` are the last ones of a node of a rank, and `joined` that for which a rank waits; none
    is answered while it `holds_answers`. If it `spares_others`, a fence doesn't fail on a node
    whose callers don't differ, where those of another do."""

    plan: Plan
    traits: Traits
    rules: frozenset[Rule]
    owners: dict[str, Owner] = field(init=False)
    on_node: dict[tuple[str, str], Values] = field(init=False)
    by_fences: dict[tuple[str, str], Values] = field(init=False)
    in_caller: dict[tuple[str, str], Values] = field(init=False)
    asked: dict[str, tuple[str, str, int]] = field(default_factory=dict)
    requests: dict[tuple[str, str], Request] = field(default_factory=dict)
    joined: dict[str, Request] = field(default_factory=dict)
    holds_answers: bool = False
    spares_others: bool = False
    names: dict[str, list[Published]] = field(init=False)
    sets: Mapping[tuple[str, str], frozenset[str]] = field(init=False)
    ranks: Mapping[str, Rank] = field(init=False)

    def __post_init__(self) -> None:
        self.owners = {rank.name: Owner() for rank in self.plan.ranks}
        self.on_node = collections.defaultdict(dict)
        self.by_fences = collections.defaultdict(dict)
        self.in_caller = collections.defaultdict(dict)
        self.names = collections.defaultdict(list)
        fences = [call for call in self.plan.list_single() if call.verb == "fence"]
        self.sets = find_sets(self.plan.declared, fences)
        self.ranks = {rank.name: rank for rank in self.plan.ranks}

    def has(self, rule: Rule) -> bool:
        """Whether the library has a rule."""
        return rule in self.rules

    def members(self, call: Call) -> frozenset[str]:
        """The ranks of the set of a fence."""
        return self.sets[call.rank.job, call.target]


@dataclass(frozen=True)
class Question:
    """A get: who asks, of whom, for which key, and whether it waits."""

    world: World
    caller: Rank
    owner: Rank
    key: str
    waits: bool

    @property
    def is_own(self) -> bool:
        """Whether a rank asks for a key of its own."""
        return self.caller is self.owner

    @property
    def is_near(self) -> bool:
        """Whether both are on one node."""
        return self.caller.node == self.owner.node

    @property
    def is_of_job(self) -> bool:
        """Whether both are of one job."""
        return self.caller.job == self.owner.job

    @property
    def knows_job(self) -> bool:
        """Whether a rank of the owner's job is on the caller's node."""
        there = [rank.job for rank in self.world.plan.ranks if rank.node == self.caller.node]
        return self.owner.job in there

    @property
    def put(self) -> Owner:
        """What the owner has put and committed."""
        return self.world.owners[self.owner.name]

    def join(self) -> Request:
        """The request of the caller's node of the owner: one that isn't answered yet, or a new
        one."""
        at, world, waiter = (self.caller.node, self.owner.name), self.world, self.caller.name
        if waiter not in world.joined:
            if at not in world.requests or world.requests[at].is_answered:
                world.requests[at] = Request(self.key)
            world.joined[waiter] = world.requests[at]
        return world.joined[waiter]

    def has(self, rule: Rule) -> bool:
        """Whether the library has a rule."""
        return self.world.has(rule)

    @property
    def traits(self) -> Traits:
        """How the library answers."""
        return self.world.traits

    @property
    def on_node(self) -> Values:
        """What the caller's node has of the owner."""
        return self.world.on_node[self.caller.node, self.owner.name]

    @property
    def in_caller(self) -> Values:
        """What the caller was given of the owner."""
        return self.world.in_caller[self.caller.name, self.owner.name]

    @property
    def by_fences(self) -> Values:
        """What fences brought of the owner to the caller's node, where that is kept apart."""
        return self.world.by_fences[self.caller.node, self.owner.name]


# A reply as a report writes it; None: the call waits.
Reply = str | None
SUCCESS = "PMIX_SUCCESS"


def succeed(value: str) -> str:
    """The reply of a call that found a value."""
    return f"{SUCCESS} {value}"
