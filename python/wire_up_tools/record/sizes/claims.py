"""What ranks of a role surely know of others where they come to an item of their script."""
from collections.abc import Callable, Iterator, Sequence, Set
from dataclasses import dataclass
from typing import NamedTuple

from wire_up_tools.record.patterns.finding import Loop
from wire_up_tools.record.sizes.growing import measure
from wire_up_tools.record.sizes.knowing import Known, find_known
from wire_up_tools.record.sizes.plans import RACING
from wire_up_tools.record.sizes.scripts import Instance, Skeleton


class Claim(NamedTuple):
    """All ranks of a role know, before an item of their script, that all others of a role have come
    to an item of theirs. One that is `of_turns` stands in each turn of a loop, of its rank
    alone."""

    role: str
    at: int
    source: str
    known: int
    of_turns: bool = False


# A role, and the item of its script before which it waits.
Wait = tuple[str, int]


@dataclass(frozen=True)
class Informed:
    """An instance, and what its ranks know by the order of MPI too, and by the program alone."""

    instance: Instance
    known: Known
    by_program: Known


def inform(instance: Instance) -> Informed:
    """What the ranks of an instance know."""
    plan = instance.plan
    return Informed(instance, find_known(plan, True), find_known(plan, False))


def list_pairs(instance: Instance, claim: Claim) -> Iterator[tuple[str, int, str]]:
    """Who knows, before which of its calls, of whom by a claim."""
    of_source = instance.roles.find(claim.source).ranks
    for rank in instance.roles.find(claim.role).ranks:
        bounds = instance.passed[rank].bounds
        others = instance.passed[rank].turns[claim.at] if claim.of_turns else of_source
        # How many calls a turn has.
        step = (
            (bounds[claim.at + 1] - bounds[claim.at]) // len(others)
            if claim.of_turns and others else 0
        )
        for number, other in enumerate(others):
            if other != rank:
                yield rank, bounds[claim.at] + number * step, other


def find_waits(claims: Sequence[Claim]) -> frozenset[Wait]:
    """Before which items claims make ranks wait. A wait in a turn has a call of its turn behind
    it."""
    return frozenset((claim.role, claim.at) for claim in claims if not claim.of_turns)


def find_level(
    instance: Instance, known: Known, claim: Claim, waits: Set[Wait]
) -> int | None:
    """To which item all ranks that a claim is about are known to have come; None where there are
    none. A rank that has made no call behind one of the `waits` hasn't surely passed it."""
    passed = instance.passed
    waiting = {at for role, at in waits if role == claim.source}
    levels = (
        passed[other].find_item(known[rank][number].get(other, 0), waiting)
        for rank, number, other in list_pairs(instance, claim)
    )
    return min(levels, default=None)


def is_true(informed: Informed, claim: Claim, waits: Set[Wait]) -> bool:
    """Whether a claim is true of an instance whose ranks have these waits."""
    found = find_level(informed.instance, informed.known, claim, waits)
    return found is None or found >= claim.known


class Finder:
    """Finds what the ranks of several plans know."""

    def __init__(self, skeleton: Skeleton, informed: Sequence[Informed]) -> None:
        self.skeleton, self.informed = skeleton, informed
        self.names = [role.name for role in skeleton.roles]
        self.waits = frozenset[Wait]()

    def find(self, refused: set[Claim]) -> Sequence[Claim]:
        """The claims that say something new and that matter, without those that are refused. Each
        is true with the waits of all."""
        while True:
            found = self.leave_idle([
                claim for role in self.names for claim in self.list_new(role, refused)
            ])
            waits = find_waits(found)
            if waits <= self.waits:
                return found
            self.waits |= waits

    def list_new(self, role: str, refused: set[Claim]) -> Iterator[Claim]:
        """What is known at each item of a role that wasn't before it, nor by the program alone."""
        items = self.skeleton.scripts[role]
        had = dict.fromkeys(self.names, 0)
        for at in range(len(items) + 1):
            for source in self.names:
                claim = self.claim(Claim(role, at, source, 0), had[source])
                if claim and claim not in refused:
                    had[source] = claim.known
                    yield claim
                item = items[at] if at < len(items) else None
                if isinstance(item, Loop) and item.is_some and item.group.name == source:
                    claim = self.claim(Claim(role, at, source, 0, True), had[source])
                    yield from [claim] if claim else []

    def claim(self, asked: Claim, had: int) -> Claim | None:
        """What is known in all plans, if that is more than was known, and than by the program."""
        levels = self.find_least(asked, lambda informed: informed.known)
        if levels is None or levels <= had:
            return None
        by_program = self.find_least(asked, lambda informed: informed.by_program)
        return asked._replace(known=levels) if levels > (by_program or 0) else None

    def find_least(self, asked: Claim, choose: Callable[[Informed], Known]) -> int | None:
        """What is known in all plans."""
        levels = (
            find_level(informed.instance, choose(informed), asked, self.waits)
            for informed in self.informed
        )
        return min((level for level in levels if level is not None), default=None)

    def matters(self, role: str, at: int) -> bool:
        """Whether a call that can race, or bring what races, comes at an item or behind it."""
        for item in self.skeleton.scripts[role][at:]:
            for line in item.lines if isinstance(item, Loop) else [item]:
                words = line.split(" ")
                if words[0] in (*RACING, "commit") or words[-1] == "collect":
                    return True
        return False

    def leave_idle(self, found: Sequence[Claim]) -> Sequence[Claim]:
        """The claims at or behind which something matters, or what others claim to be passed."""
        kept = [claim for claim in found if claim.of_turns or self.matters(claim.role, claim.at)]
        while True:
            more = [
                claim for claim in found if claim not in kept
                and any(a.source == claim.role and a.known >= claim.at for a in kept)
            ]
            if not more:
                return [claim for claim in found if claim in kept]
            kept += more


def grows(instances: Sequence[Instance], claim: Claim) -> bool:
    """Whether what MPI does for a claim grows from an instance to the last one, which has at least
    twice as many ranks."""
    sizes = sorted(instances, key=lambda instance: instance.plan.size)
    most = sizes[-1]
    half = [instance for instance in sizes if 2 * instance.plan.size <= most.plan.size][-1]
    return measure_claim(half, claim) < measure_claim(most, claim)


def measure_claim(instance: Instance, claim: Claim) -> int:
    """How much MPI does from where the ranks stand of which something is known to where it is
    known."""
    parts: dict[str, tuple[int, int]] = {}
    for role in instance.roles.all:
        for rank in role.ranks:
            bounds = instance.passed[rank].bounds
            first = bounds[claim.known] if role.name == claim.source else 0
            last = bounds[claim.at] if role.name == claim.role else bounds[-1]
            parts[rank] = first, last
    return measure(instance.plan, parts, set(instance.roles.find(claim.source).ranks))


def find_claims(
    skeleton: Skeleton, larger: Sequence[Instance]
) -> tuple[Sequence[Claim], int]:
    """What the ranks of all plans of a skeleton know; and how many claims about a number of ranks
    don't grow with it and were dropped. `larger` are other instances."""
    finder = Finder(skeleton, [inform(instance) for instance in skeleton.instances])
    instances = [*skeleton.instances, *larger]
    sizes = [instance.plan.size for instance in instances]
    groups = {role.name for role in skeleton.roles if role.is_group}
    refused = set[Claim]()
    found = finder.find(refused)
    while max(sizes) >= 2 * min(sizes):
        of_many = (
            claim for claim in found
            if not claim.of_turns and groups & {claim.role, claim.source}
        )
        more = {claim for claim in of_many if not grows(instances, claim)} - refused
        if not more:
            break
        refused |= more
        found = finder.find(refused)
    return found, len(refused)
