"""Finds one script for each role, from which the program's calls in the plans of all sizes come."""
import bisect
from collections.abc import Iterator, Mapping, Sequence, Set
from dataclasses import dataclass

from wire_up_tools.record.patterns.finding import (
    Broken,
    Item,
    Loop,
    Search,
    Told,
    order_turns,
    tell_all,
)
from wire_up_tools.record.patterns.indexing import spell_words
from wire_up_tools.record.patterns.scripts import FIRST, GROUP, OTHERS, Role, Roles, Said, Script
from wire_up_tools.record.sizes.plans import Call, SizedPlan

# Which ranks have a role of their own, by their places; -1 is the last.
Way = Sequence[int]
WAYS: Sequence[Way] = ((), (0,), (0, 1), (-1,), (0, -1), (0, 1, -1))
NAMES = {0: FIRST, 1: "second", -1: "last"}
# Why calls don't fit, if there is no more to say.
NO_SCRIPT = "no script of all ranks in all runs has that"


def part_ranks(ranks: Sequence[str], job: str, way: Way) -> Roles:
    """Parts ranks into roles: those of the way, and one group of all others, which may have
    none."""
    first = [place for place in way if place >= 0]
    after = len(ranks) - (len(way) - len(first))
    roles = [Role(NAMES[place], job, ranks[place:place + 1], False) for place in first]
    roles.append(Role(OTHERS if way else GROUP, job, ranks[len(first):max(after, 0)], True))
    roles += [Role(NAMES[place], job, ranks[place:], False) for place in way if place < 0]
    return Roles(roles)


@dataclass(frozen=True)
class Passed:
    """How a rank goes through its script: how many of its calls are over before each item and after
    the last, and whom each loop is over, by the number of its item."""

    bounds: Sequence[int]
    turns: Mapping[int, Sequence[str]]

    def find_item(self, count: int, waits: Set[int]) -> int:
        """The last item that comes after at most so many calls, and behind no item before which a
        rank that made no more calls may wait."""
        last = bisect.bisect_right(self.bounds, count) - 1
        first = bisect.bisect_left(self.bounds, count)
        return next((item for item in range(first, last) if item in waits), last)


@dataclass(frozen=True)
class Instance:
    """A plan whose calls come from scripts: its roles, and how each rank goes through its
    script."""

    plan: SizedPlan
    roles: Roles
    passed: Mapping[str, Passed]


@dataclass(frozen=True)
class Skeleton:
    """The scripts of roles, by their names, and the plans that they come from."""

    way: Way
    roles: Sequence[Role]
    scripts: Mapping[str, Sequence[Item]]
    instances: Sequence[Instance]


@dataclass(frozen=True)
class Unfit:
    """Where the calls of a plan fit no script: its name, the rank, the call and its number, and why
    if there is more to say."""

    plan: SizedPlan
    rank: str
    number: int
    why: str = ""

    def __str__(self) -> str:
        calls = self.plan.list_program(self.rank)
        if not calls:
            what = "makes no call that counts"
        elif self.number <= len(calls):
            what = f"calls {name_call(calls[self.number - 1])}"
        else:
            what = f"makes no call that counts behind {name_call(calls[-1])}"
        return f"with {self.plan.size} ranks, {self.rank} {what}: {self.why or NO_SCRIPT}"


def name_call(call: Call) -> str:
    """A call, and where in the program it comes from if that is known."""
    return f"`{spell_words(call.words)}`{f' at {call.place}' if call.place else ''}"


def tell_plan(plan: SizedPlan, roles: Roles) -> Sequence[Told] | Broken:
    """What the program calls in each rank, in the words of a pattern; or the first call that has
    none."""
    return tell_all(roles, [
        Script(rank, plan.job, [call.words for call in plan.list_program(rank)])
        for rank in plan.ranks
    ])


def pass_script(items: Sequence[Item], told: Told) -> Passed | None:
    """How a rank goes through a script; None where its calls don't come from it."""
    at, bounds, turns = 0, [0], dict[int, Sequence[str]]()
    for number, item in enumerate(items):
        if isinstance(item, Loop):
            ended = pass_loop(item, told, at)
            if ended is None:
                return None
            at, turns[number] = ended
        else:
            if told.calls[at:at + 1] != [Said(item, None)]:
                return None
            at += 1
        bounds.append(at)
    return Passed(bounds, turns) if at == len(told.calls) else None


def pass_loop(loop: Loop, told: Told, at: int) -> tuple[int, Sequence[str]] | None:
    """At which call a rank is after a loop that begins at one, and whom it was over; None where it
    doesn't make it."""
    others = list[str]()
    for other in order_turns(told.roles.find(loop.group.name).ranks, told.rank, loop.is_cyclic):
        turn = loop.make_turn(other)
        if list(told.calls[at:at + len(turn)]) == turn:
            at += len(turn)
            others.append(other)
        elif not loop.is_some:
            return None
    return at, others


def fit(
    plan: SizedPlan, way: Way, scripts: Mapping[str, Sequence[Item]]
) -> Instance | Unfit:
    """A plan as an instance of scripts; or the rank whose calls don't come from its script."""
    roles = part_ranks(plan.ranks, plan.job, way)
    all_told = tell_plan(plan, roles)
    if isinstance(all_told, Broken):
        return Unfit(plan, all_told.rank, all_told.number, all_told.why)
    passed = {}
    for told in all_told:
        items = scripts[roles.by_rank[told.rank].name]
        found = pass_script(items, told)
        if found is None:
            return Unfit(plan, told.rank, find_otherwise(items, told))
        passed[told.rank] = found
    return Instance(plan, roles, passed)


def find_otherwise(items: Sequence[Item], told: Told) -> int:
    """The number of the first call of a rank that isn't in its script, as far as is known without
    a search: the first that no line of the script has."""
    lines = {line for item in items for line in (item.lines if isinstance(item, Loop) else [item])}
    others = (n for n, said in enumerate(told.calls, 1) if said.words not in lines)
    return next(others, len(told.calls))


def find_scripts(plans: Sequence[SizedPlan], way: Way) -> Skeleton | Unfit:
    """The scripts of plans, with the roles of a way; or where none goes on."""
    parted = [part_ranks(plan.ranks, plan.job, way) for plan in plans]
    in_plans = list[tuple[SizedPlan, Told]]()
    for plan, roles in zip(plans, parted):
        all_told = tell_plan(plan, roles)
        if isinstance(all_told, Broken):
            return Unfit(plan, all_told.rank, all_told.number, all_told.why)
        in_plans += [(plan, told) for told in all_told]
    scripts = {}
    for role in parted[0].all:
        mine = [
            (plan, told) for plan, told in in_plans
            if told.roles.by_rank[told.rank].name == role.name
        ]
        search = Search([told for _, told in mine])
        found = search.find()
        if isinstance(found, Broken):
            return Unfit(mine[search.find_break()][0], found.rank, found.number)
        scripts[role.name] = found
    fitted = [fit(plan, way, scripts) for plan in plans]
    instances = [instance for instance in fitted if isinstance(instance, Instance)]
    return Skeleton(way, parted[0].all, scripts, instances)


def list_ways(plans: Sequence[SizedPlan]) -> Iterator[Way]:
    """The ways that leave a group in each plan."""
    fewest = min(plan.size for plan in plans)
    return (way for way in WAYS if len(way) < fewest)
