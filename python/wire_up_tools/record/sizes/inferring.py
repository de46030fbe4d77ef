"""Infers one pattern from the plans of several sizes, and holds it against larger ones."""
from collections.abc import Callable, Sequence
from dataclasses import dataclass, replace
from typing import Optional

from wire_up_tools.record.patterns.indexing import find_places as find_numbers
from wire_up_tools.record.patterns.indexing import name_all
from wire_up_tools.record.sizes.claims import (
    Claim,
    find_claims,
    find_waits,
    inform,
    is_true,
)
from wire_up_tools.record.sizes.leaning import (
    collects_in_parts,
    keep_whole_fences,
    leave_parts_out,
    make_lean,
    part_fences,
    take_fences_as_order,
)
from wire_up_tools.record.sizes.plans import SizedPlan, index_plan
from wire_up_tools.record.sizes.scripts import (
    Instance,
    Skeleton,
    Unfit,
    find_scripts,
    fit,
    list_ways,
)
from wire_up_tools.record.sizes.writing import write_pattern

# The two forms of a call, of which its reply decides: it waited, or it found what there was.
TWINS = {"get": "get-now", "get-now": "get", "lookup": "lookup-wait", "lookup-wait": "lookup"}
# How many ranks the first plan of a pattern has in which something is found, by its text: 0 if
# nothing is found, None if it can't be judged.
Judge = Callable[[str], Optional[int]]


@dataclass(frozen=True)
class Inferred:
    """A pattern: its text without a head, from which plans it comes, which others hold it, and the
    plan that didn't hold a first one, if there is one. `dropped` counts the claims that don't grow
    with the ranks. If the pattern `needs_messages`, something is found without what ranks of a
    group know, or what is known of them, by messages and by fences that aren't of all ranks. With
    all that something is found with so many `racing` ranks; 0 if nothing is, None if that isn't
    known. `lacks_fences` says that fences of some ranks are left out that bring what calls get at
    once."""

    text: str
    skeleton: Skeleton
    dropped: int
    needs_messages: bool
    racing: int | None
    taken: Sequence[SizedPlan]
    held: Sequence[SizedPlan]
    failed: SizedPlan | None = None
    lacks_fences: bool = False

    def agrees(self, is_clean: bool) -> bool:
        """Whether it is known that nothing is found, or that something is."""
        return self.racing is not None and (self.racing == 0) == is_clean


def index_all(plans: Sequence[SizedPlan]) -> Sequence[SizedPlan]:
    """Plans with the numbers that are ranks in all of them as indices."""
    places = find_numbers([
        name_all((call.words for call in plan.list_all()), plan.size) for plan in plans
    ])
    return [index_plan(plan, places) for plan in plans]


def infer_ways(
    taken: Sequence[SizedPlan], larger: Sequence[SizedPlan], judge: Judge
) -> Inferred | Unfit:
    """The pattern of plans, which the larger ones hold, by the first way to part ranks into roles
    that has one in which nothing is found, with as few ranks as something is found by the ways
    before; or else by the first that has one, if it can be judged; or where it breaks."""
    racy, unjudged, unfit, broken = list[Inferred](), list[Inferred](), list[Unfit](), list[Unfit]()
    for way in list_ways(taken):
        skeleton = find_scripts(taken, way)
        if isinstance(skeleton, Unfit):
            broken.append(skeleton)
            continue
        found = infer_way(skeleton, taken, larger, judge)
        if isinstance(found, Unfit):
            unfit.append(found)
        elif found.racing is None:
            unjudged.append(found)
        elif found.racing:
            racy.append(found)
        elif all((pattern.racing or 0) >= len(way) for pattern in racy):
            return found
    kept = [*racy, *unjudged]
    return kept[0] if kept else (unfit or [max(broken, key=lambda where: where.number)])[0]


def infer_way(
    skeleton: Skeleton,
    taken: Sequence[SizedPlan],
    larger: Sequence[SizedPlan],
    judge: Judge,
) -> Inferred | Unfit:
    """The pattern of the scripts of plans, which the larger ones hold; or where it breaks. Of MPI's
    order it has nothing, or else only that of fences of all ranks, if nothing is found without the
    rest."""
    fitted = list[Instance]()
    for plan in larger:
        instance = fit(plan, skeleton.way, skeleton.scripts)
        if isinstance(instance, Unfit):
            return instance
        fitted.append(instance)
    of_fences, _ = find_claims(change_plans(skeleton, keep_whole_fences), fitted)
    for claims in ([], of_fences):
        text = write_pattern(skeleton, claims)
        if why_other(fitted, claims) is None and judge(text) == 0:
            return Inferred(text, skeleton, 0, False, 0, taken, larger)
    claims, dropped = find_claims(skeleton, fitted)
    text = write_pattern(skeleton, claims)
    groups = {role.name for role in skeleton.roles if role.is_group}
    of_many = any(groups & {claim.role, claim.source} for claim in claims)
    return why_other(fitted, claims) or Inferred(
        text, skeleton, dropped, of_many, judge(text), taken, larger
    )


def change_plans(skeleton: Skeleton, change: Callable[[SizedPlan], SizedPlan]) -> Skeleton:
    """A skeleton whose plans have other lines of order."""
    return replace(skeleton, instances=[
        replace(instance, plan=change(instance.plan)) for instance in skeleton.instances
    ])


def why_other(fitted: Sequence[Instance], claims: Sequence[Claim]) -> Unfit | None:
    """The first instance of which claims aren't true."""
    waits = find_waits(claims)
    for instance in fitted if claims else ():
        informed = inform(instance)
        if not all(is_true(informed, claim, waits) for claim in claims):
            return Unfit(instance.plan, instance.plan.ranks[0], 1, "MPI orders it less")
    return None


def infer_once(
    taken: Sequence[SizedPlan], larger: Sequence[SizedPlan], judge: Judge, is_clean: bool
) -> Inferred | Unfit:
    """The pattern of plans, which the larger ones hold, with the fences of the program as they are,
    or else with those for order that collect nothing; or, if nothing is found in the plans, with
    all fences of some ranks for order, if nothing is found in the pattern then; or where the first
    breaks. Between these, puts that some rank's get is left of stay with all ranks, if something is
    found in the pattern exactly if it is in the plans."""
    plans, count = [*taken, *larger], len(taken)
    lean, alike = (
        [part_fences(make_lean(plan, of_any)) for plan in plans] for of_any in (False, True)
    )
    first = infer_indexed(lean, count, judge)
    if isinstance(first, Inferred):
        return first
    if any(one.count < other.count for one, other in zip(lean, alike)):
        found = infer_indexed(alike, count, judge)
        if isinstance(found, Inferred) and found.agrees(is_clean):
            return found
    found = infer_indexed([take_fences_as_order(plan) for plan in lean], count, judge)
    if isinstance(found, Inferred):
        return found
    if is_clean:
        found = infer_indexed([leave_parts_out(plan) for plan in alike], count, judge)
        if isinstance(found, Inferred) and found.agrees(is_clean):
            return replace(found, lacks_fences=any(map(collects_in_parts, alike)))
    return first


def infer_indexed(plans: Sequence[SizedPlan], count: int, judge: Judge) -> Inferred | Unfit:
    """The pattern of the first so many plans, which the others hold, with numbers of ranks as
    indices."""
    indexed = index_all(plans)
    return infer_ways(indexed[:count], indexed[count:], judge)


def infer(
    taken: Sequence[SizedPlan], larger: Sequence[SizedPlan], judge: Judge, is_clean: bool = False
) -> Inferred | Unfit:
    """The pattern of plans, which the larger ones hold. Where one doesn't, the pattern is made anew
    with all of them. Answers where their calls fit no script, if they don't. `is_clean` says that
    nothing is found in the plans themselves."""
    found = infer_once(taken, larger, judge, is_clean)
    if isinstance(found, Inferred):
        return found
    if not larger:
        return explain(found, taken)
    again = infer_once([*taken, *larger], [], judge, is_clean)
    if isinstance(again, Inferred):
        return replace(again, failed=found.plan)
    return explain(again, [*taken, *larger])


def find_twin(first: SizedPlan, other: SizedPlan) -> str | None:
    """The first call of a rank that is one in its other form in another size, that for another
    reply."""
    for rank in filter(other.calls.__contains__, first.ranks):
        both = zip(first.list_program(rank), other.list_program(rank))
        for number, (call, twin) in enumerate(both, 1):
            if list(twin.words) == [TWINS.get(call.verb), *call.words[1:]]:
                return (
                    f"call {number} of {rank} was answered otherwise with {other.size} ranks: "
                    f"`{' '.join(twin.words)}`"
                )
            if twin.words != call.words:
                break
    return None


def explain(unfit: Unfit, plans: Sequence[SizedPlan]) -> Unfit:
    """Where calls fit no script, with the reason if it lies in a reply."""
    twins = (find_twin(plans[0], plan) for plan in plans[1:])
    return replace(unfit, why=unfit.why or next(filter(None, twins), ""))
