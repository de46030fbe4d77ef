"""What each rank of a plan knows of the others: how many of the program's calls they have surely
made."""
from collections.abc import Mapping, Sequence

from wire_up_tools.record.draft import Step
from wire_up_tools.record.sizes.plans import Call, SizedPlan
from wire_up_tools.record.sizes.walking import Walk

# Of each rank, how many of the program's calls it has surely made; 0 if it isn't there.
Counts = Mapping[str, int]
# Of each rank: what it knows before each of its program's calls, and after the last.
Known = Mapping[str, Sequence[Counts]]


def find_known(plan: SizedPlan, with_order: bool) -> Known:
    """What each rank knows, by the program's calls alone or by the order of MPI too."""
    known: dict[str, dict[str, int]] = {rank: {} for rank in plan.ranks}
    made = dict.fromkeys(plan.ranks, 0)
    found: dict[str, list[Counts]] = {rank: [] for rank in plan.ranks}
    told: dict[Call, Counts] = {}
    for step, rank, call, sources in Walk(plan, with_order).take():
        if step is Step.REACHED:
            told[call] = {**known[rank], rank: made[rank]}
            continue
        if not call.is_order:
            found[rank].append(dict(known[rank]))
            made[rank] += 1
        for source in sources:
            learn(known[rank], told[source.call])
        if call.verb in ("commit", "publish"):
            told[call] = {**known[rank], rank: made[rank]}
    for rank, them in found.items():
        left = len(plan.list_program(rank)) + 1 - len(them)
        them += [known[rank]] * left
    return found


def learn(known: dict[str, int], told: Counts) -> None:
    """Adds what is told to what is known."""
    for rank, count in told.items():
        if count > known.get(rank, 0):
            known[rank] = count
