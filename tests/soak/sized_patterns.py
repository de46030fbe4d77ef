"""Random patterns of which plans of several sizes are made, and what a pattern that is inferred
from these must say.

- If all calls are the program's, it has the verdict of the first pattern.
- If some lines stand for an order of MPI, it may lack order. But where something is found in a plan
  that it comes from, on any placement, something is found in it.
"""
import random
import re
from collections.abc import Callable, Sequence
from dataclasses import replace
from typing import NamedTuple

from wire_up_tools.checker import Checker
from wire_up_tools.failures import Refused
from wire_up_tools.record.sizes.inferring import Inferred, infer
from wire_up_tools.record.sizes.judging import count_racing, judge_pattern
from wire_up_tools.record.sizes.leaning import take_fences_as_order
from wire_up_tools.record.sizes.plans import Call, SizedPlan
from tests.models import grammar, pattern_reference
from tests.soak.ordered_patterns import GROUP, choose_roles, make_ordered
from tests.soak.pattern_soaking import MOST_INSTANCES
from tests.soak.random_patterns import DealMaker, Part
from tests.soak.sized_plans import expand_plan
from tests.soak.soak_runner import Difference, Runner

# How many ranks the group has where the pattern comes from, and where it is held against it.
SMALL, LARGE = (3, 4), (8,)
WAITED = ("publish", "lookup-wait")
# How many plans a pattern may have that is inferred.
MOST_JUDGED = 1 << 14
CLEAN, BY_ORDER, RACY, LESS, FEWER, NO_PATTERN = (
    "clean again", "clean again by order", "racy again", "racy for want of order",
    "racy with fewer ranks alone", "no pattern"
)
LINKED_CLEAN, LINKED_RACY, LINKED_LESS = (
    "clean by messages of some", "racy by messages of some", "racy for want of messages of some"
)
# From whom a rank of so many gets a message, by the numbers of both.
Link = Callable[[int, int, int], bool]
LINKS: Sequence[Link] = (
    lambda rank, other, size: other == (rank - 1) % size,
    lambda rank, other, size: other == rank - 1,
    lambda rank, other, size: other in ((rank - 1) % size, (rank + 1) % size),
    lambda rank, other, size: other < rank,
    lambda rank, other, size: other == (rank - 1) // 2 or rank == (other - 1) // 2,
    lambda rank, other, size: (rank ^ other) & (rank ^ other) - 1 == 0,
    lambda rank, other, size: rank // 2 == other // 2,
)
NAMED = re.compile(r"(?:\[|^)app:(\d+)\b")
ASKING = ("lookup", "lookup-wait", "get", "get-now")


class OneGroupMaker(DealMaker):
    """Makes patterns of one job with one group of any number of ranks."""

    def all_parts(self) -> list[Part]:
        self.jobs = [b"app"]
        return [
            Part(b"app", role.encode(), 0 if role == GROUP else None)
            for role in choose_roles(self.dice)
        ]


def make_text(dice: random.Random) -> str:
    """A pattern without `for some`, of which an instance has all turns, and without `keep`."""
    if dice.random() < 0.6:
        return make_ordered(dice)
    while True:
        lines = OneGroupMaker(dice).lines()
        text = "".join(f"{b' '.join(words).decode()}\n" for words in lines)
        if "for some" not in text and "keep\n" not in text:
            return text


class Case(NamedTuple):
    """The plans of a pattern from which one is inferred, and those against which that is held;
    whether lines of them stand for an order, and whether not all ranks have those of the
    pattern."""

    taken: Sequence[SizedPlan]
    held: Sequence[SizedPlan]
    has_order: bool
    is_linked: bool

    @property
    def every(self) -> Sequence[SizedPlan]:
        return [*self.taken, *self.held]


def find_sent(plans: Sequence[SizedPlan]) -> set[str]:
    """The names, without indices, that a pattern may have for messages: each is published once, and
    no call but a `lookup-wait` asks for it."""
    found, others = set[str](), set[str]()
    for plan in plans:
        published = set[str]()
        for call in plan.list_all():
            if call.verb in ("publish", "lookup-wait", "lookup", "unpublish"):
                name = call.words[1]
                base = name.partition("[")[0]
                is_again = call.verb == "publish" and name in published
                (others if call.verb not in WAITED or is_again else found).add(base)
                published.update([name] if call.verb == "publish" else [])
    return set() if "*" in others else found - others


def take_as_order(plans: Sequence[SizedPlan], dice: random.Random) -> Sequence[SizedPlan]:
    """The plans with some lines as those of MPI."""
    sent = {name for name in sorted(find_sent(plans)) if dice.random() < 0.8}
    with_fences = dice.random() < 0.5

    def mark(call: Call) -> Call:
        is_sent = call.verb in WAITED and call.words[1].partition("[")[0] in sent
        return replace(call, is_order=is_sent)

    marked = [plan.change(lambda _, calls: list(map(mark, calls))) for plan in plans]
    return [take_fences_as_order(plan) for plan in marked] if with_fences else marked


def find_target(call: Call) -> int | None:
    """The rank whose message a call waits for, or whose name or key it asks for, if that is one."""
    if call.verb not in ASKING:
        return None
    of_name = NAMED.search(call.words[1])
    return int(of_name[1]) if of_name else None


def leave_links(plan: SizedPlan, link: Link, of_program: bool) -> SizedPlan:
    """A plan in which a rank gets messages of those ranks alone that a link leaves; and asks them
    alone, if that holds of calls of the program."""

    def is_left(rank: str, call: Call) -> bool:
        target = find_target(call) if call.is_order != of_program else None
        return target is None or link(int(rank.partition(":")[2]), target, plan.size)

    return plan.change(lambda rank, calls: [call for call in calls if is_left(rank, call)])


def make_case(text: str, dice: random.Random) -> Case:
    """Plans of a pattern, as the dice have it."""
    held, has_order = dice.choice(((), LARGE)), dice.random() < 0.6
    plans = [expand_plan(text, size) for size in (*SMALL, *held)]
    plans = list(take_as_order(plans, dice)) if has_order else plans
    is_linked = has_order and dice.random() < 0.4
    if is_linked:
        before, messages, asked = plans, dice.choice(LINKS), dice.choice(LINKS)
        plans = [leave_links(plan, messages, False) for plan in plans]
        if dice.random() < 0.5:
            link = messages if dice.random() < 0.5 else asked
            plans = [leave_links(plan, link, True) for plan in plans]
        is_linked = any(plan.calls != other.calls for plan, other in zip(plans, before))
    return Case(plans[:len(SMALL)], plans[len(SMALL):], has_order, is_linked)


def write_plan(plan: SizedPlan) -> str:
    """The text of a plan, on a node of its own for each rank."""
    lines = ["rehearsal 2", *(f"node n{n}" for n in range(plan.size)), f"job {plan.job}"]
    for n, calls in enumerate(plan.calls.values()):
        lines += [f"rank n{n}", *(" ".join(call.words) for call in calls)]
    return "".join(f"{line}\n" for line in lines)


def is_racy(checker: Checker, plan: SizedPlan) -> bool:
    """Whether something is found in a plan on any placement."""
    return checker.ask("check", "--anywhere", plan=write_plan(plan).encode()).status == 1


def judge(checker: Checker, text: str) -> int | None:
    """How many ranks the first plan of a pattern has in which something is found, or 0; None where
    it has too many plans."""
    try:
        pattern = pattern_reference.read_pattern(text.encode())
    except grammar.Refused:
        # Its ranks choose in more ways than are tried.
        return None
    is_large = pattern_reference.instance_count(pattern) > MOST_JUDGED
    return None if is_large else count_racing(checker, text)


def compare(checker: Checker, text: str, case: Case) -> str:
    """What the verdict on the pattern that is inferred is beside that on the first one. Raises
    Difference, and Refused where the first one has none."""
    verdict = judge_pattern(checker, text)
    found = infer(case.taken, case.held, lambda text: judge(checker, text))
    if not isinstance(found, Inferred) or found.racing is None:
        return NO_PATTERN
    again = judge_pattern(checker, found.text)
    what = f"{text}{found.text}"
    if case.is_linked:
        return compare_linked(checker, case, bool(again.findings), what)
    if bool(again.findings) == bool(verdict.findings):
        if verdict.findings:
            return RACY
        return BY_ORDER if found.needs_messages else CLEAN
    if not case.has_order:
        raise Difference("another verdict on a pattern inferred again", what)
    if again.findings:
        return LESS
    refuse_racy(checker, case, what)
    return FEWER


def compare_linked(checker: Checker, case: Case, is_found: bool, what: str) -> str:
    """What a verdict on a pattern is beside those on the plans, of which not all ranks have the
    messages of the first pattern."""
    if is_found:
        return LINKED_RACY if any(is_racy(checker, plan) for plan in case.every) else LINKED_LESS
    refuse_racy(checker, case, what)
    return LINKED_CLEAN


def refuse_racy(checker: Checker, case: Case, what: str) -> None:
    """Raises Difference if something is found in a plan."""
    if any(is_racy(checker, plan) for plan in case.every):
        raise Difference("nothing found in a pattern of plans that race", what)


def look(runner: Runner, text: bytes, seed: int) -> str:
    """Looks at a pattern. Answers what kind of file it is. Raises a difference, and Refused."""
    pattern = pattern_reference.read_pattern(text)
    if pattern_reference.instance_count(pattern) > MOST_INSTANCES:
        return "too large"
    if not any(role.least is not None for role in pattern.roles):
        return "refused"
    case = make_case(text.decode(), random.Random(seed))
    said = compare(Checker(runner.program), text.decode(), case)
    runner.held[said] += 1
    is_racy_file = said in (RACY, LESS, FEWER, LINKED_RACY, LINKED_LESS)
    return "with findings" if is_racy_file else "without findings"


def difference_of(runner: Runner, text: bytes, seed: int) -> tuple[Difference | None, str]:
    """The difference that a pattern shows, or None, and what kind of file it is."""
    try:
        return None, look(runner, text, seed)
    except (grammar.Refused, Refused):
        return None, "refused"
    except Difference as difference:
        return difference, "different"


def random_file(dice: random.Random) -> tuple[bytes, int]:
    """A random pattern, which isn't damaged."""
    return make_text(dice).encode(), 0
