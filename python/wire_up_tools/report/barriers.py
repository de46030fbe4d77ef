"""The barrier that would order two calls that race: one that is there already, past which one of
the calls can be moved, or a new one, and where each rank calls that.

A new one must keep no rank from a call for which another waits before the barrier. So it comes
after all that comes, in some run, before one of the two calls in every run.
"""
import collections
import itertools
import re
from collections.abc import Iterable, Iterator, Mapping, Sequence
from dataclasses import dataclass

from wire_up_tools import words
from wire_up_tools.plan import Call, Meeting, Plan, Rank
from wire_up_tools.report.findings import LOOKUPS, Finding
from wire_up_tools.report.language import find_message, name_verb
from wire_up_tools.report.orders import Order
from wire_up_tools.report.phrases import name_all, pick
from wire_up_tools.report.places import name_spot, tell_call, tell_own

# How many spots are named besides the first.
SPOTS = 8
# The name that stands for a part of a collective ends with the number of the collective.
OF_COLLECTIVE = re.compile(r".*\.all\.(\d+)")
# What a rank does before a call may depend on what these bring.
WAITING = ("get", "lookup-wait", "fence")


def is_of_mpi(plan: Plan) -> bool:
    """Whether the ranks of a recorded plan are known to have a communicator of MPI."""
    head = plan.declared.head
    return plan.is_recorded and not any(text.startswith(words.WITHOUT_MPI) for text in head)


# --- a barrier that is there ---


@dataclass(frozen=True)
class Move:
    """A call of a race that can be moved past a fence of both ranks, and the call of that by the
    same rank."""

    call: Call
    fence: Call
    is_later: bool

    @property
    def distance(self) -> int:
        """Past how many calls of its rank it goes."""
        return abs(self.fence.number - self.call.number)

    def say(self, plan: Plan) -> str:
        """The fix."""
        where = "after" if self.is_later else "before"
        return f"move the {tell_call(plan, self.call)} {where} the {tell_call(plan, self.fence)}"


def find_move(order: Order, finding: Finding, leader: Call) -> Move | None:
    """The shortest move by which one call of a race comes first; None where there is none."""
    found = (find_move_past(order, finding, leader, meeting) for meeting in order.plan.meetings)
    moves = [move for move in found if move]
    return min(moves, key=lambda move: move.distance) if moves else None


def find_move_past(
    order: Order, finding: Finding, leader: Call, meeting: Meeting
) -> Move | None:
    """The move past one fence, if it is the program's and both ranks call it."""
    other, numbers = finding.find_other(leader), meeting.numbers
    both = numbers.get(leader.rank.name), numbers.get(other.rank.name)
    if not meeting.is_whole or None in both:
        return None
    ranks = (leader.rank.name, other.rank.name)
    own, others = (order.plan.find_call(rank, numbers[rank]) for rank in ranks)
    if is_of_mpi(order.plan) and not own.remark:
        return None
    is_after = own.number > leader.number and others.number > other.number
    if is_after and can_come_after(order, finding, other, others):
        return Move(other, others, is_later=True)
    is_before = own.number < leader.number and others.number < other.number
    may_come = is_before and can_come_before(order, leader, own)
    return Move(leader, own, is_later=False) if may_come else None


def can_come_after(order: Order, finding: Finding, call: Call, fence: Call) -> bool:
    """Whether a call that only reads can be moved behind a fence and stays before what it came
    before: each other call that changes its name."""
    if call.verb not in (*LOOKUPS, "get-now"):
        return False
    calls = order.plan.calls_of[call.rank.name]
    after = calls[fence.number] if fence.number < len(calls) else None
    changes = list_changes(order, finding)
    return all(order.is_before(change, fence) or (after and order.is_before(after, change))
               for change in changes)


def list_changes(order: Order, finding: Finding) -> Iterator[Call]:
    """The calls that change the name of a race, but for those of the race."""
    for call in order.plan.list_single():
        is_change = call.verb in ("publish", "unpublish") and call not in finding.calls
        if is_change and call.about in (finding.about, words.EVERY_NAME):
            yield call


def can_come_before(order: Order, call: Call, fence: Call) -> bool:
    """Whether a call can be moved before a fence: what is put or published is there before, as far
    as no call between waits for others."""
    between = order.plan.calls_of[call.rank.name][fence.number:call.number - 1]
    is_once = len(order.uses.publishes.get(call.about, ())) == 1
    is_kept = call.verb == "publish" and is_once and call.about not in order.uses.unpublished
    return is_kept and not any(each_call.verb in WAITING for each_call in between)


# --- a new barrier ---


def say_turns(order: Order, first: Call, later: Sequence[Call]) -> str:
    """Who calls a new barrier where, so that one call comes before others, one of each rank."""
    plan, passed = order.plan, choose_passed(order, (first, *later))
    is_last = passed[first.rank] == first.number
    own = f"after {tell_own(plan, first)}" if is_last else say_spot(plan, first.rank, passed)
    spots = {first.rank: own}
    for call in later:
        told, is_free = tell_own(plan, call), passed[call.rank] == call.number
        moved = f"{say_spot(plan, call.rank, passed)} and moves {told} behind it"
        spots[call.rank] = f"before {told}" if is_free else moved
    if is_of_all(plan, first, later[0]):
        for rank in plan.ranks:
            if rank.job == first.rank.job and rank not in spots:
                count = passed.get(rank, 0)
                is_same = count and is_alike(plan.find_call(rank.name, count), first)
                spots[rank] = own if is_same and is_last else say_spot(plan, rank, passed)
    return say_spots(spots)


def say_spots(spots: Mapping[Rank, str]) -> str:
    """Which ranks call a barrier where."""
    ranks_at: dict[str, list[str]] = collections.defaultdict(list)
    for rank, spot in spots.items():
        ranks_at[spot].append(rank.name)
    (spot, ranks), *others = ranks_at.items()
    said = [f"{name_all(ranks)} {pick(len(ranks), 'calls', 'call')} it {spot}"]
    said += [f"{name_all(them)} {where}" for where, them in others[:SPOTS]]
    rest = [name for _, them in others[SPOTS:] for name in them]
    said += [f"{name_all(rest)} after the last call for which these wait"] if rest else []
    return ", ".join(said)


def is_of_all(plan: Plan, first: Call, second: Call) -> bool:
    """Whether the barrier between two calls is one of all ranks of their job."""
    return is_of_mpi(plan) and first.rank.job == second.rank.job


def name_barrier(plan: Plan, first: Call, second: Call) -> str:
    """What can stand between two calls, so that one comes first."""
    if is_of_all(plan, first, second):
        return "an MPI_Barrier of MPI_COMM_WORLD"
    fence = name_verb("fence", is_recorded=plan.is_recorded)
    return f"a {fence} of a set that has both ranks"


def say_spot(plan: Plan, rank: Rank, passed: Mapping[Rank, int]) -> str:
    """Where a rank calls a barrier that has made so many calls then."""
    calls, count = plan.calls_of[rank.name], passed.get(rank, 0)
    if not calls:
        return "anywhere"
    near = calls[count - 1] if count else calls[0]
    where = "after" if count else "before"
    is_told = near.remark or find_message(near)
    return f"{where} {tell_own(plan, near) if is_told else name_spot(plan, near)}"


def choose_passed(order: Order, calls: Sequence[Call]) -> Mapping[Rank, int]:
    """How many calls each rank has begun when a new barrier orders the first of some calls and the
    others: where it can be, many ranks call it at one line of the program."""
    passed = find_passed(order, calls)
    if not is_of_all(order.plan, *calls[:2]):
        return passed
    one_line = find_passed(order, [*calls, *list_alike(order.plan, calls, passed)])
    return one_line if all(one_line[call.rank] == call.number for call in calls) else passed


def list_alike(plan: Plan, calls: Sequence[Call], passed: Mapping[Rank, int]) -> list[Call]:
    """Of each other rank of the job the first call at the place of the first of these that isn't
    too early."""
    first, ranks, found = calls[0], [call.rank for call in calls], []
    for rank in plan.ranks:
        if rank.job == first.rank.job and rank not in ranks:
            later = plan.calls_of[rank.name][max(passed.get(rank, 0) - 1, 0):]
            found += list(itertools.islice((call for call in later if is_alike(call, first)), 1))
    return found


def is_alike(one: Call, other: Call) -> bool:
    """Whether two calls are known to be the same call of the program."""
    return one.place is not None and (one.place, one.verb) == (other.place, other.verb)


def find_passed(order: Order, calls: Sequence[Call]) -> Mapping[Rank, int]:
    """How many calls each rank has begun when a new barrier orders some calls: all that come before
    these in every run, and the other parts of collectives of which one does."""
    collectives = list_collectives(order.plan)
    passed: collections.Counter[Rank] = collections.Counter()
    waiting = list(calls)
    while waiting:
        for rank, reach in order.find_earlier(waiting.pop()).items():
            new = order.plan.calls_of[rank.name][passed[rank]:reach.number]
            passed[rank] = max(passed[rank], reach.number)
            parts = {number for call in new for number in find_number(call)}
            waiting += [part for each_part in parts for part in collectives.pop(each_part, ())]
    return passed


def list_collectives(plan: Plan) -> dict[str, list[Call]]:
    """The parts of collectives that are names, by the numbers of these."""
    found: dict[str, list[Call]] = collections.defaultdict(list)
    for call in plan.list_single():
        for number in find_number(call):
            found[number].append(call)
    return found


def find_number(call: Call) -> Iterable[str]:
    """The number of the collective of which a call is a part that is a name; none if it isn't."""
    read = OF_COLLECTIVE.fullmatch(call.about) if find_message(call) else None
    return [read[1]] if read else []
