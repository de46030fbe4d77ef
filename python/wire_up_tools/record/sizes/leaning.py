"""Leaves out of a plan what can't change a finding, whatever the library of MPI calls besides."""
from collections import Counter
from collections.abc import Mapping, Sequence
from dataclasses import replace

from wire_up_tools.record.sizes.knowing import find_known
from wire_up_tools.record.sizes.plans import Call, SizedPlan

# The owner of a key, and the key.
Owned = tuple[str, str]


def find_commits(plan: SizedPlan) -> Mapping[Owned, int]:
    """After how many calls of the program the commit is over that hands over a key first."""
    found: dict[Owned, int] = {}
    for rank in plan.ranks:
        waiting = list[str]()
        for number, call in enumerate(plan.list_program(rank), 1):
            if call.verb == "put":
                waiting.append(call.words[2])
            elif call.verb == "commit":
                for key in waiting:
                    found.setdefault((rank, key), number)
                waiting = []
    return found


def find_settled(plan: SizedPlan) -> set[Call]:
    """The gets that wait for what calls of the program have settled before."""
    known, commits = find_known(plan, False), find_commits(plan)
    found = set[Call]()
    for rank in plan.ranks:
        for call, counts in zip(plan.list_program(rank), known[rank]):
            if call.verb != "get" or call.words[1] == rank:
                continue
            committed = commits.get((call.words[1], call.words[2]))
            if committed is not None and counts.get(call.words[1], 0) >= committed:
                found.add(call)
    return found


def find_unread(plan: SizedPlan, gone: set[Call], of_any: bool) -> set[Call]:
    """The puts of keys that a rank puts once and no get is left of, `of_any` rank or of this one;
    and the commits that hand over nothing then."""
    asking = ("get", "get-now")
    read = {
        (owner, call.words[2])
        for call in plan.list_all() if call.verb in asking and call not in gone
        for owner in (plan.ranks if of_any else [call.words[1]])
    }
    found = set[Call]()
    for rank in plan.ranks:
        calls, hands_over = plan.list_program(rank), False
        puts = Counter(call.words[2] for call in calls if call.verb == "put")
        for call in calls:
            if call.verb == "put":
                key = call.words[2]
                if puts[key] == 1 and (rank, key) not in read:
                    found.add(call)
                else:
                    hands_over = True
            elif call.verb == "commit":
                found.update([] if hands_over else [call])
                hands_over = False
    return found


def make_lean(plan: SizedPlan, of_any: bool = False) -> SizedPlan:
    """A plan without gets that are settled, and without what nobody gets then, `of_any` rank or of
    its own. Fences collect only where a call gets at once."""
    gone = find_settled(plan)
    gone |= find_unread(plan, gone, of_any)
    collects = any(call.verb == "get-now" for call in plan.list_all())

    def leave(_: str, calls: Sequence[Call]) -> Sequence[Call]:
        kept = [call for call in calls if call not in gone]
        return kept if collects else [
            replace(call, words=call.words[:2]) if call.collects else call for call in kept
        ]

    return plan.change(leave)


def keep_whole_fences(plan: SizedPlan) -> SizedPlan:
    """A plan in which, of the order of MPI, only fences of all ranks are left."""
    return plan.change(lambda _, calls: [
        call for call in calls
        if not call.is_order
        or call.verb == "fence" and len(plan.find_members(call.words[1])) == plan.size
    ])


def find_meetings(plan: SizedPlan) -> Sequence[Sequence[Call]]:
    """The calls of each fence, as a plan matches them: of a set the first of each rank, the second
    of each, and so on, whether the program made them or they stand for MPI."""
    meetings: dict[tuple[tuple[str, ...], int], list[Call]] = {}
    for calls in plan.calls.values():
        count = Counter[tuple[str, ...]]()
        for call in calls:
            if call.verb == "fence":
                members = tuple(plan.find_members(call.words[1]))
                count[members] += 1
                meetings.setdefault((members, count[members]), []).append(call)
    return list(meetings.values())


def mark_as_order(plan: SizedPlan, marks: Mapping[Call, bool]) -> SizedPlan:
    """A plan in which some calls stand for order alone, or no longer do."""
    return plan.change(lambda _, calls: [
        replace(call, is_order=marks[call]) if call in marks else call for call in calls
    ])


def part_fences(plan: SizedPlan) -> SizedPlan:
    """A plan of which each fence can be left out whole. Where calls of the program and of MPI meet
    in one, all of them stand for order, if none collects, or else all for the program."""
    mixed = [
        meeting for meeting in find_meetings(plan)
        if len({call.is_order for call in meeting}) > 1
    ]
    return mark_as_order(plan, {
        call: not any(other.collects for other in them) for them in mixed for call in them
    })


def take_fences_as_order(plan: SizedPlan) -> SizedPlan:
    """A plan in which fences stand for order alone, where they bring nothing that a call could get
    at once."""
    bare = [
        meeting for meeting in find_meetings(plan)
        if not any(call.collects for call in meeting)
    ]
    return mark_as_order(plan, {call: True for them in bare for call in them})


def find_parts(plan: SizedPlan) -> Sequence[Sequence[Call]]:
    """The calls of each fence that isn't one of all ranks."""
    return [
        meeting for meeting in find_meetings(plan)
        if len(plan.find_members(meeting[0].words[1])) < plan.size
    ]


def leave_parts_out(plan: SizedPlan) -> SizedPlan:
    """A plan in which all fences but those of all ranks stand for order alone, whatever they
    bring."""
    return mark_as_order(plan, {call: True for them in find_parts(plan) for call in them})


def collects_in_parts(plan: SizedPlan) -> bool:
    """Whether a fence that isn't one of all ranks collects."""
    return any(call.collects for them in find_parts(plan) for call in them)
