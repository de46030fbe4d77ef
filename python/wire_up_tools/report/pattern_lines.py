"""From which lines of a pattern the calls of one of its plans come.

The plan doesn't say how many ranks each group has, nor which turns of `for some` are taken. So
groups are given sizes until the lines of the pattern, with ranks in the place of roles, are those
of the plan.
"""
import itertools
from collections.abc import Iterator, Mapping, Sequence
from dataclasses import dataclass
from typing import Any

from wire_up_tools.plan import Call, Plan
from wire_up_tools.record.patterns.expanding import (
    Instance,
    Line,
    ReadLoop,
    ReadRole,
    read_pattern,
)
from wire_up_tools.record.patterns.scripts import ALL

# How many ways to give groups their sizes are tried.
MOST_WAYS = 2_000
# The line of the pattern from which each call of a plan comes.
Lines = Mapping[Call, int]
# What a call says, so that two of them can be compared: of a fence the set of its members.
Said = Sequence[Any]


@dataclass(frozen=True)
class Turn:
    """What a rank says in a row, with the numbers of the lines: one line, or those of one turn of a
    loop. A turn of `for some` may be left out."""

    said: Sequence[Said]
    numbers: Sequence[int]
    is_optional: bool = False


def find_lines(text: str, numbers: Sequence[int], plan: Plan) -> Lines:
    """From which line each call of a plan comes; nothing, where the plan isn't one of the pattern,
    or too many sizes of groups are possible. `numbers` are the lines of the calls in the file."""
    roles = read_pattern(text)
    ways = itertools.islice(list_sizes(roles, plan), MOST_WAYS)
    matched = (match_plan(roles, numbers, Instance(roles, table), plan) for table in ways)
    return next((each_plan for each_plan in matched if each_plan), {})


def list_sizes(roles: Sequence[ReadRole], plan: Plan) -> Iterator[Mapping[str, int]]:
    """The ways to give groups their sizes, by the ranks that each job of a plan has."""
    jobs = list(dict.fromkeys(role.job for role in roles))
    of_jobs = [list(share_out(roles, job, plan)) for job in jobs]
    for chosen in itertools.product(*of_jobs):
        yield {name: size for sizes in chosen for name, size in sizes.items()}


def share_out(roles: Sequence[ReadRole], job: str, plan: Plan) -> Iterator[Mapping[str, int]]:
    """The ways to give the groups of one job all its ranks that aren't of single roles."""
    of_job = [role for role in roles if role.job == job]
    groups = [read_role.name for read_role in of_job if read_role.is_group]
    count = sum(rank.job == job for rank in plan.ranks) - len(of_job) + len(groups)
    ways = itertools.product(range(count + 1), repeat=max(len(groups) - 1, 0))
    for some in itertools.islice(ways, MOST_WAYS):
        sizes = [*some, count - sum(some)] if groups else []
        if min(sizes, default=count) >= 0 and sum(sizes) == count:
            yield dict(zip(groups, sizes))


def match_plan(
    roles: Sequence[ReadRole], numbers: Sequence[int], instance: Instance, plan: Plan
) -> Lines:
    """The lines of the calls of a plan, if it is this instance; nothing if it is another."""
    found: dict[Call, int] = {}
    left = iter(numbers)
    for role in roles:
        own = [list(itertools.islice(left, len(list_lines(item)))) for item in role.items]
        for rank in instance.ranks[role.name]:
            calls = plan.calls_of[rank]
            parts = (list_turns(instance, rank, *pair) for pair in zip(role.items, own))
            said = [say_planned(instance, call) for call in calls]
            lines = match_turns([turn for part in parts for turn in part], said)
            if lines is None:
                return {}
            found.update(zip(calls, lines))
    return found


def list_lines(item: Line | ReadLoop) -> Sequence[Line]:
    """The lines of a loop, or of what is none."""
    return item.lines if isinstance(item, ReadLoop) else [item]


def list_turns(
    instance: Instance, rank: str, item: Line | ReadLoop, numbers: Sequence[int]
) -> list[Turn]:
    """What a rank says of a line, or in the turns of a loop."""
    if not isinstance(item, ReadLoop):
        return [Turn([say(instance, rank, item)], numbers)]
    return [
        Turn([say(instance, rank, line, each) for line in item.lines], numbers, item.is_some)
        for each in instance.find_turns(item, rank, None)
    ]


def match_turns(turns: Sequence[Turn], said: Sequence[Said]) -> list[int] | None:
    """The numbers of the lines of what a rank says, if it takes these turns one after another, but
    for some that may be left out; None if it doesn't."""
    ways: dict[int, list[int]] = {0: []}
    for turn in turns:
        after: dict[int, list[int]] = {}
        for at, numbers in ways.items():
            end = at + len(turn.said)
            if list(turn.said) == list(said[at:end]):
                after.setdefault(end, [*numbers, *turn.numbers])
            if turn.is_optional:
                after.setdefault(at, numbers)
        ways = after
    return ways.get(len(said))


def say(instance: Instance, rank: str, line: Line, each: str | None = None) -> Said:
    """What a line of a pattern says for a rank, in the turn for another."""
    if line[0] == "fence":
        return [line[0], instance.find_members(line[1], rank, each), *line[2:]]
    return instance.expand_line(line, rank, each)


def say_planned(instance: Instance, call: Call) -> Said:
    """What a call of a plan says."""
    if call.verb != "fence":
        return list(call.words)
    members = set[str]()
    for part in call.target.split(","):
        job = call.rank.job if part == ALL else part.removesuffix(":*")
        is_job = part == ALL or part.endswith(":*")
        members.update(instance.of_job.get(job, ()) if is_job else [part])
    return [call.verb, members, *call.words[2:]]
