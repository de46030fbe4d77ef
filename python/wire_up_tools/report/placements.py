"""What is found on other placements of the ranks, as `wire_up check --anywhere` tells it.

An older checker can't tell it: then nothing is said of other placements.
"""
import contextlib
import dataclasses
import itertools
from collections.abc import Iterable, Mapping, Sequence
from dataclasses import dataclass

from wire_up_tools.failures import Refused
from wire_up_tools.plan import Plan
from wire_up_tools.plan_reading import read_plan
from wire_up_tools.report.asking import CLEAN, Asker, NotTaken, stream_lines
from wire_up_tools.report.causes import Cause, find_causes
from wire_up_tools.report.diagram import Diagram, Lane
from wire_up_tools.report.findings import PAIRED, Finding, read_line, tally_up
from wire_up_tools.report.orders import Order
from wire_up_tools.report.race_diagram import make_race_diagram
from wire_up_tools.report.runs import Runs, Search, find_runs

ANYWHERE, PLACE = "--anywhere", "place"
# How many causes are drawn on their placements.
DRAWN = 8
# How many words a race on a key has, and the same with the two ranks that share a node.
KEY_RACE, PLACED_RACE = 8, 10


@dataclass(frozen=True, eq=False)
class Placed:
    """A cause on a placement that gives two ranks a node of their own: which, its diagram there,
    and the two runs that show it there."""

    cause: Cause
    ranks: Sequence[str]
    diagram: Diagram
    runs: Runs


@dataclass(frozen=True, eq=False)
class Elsewhere:
    """What is found on other placements only: its causes, of which the first are drawn. `fault` is
    what the checker said if it couldn't tell."""

    causes: Sequence[Cause] = ()
    placed: Sequence[Placed] = ()
    fault: str | None = None


def find_elsewhere(search: Search, order: Order, written: Iterable[Cause]) -> Elsewhere | None:
    """What is found on other placements only; None if the checker can't tell.

    Raises Refused if the checker can't be run, or writes lines of another form.
    """
    asker = search.asker
    try:
        with contextlib.closing(stream_lines(asker, "check", ANYWHERE)) as lines:
            said = list(itertools.islice(lines, PAIRED))
    except NotTaken:
        return None
    except Refused as why:
        return Elsewhere(fault=f"{why}")
    try:
        found = read_placed(order.plan, said)
    except (ValueError, LookupError):
        raise asker.refuse("finding") from None
    known = {group.first.mistake for cause in written for group in cause.groups}
    tallies = tally_up(found).items()
    groups = [tally.close(tally.count) for mistake, tally in tallies if mistake not in known]
    causes = find_causes(groups)
    placed = [
        find_placed(search, order, each_cause, found[each_cause.first])
        for each_cause in causes[:DRAWN]
    ]
    return Elsewhere(causes, [each_placed for each_placed in placed if each_placed])


def read_placed(plan: Plan, said: Iterable[str]) -> Mapping[Finding, Sequence[str]]:
    """The findings of lines, each with the two ranks that share a node where it is found."""
    found: dict[Finding, Sequence[str]] = {}
    for line in said:
        words = line.split(" ")
        is_placed = len(words) == PLACED_RACE and words[KEY_RACE] == "on"
        ranks = words[-1].split(",") if is_placed else []
        if words[0] != "findings":
            found[read_line(plan, " ".join(words[:KEY_RACE]))] = ranks
    return found


def find_placed(
    search: Search, order: Order, cause: Cause, ranks: Sequence[str]
) -> Placed | None:
    """A cause on its placement; None where the checker doesn't write that."""
    if not ranks or search.is_late:
        return None
    written = search.asker.ask(PLACE, ",".join(ranks))
    if written.status != CLEAN:
        return None
    asker = dataclasses.replace(search.asker, data=written.stdout.encode())
    there = dataclasses.replace(search, asker=asker)
    diagram = make_race_diagram(cause.first, there, order)
    node_of = find_nodes(asker)
    lanes = [Lane(lane.name, f"on {node_of[lane.name]}") for lane in diagram.lanes]
    runs = find_runs(there, cause.first)
    return Placed(cause, ranks, dataclasses.replace(diagram, lanes=lanes), runs)


def find_nodes(asker: Asker) -> Mapping[str, str]:
    """The node of each rank of a plan, by the rank's name."""
    return {rank.name: rank.node for rank in read_plan(asker.data).ranks}
