"""Who reads a key that is put again."""
import itertools
from collections.abc import Iterator, Sequence
from dataclasses import dataclass

from wire_up_tools.plan import Call, Plan, Series
from wire_up_tools.report.findings import Finding, Kind
from wire_up_tools.report.orders import START, Order
from wire_up_tools.report.phrases import name_all, pick
from wire_up_tools.report.places import name_shown

# How many gets of a key are looked at, and how many are told.
MOST, TOLD = 40, 3


@dataclass(frozen=True)
class Readers:
    """The gets of other ranks of a key that is put again: those that no chain orders with the
    second commit, which may give either value, and the others."""

    either: Sequence[Call]
    others: Sequence[Call]

    @property
    def calls(self) -> Sequence[Call]:
        """All, those first that may give either value."""
        return [*self.either, *self.others]


def find_readers(order: Order, finding: Finding) -> Readers:
    """Who reads the key of a finding that is put again."""
    owner = finding.owner or ""
    gets = (call for call in list_gets(order.plan, owner, finding.about) if call.rank.name != owner)
    calls = list(itertools.islice(gets, MOST))
    one, other = (order.uses.find_commit(call) for call in finding.calls)
    if not other or one is other:
        return Readers([], calls)
    earlier = order.find_earlier(other)
    later = [call for call in calls if earlier.get(call.rank, START).number < call.number]
    either = [call for call in later if not order.is_before(other, call)]
    return Readers(either, [call for call in calls if call not in either])


def list_gets(plan: Plan, owner: str, key: str) -> Iterator[Call]:
    """The gets of a key, in the order of the file."""
    for rank in plan.ranks:
        for entry in plan.list_outline(rank):
            if entry.verb not in ("get", "get-now") or entry.about != key:
                continue
            calls = entry.list_calls() if isinstance(entry, Series) else [entry]
            yield from (call for call in calls if call.target == owner)


def list_told(order: Order, finding: Finding) -> Sequence[Call]:
    """The calls of a finding, and of a key that is put again the gets that tell most."""
    if finding.kind is not Kind.REWRITE:
        return finding.calls
    readers = find_readers(order, finding)
    return [*finding.calls, *(readers.either or readers.others)[:TOLD]]


def say_readers(plan: Plan, readers: Readers) -> str:
    """Who reads the key and where, and whether the get may give either value."""
    if not readers.calls:
        return "No other rank gets it in this plan."
    if not readers.either:
        return f"{say_who(plan, readers.others)}, always before or always after that."
    which = pick(len(readers.either), "this get", "each of these gets")
    return (
        f"{say_who(plan, readers.either)}, and nothing orders that with this commit: "
        f"{which} may give either value."
    )


def say_who(plan: Plan, calls: Sequence[Call]) -> str:
    """Which ranks get the key, and where in the program."""
    spots = list(dict.fromkeys(name_shown(plan, call) for call in calls if call.place))
    where = f" at {name_all(spots)}" if spots else ""
    is_one = len({call.rank for call in calls})
    return f"{name_readers(calls)} {pick(is_one, 'gets', 'get')} it{where}"


def name_readers(calls: Sequence[Call]) -> str:
    """The ranks that make some calls."""
    return name_all(list(dict.fromkeys(call.rank.name for call in calls)))
