"""The diagram of a finding: its two calls, and what stands near them."""
import itertools
from collections.abc import Iterator, Mapping, Sequence

from wire_up_tools.plan import Call, Plan, Rank
from wire_up_tools.report.chains import find_chain
from wire_up_tools.report.diagram import (
    LANES,
    ROWS,
    Diagram,
    Item,
    Lane,
    Link,
    Style,
    label_call,
    leave_out_implied,
    make_bars,
    row_of,
    say_not_drawn,
)
from wire_up_tools.report.findings import Finding, Kind
from wire_up_tools.report.language import name_kind
from wire_up_tools.report.messages import find_late
from wire_up_tools.report.orders import Order
from wire_up_tools.report.readers import find_readers
from wire_up_tools.report.runs import Search

# How many calls of a chain are shown, those next to its end.
CHAIN = 6
# How many calls before a call of the finding are shown, and how many after it.
BEFORE, AFTER = 2, 1
# How many gets are shown of a key that is put again, and how many publishes of a name.
READERS, PUBLISHES = 2, 2


def make_race_diagram(finding: Finding, search: Search, order: Order) -> Diagram:
    """The diagram of a finding."""
    calls = choose_fitting(list_calls(finding, search, order))
    ranks = sorted({call.rank for call in calls}, key=lambda rank: rank.index)
    lanes = {rank.name: lane for lane, rank in enumerate(ranks)}
    items = make_items(finding, order, calls, lanes)
    race = Link(items[finding.first], items[finding.second])
    meetings = {order.plan.meeting_of[call] for call in calls if call in order.plan.meeting_of}
    diagram = Diagram(
        lanes=[Lane(each_rank.name, f"on {each_rank.node}") for each_rank in ranks],
        items=list(items.values()),
        bars=make_bars(order, lanes, meetings),
        arrows=make_arrows(order, items),
        race=None if finding.kind is Kind.REWRITE else race,
        notes=say_not_drawn(len(order.plan.ranks) - len(ranks), "other rank"),
    )
    return leave_out_implied(diagram)


def list_calls(finding: Finding, search: Search, order: Order) -> list[Call]:
    """The calls to show, those first that matter most."""
    if finding.kind is Kind.REWRITE:
        found = [*finding.calls, *list_around_rewrite(finding, order)]
    else:
        found = [*finding.calls, *list_around_race(finding, search, order)]
    return list(dict.fromkeys([*found, *list_near(finding, order.plan)]))


def list_near(finding: Finding, plan: Plan) -> Iterator[Call]:
    """The calls of a finding, with those right before and after them."""
    for call in finding.calls:
        start, end = max(call.number - BEFORE - 1, 0), call.number + AFTER
        yield from plan.calls_of[call.rank.name][start:end]


def list_around_race(finding: Finding, search: Search, order: Order) -> list[Call]:
    """What brings what a race is about, the message that comes too late to order its calls, and the
    chains that lead to them."""
    found: list[Call] = []
    if finding.kind is Kind.KEY:
        found += list_around_key(finding, order)
    else:
        found += order.uses.publishes.get(finding.about, ())[:PUBLISHES]
    late = find_late(order, finding)
    found += late.calls if late else []
    found += list_chain(search, order, finding.first, finding.second)
    return [*found, *list_chain(search, order, finding.second, finding.first)]


def list_around_rewrite(finding: Finding, order: Order) -> list[Call]:
    """The commits after two puts of one key, and the first gets of it: first those that may give
    either value."""
    commits = [order.uses.find_commit(call) for call in finding.calls]
    gets = find_readers(order, finding).calls[:READERS]
    return [*(commit for commit in commits if commit), *gets]


def list_around_key(finding: Finding, order: Order) -> list[Call]:
    """The put of the key with its commit, and of a fence that brings it the call by a rank of the
    reader's node."""
    puts = order.uses.puts.get((finding.owner or "", finding.about), ())
    fence, reader = finding.calls
    if fence.verb != "fence":
        fence, reader = reader, fence
    meeting = order.plan.meeting_of.get(fence)
    calls = meeting.calls if meeting else ()
    commits = [commit for commit in map(order.uses.find_commit, puts[:1]) if commit]
    near = [call for call in calls if call.rank.node == reader.rank.node]
    return [*puts[:1], *commits, *near[:1]]


def list_chain(search: Search, order: Order, first: Call, second: Call) -> Sequence[Call]:
    """The chain, from its end, to a call from the last call of the other's rank before it."""
    nearest = None if search.is_late else order.find_nearest(first.rank, second)
    chain = find_chain(search.asker, order.plan, nearest, second) if nearest else ()
    return list(itertools.islice(reversed(chain), CHAIN))


def choose_fitting(calls: Sequence[Call]) -> list[Call]:
    """As many of the calls as there is room for, those first that stand first."""
    kept: list[Call] = []
    ranks: set[Rank] = set()
    for call in calls:
        has_lane = call.rank in ranks or len(ranks) < LANES
        if has_lane and len(kept) < ROWS - 2:
            ranks.add(call.rank)
            kept.append(call)
    return kept


def make_items(
    finding: Finding, order: Order, calls: Sequence[Call], lanes: Mapping[str, int]
) -> dict[Call, Item]:
    """The items of the calls but for fences, which are bars, unless they are of the finding."""
    return {
        call: Item(
            lane=lanes[call.rank.name],
            row=row_of(order, call),
            label=label_item(call),
            line=call.line,
            style=Style.RACING if call in finding.calls else Style.PLAIN,
            verb=call.verb,
            first=call.number,
            last=call.number,
        )
        for call in calls
        if call.verb != "fence" or call in finding.calls
    }


def label_item(call: Call) -> str:
    """What stands beside a call; a fence of the finding is drawn as the arrival at it."""
    is_fence = call.verb == "fence"
    return f"{call.number} {name_kind(call)}: comes" if is_fence else label_call(call)


def make_arrows(order: Order, items: Mapping[Call, Item]) -> list[Link]:
    """The arrows to calls from those for which they wait."""
    awaited = ((each_call, order.uses.find_awaited(each_call)) for each_call in items)
    return [
        Link(items[each_call], items[call])
        for call, each_call in awaited
        if each_call and each_call in items
    ]
