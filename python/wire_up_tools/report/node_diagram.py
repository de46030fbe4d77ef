"""The diagram of a plan with ranks of many shapes: a lane is a node.

An item says how many calls of each verb the ranks of a node make between two fences.
"""
import bisect
import collections
from collections.abc import Sequence

from wire_up_tools.plan import Call, Entry, Meeting, Series
from wire_up_tools.report.diagram import (
    LANES,
    Bar,
    Diagram,
    Item,
    Lane,
    Mark,
    Part,
    Row,
    row_of_meeting,
    say_not_drawn,
)
from wire_up_tools.report.language import name_kind
from wire_up_tools.report.orders import Order
from wire_up_tools.report.phrases import count_of

# How many fences are shown, from the first and up to the last.
FIRST_FENCES, LAST_FENCES = 4, 4
# The row of what stands above all fences.
TOP = Row(-1, Part.CALL)


def make_node_diagram(order: Order) -> Diagram:
    """The diagram of the nodes of a plan."""
    ranks_on = collections.Counter(rank.node for rank in order.plan.ranks)
    nodes = [each_node for each_node in order.plan.declared.nodes if each_node in ranks_on]
    drawn = nodes[: LANES - (len(nodes) > LANES)]
    lanes = {node: lane for lane, node in enumerate(drawn)}
    whole = [meeting for meeting in order.plan.meetings if meeting.is_whole]
    whole.sort(key=lambda part: row_of_meeting(order, part))
    later = whole[FIRST_FENCES:]
    kept = whole[:FIRST_FENCES] + later[-LAST_FENCES:]
    left_out = len(whole) - len(kept)
    note = f"{count_of(left_out, 'fence')} in the middle left out."
    return Diagram(
        lanes=[Lane(each_node, count_of(ranks_on[each_node], "rank")) for each_node in drawn],
        items=make_items(order, lanes, [row_of_meeting(order, part) for part in kept]),
        bars=[make_bar(order, lanes, part) for part in kept],
        notes=[*say_not_drawn(len(nodes) - len(drawn), "other node"), *[note] * bool(left_out)],
    )


def make_items(order: Order, lanes: dict[str, int], fences: Sequence[Row]) -> list[Item]:
    """How many calls of each verb the ranks of each lane make, by the last fence above them."""
    depths = [row.depth for row in fences]
    verbs: dict[tuple[int, int], collections.Counter[str]] = {}
    entries = (call for rank in order.plan.ranks for call in order.plan.list_outline(rank))
    for entry in entries:
        if entry.verb != "fence" and entry.rank.node in lanes:
            first, count = find_first(entry)
            above = bisect.bisect_right(depths, order.depth_of(first))
            at = (lanes[entry.rank.node], above)
            verbs.setdefault(at, collections.Counter())[name_kind(first)] += count
    return [
        Item(lane, Row(depths[above - 1], Part.BETWEEN) if above else TOP, list_verbs(count))
        for (lane, above), count in verbs.items()
    ]


def find_first(entry: Entry) -> tuple[Call, int]:
    """The first call of an entry, and how many it has."""
    if isinstance(entry, Series):
        return entry.find_call(entry.first), entry.count
    return entry, 1


def list_verbs(count: "collections.Counter[str]") -> str:
    """How many calls of each verb there are, the most frequent first."""
    return ", ".join(f"{many} {verb}" for verb, many in count.most_common())


def make_bar(order: Order, lanes: dict[str, int], meeting: Meeting) -> Bar:
    """The bar of a fence, which says of each lane how many calls meet there."""
    count = collections.Counter(call.rank.node for call in meeting.calls if call.rank.node in lanes)
    verb = name_kind(meeting.calls[0]) + " collect" * all(call.collects for call in meeting.calls)
    marks = {lanes[node]: Mark(f"{many} {verb}") for node, many in count.items()}
    return Bar(row_of_meeting(order, meeting), marks)
