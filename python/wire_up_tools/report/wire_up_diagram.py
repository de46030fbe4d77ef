"""The diagram of a plan without findings: who waits for whom, and where ranks wait for ever.

Ranks of one shape are one lane. Where the shapes are too many, `node_diagram` makes a lane of each
node.
"""
import collections
import dataclasses
import re
from collections.abc import Hashable, Mapping, Sequence
from dataclasses import dataclass

from wire_up_tools.plan import Call, Entry, Meeting, Plan, Rank, Series
from wire_up_tools.report.diagram import (
    LANES,
    ROWS,
    Diagram,
    Item,
    Lane,
    Link,
    Row,
    Style,
    label_call,
    leave_out_implied,
    make_bars,
    row_of,
    say_not_drawn,
)
from wire_up_tools.report.language import find_message, name_about, name_call
from wire_up_tools.report.node_diagram import make_node_diagram
from wire_up_tools.report.orders import Order
from wire_up_tools.report.replies import WaitingAt

ALIKE = "Ranks are alike if their calls are the same but for the ranks, numbers and values in them."
# How much a row matters where there are too many: one in which a rank waits, one with a fence,
# and then by the verbs of its calls.
OF_WAITING, OF_FENCE, OF_OTHERS = 4, 3, 2
OF_VERB = {"put": 0, "commit": 1}


@dataclass(frozen=True, eq=False)
class Bundle:
    """Calls of one verb beside each other in a rank, and how they are drawn."""

    calls: Sequence[Call]
    style: Style

    @property
    def last(self) -> Call:
        """The call at whose row it stands."""
        return self.calls[-1]

    @property
    def verb(self) -> str:
        """The verb of its calls."""
        return self.calls[0].verb

    @property
    def label(self) -> str:
        """What stands beside it."""
        return label_bundle(self.calls) + ": waits" * (self.style is Style.WAITING)


def make_wire_up_diagram(order: Order, waiting_at: WaitingAt) -> Diagram:
    """The diagram of a plan whose ranks wait for ever at these calls."""
    shapes = find_shapes(order, waiting_at)
    if len(shapes) > LANES:
        return make_node_diagram(order)
    lanes = {ranks[0].name: lane for lane, ranks in enumerate(shapes)}
    bundles = [
        bundle for ranks in shapes for bundle in find_bundles(order.plan, ranks[0], waiting_at)
    ]
    items = {bundle.last: make_item(order, bundle, lanes) for bundle in bundles if is_item(bundle)}
    meetings = find_reached(order.plan, lanes, waiting_at)
    diagram = Diagram(
        lanes=[describe_lane(ranks) for ranks in shapes],
        items=list(items.values()),
        bars=make_bars(order, lanes, meetings),
        arrows=make_arrows(order, items),
        notes=[ALIKE] if any(len(ranks) > 1 for ranks in shapes) else [],
    )
    return keep_rows(leave_out_implied(diagram))


# --- lanes: ranks of one shape ---


def find_shapes(order: Order, waiting_at: WaitingAt) -> list[list[Rank]]:
    """The ranks by their shapes and by where they wait, in the order of the first of each.

    Where some of a few ranks wait for others, but in fences, each stands alone, so that it is seen
    for whom.
    """
    plan = order.plan
    has_waits = any(number is not None for number in waiting_at.values())
    has_given = any(stop.awaited for stops in order.stops.values() for stop in stops)
    if len(plan.ranks) <= LANES and (has_waits or has_given):
        return [[each_rank] for each_rank in plan.ranks]
    found: dict[Hashable, list[Rank]] = {}
    for rank in plan.ranks:
        found.setdefault((find_shape(plan, rank), waiting_at[rank.name]), []).append(rank)
    return list(found.values())


@dataclass(frozen=True)
class Step:
    """What a call has alike with those of other ranks of one shape: of a fence, its meeting."""

    verb: str
    meeting: int | None
    key: str
    whose: str


def find_shape(plan: Plan, rank: Rank) -> Sequence[Step]:
    """The calls of a rank but for the ranks, numbers and values in them, each once in a row."""
    shape: list[Step] = []
    for entry in plan.list_outline(rank):
        step = find_step(plan, entry)
        if not shape or shape[-1] != step:
            shape.append(step)
    return tuple(shape)


def find_step(plan: Plan, entry: Entry) -> Step:
    """What a call, or a series of them, has alike with those of other ranks of its shape."""
    if isinstance(entry, Series):
        return Step(entry.verb, None, re.sub(r"\d+", "#", entry.about), "other")
    call, meeting = entry, plan.meeting_of.get(entry)
    key = "" if meeting else re.sub(r"\d+", "#", call.about)
    whose = call.target if call.verb == "put" else ""
    if call.verb in ("get", "get-now"):
        whose = "own" if call.target == call.rank.name else "other"
    return Step(call.verb, meeting.number if meeting else None, key, whose)


def describe_lane(ranks: Sequence[Rank]) -> Lane:
    """The lane of ranks of one shape."""
    first, others = ranks[0], len(ranks) - 1
    return Lane(first.name, f"and {others:,} like it" if others else f"on {first.node}")


# --- items: calls of one verb in a row ---


def find_bundles(plan: Plan, rank: Rank, waiting_at: WaitingAt) -> list[Bundle]:
    """The calls of a rank in bundles. Fences, and the call at which it waits, stand alone."""
    end = waiting_at[rank.name]
    found: list[list[Call]] = []
    for call in plan.calls_of[rank.name]:
        if found and is_bundled(found[-1][-1], call, end):
            found[-1].append(call)
        else:
            found.append([call])
    return [Bundle(calls, choose_style(calls[0], end)) for calls in found]


def is_bundled(before: Call, call: Call, end: int | None) -> bool:
    """Whether a call is of one bundle with that before it."""
    waits = end in (before.number, call.number)
    is_alike = call.verb == before.verb and call.verb != "fence"
    return is_alike and not waits and not (find_message(call) or find_message(before))


def choose_style(call: Call, end: int | None) -> Style:
    """How a call is drawn of a rank that waits for ever at this number, if at any."""
    if end is None or call.number < end:
        return Style.PLAIN
    return Style.WAITING if call.number == end else Style.UNREACHED


def label_bundle(calls: Sequence[Call]) -> str:
    """What stands beside calls of one verb."""
    if len(calls) == 1:
        return label_call(calls[0])
    keys = {call.about for call in calls}
    key = calls[0].about if len(keys) == 1 else ""
    named = name_call(calls[0]) if len(keys) == 1 else name_about(calls[0], key)
    return f"{calls[0].number}–{calls[-1].number} {named} ×{len(calls)}"


def is_item(bundle: Bundle) -> bool:
    """Whether it is drawn as an item: a fence is a bar, unless a rank waits there or before."""
    return bundle.verb != "fence" or bundle.style is not Style.PLAIN


def make_item(order: Order, bundle: Bundle, lanes: Mapping[str, int]) -> Item:
    """The item of a bundle, at the row of its last call."""
    return Item(
        lane=lanes[bundle.last.rank.name],
        row=row_of(order, bundle.last),
        label=bundle.label,
        line=bundle.calls[0].line,
        style=bundle.style,
        verb=bundle.verb,
        first=bundle.calls[0].number,
        last=bundle.last.number,
    )


def find_reached(plan: Plan, lanes: Mapping[str, int], waiting_at: WaitingAt) -> set[Meeting]:
    """The fences that ranks of the lanes leave."""
    calls = (call for name in lanes for call in plan.calls_of[name] if call in plan.meeting_of)
    styles = ((call, choose_style(call, waiting_at[call.rank.name])) for call in calls)
    return {plan.meeting_of[call] for call, style in styles if style is Style.PLAIN}


# --- arrows, and the rows that are kept ---


def make_arrows(order: Order, items: Mapping[Call, Item]) -> list[Link]:
    """Arrows from what is awaited, which may be one call of a bundle.

    What waits for ever may wait for what stands below it: else an arrow leads down.
    """
    item_of = find_items(order.plan, items)
    found: dict[Link, None] = {}
    for call, target in item_of.items():
        awaited = order.uses.find_awaited(call)
        if awaited in item_of:
            found[Link(item_of[awaited], target)] = None
    return sorted(filter(is_drawn, found), key=place_link)


def find_items(plan: Plan, items: Mapping[Call, Item]) -> dict[Call, Item]:
    """The item of each call up to the last that is drawn of its rank: itself, or the next."""
    found: dict[Call, Item] = {}
    done: collections.Counter[str] = collections.Counter()
    for last, item in items.items():
        start, end = done[last.rank.name], last.number
        found.update((call, item) for call in plan.calls_of[last.rank.name][start:end])
        done[last.rank.name] = end
    return found


def is_drawn(link: Link) -> bool:
    """Whether an arrow is drawn: it leads down, or to where a rank waits for ever."""
    leads_down = link.source.row < link.target.row and link.target.style is not Style.UNREACHED
    return leads_down or link.target.style is Style.WAITING


def place_link(link: Link) -> tuple[Row, Row, int, int]:
    """Where a link stands among others."""
    return link.source.row, link.target.row, link.source.lane, link.target.lane


def keep_rows(diagram: Diagram) -> Diagram:
    """Leaves out rows until there are no more than there is room for, and says how many."""
    weights = weigh_rows(diagram)
    kept = set(sorted(weights, key=lambda row: (-weights[row], row))[:ROWS])
    left_out = len(weights) - len(kept)
    return dataclasses.replace(
        diagram,
        items=[call for call in diagram.items if call.row in kept],
        bars=[bar for bar in diagram.bars if bar.row in kept],
        arrows=[arrow for arrow in diagram.arrows if {arrow.source.row, arrow.target.row} <= kept],
        notes=[*diagram.notes, *say_not_drawn(left_out, "row of calls", "rows of calls")],
    )


def weigh_rows(diagram: Diagram) -> dict[Row, int]:
    """How much each row matters: more than others, if it is kept before them."""
    weights = {bar.row: OF_FENCE for bar in diagram.bars}
    for item in diagram.items:
        weight = OF_VERB.get(item.verb, OF_OTHERS)
        weight = OF_WAITING if item.style is Style.WAITING else weight
        weights[item.row] = max(weights.get(item.row, 0), weight)
    return weights
