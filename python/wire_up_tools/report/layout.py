"""Where everything of a diagram stands in its picture, in pixels."""
import itertools
from collections.abc import Iterator, Mapping, Sequence
from dataclasses import dataclass

from wire_up_tools.report.diagram import LABEL_WIDTH, Bar, Diagram, Item, Row
from wire_up_tools.report.phrases import count_of, cut, cut_middle

# The width of a character of a label, what stands at the left of the first lane, and what stands
# between the labels of a lane and the next.
CHARACTER, SIDE, LANE_GAP = 7.3, 16, 36
# The height of the lanes' names, of a row, of a row with a fence, and of a text below a row.
HEAD_HEIGHT, ROW_HEIGHT, BAR_HEIGHT, GAP_HEIGHT = 52, 40, 48, 18
# From a lane to the names above it, and to the labels of calls and of fences.
NAME_LEFT, LABEL_RIGHT, MARK_RIGHT = 6, 11, 9
# How far down the names of a lane stand, and what is said below them.
NAME_DOWN, NODE_DOWN = 18, 34
# How far below the middle of a row a label stands: of a call, above and below a line that leads
# from it to the right, of a fence, and of what isn't drawn below the row.
BESIDE, ABOVE, BELOW, ON_BAR, IN_GAP = 4, -6, 14, -8, 33
# The kinds of the labels above a lane: its name, and what stands below that.
OF_LANE = ("lane-name", "lane-node")
# Between a label and what stands next in its row.
MARGIN = 16
# How far a label reaches above and below where it stands.
ASCENT, DESCENT = 12, 3


@dataclass(frozen=True)
class Gap:
    """How many calls of a lane aren't drawn below a row."""

    lane: int
    row: Row
    missing: int

    @property
    def label(self) -> str:
        """What is said of them."""
        return f"… {count_of(self.missing, 'call')}"


@dataclass(frozen=True)
class Point:
    """A point of the picture, from its upper left corner."""

    x: float
    y: float


@dataclass(frozen=True)
class Box:
    """A part of the picture, from its upper left corner to its lower right one."""

    start: Point
    end: Point


@dataclass(frozen=True)
class Label:
    """A text of one line: its kind, where it begins, how many characters it has room for, and the
    line of the plan to which it leads."""

    text: str
    kind: str
    at: Point
    room: int
    line: int | None = None

    @property
    def shown(self) -> str:
        """As much of the text as there is room for: of a name of a lane both ends."""
        shorten = cut_middle if self.kind in OF_LANE else cut
        return shorten(self.text, self.room)

    @property
    def box(self) -> Box:
        """The part of the picture that it takes."""
        right = self.at.x + len(self.shown) * CHARACTER
        return Box(Point(self.at.x, self.at.y - ASCENT), Point(right, self.at.y + DESCENT))


@dataclass(frozen=True)
class Layout:
    """Where the lanes and rows of a diagram stand, and what isn't drawn between."""

    diagram: Diagram
    gaps: Sequence[Gap]
    lanes: Sequence[float]
    rows: Mapping[Row, float]
    width: float
    height: float

    def find_point(self, item: Item) -> Point:
        """The middle of an item."""
        return Point(self.lanes[item.lane], self.rows[item.row])


def lay_out(diagram: Diagram) -> Layout:
    """Finds where everything stands."""
    gaps = find_gaps(diagram)
    widths = [measure_lane(diagram, lane, gaps) for lane in range(len(diagram.lanes))]
    lanes = list(itertools.accumulate(widths, initial=SIDE))
    rows, bottom = place_rows(diagram, gaps)
    return Layout(diagram, gaps, lanes[:-1], rows, lanes[-1], bottom + ROW_HEIGHT / 2)


def find_gaps(diagram: Diagram) -> list[Gap]:
    """What isn't drawn between two calls of a lane."""
    found = []
    for lane in range(len(diagram.lanes)):
        spots = diagram.list_spots(lane)
        for above, below in zip(spots, spots[1:]):
            missing = below.first - above.last - 1
            if above.last and missing > 0:
                found.append(Gap(lane, above.row, missing))
    return found


def measure_lane(diagram: Diagram, lane: int, gaps: Sequence[Gap]) -> float:
    """How wide a lane is: there is room for what stands beside it."""
    texts = [diagram.lanes[lane].name, diagram.lanes[lane].below]
    texts += [item.label for item in diagram.items if item.lane == lane]
    texts += [bar.marks[lane].label for bar in diagram.bars if lane in bar.marks]
    texts += [gap.label for gap in gaps if gap.lane == lane]
    return max(len(cut(text, LABEL_WIDTH)) for text in texts) * CHARACTER + LANE_GAP


def place_rows(diagram: Diagram, gaps: Sequence[Gap]) -> tuple[dict[Row, float], float]:
    """The middle of each row, and where the last ends."""
    with_bars = {bar.row for bar in diagram.bars}
    with_gaps = {gap.row for gap in gaps}
    rows, y = {}, HEAD_HEIGHT
    for row in diagram.rows:
        y += BAR_HEIGHT if row in with_bars else ROW_HEIGHT
        rows[row] = y - ROW_HEIGHT / 2
        y += GAP_HEIGHT if row in with_gaps else 0
    return rows, y


# --- labels ---


def list_labels(layout: Layout) -> Iterator[Label]:
    """All labels of the picture."""
    diagram = layout.diagram
    for lane in range(len(diagram.lanes)):
        yield from label_lane(layout, lane)
    for bar in diagram.bars:
        yield from (label_mark(layout, bar, lane) for lane in bar.marks)
    yield from (label_gap(layout, gap) for gap in layout.gaps)
    yield from (label_item(layout, item) for item in diagram.items)


def label_lane(layout: Layout, lane: int) -> list[Label]:
    """The name of a lane, and what stands below it."""
    names, x = layout.diagram.lanes[lane], layout.lanes[lane] - NAME_LEFT
    room = find_room(layout, x, lane)
    return [
        Label(names.name, OF_LANE[0], Point(x, NAME_DOWN), room),
        Label(names.below, OF_LANE[1], Point(x, NODE_DOWN), room),
    ]


def label_mark(layout: Layout, bar: Bar, lane: int) -> Label:
    """What stands above a fence in a lane."""
    at = Point(layout.lanes[lane] + MARK_RIGHT, layout.rows[bar.row] + ON_BAR)
    mark, room = bar.marks[lane], find_room(layout, at.x, lane, bar.row)
    return Label(mark.label, "call", at, room, mark.line)


def label_gap(layout: Layout, gap: Gap) -> Label:
    """What is said of calls that aren't drawn."""
    at = Point(layout.lanes[gap.lane] + LABEL_RIGHT, layout.rows[gap.row] + IN_GAP)
    return Label(gap.label, "gap", at, find_room(layout, at.x, gap.lane))


def label_item(layout: Layout, item: Item) -> Label:
    """What stands beside a call."""
    at = layout.find_point(item)
    at = Point(at.x + LABEL_RIGHT, at.y + choose_side(layout, item))
    room = find_room(layout, at.x, item.lane, item.row)
    return Label(item.label, f"call {item.style.value}", at, room, item.line)


def choose_side(layout: Layout, item: Item) -> int:
    """How far below the middle of an item its label stands: aside of a line to the right."""
    links = layout.diagram.links
    others = [link.target for link in links if link.source is item]
    others += [link.source for link in links if link.target is item]
    right = [each_item for each_item in others if each_item.lane > item.lane]
    if not right:
        return BESIDE
    leads_down = any(layout.rows[each_item.row] > layout.rows[item.row] for each_item in right)
    return ABOVE if leads_down else BELOW


def find_room(layout: Layout, x: float, lane: int, row: Row | None = None) -> int:
    """How many characters a label has that begins there in a lane: up to what stands next in its
    row, or to the edge. What stands in no row has room up to the next lane."""
    diagram, beside = layout.diagram, set(range(len(layout.lanes)))
    if row is not None:
        items = {item.lane for item in diagram.items if item.row == row}
        beside = items.union(*(bar.marks for bar in diagram.bars if bar.row == row))
    right = [layout.lanes[item] for item in beside if item > lane]
    edge = min(right) - MARGIN if right else layout.width - NAME_LEFT
    return max(LABEL_WIDTH, int((edge - x) / CHARACTER))
