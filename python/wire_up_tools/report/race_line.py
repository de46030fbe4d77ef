"""The line between two calls that race: it goes over no label and no other call.

It is straight where that is possible. Else it leaves a call along its lane, turns at the edge of
the row, and goes on between the labels of two lanes.
"""
from collections.abc import Iterator, Sequence

from wire_up_tools.report.diagram import Link
from wire_up_tools.report.layout import ROW_HEIGHT, Box, Layout, Point, list_labels

# What the line keeps free around a label and around a call, and how far left of a lane it goes.
AROUND_LABEL, AROUND_CALL, LEFT = 2, 8, 12
EDGE = ROW_HEIGHT / 2

Way = Sequence[Point]


def find_race_line(layout: Layout, race: Link) -> Way:
    """The corners of the line of a race, with its ends."""
    taken = list_taken(layout, race)
    ways = list(list_ways(layout, race))
    return next((way for way in ways if is_free(way, taken)), ways[0])


def list_taken(layout: Layout, race: Link) -> list[Box]:
    """What the line must not go over: labels, and the marks of other calls."""
    diagram = layout.diagram
    others = [item for item in diagram.items if item not in (race.source, race.target)]
    marks = [layout.find_point(item) for item in others]
    for bar in diagram.bars:
        marks += [Point(layout.lanes[lane], layout.rows[bar.row]) for lane in bar.marks]
    calls = [widen(Box(mark, mark), AROUND_CALL) for mark in marks]
    return calls + [widen(label.box, AROUND_LABEL) for label in list_labels(layout)]


def widen(box: Box, by: float) -> Box:
    """A part of the picture with what is around it."""
    start, end = box.start, box.end
    return Box(Point(start.x - by, start.y - by), Point(end.x + by, end.y + by))


def list_ways(layout: Layout, race: Link) -> Iterator[Way]:
    """The ways from one call to the other, the plainest first."""
    one, other = layout.find_point(race.source), layout.find_point(race.target)
    yield one, other
    yield turn(one, other)
    yield tuple(reversed(turn(other, one)))
    by_distance = sorted(layout.lanes, key=lambda x: abs(x - other.x))
    yield from (turn_twice(one, other, x - LEFT) for x in by_distance)


def turn(one: Point, other: Point) -> Way:
    """Along the lane of one call to the edge of its row, and to the other call from its left."""
    edge, x = find_edge(one, other), other.x - LEFT
    return one, Point(one.x, edge), Point(x, edge), Point(x, other.y), other


def turn_twice(one: Point, other: Point, x: float) -> Way:
    """From the edge of one row to that of the other at the left of some lane."""
    start, end = find_edge(one, other), find_edge(other, one)
    edges = Point(one.x, start), Point(x, start), Point(x, end), Point(other.x, end)
    return one, *edges, other


def find_edge(one: Point, other: Point) -> float:
    """The edge of the row of a call towards another, or below both if these have one row."""
    return one.y + EDGE if other.y >= one.y else one.y - EDGE


def is_free(way: Way, taken: Sequence[Box]) -> bool:
    """Whether a way goes over nothing that is taken."""
    lines = list(zip(way, way[1:]))
    return not any(goes_over(start, end, box) for start, end in lines for box in taken)


def goes_over(start: Point, end: Point, box: Box) -> bool:
    """Whether a straight line goes over a part of the picture."""
    come, gone = 0.0, 1.0
    across = start.x, end.x, box.start.x, box.end.x
    down = start.y, end.y, box.start.y, box.end.y
    for at, to, low, high in (across, down):
        if at == to:
            if not low < at < high:
                return False
            continue
        near, far = sorted(((low - at) / (to - at), (high - at) / (to - at)))
        come, gone = max(come, near), min(gone, far)
    return come < gone
