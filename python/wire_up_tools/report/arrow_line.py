"""The lines of arrows: they go over no label, as far as there is another way.

An arrow is straight where that is possible. Else it has a bend at the left of a lane and at the
edge of a row, where no label stands, and may go on beside that lane; or it goes as the line of a
race does. Two arrows have no bend in common, as far as there is room.
"""
import itertools
import math
from collections.abc import Iterator, Sequence

from wire_up_tools.report.diagram import Item, Link
from wire_up_tools.report.layout import Box, Layout, Point, list_labels
from wire_up_tools.report.race_line import (
    AROUND_CALL,
    AROUND_LABEL,
    EDGE,
    Way,
    is_free,
    list_ways,
    widen,
)

# How far at the left of a lane an arrow goes, for how much of its length a bend counts, and within
# which distance two bends are one for the eye: first many are, then few.
BESIDE_LANE, OF_BEND, FAR, NEAR = (12, 9, 13.5), 20, 14, 2
# How many ways are tried for an arrow that can't be straight, and for how many arrows.
MOST_WAYS, MOST_BENT = 400, 60
# What a way must not go over, with the item of which it is the mark, if it is one.
Taken = tuple[Item | None, Box]


def find_arrow_lines(layout: Layout) -> list[Way]:
    """The corners of the lines of the arrows of a picture, with their ends."""
    taken, found = list_taken(layout), list[Way]()
    bent = 0
    for arrow in layout.diagram.arrows:
        straight = (layout.find_point(arrow.source), layout.find_point(arrow.target))
        ends = (arrow.source, arrow.target)
        boxes = [box for item, box in taken if item is None or item not in ends]
        if bent < MOST_BENT and not is_free(straight, boxes):
            found.append(find_bent(layout, arrow, boxes, found) or straight)
            bent += 1
        else:
            found.append(straight)
    return found


def list_taken(layout: Layout) -> list[Taken]:
    """What arrows must not go over: labels, and the marks of other calls."""
    points = ((item, layout.find_point(item)) for item in layout.diagram.items)
    marks = [(item, widen(Box(at, at), AROUND_CALL)) for item, at in points]
    return [*marks, *((None, widen(label.box, AROUND_LABEL)) for label in list_labels(layout))]


def find_bent(
    layout: Layout, arrow: Link, taken: Sequence[Box], others: Sequence[Way]
) -> Way | None:
    """The shortest way with bends that goes over nothing; rather one that has no bend of others.
    None where there is none."""
    bent = sorted(list_bent(layout, arrow), key=measure)[:MOST_WAYS]
    ways = itertools.chain(bent, list_ways(layout, arrow))
    free = [row for row in ways if is_free(row, taken)]
    for near in (FAR, NEAR):
        apart = (way for way in free if not any(share(way, row, near) for row in others))
        found = next(apart, None)
        if found:
            return found
    return free[0] if free else None


def list_bent(layout: Layout, arrow: Link) -> Iterator[Way]:
    """The ways with a bend at the left of a lane and the edge of a row between the two calls; and
    those that go on from there beside the lane, to the row of the target."""
    one, other = layout.find_point(arrow.source), layout.find_point(arrow.target)
    left, right = sorted((one.x, other.x))
    top, bottom = sorted((one.y, other.y))
    across = [x - by for x in layout.lanes if left <= x <= right for by in BESIDE_LANE]
    edges = {y + by for y in layout.rows.values() for by in (EDGE, -EDGE)}
    down = [edge for edge in edges if top < edge < bottom]
    end = other.y - EDGE if other.y > one.y else other.y + EDGE
    for x, y in itertools.product(across, down):
        yield one, Point(x, y), other
        yield one, Point(x, y), Point(x, end), other


def measure(way: Way) -> float:
    """How long a way is, and how many bends it has."""
    parts = (math.dist((a.x, a.y), (b.x, b.y)) for a, b in zip(way, way[1:]))
    return sum(parts) + OF_BEND * len(way)


def share(one: Way, other: Way, near: float) -> bool:
    """Whether two ways have bends within a distance, or go beside a lane at one place."""
    bends = itertools.product(one[1:-1], other[1:-1])
    return any(math.dist((a.x, a.y), (b.x, b.y)) <= near for a, b in bends) or any(
        overlap(a, b) for a, b in itertools.product(list_upright(one), list_upright(other))
    )


def list_upright(way: Way) -> list[Box]:
    """The parts of a way that go straight down or up."""
    return [
        Box(min(a, b, key=lambda point: point.y), max(a, b, key=lambda each_point: each_point.y))
        for a, b in zip(way, way[1:])
        if a.x == b.x
    ]


def overlap(one: Box, other: Box) -> bool:
    """Whether two upright lines lie on each other."""
    is_beside = abs(one.start.x - other.start.x) <= NEAR
    return is_beside and one.start.y < other.end.y and other.start.y < one.end.y
