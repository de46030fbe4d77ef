"""Draws ranks that wait in a circle: a ring, with an arrow from each to the one for which it
waits."""
import math
from collections.abc import Sequence
from dataclasses import dataclass

from wire_up_tools.report.drawing import NARROW, draw_way
from wire_up_tools.report.layout import CHARACTER, Point
from wire_up_tools.report.markup import escape, link_to_line
from wire_up_tools.report.phrases import count_of, cut, pick

# How many ranks are drawn; of more, the first and one mark for the others.
DRAWN = 12
# The radius of a ring of few ranks, and how much of it each rank takes.
RADIUS, EACH = 60, 17
# From a mark to its labels, how far an arrow stays from the marks, and how far from the straight
# line between them, so that two arrows between the same two ranks stand beside each other.
BESIDE, SHORT, ASIDE = 14, 10, 5
# From a mark to its first label above and below it, and from that to the second.
OVER, UNDER, LINE = -24, 22, 14
# Above the first mark and below the last, and how wide a label is at most, in characters.
EDGE, LABEL_WIDTH = 44, 44
CAPTION = "An arrow leads from a rank to the one for which it waits."


@dataclass(frozen=True)
class Label:
    """What stands beside the mark of a rank: its name, its call, and the line to which it leads."""

    rank: str
    call: str
    line: int | None = None


def say_circle(count: int) -> str:
    """What a ring of so many ranks shows."""
    return f"{count_of(count, 'rank')} {pick(count, 'waits', 'wait')} in a circle: a deadlock"


def draw_ring(ranks: Sequence[Label]) -> str:
    """The ring of these ranks with its caption, as an element of a page."""
    labels = list_labels(ranks)
    points = find_points(labels)
    width, height = find_size(labels)
    parts = [draw_arrow(*pair) for pair in zip(points, [*points[1:], points[0]])]
    middle = Point(width / 2, height / 2)
    parts += [draw_mark(at, label, middle) for at, label in zip(points, labels)]
    size = f'width="{width:.0f}" height="{height:.0f}" viewBox="0 0 {width:.0f} {height:.0f}"'
    about = escape(say_circle(len(ranks)))
    kind = ' class="narrow"' if width <= NARROW else ""
    head = f'<svg role="img"{kind} aria-label="{about}" {size}>'
    svg = "\n".join([head, *parts, "</svg>"])
    return f'<figure><div class="wide">{svg}</div><figcaption>{CAPTION}</figcaption></figure>'


def list_labels(ranks: Sequence[Label]) -> list[Label]:
    """The labels of the marks: of many ranks the last mark stands for those that aren't drawn."""
    shown = ranks if len(ranks) <= DRAWN else ranks[: DRAWN - 1]
    labels = [Label(rank.rank, cut(rank.call, LABEL_WIDTH), rank.line) for rank in shown]
    rest = len(ranks) - len(shown)
    return [*labels, Label(f"… {count_of(rest, 'other rank')}", "")] if rest else labels


def find_points(labels: Sequence[Label]) -> list[Point]:
    """Where the marks stand: the first on top, and the others in turn."""
    count = len(labels)
    radius = find_radius(labels)
    left = find_side(labels) + radius
    angles = [2 * math.pi * number / count - math.pi / 2 for number in range(count)]
    turned = [Point(math.cos(angle), 1 + math.sin(angle)) for angle in angles]
    return [Point(left + radius * point.x, EDGE + radius * point.y) for point in turned]


def find_size(labels: Sequence[Label]) -> tuple[float, float]:
    """The width and the height of the picture, in whose middle the ring is."""
    radius = find_radius(labels)
    return 2 * (find_side(labels) + radius), 2 * (EDGE + radius)


def find_radius(labels: Sequence[Label]) -> float:
    """The radius of a ring."""
    return max(RADIUS, EACH * len(labels))


def find_side(labels: Sequence[Label]) -> float:
    """How much room a label takes beside a ring."""
    return BESIDE + CHARACTER * max(max(len(label.rank), len(label.call)) for label in labels)


def draw_arrow(start: Point, end: Point) -> str:
    """An arrow between two marks, a little beside the line between them; none to itself."""
    width, height = end.x - start.x, end.y - start.y
    length = math.hypot(width, height)
    if not length:
        return ""
    one = Point(width / length, height / length)
    aside = Point(-one.y * ASIDE, one.x * ASIDE)
    first = Point(start.x + one.x * SHORT + aside.x, start.y + one.y * SHORT + aside.y)
    # An arrow ends a little before its target.
    last = Point(end.x - one.x * 2 + aside.x, end.y - one.y * 2 + aside.y)
    return draw_way([first, last], "arrow")


def draw_mark(at: Point, label: Label, middle: Point) -> str:
    """The mark of a rank, and its labels: beside it, or above or below it on the axis of the
    ring."""
    corner = f'x="{at.x - 5:.1f}" y="{at.y - 5:.1f}"'
    mark = f'<rect class="dot waiting" {corner} width="10" height="10"/>'
    side = at.x - middle.x
    if abs(side) < 1:
        x, anchor, y = at.x, "middle", at.y + (OVER if at.y < middle.y else UNDER)
    else:
        x, anchor, y = at.x + math.copysign(BESIDE, side), "start" if side > 0 else "end", at.y - 2
    place = f'text-anchor="{anchor}" x="{x:.1f}"'
    texts = f'<text class="lane-name" {place} y="{y:.1f}">{escape(label.rank)}</text>'
    if label.call:
        texts += f'<text {place} y="{y + LINE:.1f}">{escape(label.call)}</text>'
    return link_to_line(mark + texts, label.line)
