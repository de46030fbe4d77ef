"""Draws a diagram as lines of text, with the meaning of its signs."""
import re
from dataclasses import dataclass

from wire_up_tools.report.diagram import LABEL_WIDTH, Diagram, Item, Row, Style
from wire_up_tools.report.phrases import cut

# A diagram of more lanes than this has shorter labels, of so many characters.
FEW_LANES, SHORT_LABEL = 4, 20
INDENT = "    "
EMPTY = "|"

SIGN_OF_FENCE, SIGN_OF_WAIT = "=", "<-"
SIGNS = {Style.PLAIN: "o", Style.RACING: "*", Style.WAITING: "#", Style.UNREACHED: "-"}
MEANINGS = {
    SIGNS[Style.PLAIN]: "a call",
    SIGNS[Style.RACING]: "the two calls of the finding",
    SIGNS[Style.WAITING]: "waits for ever",
    SIGNS[Style.UNREACHED]: "never reached",
    SIGN_OF_FENCE: "a fence",
    SIGN_OF_WAIT: "waits for a call of this rank",
}


@dataclass(frozen=True)
class Cell:
    """Where something stands: a lane and a row."""

    lane: int
    row: Row


def draw_lines(diagram: Diagram) -> list[str]:
    """The lines of a diagram, with its legend and its notes below it."""
    marks = draw_marks(diagram)
    widths = [measure_lane(diagram, lane, marks) for lane in range(len(diagram.lanes))]
    names = [
        [each_lane.name for each_lane in diagram.lanes],
        [each_lane.below for each_lane in diagram.lanes],
    ]
    lines = [fill([cut(*pair) for pair in zip(texts, widths)], widths) for texts in names]
    for row in diagram.rows:
        texts = [marks.get(Cell(lane, row), EMPTY) for lane in range(len(widths))]
        lines.append(fill(texts, widths))
    legend = [f"{sign} {meaning}" for sign, meaning in MEANINGS.items() if has_sign(sign, lines)]
    drawn = [f"{INDENT}{line.rstrip()}" for line in lines]
    return [*drawn, "", INDENT + "; ".join(legend), *(f"{INDENT}{note}" for note in diagram.notes)]


def draw_marks(diagram: Diagram) -> dict[Cell, str]:
    """What stands in each cell."""
    width = LABEL_WIDTH if len(diagram.lanes) <= FEW_LANES else SHORT_LABEL
    links = draw_links(diagram)
    marks = {
        Cell(
            item.lane, item.row
        ): f"{SIGNS[item.style]} {cut(item.label, width)}{links.get(item, '')}"
        for item in diagram.items
    }
    for bar in diagram.bars:
        for lane, mark in bar.marks.items():
            marks[Cell(lane, bar.row)] = f"{SIGN_OF_FENCE} {cut(mark.label, width)}"
    return marks


def draw_links(diagram: Diagram) -> dict[Item, str]:
    """What is said beside an item of that for which it waits, or with which it races."""
    lanes = diagram.lanes
    links = {
        arrow.target: f" {SIGN_OF_WAIT} {lanes[arrow.source.lane].name}"
        for arrow in reversed(diagram.arrows)
    }
    if diagram.race:
        one, other = diagram.race.source, diagram.race.target
        links[one] = f" <race> {lanes[other.lane].name}"
        links[other] = f" <race> {lanes[one.lane].name}"
    return links


def measure_lane(diagram: Diagram, lane: int, marks: dict[Cell, str]) -> int:
    """The width of a lane in characters, with what stands between it and the next."""
    names = diagram.lanes[lane]
    texts = [names.name, names.below, *(mark for at, mark in marks.items() if at.lane == lane)]
    return max(map(len, texts)) + 2


def fill(texts: list[str], widths: list[int]) -> str:
    """Texts side by side, each as wide as its lane."""
    return "".join(text.ljust(width) for text, width in zip(texts, widths))


def has_sign(sign: str, lines: list[str]) -> bool:
    """Whether some line has a sign as a word."""
    return any(re.search(rf"(^|\s){re.escape(sign)} ", line) for line in lines)
