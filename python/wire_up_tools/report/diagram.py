"""What stands in a diagram: lanes from left to right, and calls and fences at rows below them.

`race_diagram` and `wire_up_diagram` make diagrams, and `drawing` and `text_drawing` draw them.
"""
import dataclasses
import enum
from collections.abc import Iterable, Mapping, Sequence
from dataclasses import dataclass

from wire_up_tools.plan import Call, Meeting
from wire_up_tools.report.language import HOW, name_call
from wire_up_tools.report.orders import Order
from wire_up_tools.report.phrases import count_of, pick

# How much a diagram shows: lanes, rows, and characters of a label.
LANES, ROWS, LABEL_WIDTH = 12, 20, 26


class Style(enum.Enum):
    """How a call is drawn: as one of two that race, as waiting for ever, or as never reached."""

    PLAIN = ""
    RACING = "racing"
    WAITING = "waiting"
    UNREACHED = "unreached"


class Part(enum.IntEnum):
    """What comes first of what is equally deep: a call, a fence, or all between two fences."""

    CALL = 0
    FENCE = 1
    BETWEEN = 2


@dataclass(frozen=True, order=True)
class Row:
    """The row of a diagram: by how deep it is, and by the number of a fence. Lesser is higher."""

    depth: int
    part: Part
    number: int = 0


@dataclass(frozen=True)
class Lane:
    """A lane: its name, and what stands below the name."""

    name: str
    below: str


@dataclass(frozen=True, eq=False)
class Item:
    """A call in a lane, or several in a row.

    `first` and `last` are their numbers in their rank, 0 for calls of several ranks, and `line`
    is that of the first in the plan.
    """

    lane: int
    row: Row
    label: str
    line: int | None = None
    style: Style = Style.PLAIN
    verb: str = ""
    first: int = 0
    last: int = 0


@dataclass(frozen=True)
class Mark:
    """The call of a fence in a lane: its label, its line in the plan, and its number; and of fences
    that are drawn as one, the number of the last."""

    label: str
    line: int | None = None
    number: int = 0
    last: int = 0


@dataclass(frozen=True)
class Bar:
    """A fence: a bar over lanes, with the mark of each lane whose calls meet in it."""

    row: Row
    marks: Mapping[int, Mark]


@dataclass(frozen=True)
class Link:
    """Two items that a line joins. An arrow leads from what is awaited to what waits for it."""

    source: Item
    target: Item


@dataclass(frozen=True)
class Spot:
    """Where something stands in a lane: its row, and the numbers of its first and last call."""

    row: Row
    first: int
    last: int


@dataclass(frozen=True)
class Diagram:
    """A diagram: lanes, what stands in them, and what is said below it."""

    lanes: Sequence[Lane]
    items: Sequence[Item]
    bars: Sequence[Bar]
    arrows: Sequence[Link] = ()
    race: Link | None = None
    notes: Sequence[str] = ()

    @property
    def rows(self) -> list[Row]:
        """Its rows, from the top."""
        return sorted({item.row for item in self.items} | {bar.row for bar in self.bars})

    @property
    def links(self) -> list[Link]:
        """All lines that join two items."""
        return [*self.arrows, *([self.race] if self.race else [])]

    @property
    def lines(self) -> set[int]:
        """The lines of the plan that it names."""
        marks = (mark.line for bar in self.bars for mark in bar.marks.values())
        return {line for line in (*(item.line for item in self.items), *marks) if line}

    def list_spots(self, lane: int) -> list[Spot]:
        """What stands in a lane, from the top."""
        spots = {Spot(item.row, item.first, item.last) for item in self.items if item.lane == lane}
        for bar in self.bars:
            if lane in bar.marks:
                mark = bar.marks[lane]
                spots.add(Spot(bar.row, mark.number, max(mark.number, mark.last)))
        return sorted(spots, key=lambda spot: (spot.row, spot.last))


def row_of(order: Order, call: Call) -> Row:
    """The row of a call."""
    return Row(order.depth_of(call), Part.CALL)


def row_of_meeting(order: Order, meeting: Meeting) -> Row:
    """The row of a fence."""
    return Row(order.depth_of_meeting(meeting), Part.FENCE, meeting.number)


def label_call(call: Call) -> str:
    """What stands beside a call. Whether it waits isn't said where the label would be cut."""
    said = f"{call.number} {name_call(call)}"
    if len(said) <= LABEL_WIDTH:
        return said
    return said.removesuffix(HOW[0]).removesuffix(HOW[1])


def make_bars(order: Order, lanes: Mapping[str, int], meetings: Iterable[Meeting]) -> list[Bar]:
    """The bars of fences over the lanes of their members, by the names of the ranks."""
    rows = {row_of_meeting(order, meeting): meeting for meeting in meetings}
    in_rows: list[list[Meeting]] = []
    for row in sorted(rows):
        if in_rows and is_next(in_rows[-1][-1], rows[row], lanes):
            in_rows[-1].append(rows[row])
        else:
            in_rows.append([rows[row]])
    bars = [
        Bar(row_of_meeting(order, each_row[0]), make_marks(each_row, lanes)) for each_row in in_rows
    ]
    return [bar for bar in bars if bar.marks]


def is_next(one: Meeting, other: Meeting, lanes: Mapping[str, int]) -> bool:
    """Whether in each lane a fence comes right after another of the same name."""
    calls = {call.rank.name: call for call in one.calls if call.rank.name in lanes}
    after = {call.rank.name: call for call in other.calls if call.rank.name in lanes}
    return calls.keys() == after.keys() and all(
        call.number + 1 == after[name].number and name_call(call) == name_call(after[name])
        for name, call in calls.items()
    )


def make_marks(meetings: Sequence[Meeting], lanes: Mapping[str, int]) -> dict[int, Mark]:
    """The marks of the calls of a fence, or of several that are drawn as one, by their lanes."""
    more = len(meetings) - 1
    return {
        lanes[call.rank.name]: Mark(
            label_fences(call, more), call.line, call.number, call.number + more
        )
        for call in meetings[0].calls
        if call.rank.name in lanes
    }


def label_fences(call: Call, more: int) -> str:
    """What stands beside the call of a fence that so many more of its name follow."""
    if not more:
        return label_call(call)
    return f"{call.number}–{call.number + more} {name_call(call)} ×{more + 1}"


def leave_out_implied(diagram: Diagram) -> Diagram:
    """Leaves out the arrows between calls that a fence of the diagram orders: its bar says it."""
    kept = [
        arrow
        for arrow in diagram.arrows
        if arrow.target.style is Style.WAITING
        or not any(is_said(bar, arrow) for bar in diagram.bars)
    ]
    return dataclasses.replace(diagram, arrows=kept)


def is_said(bar: Bar, link: Link) -> bool:
    """Whether the source of a link comes before a fence in its lane, and the target after it."""
    before, after = bar.marks.get(link.source.lane), bar.marks.get(link.target.lane)
    if before is None or after is None:
        return False
    return link.source.last < before.number and after.last < link.target.last


def say_not_drawn(count: int, noun: str, plural: str | None = None) -> list[str]:
    """The note that so many aren't drawn; none where all are."""
    said = f"{count_of(count, noun, plural)} {pick(count, 'is', 'are')} not drawn."
    return [said] if count else []
