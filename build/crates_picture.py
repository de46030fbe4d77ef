"""Draws the crates: docs/crates.svg, made of crates.txt.

Usage: python3 -m build.crates_picture [--check]
A crate stands above all crates that it uses. A line goes from a crate down to one that it uses;
a use that follows from other lines has none. The colour of a box tells the layer of the crate.
With --check it writes nothing, and ends with status 1 if the picture isn't the one of crates.txt.
"""
import argparse
import sys
from collections.abc import Iterable, Mapping, Sequence
from dataclasses import dataclass, field
from pathlib import Path
from xml.sax.saxutils import escape

TOP = Path(__file__).parent.parent
TABLE = TOP / "crates.txt"
PICTURE = TOP / "docs" / "crates.svg"

# All lengths are in pixels.
WIDTH = 900
MARGIN = 4
BOX_WIDTH = 161
BOX_HEIGHT = 28
ROW_HEIGHT = 58
LEGEND_HEIGHT = 34
GAP = 6

# The colours of the layers, in the order of crates.txt: that of the box and that of its border.
COLOURS = (
    ("#e8e8e8", "#6b6b6b"),
    ("#dcebfa", "#2f6ca3"),
    ("#e3f2dc", "#4b8033"),
    ("#fde8d4", "#b06a1e"),
    ("#d9f0ee", "#2b7f78"),
    ("#efe1f5", "#83509b"),
    ("#fadcdc", "#a83c3c"),
    ("#f6f1cf", "#8a7a1c"),
)

# No crate rises into a row that has as many.
MOST_BESIDE = 5

# How often rows are put in order, and how often their boxes are moved: more changes nothing.
SWEEPS = 24

Uses = Mapping[str, Sequence[str]]


@dataclass(frozen=True)
class Crate:
    """A line of crates.txt: a crate, its layer, and the crates of the table that it uses."""

    name: str
    layer: str
    uses: tuple[str, ...]


@dataclass(eq=False)
class Spot:
    """A place in a row: the box of a crate, or a bend of a line that passes the row."""

    crate: str | None
    row: int
    below: list["Spot"] = field(default_factory=list)
    above: list["Spot"] = field(default_factory=list)
    middle: float = 0.0

    def width(self) -> float:
        """How much of the row it takes."""
        return BOX_WIDTH if self.crate is not None else 0.0


@dataclass(frozen=True)
class Line:
    """A use, as the spots that its line goes through, from the user down to the crate below."""

    user: str
    used: str
    spots: tuple[Spot, ...]


@dataclass(frozen=True)
class Picture:
    """All boxes by rows, the lowest first, and all lines."""

    rows: tuple[tuple[Spot, ...], ...]
    lines: tuple[Line, ...]


def read_crates(text: str) -> list[Crate]:
    """The crates of the table, the lowest first. A comment `# NAME: ...` begins a layer."""
    found: list[tuple[str, str, list[str]]] = []
    layer = ""
    for line in text.splitlines():
        name, colon, rest = line.strip().partition(":")
        if name.startswith("#"):
            layer = name[1:].strip() if colon and " " not in name[1:].strip() else layer
        elif colon:
            found.append((name, layer, rest.split()))
    own = {name for name, _, _ in found}
    return [Crate(name, layer, tuple(each_text for each_text in uses if each_text in own))
            for name, layer, uses in found]


def layers_of(crates: Iterable[Crate]) -> list[str]:
    """The names of the layers, in the order of the table."""
    return list(dict.fromkeys(crate.layer for crate in crates))


def reach(uses: Uses, name: str) -> set[str]:
    """All crates that a crate uses, itself or by others."""
    reached: set[str] = set()
    waiting = list(uses[name])
    while waiting:
        crate = waiting.pop()
        if crate not in reached:
            reached.add(crate)
            waiting.extend(uses[crate])
    return reached


def drawn_uses(crates: Sequence[Crate]) -> dict[str, list[str]]:
    """The uses of each crate that don't follow from its other uses."""
    uses: Uses = {crate.name: crate.uses for crate in crates}
    implied = {
        name: set().union(*(reach(uses, text) for text in used)) for name, used in uses.items()
    }
    return {
        name: [text for text in used if text not in implied[name]] for name, used in uses.items()
    }


def users_of(uses: Uses) -> dict[str, list[str]]:
    """For each crate those that use it."""
    users: dict[str, list[str]] = {name: [] for name in uses}
    for name, used in uses.items():
        for text in used:
            users[text].append(name)
    return users


def lowest_rows(uses: Uses) -> dict[str, int]:
    """The row of each crate, 0 the lowest: right above the highest crate that it uses."""
    rows: dict[str, int] = {}
    for name in uses:
        rows[name] = 1 + max((rows[text] for text in uses[name]), default=-1)
    return rows


def rows_of(uses: Uses) -> dict[str, int]:
    """The row of each crate, 0 the lowest: near its users or its uses, to keep lines short."""
    rows = lowest_rows(uses)
    users = users_of(uses)
    for name in reversed(list(uses)):
        highest = min((rows[user] for user in users[name]), default=0) - 1
        is_free = list(rows.values()).count(highest) < MOST_BESIDE
        if is_free and highest > rows[name] and len(users[name]) >= len(uses[name]):
            rows[name] = highest
    return rows


def line_between(user: Spot, used: Spot, rows: Sequence[list[Spot]]) -> Line:
    """The line of a use, with a bend in each row that it passes."""
    assert user.crate is not None and used.crate is not None
    spots = [user]
    for row in range(user.row - 1, used.row, -1):
        spots.append(Spot(None, row))
        rows[row].append(spots[-1])
    spots.append(used)
    for upper, lower in zip(spots, spots[1:]):
        upper.below.append(lower)
        lower.above.append(upper)
    return Line(user.crate, used.crate, tuple(spots))


def average_place(spot: Spot, places: Mapping[int, int], beside: Sequence[Spot]) -> float:
    """Where a spot stands best: in the middle of those that it is joined with in the next row."""
    known = [places[id(each_spot)] for each_spot in beside if id(each_spot) in places]
    return sum(known) / len(known) if known else places[id(spot)]


def sweep_order(rows: Sequence[list[Spot]], *, is_up: bool) -> None:
    """Puts each row in the order of what is joined with it, from the lowest row up or back."""
    for row in rows if is_up else reversed(rows):
        places = {id(spot): place for other in rows for place, spot in enumerate(other)}
        row.sort(
            key=lambda each_spot: average_place(
                each_spot, places, each_spot.below if is_up else each_spot.above
            )
        )


def put_in_order(rows: Sequence[list[Spot]]) -> None:
    """Puts each row in an order in which few lines cross."""
    for sweep in range(SWEEPS):
        sweep_order(rows, is_up=sweep % 2 == 0)


def push_right(row: Sequence[Spot], wanted: Sequence[float], edge: float) -> list[float]:
    """The places of a row from left to right: each spot where it is wanted, or further right."""
    placed: list[float] = []
    for spot, middle in zip(row, wanted):
        placed.append(max(middle, edge + spot.width() / 2))
        edge = placed[-1] + spot.width() / 2 + GAP
    return placed


def push_left(row: Sequence[Spot], wanted: Sequence[float], edge: float) -> list[float]:
    """The places of a row, each spot where it is wanted, or further left."""
    turned = push_right(row[::-1], [-middle for middle in wanted[::-1]], -edge)
    return [-middle for middle in reversed(turned)]


def spread(row: Sequence[Spot], wanted: Sequence[float]) -> None:
    """Gives each spot of a row its place, near the one that is wanted, so that none overlap."""
    rights = push_right(row, wanted, -WIDTH)
    lefts = push_left(row, wanted, 2 * WIDTH)
    middles = [(right + left) / 2 for right, left in zip(rights, lefts)]
    middles = push_left(row, push_right(row, middles, MARGIN), WIDTH - MARGIN)
    for spot, middle in zip(row, middles):
        spot.middle = middle


def place_evenly(rows: Iterable[list[Spot]]) -> None:
    """Spreads each row over the width of the picture."""
    for row in rows:
        step = (WIDTH - 2 * MARGIN) / len(row)
        spread(row, [MARGIN + step * (number + 0.5) for number in range(len(row))])


def draw_near(rows: Iterable[list[Spot]]) -> None:
    """Moves each spot towards the middle of all that it is joined with, row by row."""
    for row in rows:
        joined = [each_spot.below + each_spot.above for each_spot in row]
        spread(
            row,
            [
                sum(other_spot.middle for other_spot in near) / len(near) if near else spot.middle
                for spot, near in zip(row, joined)
            ],
        )


def place_all(rows: Sequence[list[Spot]]) -> None:
    """Gives each spot its place within the width of the picture."""
    place_evenly(rows)
    for sweep in range(SWEEPS):
        draw_near(rows if sweep % 2 == 0 else reversed(rows))


def lay_out(crates: Sequence[Crate]) -> Picture:
    """The boxes and lines of the picture, each in its place."""
    uses = drawn_uses(crates)
    numbers = rows_of(uses)
    rows: list[list[Spot]] = [[] for _ in range(max(numbers.values()) + 1)]
    boxes = {crate.name: Spot(crate.name, numbers[crate.name]) for crate in crates}
    for box in boxes.values():
        rows[box.row].append(box)
    lines = [line_between(boxes[name], boxes[text], rows) for name in uses for text in uses[name]]
    put_in_order(rows)
    place_all(rows)
    return Picture(tuple(tuple(row) for row in rows), tuple(lines))


def top_of(row: int, rows: int) -> int:
    """The upper edge of the boxes of a row."""
    return MARGIN + LEGEND_HEIGHT + (rows - 1 - row) * ROW_HEIGHT


def line_path(line: Line, rows: int) -> str:
    """The line of a use, as a path of SVG: from the bottom of a box to the top of another."""
    first = line.spots[0]
    height = top_of(first.row, rows) + BOX_HEIGHT
    path = f"M{first.middle:.0f} {height}"
    for spot in line.spots[1:]:
        top = top_of(spot.row, rows)
        half = (height + top) // 2
        path += f"C{first.middle:.0f} {half} {spot.middle:.0f} {half} {spot.middle:.0f} {top}"
        height = top if spot.crate is not None else top + BOX_HEIGHT
        path += "" if spot.crate is not None else f"V{height}"
        first = spot
    return f'<path d="{path}"><title>{line.user} uses {line.used}</title></path>'


def box_of(left: float, top: float, text: str, colours: tuple[str, str]) -> str:
    """A box with its text, as SVG."""
    fill, border = colours
    return (f'<rect x="{left:.0f}" y="{top:.0f}" width="{BOX_WIDTH}" height="{BOX_HEIGHT}" rx="4"'
            f' fill="{fill}" stroke="{border}"/>'
            f'<text x="{left + BOX_WIDTH / 2:.0f}" y="{top + 18:.0f}">{escape(text)}</text>')


def legend(layers: Sequence[str]) -> list[str]:
    """The layers with their colours, in a row at the top."""
    step = (WIDTH - 2 * MARGIN) / len(layers)
    return [f'<rect x="{MARGIN + step * number:.0f}" y="{MARGIN}" width="14" height="14" rx="3"'
            f' fill="{fill}" stroke="{border}"/>'
            f'<text class="layer" x="{MARGIN + step * number + 20:.0f}" y="{MARGIN + 12}">'
            f'{escape(layer)}</text>'
            for number, (layer, (fill, border)) in enumerate(zip(layers, COLOURS))]


def draw(crates: Sequence[Crate]) -> str:
    """The picture of the crates, as the text of an SVG file."""
    picture = lay_out(crates)
    layers = layers_of(crates)
    colours = {crate.name: COLOURS[layers.index(crate.layer)] for crate in crates}
    count = len(picture.rows)
    height = top_of(0, count) + BOX_HEIGHT + MARGIN
    boxes = [box_of(spot.middle - BOX_WIDTH / 2, top_of(spot.row, count), spot.crate,
                    colours[spot.crate])
             for row in picture.rows for spot in row if spot.crate is not None]
    return "\n".join([
        f'<svg xmlns="http://www.w3.org/2000/svg" width="{WIDTH}" height="{height}"'
        f' viewBox="0 0 {WIDTH} {height}">',
        "<title>The crates of wire_up: each stands above those that it uses</title>",
        "<style>text{font:12px monospace;text-anchor:middle;fill:#111}"
        ".layer{text-anchor:start}path{fill:none;stroke:#8a8a8a}</style>",
        f'<rect width="{WIDTH}" height="{height}" fill="#fff"/>',
        *legend(layers),
        *(line_path(line, count) for line in picture.lines),
        *boxes,
        "</svg>",
        ""])


def is_up_to_date(text: str) -> bool:
    """Whether the file of the picture has this text."""
    try:
        with open(PICTURE, encoding="utf-8") as file:
            return file.read() == text
    except FileNotFoundError:
        return False


def main(words: Sequence[str]) -> int:
    """Writes the picture, or looks whether it is up to date. Answers the exit status."""
    parser = argparse.ArgumentParser(description="Draws docs/crates.svg from crates.txt.")
    parser.add_argument("--check", action="store_true", help="only look whether it is up to date")
    options = parser.parse_args(words)
    with open(TABLE, encoding="utf-8") as file:
        text = draw(read_crates(file.read()))
    if options.check:
        if is_up_to_date(text):
            return 0
        print("docs/crates.svg isn't that of crates.txt: python3 -m build.crates_picture makes it")
        return 1
    with open(PICTURE, "w", encoding="utf-8") as file:
        file.write(text)
    return 0


if __name__ == "__main__":
    sys.exit(main(sys.argv[1:]))
