"""Draws a diagram as SVG, with a legend of the marks that it has."""
from collections.abc import Iterable

from wire_up_tools.report.arrow_line import find_arrow_lines
from wire_up_tools.report.diagram import Bar, Diagram, Item, Link, Style
from wire_up_tools.report.hovering import name_arrow, name_part, write_rules
from wire_up_tools.report.layout import (
    HEAD_HEIGHT,
    Label,
    Layout,
    Point,
    label_gap,
    label_item,
    label_lane,
    label_mark,
    lay_out,
)
from wire_up_tools.report.markup import escape, link_to_line
from wire_up_tools.report.race_line import Way, find_race_line

# A diagram of at most so many pixels, as two lanes are, is made to fit a narrow page, and a wider
# one can be moved there. Past the other width the page is broad.
NARROW, BROAD = 470, 1100

# Makes the diagram larger, without a script.
ZOOM = '<label class="zoom"><input type="checkbox"> larger</label>'
HINT = '<span class="hint">The diagram is wider than this page: move it sideways.</span>'


def draw_figure(diagram: Diagram, about: str, name: str) -> str:
    """A diagram with its legend as an element of a page. `about` says what it shows, and no other
    figure of the page has its name."""
    layout = lay_out(diagram)
    hint = HINT if layout.width > NARROW else ""
    svg = draw_svg(layout, about)
    caption = f"<figcaption>{hint}{ZOOM}{draw_legend(diagram)}</figcaption>"
    rules, wide = write_rules(diagram, name), f'<div class="wide" tabindex="0">{svg}</div>'
    return f'<figure id="{name}">{rules}{wide}{caption}</figure>'


# --- the picture ---


def draw_svg(layout: Layout, about: str) -> str:
    """The picture: lanes, and above them fences, arrows, the race and the calls."""
    diagram = layout.diagram
    parts = [draw_lane(layout, lane) for lane in range(len(diagram.lanes))]
    items = len(diagram.items)
    bars = ((number, bar) for number, bar in enumerate(diagram.bars, items) if bar.marks)
    parts += [group(f"at {name_part(number)}", draw_bar(layout, bar)) for number, bar in bars]
    arrows = enumerate(zip(diagram.arrows, find_arrow_lines(layout)))
    parts += [group(f"way {name_arrow(number)}", draw_arrow(*pair)) for number, pair in arrows]
    parts += [draw_race(layout, diagram.race)] if diagram.race else []
    calls = enumerate(diagram.items)
    parts += [group(f"at {name_part(number)}", draw_item(layout, item)) for number, item in calls]
    width, height = f"{layout.width:.0f}", f"{layout.height:.0f}"
    size = f'width="{width}" height="{height}" viewBox="0 0 {width} {height}"'
    kind = ' class="broad"' if layout.width > BROAD else ""
    kind = ' class="narrow"' if layout.width <= NARROW else kind
    head = f'<svg role="group"{kind} aria-label="{escape(about)}" {size}>'
    return "\n".join([head, *parts, "</svg>"])


def group(kind: str, drawn: str) -> str:
    """What is drawn, as one element of a kind."""
    return f'<g class="{kind}">{drawn}</g>'


def draw_lane(layout: Layout, lane: int) -> str:
    """A lane: its names, its line, and what isn't drawn beside it."""
    x, bottom = layout.lanes[lane], f"{layout.height - 6:.0f}"
    line = f'x1="{x:.1f}" x2="{x:.1f}" y1="{HEAD_HEIGHT - 8}" y2="{bottom}"'
    names = [draw_label(label) for label in label_lane(layout, lane)]
    gaps = [draw_label(label_gap(layout, gap)) for gap in layout.gaps if gap.lane == lane]
    return "\n".join([*names, f'<line class="lane" {line}/>', *gaps])


def draw_bar(layout: Layout, bar: Bar) -> str:
    """A fence: a bar over the lanes of its members, which leaves out the lanes of others."""
    y = layout.rows[bar.row]
    parts = [
        f'<line class="bar" x1="{left:.1f}" x2="{right:.1f}" y1="{y:.1f}" y2="{y:.1f}"/>'
        for left, right in split_bar(layout, bar)
    ]
    for lane in sorted(bar.marks):
        parts.append(f'<circle class="met" cx="{layout.lanes[lane]:.1f}" cy="{y:.1f}" r="5"/>')
        parts.append(draw_label(label_mark(layout, bar, lane)))
    return "\n".join(parts)


def split_bar(layout: Layout, bar: Bar) -> list[tuple[float, float]]:
    """The left and the right end of each part of a bar."""
    first, last = min(bar.marks), max(bar.marks)
    past = 6 if len(bar.marks) > 1 else 14
    others = [layout.lanes[number] for number in range(first, last) if number not in bar.marks]
    left = [layout.lanes[first] - past, *(x + 10 for x in others)]
    right = [*(x - 10 for x in others), layout.lanes[last] + past]
    return list(zip(left, right))


def draw_arrow(link: Link, line: Way) -> str:
    """An arrow along a line."""
    return draw_way(line, "arrow never" if link.source.style is Style.UNREACHED else "arrow")


def draw_way(line: Way, kind: str) -> str:
    """An arrow of a kind along a line, which ends a little before its target."""
    *way, last, target = line
    width, height = target.x - last.x, target.y - last.y
    length = (width**2 + height**2) ** 0.5 or 1
    end = Point(target.x - width / length * 8, target.y - height / length * 8)
    back = Point(-width / length * 8, -height / length * 8)
    aside = Point(height / length * 4, -width / length * 4)
    corners = (
        end,
        Point(end.x + back.x + aside.x, end.y + back.y + aside.y),
        Point(end.x + back.x - aside.x, end.y + back.y - aside.y),
    )
    drawn = f'<polyline class="{kind}" points="{write_points([*way, last, end])}"/>'
    return f'{drawn}<polygon class="tip" points="{write_points(corners)}"/>'


def write_points(points: Iterable[Point]) -> str:
    """Points as SVG takes them."""
    return " ".join(f"{point.x:.1f},{point.y:.1f}" for point in points)


def draw_race(layout: Layout, link: Link) -> str:
    """The line between two calls that race."""
    return f'<polyline class="race" points="{write_points(find_race_line(layout, link))}"/>'


def draw_item(layout: Layout, item: Item) -> str:
    """A call: its mark, and its label beside it."""
    at, style = layout.find_point(item), item.style
    if style is Style.WAITING:
        corner = f'x="{at.x - 5:.1f}" y="{at.y - 5:.1f}"'
        mark = f'<rect class="dot {style.value}" {corner} width="10" height="10"/>'
    else:
        radius = 6 if style is Style.RACING else 4
        middle = f'cx="{at.x:.1f}" cy="{at.y:.1f}"'
        mark = f'<circle class="dot {style.value}" {middle} r="{radius}"/>'
    return mark + draw_label(label_item(layout, item))


def draw_label(label: Label) -> str:
    """A text of one line. Where there is no room for it it is cut, and has its whole as a title."""
    at, shown = label.at, label.shown
    markup = f'<text class="{label.kind}" x="{at.x:.1f}" y="{at.y:.1f}">{escape(shown)}</text>'
    return link_to_line(markup, label.line, label.text if shown != label.text else None)


# --- the legend ---

# The marks of the legend.
CALL = '<circle class="dot" cx="15" cy="6" r="4"/>'
TWO_PUTS = '<circle class="dot racing" cx="15" cy="6" r="5"/>'
UNREACHED = '<circle class="dot unreached" cx="15" cy="6" r="4.5"/>'
WAITING = '<rect class="dot waiting" x="10" y="1" width="10" height="10"/>'
RACE = '<line class="race" x1="1" y1="6" x2="29" y2="6"/>'
BAR = '<line class="bar" x1="1" y1="6" x2="29" y2="6"/>'
TIP = '<polygon class="tip" points="29,6 21,2 21,10"/>'
ARROW = f'<line class="arrow" x1="1" y1="6" x2="22" y2="6"/>{TIP}'
NEVER = f'<line class="arrow never" x1="1" y1="6" x2="22" y2="6"/>{TIP}'


def draw_legend(diagram: Diagram) -> str:
    """What the marks mean that a diagram has, and what is said below it."""
    styles = {item.style for item in diagram.items}
    sources = {arrow.source.style for arrow in diagram.arrows}
    is_rewrite = Style.RACING in styles and not diagram.race
    entries = (
        (True, CALL, "a call; what is lower in a lane comes later"),
        (diagram.race, RACE, "a race: either may come first, whatever stands higher"),
        (is_rewrite, TWO_PUTS, "the two puts of one key"),
        (sources - {Style.UNREACHED}, ARROW, "waits for: comes later in every run"),
        (diagram.bars, BAR, "a fence: all that it joins come, then all go on"),
        (Style.WAITING in styles, WAITING, "waits for ever"),
        (Style.UNREACHED in styles, UNREACHED, "never reached"),
        (Style.UNREACHED in sources, NEVER, "waits for what never comes"),
    )
    shown = [draw_swatch(mark, meaning) for is_there, mark, meaning in entries if is_there]
    return "".join([*shown, *(f"<span>{escape(note)}</span>" for note in diagram.notes)])


def draw_swatch(mark: str, meaning: str) -> str:
    """A mark of the legend with its meaning."""
    svg = f'<svg class="swatch" width="30" height="12" aria-hidden="true">{mark}</svg>'
    return f"<span>{svg}{meaning}</span>"
