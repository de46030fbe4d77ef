"""Writes the lines of a pattern, to which a page has links."""
from collections.abc import Collection

from wire_up_tools.report.markup import escape
from wire_up_tools.report.patterns import Pattern
from wire_up_tools.report.phrases import count_of
from wire_up_tools.report.plan_page import write_plan_line

# How many lines of a pattern are shown.
SHOWN = 400


def write_pattern(pattern: Pattern, named: Collection[int], of: str) -> str:
    """The pattern, in which some lines are named. `of` is how links to its lines begin."""
    lines = pattern.lines
    shown = [
        write_plan_line(number, line, of, is_named=number in named)
        for number, line in enumerate(lines[:SHOWN], 1)
    ]
    rest = len(lines) - len(shown)
    more = f'<div class="cut"><b>…</b>{count_of(rest, "line")}</div>' if rest else ""
    body = "\n".join(shown) + more
    title = f"The pattern, {escape(pattern.name)}"
    head = f'<section class="long"><h2>{title}</h2><div class="plan mono">'
    return f"{head}{body}</div></section>"
