"""Writes what is told of a pattern without findings: as a page of HTML, and as text."""
import datetime
from collections.abc import Sequence
from dataclasses import replace

from wire_up_tools.report.html_page import FOOT, HEAD
from wire_up_tools.report.markup import escape
from wire_up_tools.report.page_style import STYLE
from wire_up_tools.report.pattern_answers import (
    CallLine,
    choose_badge,
    explain_settled,
    say_settled,
)
from wire_up_tools.report.pattern_text import write_pattern
from wire_up_tools.report.patterns import IN_PART, WITHOUT_CALLS, CleanPattern
from wire_up_tools.report.phrases import count_of, cut
from wire_up_tools.report.plan_page import LINE_WIDTH
from wire_up_tools.report.ring import Label, draw_ring, say_circle
from wire_up_tools.report.standstill import Sized, Standing
from wire_up_tools.report.terminal_text import write_lines

# How many of the ranks that wait are listed.
SHOWN = 16


def say_title(found: CleanPattern) -> str:
    """The verdict with the name of the pattern."""
    part = f" ({'; '.join(found.reasons)})" if found.reasons else ""
    # That every call is answered says nothing where there is none.
    said = found.said if found.has_calls else replace(found.said, is_answered=False)
    return f"{found.pattern.name}: {say_settled(said)}{part}"


def explain(found: CleanPattern) -> str:
    """What the verdict means, and from which runs the pattern comes."""
    part = [IN_PART] if found.reasons else []
    meaning = explain_settled(found.said) if found.has_calls else WITHOUT_CALLS
    return " ".join(filter(None, [meaning, *part, found.origin]))


def say_line(found: CleanPattern, call: CallLine) -> str:
    """Where a call stands."""
    line = found.find_line(call)
    return f"{found.pattern.name}:{line}" if line else found.pattern.name


def write_pattern_page(found: CleanPattern) -> str:
    """The whole page."""
    kind, badge = ("partly", "in part") if found.reasons else choose_badge(found.said)
    title, today = escape(say_title(found)), datetime.date.today()
    meta = f"a pattern · checked by wire_up {found.version} · {today:%d %b %Y}"
    parts = [
        f'<header class="{kind}"><div class="top"><h1>{title}</h1>',
        f'<span class="badge">{badge}</span></div><p>{escape(explain(found))}</p>'
        f'<p class="meta">{escape(meta)}</p></header>',
        *write_sized(found),
        *write_ends(found),
        write_pattern(found.pattern, find_named(found), "line"),
    ]
    return HEAD.format(title=title, style=STYLE) + "\n".join(parts) + FOOT


def say_sized(sized: Sized) -> str:
    """Of which plan it is said who waits for ever."""
    of = f" ({sized.words})" if sized.sizes else ""
    return f"Who waits for ever with {count_of(sized.ranks, 'rank')}{of}"


def say_not_taken(sized: Sized) -> list[str]:
    """The turns that this plan leaves out, if any."""
    return [f"Turns not taken: {'; '.join(sized.not_taken)}"] if sized.not_taken else []


def write_sized(found: CleanPattern) -> list[str]:
    """Who waits for ever in the smallest plan in which a rank does."""
    if not found.sized:
        return []
    stuck = found.sized.standstill
    parts = [f"<section><h2>{escape(say_sized(found.sized))}</h2>"]
    parts += [f'<p class="part">{escape(turns)}.</p>' for turns in say_not_taken(found.sized)]
    if stuck.circle:
        ranks = [
            Label(standing.rank, f"{standing.number} {standing.verb}") for standing in stuck.circle
        ]
        parts += [f'<p class="part">{escape(say_circle(len(ranks)))}.</p>', draw_ring(ranks)]
    parts += list_standing(stuck.circle)
    if stuck.never:
        parts += ['<p class="part">For what never comes:</p>', *list_standing(stuck.never)]
    return ["\n".join([*parts, "</section>"])]


def list_standing(ranks: Sequence[Standing]) -> list[str]:
    """The calls at which ranks wait, and what for."""
    rows = [f"<li>{escape(text)}</li>" for text in describe_standing(ranks)]
    return [f"<ul>{''.join(rows)}</ul>"] if rows else []


def describe_standing(ranks: Sequence[Standing]) -> list[str]:
    """The first of the calls at which ranks wait, what for, and how many more there are."""
    rows = [
        f"{rank.rank} {rank.number} {rank.verb} waits for {rank.waits_for}"
        for rank in ranks[:SHOWN]
    ]
    rest = len(ranks) - len(rows)
    return [*rows, f"and {count_of(rest, 'other rank')}"] if rest else rows


def write_ends(found: CleanPattern) -> list[str]:
    """The calls that wait for ever in some plan, and those that fail."""
    waits = [write_call(found, call_line) for call_line in found.said.waits]
    fails = [
        f"{write_call(found, failing.call)}: {escape(', '.join(failing.statuses))}"
        for failing in found.said.fails
    ]
    titles = (
        count_of(len(waits), "call waits for ever", "calls wait for ever"),
        count_of(len(fails), "call fails", "calls fail"),
    )
    return [
        f"<section><h2>{title} in some plans</h2><ul>"
        f"{''.join(f'<li>{row}</li>' for row in rows)}</ul></section>"
        for title, rows in zip(titles, (waits, fails))
        if rows
    ]


def write_call(found: CleanPattern, call: CallLine) -> str:
    """A call of the pattern, as a link to its line."""
    where, name = escape(say_line(found, call)), escape(call.name)
    line = found.find_line(call)
    return f'{name}, <a href="#line-{line}">{where}</a>' if line else f"{name}, {where}"


def find_named(found: CleanPattern) -> set[int]:
    """The lines of the calls that wait for ever or fail."""
    lines = (found.find_line(call_line) for call_line in found.said.named)
    return {line for line in lines if line}


def write_pattern_text(found: CleanPattern) -> str:
    """The same as text for a terminal."""
    lines = [
        say_title(found), explain(found), f"checked by wire_up {found.version}"
    ]
    lines += [describe_call(found, call_line) for call_line in found.said.waits]
    lines += describe_sized(found.sized) if found.sized else []
    for failing in found.said.fails:
        lines.append(f"{describe_call(found, failing.call)}, {', '.join(failing.statuses)}")
    return write_lines(lines)


def describe_sized(sized: Sized) -> list[str]:
    """Who waits for ever in the smallest plan in which a rank does, as lines."""
    stuck, lines = sized.standstill, ["", f"{say_sized(sized)}:"]
    lines += [f"   {turns}." for turns in say_not_taken(sized)]
    if stuck.circle:
        lines.append(f"   {say_circle(len(stuck.circle))}:")
        lines += [f"      {text}" for text in describe_standing(stuck.circle)]
    if stuck.never:
        lines += ["   For what never comes:"]
        lines += [f"      {text}" for text in describe_standing(stuck.never)]
    return lines


def describe_call(found: CleanPattern, call: CallLine) -> str:
    """A call with its line."""
    said, line = f"   {call.name}, {say_line(found, call)}", found.find_line(call)
    text = found.pattern.lines[line - 1].strip() if line else ""
    return f"{said}: {cut(text, LINE_WIDTH)}" if text else said
