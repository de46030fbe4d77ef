"""Writes a report as a page of HTML.

The page loads nothing and runs no script, whatever a plan holds.
"""
import datetime
import itertools
from collections.abc import Sequence

from wire_up_tools.plan import Call, Plan
from wire_up_tools.report import explaining, strict, verdict
from wire_up_tools.report.causes import Cause
from wire_up_tools.report.contents import ENDINGS, MORE_CAUSES, Detail, Report, WireUp
from wire_up_tools.report.diagram import label_call
from wire_up_tools.report.drawing import draw_figure
from wire_up_tools.report.findings import PAIRS, Finding, Group, Kind
from wire_up_tools.report.language import name_kind
from wire_up_tools.report.library_page import write_library
from wire_up_tools.report.markup import escape, escape_lines
from wire_up_tools.report.messages import explain_late, find_late
from wire_up_tools.report.page_style import STYLE
from wire_up_tools.report.pattern_text import write_pattern
from wire_up_tools.report.phrases import (
    VALUE_WIDTH,
    count_of,
    cut,
    describe_circle,
    pick,
    say_never,
)
from wire_up_tools.report.placements import Placed
from wire_up_tools.report.places import list_places, say_place
from wire_up_tools.report.plan_page import write_plan
from wire_up_tools.report.readers import list_told
from wire_up_tools.report.ring import Label, draw_ring, say_circle
from wire_up_tools.report.runs import Outcome, Run, Runs
from wire_up_tools.report.tried import write_tried

# How many steps of an order are shown.
STEPS = 2000

HEAD = """<!DOCTYPE html>
<html lang="en">
<head>
<meta charset="utf-8">
<meta http-equiv="Content-Security-Policy" content="default-src 'none'; style-src 'unsafe-inline'">
<meta name="viewport" content="width=device-width, initial-scale=1">
<title>{title}</title>
<style>{style}</style>
</head>
<body>
"""
FOOT = "\n</body>\n</html>\n"
# How links to the lines of a pattern begin, where the plan below has lines too.
OF_PATTERN = "pattern"
LISTS_ALL = "<code>wire_up check</code> lists all."


def write_page(report: Report) -> str:
    """The whole page."""
    title = escape(f"{report.name}: {verdict.say_found(report)}")
    elsewhere = report.elsewhere
    parts = [write_header(report)]
    parts += [write_strict(report)] if strict.has_more(report.plan) else []
    parts += [
        write_detail(report, number, detail) for number, detail in enumerate(report.details, 1)
    ]
    parts += [write_others(report)] if report.others else []
    parts += [write_wire_up(report.plan, report.wire_up)] if report.wire_up else []
    placed = enumerate(elsewhere.placed if elsewhere else (), 1)
    parts += [write_placed(report, number, each_placed) for number, each_placed in placed]
    judged = report.judged
    parts += [write_library(judged, report.plan)] if judged and judged.found else []
    parts += [*write_pattern_of(report), write_plan(report)]
    return HEAD.format(title=title, style=STYLE) + "\n".join(parts) + FOOT


# --- the header ---


def write_header(report: Report) -> str:
    """The verdict, what holds only in part, and the list of the causes."""
    kind, badge = choose_badge(report)
    version, today = report.version, datetime.date.today()
    meta = f"{verdict.say_size(report)} · checked by wire_up {version} · {today:%d %b %Y}"
    title = f"{escape(report.name)}: {verdict.say_found(report)}"
    title += f' <span class="why">{escape(verdict.say_reasons(report))}</span>' * bool(
        report.reasons
    )
    parts = [
        f'<header class="{kind}"><div class="top"><h1>{title}</h1>',
        f'<span class="badge">{badge}</span></div><p>{escape(verdict.say_verdict(report))}</p>'
        f'<p class="meta">{escape(meta)}</p>',
    ]
    if report.verdicts:
        parts.append(f"<p>The recorder's verdicts: {escape(report.verdicts)}.</p>")
    parts += [f'<p class="part">{escape(text)}</p>' for text in verdict.say_besides(report)]
    parts += [write_recording(report)] if report.plan.is_recorded else []
    parts += [write_contents(report)] if len(report.causes) > 1 else []
    return "\n".join([*parts, "</header>"])


def choose_badge(report: Report) -> tuple[str, str]:
    """The kind of the verdict, and its words."""
    if report.causes:
        has_race = any(cause.first.kind is not Kind.REWRITE for cause in report.causes)
        return "found", "races found" if has_race else "key put twice"
    if report.reasons:
        return "partly", "in part"
    if report.elsewhere and (report.elsewhere.causes or report.elsewhere.fault):
        return "partly", "as placed here"
    if report.judged and report.judged.timed:
        return "partly", "by the rules"
    if report.waits:
        return "waits", "ranks wait for ever"
    return ("fails", "calls fail") if report.failed else ("quiet", "no race")


def write_recording(report: Report) -> str:
    """The head of a recorded plan, and whether what was left out can hide a race."""
    head = escape_lines(report.plan.declared.head)
    summary = f"<summary>{verdict.say_recording(report)}</summary>"
    return f'<details class="meta">{summary}<pre>{head}</pre></details>'


def write_contents(report: Report) -> str:
    """A list of the causes that are told in full."""
    rows = []
    for number, detail in enumerate(report.details, 1):
        link = f'<a href="#cause-{number}">{write_title(report, detail.cause)}</a>'
        rows.append(f"<li>{link} {write_count(f'{detail.cause.count:,}')}</li>")
    return f"<ol>{''.join(rows)}</ol>"


def write_title(report: Report, cause: Cause) -> str:
    """What a cause is, in one line."""
    return escape(explaining.title(cause.first, cause.abouts, report.order))


def write_count(said: str) -> str:
    """A number beside a title."""
    return f'<span class="count">{said}</span>'


# --- a cause ---


def write_detail(report: Report, number: int, detail: Detail) -> str:
    """A cause that is told in full."""
    cause, one = detail.cause, detail.cause.first
    title = f"{number}. {write_title(report, cause)} {write_count(verdict.say_count(cause))}"
    calls = " and ".join(f"{call.name} {name_kind(call)}" for call in one.calls)
    figure = draw_figure(detail.diagram, f"Diagram: {calls}", f"diagram-{number}")
    parts = [
        f'<section id="cause-{number}" class="found"><h2>{title}</h2>',
        write_calls(report, one, list_told(report.order, one)),
        f"<p>{escape(explaining.explain(one, report.order))}</p>",
        *write_late(report, one),
        write_fix(report, one),
        f'<div class="both">{figure}{write_runs(report, one, detail.runs)}</div>',
        *write_tried(report.plan, one),
    ]
    parts += [write_pairs(report.plan, cause.group)] if cause.group.count > 1 else []
    parts += [write_alike(cause)] if len(cause.groups) > 1 else []
    return "\n".join([*parts, "</section>"])


def write_placed(report: Report, number: int, placed: Placed) -> str:
    """A cause that is found on another placement only, with its diagram there."""
    cause, one = placed.cause, placed.cause.first
    count = write_count(verdict.say_count(cause))
    where = escape(verdict.say_ranks(placed))
    about = f"Diagram: {verdict.say_ranks(placed)}"
    figure = draw_figure(placed.diagram, about, f"placement-{number}")
    command = escape(f"wire_up place {','.join(placed.ranks)} {report.plan_name}")
    parts = [
        f'<section class="found"><h2>{where}: {write_title(report, cause)} {count}</h2>',
        write_calls(report, one, one.calls),
        f"<p>{escape(explaining.explain(one, report.order))}</p>",
        write_fix(report, one),
        f'<div class="both">{figure}{write_runs(report, one, placed.runs)}</div>',
        f"<p>This placement as a plan: <code>{command}</code></p></section>",
    ]
    return "\n".join(parts)


def write_strict(report: Report) -> str:
    """The races that are found with --strict alone, and how one sees them whole."""
    parts = [f'<section class="found"><h2>{strict.TITLE}</h2>']
    for one in report.strict:
        parts += [
            f"<h3>{escape(explaining.title(one, (), report.order))}</h3>",
            write_calls(report, one, one.calls),
            write_fix(report, one),
        ]
    parts += [f"<p>{strict.MEANING}</p>"] if report.strict else []
    commands = escape_lines(strict.COMMANDS)
    parts.append(f"<p>{strict.KEEP} {strict.SHOWS}</p><pre>{commands}</pre></section>")
    return "\n".join(parts)


def write_fix(report: Report, finding: Finding) -> str:
    """How a finding is mended: one way, or a list of them."""
    ways = [f"{fix[0].upper()}{fix[1:]}." for fix in explaining.list_fixes(finding, report.order)]
    if len(ways) == 1:
        return f'<p class="fix"><strong>Fix:</strong> {escape(ways[0])}</p>'
    rows = "".join(f"<li>{escape(text)}</li>" for text in ways)
    return f'<div class="fix"><strong>Fix:</strong> one of these<ul>{rows}</ul></div>'


def write_late(report: Report, finding: Finding) -> list[str]:
    """The message that would order the calls of a finding, if there is one."""
    late = find_late(report.order, finding)
    return [f"<p>{escape(explain_late(report.plan, late))}</p>"] if late else []


def write_calls(report: Report, finding: Finding, calls: Sequence[Call]) -> str:
    """Calls that are told of a finding, with their lines and places."""
    has_places = any(each_call.place for each_call in calls)
    in_plan = f"line in the {'recorded ' * report.plan.is_recorded}plan"
    in_pattern = ["line in the pattern"] * bool(report.pattern_lines)
    heads = ["rank", "call", *["in the program"] * has_places, in_plan, *in_pattern]
    rows = ["".join(f"<th>{head}</th>" for head in heads)]
    for call in calls:
        role = write_beside([explaining.role(finding, call)])
        cells = [escape(call.rank.name), escape(f"{call.number} {name_kind(call)}") + role]
        cells += [write_place(report, call)] if has_places else []
        cells.append(link_to_call(call, f"{report.plan_name}:{call.line}"))
        cells += link_to_pattern(report, call)
        rows.append("".join(f"<td>{cell}</td>" for cell in cells))
    table = "".join(f"<tr>{row}</tr>" for row in rows)
    return f'<div class="wide" tabindex="0"><table>{table}</table></div>'


def write_place(report: Report, call: Call) -> str:
    """Where in the program a call comes from, and below that the line of a helper."""
    first, *beside = list_places(report.plan, call)
    return f"<strong>{escape(first)}</strong>{write_beside(beside)}"


def write_beside(said: Sequence[str]) -> str:
    """What stands below the first line of a cell."""
    return "".join(f'<span class="around">{escape(line)}</span>' for line in said if line)


def link_to_call(call: Call, said: str) -> str:
    """A link to the line of a call."""
    return f'<a href="#line-{call.line}">{escape(said)}</a>'


def link_to_pattern(report: Report, call: Call) -> list[str]:
    """A link to the line of the pattern from which a call comes, if that is known."""
    line = report.pattern_lines.get(call)
    said = f"{report.name}:{line}"
    return [f'<a href="#{OF_PATTERN}-{line}">{escape(said)}</a>'] if line else []


def write_pattern_of(report: Report) -> list[str]:
    """The pattern of which the plan is the counterexample, with the lines of the races."""
    calls = [call for cause in report.causes for call in cause.first.calls]
    named = {report.pattern_lines.get(each_call, 0) for each_call in calls}
    return [write_pattern(report.pattern, named, OF_PATTERN)] if report.pattern else []


def link_with_place(plan: Plan, call: Call) -> str:
    """A call as a link to its line, with its place in the program."""
    place = f" ({escape(say_place(plan, call))})" if call.place else ""
    return link_to_call(call, f"{call.name} {name_kind(call)}") + place


def write_runs(report: Report, finding: Finding, runs: Runs) -> str:
    """The two runs that show a race, or what it means that there are none."""
    if runs.outcome is not Outcome.SHOWN:
        said = escape(verdict.say_without_runs(report, finding, runs.outcome))
        return f'<div class="runs"><h3>Two runs</h3><p>{said}</p></div>'
    parts = ['<div class="runs"><h3>Two runs that show it</h3><dl>']
    for which, run in zip(("first", "second"), runs.both):
        parts += write_ends(run)
        parts.append(f"<dd>{write_steps(report, finding, which, run)}</dd>")
    rest = len(runs.both[0].ends) - ENDINGS
    more = f"{count_of(rest, 'more call')} {pick(rest, 'ends', 'end')} differently."
    return "".join([*parts, "</dl>", f"<p>{more}</p>" * (rest > 0), "</div>"])


def write_ends(run: Run) -> list[str]:
    """How the calls end that end otherwise in the other run."""
    call = run.starts_with
    title = f"If the {escape(name_kind(call))} ({escape(call.name)}) comes first"
    ends = [
        f"<dd class=mono>{escape(end.call)} {escape(end.verb)}: {write_end(end.said)}</dd>"
        for end in run.ends[:ENDINGS]
    ]
    return [f"<dt>{title}</dt>", *ends]


def write_end(end: str) -> str:
    """How a call ended. A long value is cut, and has its whole as a title."""
    if len(end) <= VALUE_WIDTH:
        return escape(end)
    return f'<span title="{escape(end)}">{escape(cut(end, VALUE_WIDTH))}</span>'


def write_steps(report: Report, finding: Finding, which: str, run: Run) -> str:
    """The steps of a run, to copy; of a long one, how to get them."""
    count = len(run.order)
    if count > STEPS:
        one, other = finding.calls
        said = escape(f"wire_up witness --{which} {one.name} {other.name}")
        return f"<p>Its {count:,} steps: <code>{said} {escape(report.plan_name)}</code></p>"
    title = f"its {count_of(count, 'step')}, for <code>wire_up follow</code>"
    steps = escape_lines(run.order)
    return f'<details class="meta"><summary>{title}</summary><pre>{steps}</pre></details>'


def write_pairs(plan: Plan, group: Group) -> str:
    """The pairs of a group after the first."""
    pairs = [
        " and ".join(link_with_place(plan, call) for call in one.calls) for one in group.others
    ]
    rest = group.count - 1 - len(pairs)
    more = f"<p>{rest:,} more: {LISTS_ALL}</p>" if rest else ""
    ranks = f", {count_of(group.rank_count, 'rank')} in all" if group.rank_count else ""
    title = f"{count_of(group.count - 1, 'other pair')}{ranks}"
    rows = "".join(f"<li>{pair}</li>" for pair in pairs)
    return f'<details><summary>{title}</summary><ul class="mono">{rows}</ul>{more}</details>'


def write_alike(cause: Cause) -> str:
    """The groups of a cause after the first: what they are about, and their first calls."""
    noun = "name" if cause.first.kind is Kind.NAME else "key"
    rows = [
        f"<li>{escape(group.first.about)} {write_count(f'{group.count:,}')}: "
        f"{link_to_calls(group)}</li>"
        for group in itertools.islice(cause.groups, 1, PAIRS + 1)
    ]
    rest = len(cause.groups) - 1 - len(rows)
    more = f"<p>{rest:,} more: {LISTS_ALL}</p>" if rest else ""
    title = f"{count_of(len(cause.groups) - 1, f'other {noun}')} with the same cause"
    rows_in = f'<ul class="mono">{"".join(rows)}</ul>'
    return f"<details><summary>{title}</summary>{rows_in}{more}</details>"


def link_to_calls(group: Group) -> str:
    """Links to the calls of the first finding of a group."""
    return " and ".join(link_to_call(call, call.name) for call in group.first.calls)


def write_others(report: Report) -> str:
    """The causes that aren't told in full."""
    rows = [
        f"<li>{write_title(report, cause)} {write_count(f'{cause.count:,}')}: "
        f"{link_to_calls(cause.group)}</li>"
        for cause in report.others[:MORE_CAUSES]
    ]
    rest = len(report.others) - len(rows)
    more = f"<p>And {count_of(rest, 'other mistake')}: {LISTS_ALL}</p>" if rest else ""
    title = f"{count_of(len(report.others), 'other mistake')}, without diagrams"
    return f'<section class="long"><h2>{title}</h2><ul>{"".join(rows)}</ul>{more}</section>'


# --- a plan without findings ---


def write_wire_up(plan: Plan, wire_up: WireUp) -> str:
    """The diagram of a wire-up, which calls fail, and who waits for ever."""
    parts = []
    if wire_up.diagram.rows:
        figure = draw_figure(wire_up.diagram, "Diagram of the wire-up", "diagram")
        parts += ["<section><h2>The wire-up</h2>", figure, "</section>"]
    parts += [write_failures(plan, wire_up)] if wire_up.failed else []
    parts += [write_waits(plan, wire_up)] if wire_up.waits else []
    return "\n".join(parts)


def write_failures(plan: Plan, wire_up: WireUp) -> str:
    """The calls that fail, with their replies."""
    title = count_of(wire_up.failed, "call fails", "calls fail")
    shown = wire_up.failures
    said = ((link_with_place(plan, failure.call), escape(failure.reply)) for failure in shown)
    rows = "".join(f"<li>{call}: {reply}</li>" for call, reply in said)
    rest = wire_up.failed - len(shown)
    more = f"<p>And {count_of(rest, 'other call')}.</p>" if rest else ""
    return f"<section><h2>{title}</h2><ul>{rows}</ul>{more}</section>"


def write_waits(plan: Plan, wire_up: WireUp) -> str:
    """Who waits for ever, and why."""
    count = len(wire_up.waits)
    title = f"{count_of(count, 'rank waits', 'ranks wait')} for ever"
    shown = wire_up.waits[:PAIRS]
    said = ((link_with_place(plan, wait.call), escape(wait.reason)) for wait in shown)
    rows = "".join(f"<li>{call}: {reason}</li>" for call, reason in said)
    more = f"<p>And {count_of(count - PAIRS, 'other rank')}.</p>" if count > PAIRS else ""
    parts = [f"<section><h2>{title}</h2>"]
    parts += write_circle(plan, wire_up) if wire_up.circle else []
    parts += [f'<p class="part">{escape(say_never(wire_up.never))}</p>'] if wire_up.never else []
    return "\n".join([*parts, f"<ul>{rows}</ul>{more}</section>"])


def write_circle(plan: Plan, wire_up: WireUp) -> list[str]:
    """The ranks that wait in a circle: in words, and drawn."""
    call_of = {wait.call.rank.name: wait.call for wait in wire_up.waits}
    calls = [call_of[text] for text in wire_up.circle]
    ranks = [Label(call.rank.name, label_call(call), call.line) for call in calls]
    title, circle = say_circle(len(ranks)), describe_circle(wire_up.circle)
    return [f'<p class="part">{escape(f"{title}. {circle}.")}</p>', draw_ring(ranks)]
