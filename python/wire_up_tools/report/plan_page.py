"""Writes the plan below a page: its lines, to which the page has links."""
from collections.abc import Iterable, Sequence

from wire_up_tools.report.contents import MORE_CAUSES, Report
from wire_up_tools.report.findings import PAIRS
from wire_up_tools.report.library_page import list_shown
from wire_up_tools.report.markup import escape
from wire_up_tools.report.phrases import count_of, cut

# A plan of more lines is cut to what is named, with so many lines around it.
WHOLE_PLAN, AROUND = 400, 2
# How many characters of a line are shown.
LINE_WIDTH = 160


def write_plan(report: Report) -> str:
    """The plan, whole where it is short, else what is named and what stands around it."""
    lines, named = report.plan.lines, find_named(report)
    shown = choose_lines(len(lines), named)
    cut_to = f"cut to what is named: {len(shown):,} of {len(lines):,} lines"
    count = f' <span class="count">{cut_to}</span>' if len(lines) > WHOLE_PLAN else ""
    title = "The counterexample" if report.pattern else "The plan"
    parts = [f'<section class="long"><h2>{title}{count}</h2><div class="plan mono">']
    before = 0
    for number in shown:
        parts += write_left_out(number - before - 1)
        parts.append(write_plan_line(number, lines[number - 1], is_named=number in named))
        before = number
    parts += write_left_out(len(lines) - before)
    return "\n".join([*parts, "</div></section>"])


def find_named(report: Report) -> set[int]:
    """The lines of the plan to which the page has links."""
    calls = [wait.call for wait in report.waits[:PAIRS]]
    calls += [failure.call for failure in (report.wire_up.failures if report.wire_up else ())]
    found = set(report.wire_up.diagram.lines if report.wire_up else ())
    for detail in report.details:
        found |= detail.diagram.lines
        group, alike = detail.cause.group, detail.cause.groups[: PAIRS + 1]
        findings = (*(each_group.first for each_group in alike), *group.others)
        calls += (call for finding in findings for call in finding.calls)
    for placed in report.elsewhere.placed if report.elsewhere else ():
        calls += placed.cause.first.calls
        found |= placed.diagram.lines
    calls += (call for finding in report.strict for call in finding.calls)
    calls += (call for cause in report.others[:MORE_CAUSES] for call in cause.first.calls)
    calls += (
        (each_call for each_call, _ in list_shown(report.judged, report.plan))
        if report.judged
        else ()
    )
    return found.union(each_call.line for each_call in calls)


def choose_lines(count: int, named: Iterable[int]) -> Sequence[int]:
    """The lines to show of so many: all of a short plan."""
    if count <= WHOLE_PLAN:
        return range(1, count + 1)
    near = {number for line in named for number in range(line - AROUND, line + AROUND + 1)}
    return sorted(number for number in near if 1 <= number <= count)


def write_left_out(count: int) -> list[str]:
    """How many lines are left out, if any."""
    return [f'<div class="cut"><b>…</b>{count_of(count, "line")}</div>'] if count > 0 else []


def write_plan_line(number: int, line: str, of: str = "line", *, is_named: bool) -> str:
    """A line of the plan. A long one is cut, and has its whole as a title. `of` is how links to it
    begin."""
    said = line.split()
    kind = "said" if said and said[0].startswith("#") else ""
    kind = "named" if is_named else kind
    title = f' title="{escape(line)}"' if len(line) > LINE_WIDTH else ""
    shown = f"<b>{number}</b>{escape(cut(line, LINE_WIDTH))}"
    return f'<div id="{of}-{number}" class="{kind}"{title}>{shown}</div>'
