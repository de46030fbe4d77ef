"""Writes a report as text for a terminal."""
import textwrap
from collections.abc import Iterable

from wire_up_tools.plan import Call
from wire_up_tools.report import explaining, strict, verdict
from wire_up_tools.report.contents import ENDINGS, Detail, Report, WireUp
from wire_up_tools.report.findings import PAIRS, Finding
from wire_up_tools.report.language import name_kind
from wire_up_tools.report.library_page import say_library, write_library_text
from wire_up_tools.report.markup import REPLACEMENT
from wire_up_tools.report.messages import explain_late, find_late
from wire_up_tools.report.phrases import VALUE_WIDTH, count_of, cut, describe_circle, say_never
from wire_up_tools.report.ring import say_circle
from wire_up_tools.report.placements import Placed
from wire_up_tools.report.places import say_place
from wire_up_tools.report.readers import list_told
from wire_up_tools.report.runs import Outcome, Run, Runs
from wire_up_tools.report.singular import say_counted
from wire_up_tools.report.text_drawing import draw_lines
from wire_up_tools.report.tried import write_tried_text

# How many characters a line has. Lines of calls and diagrams, which stand deeper than this, stay
# whole.
WIDTH, DEEPEST_FOLDED = 100, 3


def write_text(report: Report) -> str:
    """The whole report, in which nothing is a command to a terminal."""
    lines = [
        f"{report.name}: {verdict.say_line(report)}",
        verdict.say_verdict(report),
        f"{verdict.say_size(report)}; checked by wire_up {report.version}",
    ]
    if report.verdicts:
        lines.append(f"The recorder's verdicts: {report.verdicts}.")
    lines += verdict.say_besides(report)
    if report.plan.is_recorded:
        left_out = "; ".join(map(say_counted, report.left_out))
        lines.append(f"{verdict.say_recording(report)}: {left_out}".rstrip(": "))
    lines += ["", *write_strict(report)] if strict.has_more(report.plan) else []
    for number, detail in enumerate(report.details, 1):
        lines += ["", *write_detail(report, number, detail)]
    if report.others:
        lines += ["", f"{count_of(len(report.others), 'other mistake')}: wire_up check lists all."]
    if report.wire_up:
        lines += ["", *write_wire_up(report, report.wire_up)]
    for placed in report.elsewhere.placed if report.elsewhere else ():
        lines += ["", *write_placed(report, placed)]
    if report.judged and report.judged.found:
        title = f"{say_library(report.judged)} answers otherwise:"
        lines += ["", title, *write_library_text(report.judged, report.plan)]
    return write_lines(lines)


def write_lines(lines: Iterable[str]) -> str:
    """Lines, of which long ones are folded."""
    folded = (part for line in lines for part in fold(line))
    return "".join(f"{make_printable(each_part)}\n" for each_part in folded)


def write_detail(report: Report, number: int, detail: Detail) -> list[str]:
    """A cause that is told in full."""
    cause = detail.cause
    one, count = cause.first, verdict.say_count(cause)
    late = find_late(report.order, one)
    return [
        f"{number}. {explaining.title(one, cause.abouts, report.order)} ({count})",
        *(f"   {describe_told(report, one, call)}" for call in list_told(report.order, one)),
        "",
        f"   {explaining.explain(one, report.order)}",
        *([f"   {explain_late(report.plan, late)}"] if late else []),
        f"   Fix: {explaining.fix(one, report.order)}",
        "",
        *draw_lines(detail.diagram),
        "",
        *write_runs(report, one, detail.runs),
        *write_tried_text(report.plan, one),
    ]


def write_strict(report: Report) -> list[str]:
    """The races that are found with --strict alone, and how one sees them whole."""
    lines = [f"{strict.TITLE}:"]
    for one in report.strict:
        lines += [
            f"   {explaining.title(one, (), report.order)}",
            *(f"   {describe_call(report, call)}" for call in one.calls),
            f"   Fix: {explaining.fix(one, report.order)}",
        ]
    lines += [f"   {strict.MEANING}"] if report.strict else []
    return [
        *lines,
        f"   {strict.KEEP} {strict.SHOWS}",
        *(f"      {command}" for command in strict.COMMANDS),
    ]


def write_placed(report: Report, placed: Placed) -> list[str]:
    """A cause that is found on another placement only."""
    cause, one = placed.cause, placed.cause.first
    title = f"{explaining.title(one, cause.abouts, report.order)} ({verdict.say_count(cause)})"
    return [
        f"{verdict.say_ranks(placed)}: {title}",
        *(f"   {describe_call(report, call)}" for call in one.calls),
        f"   Fix: {explaining.fix(one, report.order)}",
        "",
        *draw_lines(placed.diagram),
        "",
        *write_runs(report, one, placed.runs),
        f"   This placement as a plan: wire_up place {','.join(placed.ranks)} {report.plan_name}",
    ]


def describe_told(report: Report, finding: Finding, call: Call) -> str:
    """A call that is told of a finding."""
    role = explaining.role(finding, call)
    return ", ".join(filter(None, [describe_call(report, call), role]))


def describe_call(report: Report, call: Call) -> str:
    """A call with its line and its place."""
    place = f", {say_place(report.plan, call)}" if call.place else ""
    line = report.pattern_lines.get(call)
    in_pattern = f", {report.name}:{line}" if line else ""
    return f"{call.name} {name_kind(call)}, {report.plan_name}:{call.line}{in_pattern}{place}"


def write_runs(report: Report, finding: Finding, runs: Runs) -> list[str]:
    """The two runs that show a race, or what it means that there are none."""
    if runs.outcome is not Outcome.SHOWN:
        return [f"   Two runs: {verdict.say_without_runs(report, finding, runs.outcome)}"]
    return [line for run in runs.both for line in write_run(run)]


def write_run(run: Run) -> list[str]:
    """How the calls end in a run that end otherwise in the other."""
    call = run.starts_with
    ends = [
        f"      {end.call} {end.verb}: {cut(end.said, VALUE_WIDTH)}" for end in run.ends[:ENDINGS]
    ]
    return [f"   If the {name_kind(call)} ({call.name}) comes first:", *ends]


def write_wire_up(report: Report, wire_up: WireUp) -> list[str]:
    """The diagram of a wire-up, and who waits for ever."""
    lines = draw_lines(wire_up.diagram) if wire_up.diagram.rows else []
    lines += write_failures(report, wire_up)
    count = len(wire_up.waits)
    if count:
        lines += ["", f"{count_of(count, 'rank waits', 'ranks wait')} for ever:"]
    shown = wire_up.waits[:PAIRS]
    lines += [f"   {describe_call(report, wait.call)}: {wait.reason}" for wait in shown]
    lines += [f"   And {count_of(count - PAIRS, 'other rank')}."] if count > PAIRS else []
    circle, never = wire_up.circle, wire_up.never
    lines += [f"   {say_circle(len(circle))}. {describe_circle(circle)}."] if circle else []
    return lines + ([f"   {say_never(never)}"] if never else [])


def write_failures(report: Report, wire_up: WireUp) -> list[str]:
    """The calls that fail."""
    if not wire_up.failed:
        return []
    calls = [
        f"   {describe_call(report, failure.call)}: {failure.reply}" for failure in wire_up.failures
    ]
    rest = wire_up.failed - len(calls)
    more = [f"   And {count_of(rest, 'other call')}."] if rest else []
    return ["", f"{count_of(wire_up.failed, 'call fails', 'calls fail')}:", *calls, *more]


def make_printable(text: str) -> str:
    """A text without what a terminal could take for a command."""
    return "".join(letter if letter.isprintable() else REPLACEMENT for letter in text)


def fold(line: str) -> list[str]:
    """A line in lines of at most so many characters."""
    indent = line[: len(line) - len(line.lstrip(" "))]
    if len(line) <= WIDTH or len(indent) > DEEPEST_FOLDED:
        return [line]
    return textwrap.wrap(
        line, WIDTH, subsequent_indent=indent, break_long_words=False, break_on_hyphens=False
    )
