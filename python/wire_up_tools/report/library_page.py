"""What a library is known to make of a plan, for a page and for a terminal."""
from wire_up_tools.plan import Call, Plan
from wire_up_tools.report.asking import Asker
from wire_up_tools.report.findings import PAIRS
from wire_up_tools.report.language import name_kind
from wire_up_tools.report.markup import escape
from wire_up_tools.report.phrases import VALUE_WIDTH, count_of, cut, pick
from wire_up_tools.run.expected import expect
from wire_up_tools.run.libraries.judging import Judged, hold_small, judge
from wire_up_tools.run.libraries.predicting import Predicted
from wire_up_tools.run.libraries.traits import take_library
from wire_up_tools.run.libraries.writing import name_rules


def find_judged(asker: Asker, plan: Plan, name: str) -> Judged:
    """What a library of this name is known to make of a plan. Raises Refused, OSError."""
    library = take_library(name)
    hold_small(plan)
    return judge(plan, library, expect(asker.checker, asker.data))


def say_library(judged: Judged) -> str:
    """What a library is called, with the host that served it."""
    return f"{judged.library.version} under {judged.library.host}"


def say_otherwise(judged: Judged) -> str:
    """How many calls it answers otherwise, and how many of these make the verdict say less."""
    count, timed, calls = len(judged.found), len(judged.timed), count_of(judged.calls, "call")
    if not count:
        return f"{say_library(judged)}, as far as it is known, answers all calls as the rules do."
    said = f"{say_library(judged)} is known to answer {count:,} of {calls} otherwise than the rules"
    if not timed:
        return f"{said}."
    of_these = pick(timed, "one reply", f"{timed:,} replies")
    return f"{said}; there {of_these} can depend on which rank is fast, so the verdict says less."


def list_shown(judged: Judged, plan: Plan) -> list[tuple[Call, Predicted]]:
    """The calls that are listed."""
    places = ((predicted.difference.place, predicted) for predicted in judged.found[:PAIRS])
    return [(plan.find_call(place.rank, place.number), predicted) for place, predicted in places]


def describe(judged: Judged, predicted: Predicted) -> str:
    """How the library answers a call, and by which of its rules."""
    difference = predicted.difference
    rules, library = cut(difference.rules, VALUE_WIDTH), cut(difference.library, VALUE_WIDTH)
    timed = ", if not otherwise by luck" if difference.place in judged.timed else ""
    return f"by the rules {rules}, by the library {library}{timed} ({name_rules(predicted)})"


def write_library(judged: Judged, plan: Plan) -> str:
    """The calls that the library answers otherwise, as a section of a page."""
    rows = [
        f'<li><a href="#line-{call.line}">{escape(f"{call.name} {name_kind(call)}")}</a>: '
        f"{escape(describe(judged, predicted))}</li>"
        for call, predicted in list_shown(judged, plan)
    ]
    rules = [f"<li>{rule.label}: {escape(rule.value)}</li>" for rule in judged.rules]
    title = f"{say_library(judged)}: {count_of(len(judged.found), 'call')} answered otherwise"
    parts = [f"<section><h2>{escape(title)}</h2><ul>{''.join(rows)}</ul>"]
    rest = len(judged.found) - len(rows)
    parts += [f"<p>And {count_of(rest, 'other call')}.</p>"] if rest else []
    return "\n".join([*parts, f"<p>Its rules:</p><ul>{''.join(rules)}</ul></section>"])


def write_library_text(judged: Judged, plan: Plan) -> list[str]:
    """The same as lines."""
    shown = list_shown(judged, plan)
    lines = [
        f"   {call.name} {name_kind(call)}: {describe(judged, predicted)}"
        for call, predicted in shown
    ]
    rest = len(judged.found) - len(lines)
    lines += [f"   And {count_of(rest, 'other call')}."] if rest else []
    return [*lines, *(f"   {rule.label}: {rule.value}" for rule in judged.rules)]
