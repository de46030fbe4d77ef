"""All that a report says, whatever its form."""
import os
import time
from collections.abc import Sequence
from dataclasses import dataclass, field, replace
from pathlib import Path

from wire_up_tools import words
from wire_up_tools.limits import VERSION_2
from wire_up_tools.plan import Plan
from wire_up_tools.plan_reading import read_plan
from wire_up_tools.portable import Portable, find_portable
from wire_up_tools.report.asking import CLEAN, FOUND, Asker
from wire_up_tools.report.causes import Cause, find_causes
from wire_up_tools.report.diagram import Diagram
from wire_up_tools.report.findings import Finding, find_groups
from wire_up_tools.report.orders import Order, find_order
from wire_up_tools.report.partial import find_reasons, find_verdicts
from wire_up_tools.report.pattern_lines import Lines
from wire_up_tools.report.patterns import PLAN_NAME, Pattern, is_counterexample
from wire_up_tools.report.placements import Elsewhere, find_elsewhere
from wire_up_tools.report.race_diagram import make_race_diagram
from wire_up_tools.report.replies import Failure, find_replies
from wire_up_tools.report.runs import Runs, Search, begin_search, find_runs
from wire_up_tools.report.standstill import find_standstill
from wire_up_tools.report.strict import find_strict
from wire_up_tools.report.waits import Wait, find_circle, find_waits
from wire_up_tools.report.wire_up_diagram import make_wire_up_diagram
from wire_up_tools.run.libraries.judging import Judged

# How many causes are told in full, and how many more in a line each; and of two runs how many calls
# that end differently.
CAUSES, MORE_CAUSES, ENDINGS = 40, 400, 8


@dataclass(frozen=True, eq=False)
class Detail:
    """A cause that is told in full: its diagram, and the two runs that show its first finding."""

    cause: Cause
    diagram: Diagram
    runs: Runs


@dataclass(frozen=True, eq=False)
class WireUp:
    """What becomes of a plan without findings: who waits for ever, which of these in a circle and
    which for what never comes, how many calls fail and the first of these, and its diagram."""

    waits: Sequence[Wait]
    circle: Sequence[str]
    never: Sequence[str]
    failed: int
    failures: Sequence[Failure]
    diagram: Diagram


@dataclass(frozen=True, eq=False)
class Report:
    """What is found in a plan: causes, of which the first are told in full, or else its wire-up;
    what is found on other placements only, and for which libraries the plan is portable, if the
    checker can tell and the plan isn't past the limits of version 2; and what a library makes of
    the plan, if that is asked for.

    `path` is that of the plan as it was given, or of the pattern of which the plan is the
    counterexample, and `version` that of the checker. `pattern_lines` are the lines of the pattern
    from which the calls of that plan come.
    """

    path: str
    version: str
    order: Order
    causes: Sequence[Cause] = ()
    details: Sequence[Detail] = ()
    wire_up: WireUp | None = None
    elsewhere: Elsewhere | None = None
    pattern: Pattern | None = None
    pattern_lines: Lines = field(default_factory=dict)
    judged: Judged | None = None
    portable: Portable | None = None
    is_past_limits: bool = False

    @property
    def plan(self) -> Plan:
        """The plan."""
        return self.order.plan

    @property
    def name(self) -> str:
        """The name of the plan's file."""
        return os.fsencode(Path(self.path).name).decode("utf-8", "replace")

    @property
    def plan_name(self) -> str:
        """What the plan is called whose lines are named."""
        return PLAN_NAME if self.pattern else self.name

    @property
    def is_counterexample(self) -> bool:
        """Whether the plan is the counterexample of a pattern, and something is found in it."""
        return bool(self.causes) and is_counterexample(self.plan)

    @property
    def status(self) -> int:
        """The exit status: whether something was found."""
        return FOUND if self.causes else CLEAN

    @property
    def others(self) -> Sequence[Cause]:
        """The causes that aren't told in full."""
        return self.causes[CAUSES:]

    @property
    def waits(self) -> Sequence[Wait]:
        """The calls that wait for ever in a plan without findings."""
        return self.wire_up.waits if self.wire_up else ()

    @property
    def failed(self) -> int:
        """How many calls fail in a plan without findings."""
        return self.wire_up.failed if self.wire_up else 0

    @property
    def reasons(self) -> Sequence[str]:
        """Why the verdict holds only in part, by the head of a recorded plan."""
        return find_reasons(self.plan)

    @property
    def verdicts(self) -> str | None:
        """The verdicts with and without the order of polls, if they differ."""
        return find_verdicts(self.plan)

    @property
    def strict(self) -> Sequence[Finding]:
        """The races that are found with --strict alone, as the head of the plan names them."""
        return find_strict(self.plan)

    @property
    def left_out(self) -> Sequence[str]:
        """What a recorded plan leaves out: first what can hide a race."""
        titles = (words.LEFT_OUT, words.LEFT_OUT_HARMLESS)
        return [text for title in titles for text in self.plan.list_in_head(title)]


def make_report(path: str, asker: Asker) -> Report:
    """Asks the checker for all that a report says of the plan at a path.

    Raises Refused where the checker can't be run, refuses the plan, or isn't `wire_up`.
    """
    version, plan = asker.version(), read_taken(asker)
    start = time.monotonic()
    groups = find_groups(asker, plan)
    search, order = begin_search(asker, time.monotonic() - start), find_order(plan)
    causes = find_causes(groups)
    elsewhere, portable = find_elsewhere(search, order, causes), find_portable_of(asker)
    report = Report(path, version, order, causes, elsewhere=elsewhere, portable=portable)
    report = replace(report, is_past_limits=is_past_limits(asker))
    if not causes:
        return replace(report, wire_up=find_wire_up(asker, order))
    return replace(report, details=[find_detail(search, order, cause) for cause in causes[:CAUSES]])


def is_past_limits(asker: Asker) -> bool:
    """Whether the plan is past the limits of version 2."""
    return len(asker.data) > VERSION_2.plan_bytes


def find_portable_of(asker: Asker) -> Portable | None:
    """For which libraries the plan is portable; None where the checker can't tell, and of a plan
    past the limits, which may have millions of calls that are named."""
    return None if is_past_limits(asker) else find_portable(asker.checker, asker.data)


def read_taken(asker: Asker) -> Plan:
    """The plan. One that can't be read is one that the checker refuses: raises Refused then."""
    try:
        return read_plan(asker.data)
    except (LookupError, ValueError):
        answer = asker.ask("check")
        asker.judge(answer.status, answer.stderr)
        raise


def find_detail(search: Search, order: Order, cause: Cause) -> Detail:
    """What is told of a cause in full."""
    diagram = make_race_diagram(cause.first, search, order)
    return Detail(cause, diagram, find_runs(search, cause.first))


def find_wire_up(asker: Asker, order: Order) -> WireUp:
    """What becomes of a plan without findings."""
    replies = find_replies(asker, order.plan)
    waits = find_waits(order, replies.waiting_at)
    diagram = make_wire_up_diagram(order, replies.waiting_at)
    circle, never = find_stuck(asker, waits)
    return WireUp(waits, circle, never, replies.failed, replies.failures, diagram)


def find_stuck(asker: Asker, waits: Sequence[Wait]) -> tuple[Sequence[str], Sequence[str]]:
    """The ranks that wait in a circle, and those that wait for no other rank, as the checker tells
    them; where it doesn't, as the calls that wait tell."""
    told = find_standstill(asker) if waits else None
    if told:
        return [standing.rank for standing in told.circle], [
            standing.rank for standing in told.never
        ]
    return find_circle(waits), [wait.call.rank.name for wait in waits if not wait.ranks]
