"""What the suite gave, as lines, as JSON and as cases of JUnit."""
import collections
from collections.abc import Sequence
from dataclasses import dataclass

from wire_up_tools.run.answers import Case, dump, make_difference
from wire_up_tools.run.libraries.traits import Library
from wire_up_tools.run.profile import ProfileRule
from wire_up_tools.run.suite import Kind, Verdict


@dataclass(frozen=True)
class SuiteResult:
    """What came of all plans, and by what they were run. `known` is the library whose known rules
    were asked, if any."""

    verdicts: Sequence[Verdict]
    launcher: str
    times: int
    quiet: float
    known: Library | None

    @property
    def library(self) -> str:
        """What the library says of its version."""
        return next((verdict.library for verdict in self.verdicts if verdict.library), "")

    def of_rule(self, rule: ProfileRule) -> list[Verdict]:
        """What came of the plans about a rule."""
        return [verdict for verdict in self.verdicts if verdict.plan.rule is rule]

    def of_kind(self, kind: Kind) -> list[Verdict]:
        """The plans of which this came."""
        return [verdict for verdict in self.verdicts if verdict.kind is kind]

    @property
    def rules(self) -> list[ProfileRule]:
        """The rules that plans are about."""
        return [profile_rule for profile_rule in ProfileRule if self.of_rule(profile_rule)]


def name_state(found: Sequence[Verdict]) -> str:
    """What the plans about a rule say of it."""
    kinds = {verdict.kind for verdict in found}
    if Kind.DIFFERENT in kinds:
        return "not-kept"
    if Kind.UNSTEADY in kinds:
        return "unsteady"
    return "not-run" if Kind.FAILED in kinds else "kept"


def write_plan(verdict: Verdict) -> list[str]:
    """The lines of a plan: each call that differed, or why it couldn't be run."""
    name = verdict.plan.name
    if verdict.kind is Kind.FAILED:
        return [f"  failed {name}: {verdict.why}"]
    times = sum(each_seen.times for each_seen in verdict.seen)
    lines = []
    for seen in verdict.seen:
        often = f" ({seen.times} of {times})" if verdict.kind is Kind.UNSTEADY else ""
        for difference in seen.differences:
            how = f"rules {difference.rules} v library {difference.library}{often}"
            lines.append(f"  {verdict.kind.value} {name} {difference.place} {how}")
    return lines


def write_rule(rule: ProfileRule, found: Sequence[Verdict]) -> list[str]:
    """The lines of a rule: whether it is kept, in how many plans that is so, its words, and the
    plans in which it isn't."""
    words, bad = rule.value, [verdict for verdict in found if verdict.kind is not Kind.EQUAL]
    said = f"{len(bad) or len(found)} of {len(found)} plans: {words.text} ({words.source})"
    lines = [line for verdict in bad for line in write_plan(verdict)]
    return [f"{name_state(found)} {rule.label} {said}", *lines]


def write_unexplained(result: SuiteResult) -> list[str]:
    """The plans that differ, and that no known rule of the library explains."""
    different = result.of_kind(Kind.DIFFERENT)
    if result.known is None:
        mixed = [verdict for verdict in different if verdict.plan.rule is ProfileRule.MIXED]
        lines = ["known none: of no library like this one are rules known"]
        return [*lines, *(f"unexplained {verdict.plan.name}" for verdict in mixed)]
    explained = sum(verdict.is_known for verdict in different)
    first = f"known {result.known.name} explains {explained} of {len(different)} plans"
    return [
        first,
        *(f"unexplained {verdict.plan.name}" for verdict in different if not verdict.is_known),
    ]


def write_suite(result: SuiteResult) -> str:
    """What the suite gave, as lines."""
    count = collections.Counter(verdict.kind for verdict in result.verdicts)
    lines = [f"library {result.library}", f"launcher {result.launcher}"]
    lines.append(
        f"plans {len(result.verdicts)} times {result.times}; what made no progress for "
        f"{result.quiet:g} seconds is judged to be waiting"
    )
    for rule in result.rules:
        lines += write_rule(rule, result.of_rule(rule))
    lines += write_unexplained(result)
    lines.append(" ".join(f"{kind.value} {count[kind]}" for kind in Kind))
    return "".join(f"{line}\n" for line in lines)


def write_suite_json(result: SuiteResult) -> str:
    """What the suite gave, as JSON."""
    plans = [
        {
            "differs": [make_difference(difference) for difference in verdict.differences],
            "kind": verdict.kind.value,
            "known": verdict.is_known,
            "plan": verdict.plan.name,
            "rule": verdict.plan.rule.label,
            "why": verdict.why,
        }
        for verdict in result.verdicts
    ]
    rules = [
        {
            "rule": rule.label,
            "source": rule.value.source,
            "state": name_state(result.of_rule(rule)),
            "text": rule.value.text,
        }
        for rule in result.rules
    ]
    about = {"launcher": result.launcher, "library": result.library, "times": result.times}
    return dump({**about, "plans": plans, "rules": rules})


def list_suite_cases(result: SuiteResult) -> list[Case]:
    """A case for each plan, in the group of its rule."""
    cases = []
    for verdict in result.verdicts:
        lines = [line.strip() for line in write_plan(verdict)]
        cases.append(Case(verdict.plan.rule.label, verdict.plan.name, "; ".join(lines)))
    return cases
