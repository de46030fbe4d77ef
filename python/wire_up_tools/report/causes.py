"""One more level above the groups of the checker: groups of one cause are one mistake.

Groups have one cause if their findings are of one kind with the same verbs, and

- of keys: one call brings all of them, or calls at one place of the program do;
- of names: one `unpublish *` takes all of them away; or the names differ in numbers alone, and the
  calls are at the same places, or of the same ranks where no places are known;
- of keys that are put again: their ranks and places are the same.
"""
import collections
import itertools
import re
from collections.abc import Hashable, Iterable, Sequence
from dataclasses import dataclass

from wire_up_tools.plan import Call
from wire_up_tools.report.findings import Finding, Group, Kind
from wire_up_tools.report.places import find_own
from wire_up_tools.words import EVERY_NAME


@dataclass(frozen=True, eq=False)
class Cause:
    """Groups that are one mistake: the largest first, whose first finding stands for all."""

    groups: Sequence[Group]

    @property
    def group(self) -> Group:
        """The group that is told in full."""
        return self.groups[0]

    @property
    def first(self) -> Finding:
        """The finding that stands for all."""
        return self.group.first

    @property
    def count(self) -> int:
        """How many findings it has."""
        return sum(group.count for group in self.groups)

    @property
    def abouts(self) -> Sequence[str]:
        """The keys or names that its findings are about."""
        return list(dict.fromkeys(group.first.about for group in self.groups))


def find_causes(groups: Iterable[Group]) -> list[Cause]:
    """The causes of groups: the largest of each kind first, then the second of each, and so on."""
    found: dict[Hashable, list[Group]] = collections.defaultdict(list)
    for group in groups:
        found[name_cause(group.first)].append(group)
    causes = sorted(map(Cause, found.values()), key=lambda each_cause: -each_cause.count)
    by_kind: dict[Hashable, list[Cause]] = collections.defaultdict(list)
    for cause in causes:
        by_kind[describe_kind(cause.first)].append(cause)
    in_turn = itertools.zip_longest(*by_kind.values())
    return [each_cause for causes_in_turn in in_turn for each_cause in causes_in_turn if each_cause]


def describe_kind(finding: Finding) -> Hashable:
    """What kind a finding is: also by its verbs."""
    return finding.kind, *finding.verbs


def name_cause(finding: Finding) -> Hashable:
    """What findings of one cause have alike."""
    kind, calls = describe_kind(finding), finding.calls
    if finding.kind is Kind.KEY:
        bringer = next(call for call in calls if call.verb == finding.bringer)
        return kind, find_own(bringer) or bringer.name
    sweep = next((call.name for call in calls if call.about == EVERY_NAME), None)
    if sweep:
        return kind, sweep
    places = tuple(name_place(call) for call in calls)
    if finding.kind is Kind.REWRITE:
        return kind, finding.owner, *places
    return kind, re.sub(r"\d+", "#", finding.about), *sorted(places)


def name_place(call: Call) -> str:
    """Where a call comes from: its place in the program, or its rank where that isn't known."""
    return find_own(call) or call.rank.name
