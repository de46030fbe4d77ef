"""What a library is known to make of a plan: which calls it answers otherwise than the rules, and
which of these make a verdict say less, since they can depend on which rank is fast."""
from collections.abc import Sequence
from dataclasses import dataclass

from wire_up_tools.failures import Refused
from wire_up_tools.plan import Plan
from wire_up_tools.run.expected import Expected
from wire_up_tools.run.libraries.predicting import (
    Predicted,
    Way,
    explain_differences,
    list_ways,
)
from wire_up_tools.run.libraries.rules import TIMED, Rule
from wire_up_tools.run.libraries.traits import Library
from wire_up_tools.run.reports import Place

# A plan of more calls isn't judged beside something else: it would take minutes.
MOST_CALLS = 10_000


@dataclass(frozen=True)
class Judged:
    """The calls that a library answers otherwise, and where those are whose reply can depend on
    which rank is fast; and how many calls there are."""

    library: Library
    found: Sequence[Predicted]
    timed: Sequence[Place]
    calls: int

    @property
    def rules(self) -> list[Rule]:
        """The rules of the library by which it does."""
        used = {rule for predicted in self.found for rule in predicted.rules}
        return [each_rule for each_rule in Rule if each_rule in used]


def hold_small(plan: Plan) -> None:
    """Raises Refused for a plan that has too many calls."""
    if plan.call_count > MOST_CALLS:
        raise Refused(f"what a library makes of more than {MOST_CALLS:,} calls isn't judged")


def judge(plan: Plan, library: Library, expected: Expected) -> Judged:
    """What a library makes of a plan. One without races is taken in several orders."""
    ways = [Way(expected.order)] if expected.order is not None else list_ways(plan, library.traits)
    found: dict[Place, Predicted] = {}
    replies: list[dict[Place, str]] = []
    for way in ways:
        differing = explain_differences(plan, library.traits, expected.report, way)
        replies.append(
            {
                each_difference.difference.place: each_difference.difference.library
                for each_difference in differing
            }
        )
        for difference in differing:
            found.setdefault(difference.difference.place, difference)
    in_order = [line.place for line in expected.report.lines if line.place in found]
    timed = [
        place
        for place in in_order
        if TIMED.intersection(found[place].rules) or len({of.get(place) for of in replies}) > 1
    ]
    return Judged(library, [found[place] for place in in_order], timed, len(expected.report.lines))
