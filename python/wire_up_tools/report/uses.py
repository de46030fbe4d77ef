"""Who puts which key and publishes which name in a plan, and which call a call waits for."""
import bisect
import collections
from collections.abc import Mapping, Sequence
from dataclasses import dataclass

from wire_up_tools.plan import Call, Plan
from wire_up_tools.words import EVERY_NAME, is_reserved


@dataclass(frozen=True, eq=False)
class Uses:
    """Who puts which key and publishes which name; those that are answered by themselves aside.

    `puts` are by the rank and the key, `commits` by the rank, and `publishes` by the name.
    `unpublished` are the names that some call may take away.
    """

    puts: Mapping[tuple[str, str], Sequence[Call]]
    commits: Mapping[str, Sequence[Call]]
    publishes: Mapping[str, Sequence[Call]]
    unpublished: frozenset[str]

    def find_commit(self, put: Call) -> Call | None:
        """The first commit of a rank after a put of it."""
        commits = self.commits.get(put.rank.name, ())
        at = bisect.bisect_right(commits, put.number, key=lambda call: call.number)
        return commits[at] if at < len(commits) else None

    def find_bringer(self, owner: str, key: str) -> Call | None:
        """The commit for which a get of another rank's key waits in every run."""
        puts = self.puts.get((owner, key), ())
        return self.find_commit(puts[0]) if len(puts) == 1 else None

    def find_awaited(self, call: Call) -> Call | None:
        """The call of another rank for which a call waits in every run, by the scripts."""
        if call.verb == "get" and call.target != call.rank.name:
            return self.find_bringer(call.target, call.about)
        if call.verb == "lookup-wait" and call.about not in self.unpublished:
            publishes = self.publishes.get(call.about, ())
            return publishes[0] if len(publishes) == 1 else None
        return None


def find_uses(plan: Plan) -> Uses:
    """Who puts which key and publishes which name."""
    puts, commits, publishes = (collections.defaultdict(list) for _ in range(3))
    for call in plan.list_single():
        if call.verb == "put" and not is_reserved(call.about):
            puts[call.rank.name, call.about].append(call)
        elif call.verb == "commit":
            commits[call.rank.name].append(call)
        elif call.verb == "publish" and not is_reserved(call.about):
            publishes[call.about].append(call)
    return Uses(puts, commits, publishes, find_unpublished(plan, publishes))


def find_unpublished(plan: Plan, publishes: Mapping[str, Sequence[Call]]) -> frozenset[str]:
    """The names that some call may take away."""
    calls = [call for call in plan.list_single() if call.verb == "unpublish"]
    sweepers = {call.rank.name for call in calls if call.about == EVERY_NAME}
    swept = (
        name
        for name, of_it in publishes.items()
        if any(call.rank.name in sweepers for call in of_it)
    )
    return frozenset(call.about for call in calls if call.about != EVERY_NAME).union(swept)
