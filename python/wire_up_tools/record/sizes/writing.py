"""Writes the text of a pattern: scripts, with the claims about what ranks know as names that they
publish for themselves."""
from collections.abc import Mapping, Sequence
from dataclasses import dataclass

from wire_up_tools.record.patterns.finding import Item, Loop
from wire_up_tools.record.patterns.indexing import find_key
from wire_up_tools.record.patterns.joining import add_item
from wire_up_tools.record.patterns.scripts import ANY_VALUE, EACH, SELF, VALUES
from wire_up_tools.record.sizes.claims import Claim
from wire_up_tools.record.sizes.plans import Call
from wire_up_tools.record.sizes.scripts import Skeleton
from wire_up_tools.words import PLACE_COMMENT, UNKNOWN_PLACE

# How the names begin that stand for claims.
DONE = "done"
# A line of a script: its role, the number of its item, and its number in the item.
LineOf = tuple[str, int, int]


def list_lines(item: Item) -> Sequence[str]:
    """The lines of an item."""
    return item.lines if isinstance(item, Loop) else [item]


def find_calls(skeleton: Skeleton) -> Mapping[LineOf, Sequence[Call]]:
    """The calls of all ranks that come from each line."""
    found: dict[LineOf, list[Call]] = {}
    for instance in skeleton.instances:
        for role in instance.roles.all:
            items = skeleton.scripts[role.name]
            for rank in role.ranks:
                calls, bounds = instance.plan.list_program(rank), instance.passed[rank].bounds
                for number, item in enumerate(items):
                    count = len(list_lines(item))
                    for n, call in enumerate(calls[bounds[number]:bounds[number + 1]]):
                        found.setdefault((role.name, number, n % count), []).append(call)
    return found


def find_mark(skeleton: Skeleton) -> str:
    """A beginning of names that the program's calls don't have."""
    names = {
        find_key(call.words) for instance in skeleton.instances for call in instance.plan.list_all()
    }
    mark = DONE
    while any(name.startswith(f"{mark}.") for name in names):
        mark += "_"
    return mark


@dataclass(frozen=True)
class Writer:
    """Writes the scripts of a skeleton with claims."""

    skeleton: Skeleton
    claims: Sequence[Claim]
    calls: Mapping[LineOf, Sequence[Call]]
    mark: str

    def name(self, claim: Claim, whose: str) -> str:
        """The name by which a rank says that it has come to an item."""
        base = f"{self.mark}.{claim.source}.{claim.known}"
        role = next(role for role in self.skeleton.roles if role.name == claim.source)
        if role.is_group:
            return f"{base}[{whose}]"
        # Where a loop has a turn for a single role, each line of it names the rank of the turn.
        of = claim.source, claim.known
        has_turns = any(
            other.of_turns and (other.source, other.known) == of for other in self.claims
        )
        return f"{base}[{whose}]" if has_turns else base

    def publish(self, role: str, at: int) -> list[str]:
        """What a rank of a role publishes before an item."""
        here = [claim for claim in self.claims if (claim.source, claim.known) == (role, at)]
        return [f"publish {self.name(here[0], SELF)} sent"] if here else []

    def wait(self, role: str, at: int) -> list[str]:
        """What a rank of a role waits for before an item."""
        groups = {role.name for role in self.skeleton.roles if role.is_group}
        found = list[str]()
        for claim in self.claims:
            if (claim.role, claim.at, claim.of_turns) == (role, at, False):
                is_group = claim.source in groups
                line = f"lookup-wait {self.name(claim, EACH if is_group else claim.source)}"
                found += [f"for {claim.source}", line, "end"] if is_group else [line]
        return found

    def write_item(self, role: str, at: int, item: Item) -> list[str]:
        """The lines of an item, with where in the program they come from."""
        found = list[str]()
        place: str | None = UNKNOWN_PLACE
        for number, line in enumerate(list_lines(item)):
            calls = self.calls.get((role, at, number), ())
            here = next((call.place for call in calls if call.place), UNKNOWN_PLACE)
            if here != place:
                found.append(f"{PLACE_COMMENT}{here}")
                place = here
            found.append(line.replace("\0", find_value(calls)))
        if not isinstance(item, Loop):
            return found
        waits = [
            f"lookup-wait {self.name(claim, EACH)}" for claim in self.claims
            if (claim.role, claim.at, claim.of_turns) == (role, at, True)
        ]
        return [item.head, *waits, *found, "end"]

    def write_role(self, role: str) -> list[str]:
        """The script of a role."""
        found, items = list[str](), self.skeleton.scripts[role]
        for at in range(len(items) + 1):
            found += self.publish(role, at) + self.wait(role, at)
            if at < len(items):
                add_item(found, self.write_item(role, at, items[at]))
        return found


def find_value(calls: Sequence[Call]) -> str:
    """The value that all calls have, or what stands for any."""
    found = {call.words[VALUES[call.verb]] for call in calls if call.verb in VALUES}
    return found.pop() if len(found) == 1 else ANY_VALUE


def write_pattern(skeleton: Skeleton, claims: Sequence[Claim]) -> str:
    """The text of a pattern, without a head."""
    writer = Writer(skeleton, claims, find_calls(skeleton), find_mark(skeleton))
    lines = ["pattern 1", f"job {skeleton.roles[0].job}"]
    for role in skeleton.roles:
        lines.append(f"{'many' if role.is_group else 'one'} {role.name}")
        lines += writer.write_role(role.name)
    return "".join(f"{line}\n" for line in lines)


def find_places(skeleton: Skeleton) -> Mapping[tuple[str, str], str]:
    """Where in the program the lines of roles come from, as far as that is one place."""
    found: dict[tuple[str, str], set[str]] = {}
    for (role, at, number), calls in find_calls(skeleton).items():
        line = list_lines(skeleton.scripts[role][at])[number]
        found.setdefault((role, line), set()).update(call.place for call in calls if call.place)
    return {key: next(iter(places)) for key, places in found.items() if len(places) == 1}
