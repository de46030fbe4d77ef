"""Tables of what a library did with the plans of the suite, as the repository keeps them."""
import re
from collections.abc import Mapping, Sequence
from dataclasses import dataclass
from pathlib import Path

from wire_up_tools.run.reports import Difference, Place
from wire_up_tools.run.suite import Kind, Verdict

PLAN = re.compile(r"(equal|different|unsteady) (\S+) (\d+)")
CALL = re.compile(r"  (\S+) (\d+) (\S+) rules (.*?) v library (.*?)(?: \((\d+) of (\d+)\))?")
# The lines at the head of a table, beside its comments.
HEAD = ("library", "version", "host", "date")


@dataclass(frozen=True)
class Recorded:
    """What a library did with a plan: in how many runs, and each call that differed in one."""

    kind: Kind
    times: int
    differences: Sequence[Difference]


@dataclass(frozen=True)
class Table:
    """What a library did with plans, by their names; and its head."""

    head: Mapping[str, str]
    plans: Mapping[str, Recorded]


def read_table(path: Path) -> Table:
    """Reads a table. Raises OSError."""
    head: dict[str, str] = {}
    found: dict[str, tuple[Kind, int, list[Difference]]] = {}
    for line in path.read_text(encoding="ascii").splitlines():
        plan, call = PLAN.fullmatch(line), CALL.fullmatch(line)
        if plan:
            found[plan[2]] = (Kind(plan[1]), int(plan[3]), [])
        elif call:
            place = Place(call[1], int(call[2]), call[3])
            found[list(found)[-1]][2].append(Difference(place, call[4], call[5]))
        elif line.startswith(HEAD):
            word, _, rest = line.partition(" ")
            head[word] = rest
    return Table(head, {name: Recorded(*pair) for name, pair in found.items()})


def write_verdict(verdict: Verdict) -> str:
    """The lines of a plan."""
    times = sum(each_seen.times for each_seen in verdict.seen)
    lines = [f"{verdict.kind.value} {verdict.plan.name} {times}"]
    for seen in verdict.seen:
        often = f" ({seen.times} of {times})" if verdict.kind is Kind.UNSTEADY else ""
        for difference in seen.differences:
            lines.append(
                f"  {difference.place} rules {difference.rules}"
                f" v library {difference.library}{often}"
            )
    return "".join(f"{line}\n" for line in lines)


def write_table(head: Mapping[str, str], verdicts: Sequence[Verdict]) -> str:
    """A table. A plan that couldn't be run isn't in it."""
    first = "# What a library replied to plans of the suite: made by wire_up-run.\n"
    lines = [f"{word} {rest}\n" for word, rest in head.items()]
    plans = [write_verdict(verdict) for verdict in verdicts if verdict.kind is not Kind.FAILED]
    return "".join([first, *lines, *plans])
