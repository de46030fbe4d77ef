"""The ranks that wait for ever in a plan without findings, as `wire_up replay` names them: those of
a deadlock, and those that wait for what never comes."""
import itertools
import re
from collections.abc import Iterator, Sequence
from dataclasses import dataclass, replace
from typing import Any

from wire_up_tools.checker import Answer
from wire_up_tools.report.asking import CLEAN, Asker, read_json
from wire_up_tools.report.pattern_answers import Settled

# How many sizes of a pattern are tried until a rank waits, how many ranks a group has there at most
# (if it has no larger least number), and how many where none waits so.
SIZES, LARGEST, LATER = 256, 3, 9
# How lines say who waits for ever: a rank with its call, what stands above those that wait for what
# never comes, and that there are more.
LINE = re.compile(r"^    (\S+) (\d+) (\S+) waits for (.*)$", re.MULTILINE)
NEVER = "  for what never comes:\n"
MORE = re.compile(r"^    and \d+ more$", re.MULTILINE)


@dataclass(frozen=True)
class Standing:
    """A rank that waits for ever: its name, the number and the verb of its call, and for what."""

    rank: str
    number: int
    verb: str
    waits_for: str


@dataclass(frozen=True)
class Standstill:
    """Ranks that wait for ever: those of a circle, each for the next and the last for the first,
    and those that wait for no rank."""

    circle: Sequence[Standing]
    never: Sequence[Standing]

    @property
    def is_empty(self) -> bool:
        """Whether it names nobody."""
        return not self.circle and not self.never


@dataclass(frozen=True)
class Sized:
    """Who waits for ever in the plan of a pattern with so many ranks of each group, without some
    turns of its loops, in words."""

    sizes: Sequence[tuple[str, int]]
    ranks: int
    standstill: Standstill
    not_taken: Sequence[str] = ()

    @property
    def words(self) -> str:
        """The sizes as `expand` takes them."""
        return ",".join(f"{name}={count}" for name, count in self.sizes)


def find_standstill(asker: Asker) -> Standstill | None:
    """Who waits for ever in a plan; None if the checker is an older one, which doesn't tell all of
    it, or the plan so large that its report in one piece would be."""
    if asker.checker.is_large:
        return None
    return read_standstill(asker.ask("replay", "--json", "--explain"))


def read_standstill(answer: Answer) -> Standstill | None:
    """Who waits for ever by a report as JSON; of an older checker, by what it says besides."""
    said = read_json(answer)
    if "deadlock" not in said:
        return read_lines(answer.stderr) if "ranks" in said else None
    return read_members(said)


def read_members(said: dict[str, Any]) -> Standstill:
    """Who waits for ever by two members of an object."""
    return Standstill([*map(read_standing, said["deadlock"])], [*map(read_standing, said["never"])])


def read_lines(said: str) -> Standstill | None:
    """Who waits for ever by the lines that say it; None if they only count some."""
    if MORE.search(said):
        return None
    circle, _, never = said.partition(NEVER)
    read = (
        [Standing(rank, int(call), verb, what) for rank, call, verb, what in LINE.findall(text)]
        for text in (circle, never)
    )
    return Standstill(*read)


def read_standing(said: dict[str, Any]) -> Standing:
    """A rank that waits, as a report has it."""
    return Standing(said["proc"], said["call"], said["verb"], said["waits_for"])


def find_sized(asker: Asker, groups: Sequence[str], said: Settled) -> Sized | None:
    """Who waits for ever in the smallest plan of a pattern in which a rank does. Where the checker
    doesn't tell, or no rank waits in a plan that it judges, in the smallest of those in which all
    turns are taken; None if that is none of the first sizes."""
    judged = find_judged(asker) if said.waits else None
    if judged:
        return judged
    sizes = list_sizes(groups, said) if said.waits else list_later_sizes(groups, said)
    for size in itertools.islice(sizes, SIZES):
        found = look_at_size(asker, size)
        if found is None or not found.standstill.is_empty:
            return found
    return None


def find_judged(asker: Asker) -> Sized | None:
    """Who waits for ever in the first plan that is judged in which a rank does; None if the checker
    is an older one, which doesn't tell."""
    where = read_json(asker.ask("check", "--pattern", "--json", "--explain")).get("where")
    if not where:
        return None
    ranks, *groups = where["with"].split(", ")
    sizes = [(name, int(count)) for name, _, count in (group.rpartition("=") for group in groups)]
    left = where.get("not_taken", [])
    return Sized(sizes, int(ranks.split(" ")[0]), read_members(where), left)


def list_sizes(groups: Sequence[str], said: Settled) -> Iterator[list[tuple[str, int]]]:
    """The sizes of the groups that are judged, those with the fewest ranks first."""
    least = {name: count for count, name in said.least}
    ranges = [range(least.get(group, 0), max(LARGEST, least.get(group, 0)) + 1) for group in groups]
    for counts in sorted(itertools.product(*ranges), key=lambda row: (sum(row), row)):
        yield [*zip(groups, counts)]


def list_later_sizes(groups: Sequence[str], said: Settled) -> Iterator[list[tuple[str, int]]]:
    """Larger sizes: as many ranks of each group."""
    first = max([LARGEST, *(count for count, _ in said.least)]) + 1
    for size in range(first, LATER + 1) if groups else ():
        yield [(group, size) for group in groups]


def look_at_size(asker: Asker, sizes: Sequence[tuple[str, int]]) -> Sized | None:
    """Who waits for ever in the plan of a pattern with these sizes; None if none is written."""
    sized = Sized(sizes, 0, Standstill([], []))
    plan = asker.ask("expand", *([f"--ranks={sized.words}"] if sizes else []))
    if plan.status != CLEAN:
        return None
    of_plan = replace(asker, data=plan.stdout.encode())
    answer = of_plan.ask("replay", "--json", "--explain")
    found = read_standstill(answer)
    ranks = len(read_json(answer)["ranks"]) if found else 0
    return replace(sized, ranks=ranks, standstill=found) if found else None
