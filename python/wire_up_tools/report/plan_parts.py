"""Parts of a large plan, for which the checker needs less memory than for the whole.

A get that doesn't wait changes nothing for other calls. So where nothing is found, each call has
the same reply in a plan without some such gets: a part has all other calls, and a part of the gets
of each long series.
"""
import bisect
from collections.abc import Iterator, Mapping, Sequence
from dataclasses import dataclass

from wire_up_tools.plan import Call, Plan, Rank, Series

# About how many bytes of gets a part has.
PART_BYTES = 16 << 20
AT_ONCE = "get-now"


@dataclass(frozen=True)
class Stretch:
    """Calls that follow each other: the number of the first in the part and in the plan. With
    `is_told` this part tells what becomes of them, else another."""

    first: int
    number: int
    is_told: bool


@dataclass(frozen=True, eq=False)
class PlanPart:
    """A part: its bytes, and the stretches of each rank, by its name."""

    data: bytes
    stretches: Mapping[str, Sequence[Stretch]]

    def find_number(self, rank: str, number: int) -> int | None:
        """The number in the plan of a call of the part; None where another part tells of it."""
        of_rank = self.stretches[rank]
        found = of_rank[bisect.bisect_right(of_rank, number, key=lambda stretch: stretch.first) - 1]
        return found.number + number - found.first if found.is_told else None


def list_parts(plan: Plan, data: bytes) -> Iterator[PlanPart]:
    """The parts of a plan in these bytes: a plan that isn't large is one."""
    count = 1 if plan.declared.keeps else -(-count_bytes(plan) // PART_BYTES)
    if count < 2:
        yield PlanPart(data, {rank.name: [Stretch(1, 1, is_told=True)] for rank in plan.ranks})
        return
    for number in range(count):
        yield make_part(plan, number, count)


def count_bytes(plan: Plan) -> int:
    """How many bytes of the plan are gets that parts can leave out."""
    entries = (entry for rank in plan.ranks for entry in plan.list_outline(rank))
    return sum(
        len(each_entry.data)
        for each_entry in entries
        if isinstance(each_entry, Series) and each_entry.verb == AT_ONCE
    )


def make_part(plan: Plan, number: int, count: int) -> PlanPart:
    """A part by its number from 0, of so many."""
    said = (line for line in plan.lines if line.split() and not line.lstrip().startswith("#"))
    text = [f"{next(said)}\n", *(f"node {node}\n" for node in plan.declared.nodes)]
    pieces = ["".join(text).encode()]
    stretches: dict[str, Sequence[Stretch]] = {}
    for job in plan.declared.jobs:
        pieces.append(f"job {job}\n".encode())
        for rank in (each_rank for each_rank in plan.ranks if each_rank.job == job):
            pieces.append(f"rank {rank.node}\n".encode())
            script = Script(pieces, [], number, count)
            script.write(plan, rank)
            stretches[rank.name] = script.stretches
    return PlanPart(b"".join(pieces), stretches)


@dataclass
class Script:
    """Writes the script of a rank in a part."""

    pieces: list[bytes]
    stretches: list[Stretch]
    number: int
    count: int
    written: int = 0

    def write(self, plan: Plan, rank: Rank) -> None:
        """Writes the calls of a rank."""
        for entry in plan.list_outline(rank):
            if isinstance(entry, Call):
                text = f"{' '.join(entry.words)}\n".encode()
                self.add(entry.number, 1, text, is_told=self.number == 0)
            elif entry.verb == AT_ONCE:
                self.add_cut(entry)
            else:
                self.add(entry.first, entry.count, bytes(entry.data), is_told=self.number == 0)

    def add_cut(self, series: Series) -> None:
        """Writes the gets of a series that belong to this part."""
        text = bytes(series.data)
        start, end = (self.find_cut(text, number) for number in (self.number, self.number + 1))
        before = text.count(b"\n", 0, start)
        count = text.count(b"\n", start, end)
        self.add(series.first + before, count, text[start:end], is_told=True)

    def find_cut(self, text: bytes, number: int) -> int:
        """Where the gets of a part begin among all of a series: with a line."""
        at = len(text) * number // self.count
        return text.rfind(b"\n", 0, at) + 1 if at < len(text) else at

    def add(self, number: int, count: int, text: bytes, *, is_told: bool) -> None:
        """Writes calls of which the first has this number in the plan."""
        self.pieces.append(text)
        if count:
            self.stretches.append(Stretch(self.written + 1, number, is_told))
        self.written += count
