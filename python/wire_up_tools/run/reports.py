"""Reports: what became of each call, as `replay` writes it, and where two of them differ."""
from collections.abc import Sequence
from dataclasses import dataclass

from wire_up_tools.failures import Refused

# What stands in place of a reply.
WAITING, UNREACHED, READY = "waiting", "unreached", "ready"
ENDS = ("waiting ", "order ")


@dataclass(frozen=True)
class Place:
    """A call by its rank and its number, and its verb."""

    rank: str
    number: int
    verb: str

    def __str__(self) -> str:
        return f"{self.rank} {self.number} {self.verb}"


@dataclass(frozen=True)
class Line:
    """A line of a report: a call, and its reply or what stands in its place."""

    place: Place
    reply: str


@dataclass(frozen=True)
class Report:
    """The lines of all calls, in rank order."""

    lines: Sequence[Line]

    @property
    def waiting(self) -> int:
        """How many ranks wait."""
        return sum(line.reply == WAITING for line in self.lines)

    @property
    def is_whole(self) -> bool:
        """Whether no rank could go on."""
        return all(line.reply != READY for line in self.lines)

    def write(self) -> str:
        """The report as a text."""
        lines = [f"{line.place} {line.reply}\n" for line in self.lines]
        return "".join([*lines, f"waiting {self.waiting}\n"])


@dataclass(frozen=True)
class Difference:
    """A call that two reports answer otherwise."""

    place: Place
    rules: str
    library: str

    def __str__(self) -> str:
        return f"differs {self.place} rules {self.rules} v library {self.library}"


def read_report(text: str) -> Report:
    """Reads a report of the checker. Raises Refused if it is none."""
    lines = []
    for said in text.splitlines():
        if said.startswith(ENDS):
            break
        words = said.split(" ", 3)
        if len(words) != 4 or not words[1].isdigit():
            raise Refused(f"wire_up wrote a line that is no report's: {said[:80]}")
        lines.append(Line(Place(words[0], int(words[1]), words[2]), words[3]))
    return Report(lines)


def compare(rules: Report, library: Report) -> list[Difference]:
    """The calls that the library answers otherwise. One that could go on in either isn't judged,
    nor what comes behind it."""
    found = []
    open_ranks: set[str] = set()
    for one, other in zip(rules.lines, library.lines):
        if READY in (one.reply, other.reply):
            open_ranks.add(one.place.rank)
        if one.reply != other.reply and one.place.rank not in open_ranks:
            found.append(Difference(one.place, one.reply, other.reply))
    return found
