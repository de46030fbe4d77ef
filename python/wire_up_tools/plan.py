"""A plan: what it declares, its calls with their places, and which calls of fences meet.

Of a plan with millions of calls only those are made that are named: many in a row that are alike
stay a series of bytes. How a plan is read is in plan_reading.py.
"""
import bisect
import functools
import itertools
from collections.abc import Iterator, Mapping, Sequence
from dataclasses import dataclass, field

from wire_up_tools import words

# Where the key or the name of a call stands among its words, where it isn't the second.
KEY_AT = {"put": 2, "get": 2, "get-now": 2}
WITHOUT_KEY = ("commit", "fence")
# Among how many lines of the head that is looked for which says that it was recorded.
HEAD_LINES = 100


@dataclass(frozen=True, eq=False)
class Rank:
    """A rank: its name such as `app:0`, its job, its node, its place in rank order from 0, and
    whether `wire_up-record` wrote its calls."""

    name: str
    job: str
    node: str
    index: int
    is_recorded: bool = False


@dataclass(frozen=True, eq=False, slots=True)
class Call:
    """A call of a rank.

    `number` counts the calls of its rank from 1. `line` is its line in the plan, from 1, and
    `place` says where in the program it comes from, if known, and `remark` what of MPI it stands
    for, as the line above says it.
    """

    rank: Rank
    number: int
    words: Sequence[str]
    line: int
    place: str | None
    remark: str | None = None

    @property
    def verb(self) -> str:
        """The word of the call."""
        return self.words[0]

    @property
    def target(self) -> str:
        """The word after the verb: a scope, a set, a rank, or a name."""
        return self.words[1]

    @property
    def about(self) -> str:
        """The key or name that the call is about; nothing for a commit or a fence."""
        at = KEY_AT.get(self.verb, 1)
        return "" if self.verb in WITHOUT_KEY or at >= len(self.words) else self.words[at]

    @property
    def collects(self) -> bool:
        """Whether it is a fence that collects data."""
        return self.verb == "fence" and self.words[2:] == ["collect"]

    @property
    def name(self) -> str:
        """How findings name it: by its rank and its number."""
        return f"{self.rank.name} {self.number}"


@dataclass(frozen=True, eq=False)
class Series:
    """Many calls of a rank in a row, which ask other ranks for one key by one verb.

    They stand in these bytes of the plan, and are made when they are asked for. `first` is the
    number of the first, and `line` its line.
    """

    rank: Rank
    first: int
    line: int
    count: int
    verb: str
    about: str
    data: memoryview
    made: dict[int, Call] = field(default_factory=dict)

    @property
    def last(self) -> int:
        """The number of its last call."""
        return self.first + self.count - 1

    @property
    def targets(self) -> list[str]:
        """Whom its calls ask, in their order."""
        skipped = len(self.verb) + 1
        cut = len(self.about) + 1
        return [line[skipped:-cut].decode() for line in bytes(self.data).splitlines()]

    def find_call(self, number: int) -> Call:
        """The call of a number of the rank, which must be one of these."""
        if number not in self.made:
            self.make(number, self.targets[number - self.first])
        return self.made[number]

    def list_calls(self) -> list[Call]:
        """All its calls."""
        for number, target in enumerate(self.targets, self.first):
            if number not in self.made:
                self.make(number, target)
        return [self.made[each_number] for each_number in range(self.first, self.last + 1)]

    def make(self, number: int, target: str) -> None:
        """Makes a call, which stands alone in its line."""
        said = [self.verb, target, self.about]
        self.made[number] = Call(self.rank, number, said, self.line + number - self.first, None)


# What a script has in outline.
Entry = Call | Series


@dataclass(frozen=True, eq=False)
class Meeting:
    """The calls of one fence that meet: the n-th of each member over the same set of ranks.

    `members` are the names of the ranks of that set, of which some may never call.
    """

    number: int
    members: frozenset[str]
    calls: Sequence[Call]

    @property
    def is_whole(self) -> bool:
        """Whether all members call it."""
        return len(self.calls) == len(self.members)

    @functools.cached_property
    def numbers(self) -> Mapping[str, int]:
        """The number of the call of each rank, by its name."""
        return {call.rank.name: call.number for call in self.calls}


@dataclass(frozen=True, eq=False)
class Declared:
    """What the lines of a plan declare: `head` are the comments above the header."""

    head: Sequence[str]
    keeps: bool
    nodes: Sequence[str]
    jobs: Sequence[str]
    ranks: Sequence[Rank]


class Scripts(Mapping[str, Sequence[Call]]):
    """The calls of each rank, by its name, as its outline has them."""

    def __init__(self, outlines: Mapping[str, Sequence[Entry]]) -> None:
        self.outlines = outlines
        self.made: dict[str, Sequence[Call]] = {}

    def __getitem__(self, name: str) -> Sequence[Call]:
        if name not in self.made:
            found: list[Call] = []
            for outline in self.outlines[name]:
                found += outline.list_calls() if isinstance(outline, Series) else [outline]
            self.made[name] = found
        return self.made[name]

    def __iter__(self) -> Iterator[str]:
        return iter(self.outlines)

    def __len__(self) -> int:
        return len(self.outlines)

    def find_call(self, rank: str, number: int) -> Call:
        """The call of a rank by its number from 1. Raises LookupError where there is none."""
        outline = self.outlines[rank]
        at = bisect.bisect_right(outline, number, key=number_of) - 1
        if at < 0 or number > last_of(outline[at]):
            raise LookupError(number)
        found = outline[at]
        return found.find_call(number) if isinstance(found, Series) else found


def number_of(entry: Entry) -> int:
    """The number of the first call of an entry."""
    return entry.first if isinstance(entry, Series) else entry.number


def last_of(entry: Entry) -> int:
    """The number of the last call of an entry."""
    return entry.last if isinstance(entry, Series) else entry.number


@dataclass(frozen=True, eq=False)
class Plan:
    """A plan: its lines, what it declares, the calls of each rank by its name, and which fences
    meet."""

    lines: Sequence[str]
    declared: Declared
    calls_of: Scripts
    meetings: Sequence[Meeting]
    meeting_of: Mapping[Call, Meeting]

    @property
    def ranks(self) -> Sequence[Rank]:
        """The ranks, in rank order."""
        return self.declared.ranks

    @property
    def calls(self) -> Sequence[Call]:
        """The calls of all ranks, in the order of the file. There may be millions."""
        return [call for rank in self.ranks for call in self.calls_of[rank.name]]

    @property
    def call_count(self) -> int:
        """How many calls there are."""
        outlines = self.calls_of.outlines.values()
        return sum(last_of(outline[-1]) for outline in outlines if outline)

    def list_outline(self, rank: Rank) -> Sequence[Entry]:
        """The calls of a rank, of which many that are alike are one entry."""
        return self.calls_of.outlines[rank.name]

    def list_single(self) -> Iterator[Call]:
        """The calls of all ranks but those of series."""
        for rank in self.ranks:
            for entry in self.list_outline(rank):
                if isinstance(entry, Call):
                    yield entry

    @property
    def is_recorded(self) -> bool:
        """Whether `wire_up-record` wrote it."""
        return is_recorded(self.declared.head)

    def find_call(self, rank: str, number: int) -> Call:
        """The call of a rank by its number from 1. Raises LookupError where there is none."""
        return self.calls_of.find_call(rank, number)

    def list_in_head(self, title: str) -> list[str]:
        """The lines that stand indented below a title in the head, such as `Left out:`."""
        return list_below(self.declared.head, title)


def list_below(head: Sequence[str], title: str) -> list[str]:
    """The lines that stand indented below a title in a head."""
    found: list[str] = []
    if title in head:
        below = itertools.islice(head, head.index(title) + 1, None)
        found = list(itertools.takewhile(lambda line: line.startswith("  "), below))
    return [line.strip() for line in found]


def is_recorded(head: Sequence[str]) -> bool:
    """Whether the head of a plan says that `wire_up-record` wrote it."""
    return any(line.startswith(words.RECORDED_BY) for line in head[:HEAD_LINES])
