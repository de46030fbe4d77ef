"""The calls of a plan in the words of a pattern: roles in the place of ranks."""
import enum
import itertools
import re
from collections.abc import Iterator, Mapping, Sequence
from dataclasses import dataclass
from typing import NamedTuple

# A word that stands for the caller, and for the rank of a turn of a loop.
SELF, EACH = "self", "each"
ALL = "all"
# Which of the items of a set come last.
LAST = {SELF: 1, EACH: 2}
# What stands for a value where those of the ranks differ.
ANY_VALUE = "v"
# Which word of a call is a value.
VALUES = {"put": 3, "publish": 2}
# The calls that name a rank in their second word.
ASKING = ("get", "get-now")
INDEXED = re.compile(r"([^\[\]]+)\[([^\[\]]+)\]")
# How groups and single roles are called, where the plan has one job.
GROUP, FIRST, OTHERS = "ranks", "root", "workers"


@dataclass(frozen=True)
class Script:
    """What one rank calls, in words: its name, its job, and its calls."""

    rank: str
    job: str
    calls: Sequence[Sequence[str]]


@dataclass(frozen=True)
class Role:
    """A role of a pattern: its name, its job, and the ranks that have it. One that `is_group` has
    any number of them."""

    name: str
    job: str
    ranks: Sequence[str]
    is_group: bool


class Over(enum.Enum):
    """Over whom of a group the loop of a rank goes: over the others in their order, over those from
    the next one on, or over some."""

    IN_ORDER = enum.auto()
    CYCLIC = enum.auto()
    SOME = enum.auto()


class Said(NamedTuple):
    """A call in the words of a pattern without its value, and the other rank that it names, if it
    names one of a group."""

    words: str
    other: str | None


class NotSaid(Exception):
    """Why a call has no words in a pattern."""


@dataclass(frozen=True)
class Roles:
    """The roles of a pattern, in the order of its ranks."""

    all: Sequence[Role]

    @property
    def by_rank(self) -> Mapping[str, Role]:
        """The role of each rank."""
        return {rank: role for role in self.all for rank in role.ranks}

    def find(self, name: str) -> Role:
        """The role of a name."""
        return next(role for role in self.all if role.name == name)

    def find_ranks(self, job: str) -> Sequence[str]:
        """The ranks of a job, in order."""
        return [rank for role in self.all if role.job == job for rank in role.ranks]


def choose_roles(scripts: Sequence[Script]) -> Iterator[Roles]:
    """The ways to part ranks into roles: those of a job are one group, or the first one has a role
    of its own. A job of one rank is a single role."""
    jobs: dict[str, list[str]] = {}
    for script in scripts:
        jobs.setdefault(script.job, []).append(script.rank)
    ways = []
    for job, ranks in jobs.items():
        after = f".{job}" if len(jobs) > 1 else ""
        parted = [Role(FIRST + after, job, ranks[:1], False)]
        if len(ranks) == 1:
            ways.append([parted])
            continue
        parted.append(Role(OTHERS + after, job, ranks[1:], True))
        ways.append([[Role(GROUP + after, job, ranks, True)], parted])
    for chosen in itertools.product(*ways):
        yield Roles([role for roles in chosen for role in roles])


class Speaker:
    """Says the calls of one rank in the words of a pattern."""

    def __init__(self, roles: Roles, rank: str) -> None:
        self.rank, self.roles = rank, roles
        self.role_of = roles.by_rank
        self.order = {text: n for n, text in enumerate(self.role_of)}
        self.job = self.role_of[rank].job

    def say(self, words: Sequence[str]) -> Said:
        """A call in the words of a pattern. Raises NotSaid."""
        verb, others = words[0], set[str]()
        said = [verb]
        for n, word in enumerate(words[1:], 1):
            if n == VALUES.get(verb):
                said.append("\0")
            elif verb in ASKING and n == 1:
                said.append(self.say_rank(word, others))
            elif verb == "fence" and n == 1:
                said.append(self.say_set(word, others))
            else:
                said.append(self.say_key(word, others) if verb != "fence" else word)
        if len(others) > 1:
            raise NotSaid("names two ranks of a group besides its caller")
        return Said(" ".join(said), others.pop() if others else None)

    def say_rank(self, rank: str, others: set[str]) -> str:
        """A rank: a role, the caller itself, or another one of a group. Raises NotSaid."""
        role = self.role_of.get(rank)
        if not role:
            raise NotSaid("names a rank that isn't there")
        if rank == self.rank:
            return SELF
        if not role.is_group:
            return role.name
        others.add(rank)
        return EACH

    def say_key(self, key: str, others: set[str]) -> str:
        """A key or a name, with the ranks in its brackets. Raises NotSaid."""
        read = INDEXED.fullmatch(key)
        if read:
            indices = (self.say_rank(part, others) for part in read[2].split(","))
            return f"{read[1]}[{','.join(indices)}]"
        if "[" in key or "]" in key:
            raise NotSaid("has a key with brackets")
        return key

    def find_members(self, word: str) -> set[str]:
        """The ranks of a set."""
        if word == ALL:
            return set(self.roles.find_ranks(self.job))
        found = set[str]()
        for part in word.split(","):
            job, _, number = part.rpartition(":")
            found.update(self.roles.find_ranks(job) if number == "*" else [part])
        return found

    def say_set(self, word: str, others: set[str]) -> str:
        """A set of ranks, by the jobs and roles of which it has all. Raises NotSaid."""
        members = self.find_members(word)
        if members == set(self.roles.find_ranks(self.job)):
            return ALL
        items: list[str] = []
        left = set(members)
        for job in dict.fromkeys(each_role.job for each_role in self.roles.all):
            ranks = self.roles.find_ranks(job)
            if members.issuperset(ranks):
                items.append(f"{job}:*")
                left.difference_update(ranks)
        for role in self.roles.all:
            if role.is_group and len(role.ranks) > 1 and left.issuperset(role.ranks):
                items.append(role.name)
                left.difference_update(role.ranks)
        said = [self.say_rank(member, others) for member in sorted(left, key=self.find_place)]
        # Single roles first, then the caller, then the rank of the turn.
        return ",".join(items + sorted(said, key=lambda line: LAST.get(line, 0)))

    def find_place(self, rank: str) -> int:
        """The place of a rank in the order of all, after which come those that aren't there."""
        return self.order.get(rank, len(self.order))
