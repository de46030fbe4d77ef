"""Reads a pattern, and expands it: the calls of each rank, for some numbers of ranks."""
import itertools
import re
from collections.abc import Iterator, Mapping, Sequence
from dataclasses import dataclass, field

from wire_up_tools.record.patterns.scripts import ALL, ASKING, EACH, INDEXED, SELF, Over

HEADER = "pattern 1"
# The words of a call.
Line = Sequence[str]
# Whom a loop of some ranks is over, by the role, the number of its item, and the rank.
Choices = Mapping[tuple[str, int, str], Sequence[str]]


@dataclass(frozen=True)
class ReadLoop:
    """A loop over one role: which, over whom of it, and its lines. A loop over several roles is one
    over each."""

    role: str
    over: Over
    lines: list[Line] = field(default_factory=list)

    @property
    def is_some(self) -> bool:
        """Whether ranks may be left out."""
        return self.over is Over.SOME


@dataclass(frozen=True)
class ReadRole:
    """A role of a job, with its items."""

    job: str
    name: str
    is_group: bool
    items: list[Line | ReadLoop] = field(default_factory=list)


def read_loops(words: Sequence[str]) -> list[ReadLoop]:
    """The loops that a line begins. They have the same lines."""
    is_cyclic = words[-1] == "cyclic" and len(words) > 2
    over = Over.SOME if words[1] == "some" else Over.CYCLIC if is_cyclic else Over.IN_ORDER
    lines = list[Line]()
    roles = (words[2] if over is Over.SOME else words[1]).split(",")
    return [ReadLoop(role, over, lines) for role in roles]


def read_pattern(text: str) -> list[ReadRole]:
    """The roles of a pattern. It must be one: nothing is judged."""
    roles: list[ReadRole] = []
    job = ""
    lines: list[Line] | None = None
    for words in (line.split() for line in text.splitlines()):
        if not words or words[0].startswith("#") or " ".join(words) in (HEADER, "keep"):
            continue
        if words[0] == "job":
            job = words[1]
        elif words[0] in ("one", "many"):
            roles.append(ReadRole(job, words[1], words[0] == "many"))
        elif words[0] == "for":
            loops = read_loops(words)
            roles[-1].items.extend(loops)
            lines = loops[0].lines
        elif words[0] == "end":
            lines = None
        elif lines is not None:
            lines.append(words)
        else:
            roles[-1].items.append(words)
    return roles


class Instance:
    """The ranks of a pattern for some numbers of them in its groups."""

    def __init__(self, roles: Sequence[ReadRole], sizes: Mapping[str, int]) -> None:
        self.roles = roles
        self.ranks: dict[str, list[str]] = {}
        self.of_job: dict[str, list[str]] = {}
        for role in roles:
            job = self.of_job.setdefault(role.job, [])
            count = sizes[role.name] if role.is_group else 1
            self.ranks[role.name] = [f"{role.job}:{len(job) + n}" for n in range(count)]
            job += self.ranks[role.name]

    def expand_rank(self, word: str, rank: str, each: str | None) -> str:
        """The rank that a word stands for."""
        if word == EACH and each is not None:
            return each
        return rank if word == SELF else self.ranks[word][0]

    def expand_key(self, key: str, rank: str, each: str | None) -> str:
        """A key or a name, with ranks in its brackets."""
        read = INDEXED.fullmatch(key)
        if not read:
            return key
        indices = (self.expand_rank(part, rank, each) for part in read[2].split(","))
        return f"{read[1]}[{','.join(indices)}]"

    def find_members(self, word: str, rank: str, each: str | None) -> set[str]:
        """The ranks of a set."""
        found = set[str]()
        for part in word.split(","):
            job = re.fullmatch(r"(.+):\*", part)
            if part == ALL:
                found.update(self.of_job[rank.rpartition(":")[0]])
            elif job:
                found.update(self.of_job.get(job[1], ()))
            elif part in self.ranks:
                found.update(self.ranks[part])
            else:
                found.add(self.expand_rank(part, rank, each))
        return found

    def expand_set(self, word: str, rank: str, each: str | None) -> str:
        """A set as the recorder says it."""
        members = self.find_members(word, rank, each)
        if members == set(self.of_job[rank.rpartition(":")[0]]):
            return ALL
        items: list[str] = []
        for job, ranks in self.of_job.items():
            here = [each_rank for each_rank in ranks if each_rank in members]
            items += [f"{job}:*"] if here and len(here) == len(ranks) else here
        return ",".join(items)

    def expand_line(self, line: Line, rank: str, each: str | None = None) -> Line:
        """The words of a call."""
        verb, *rest = line
        if verb == "fence":
            return [verb, self.expand_set(rest[0], rank, each), *rest[1:]]
        if verb in ASKING:
            owner, key = rest
            return [verb, self.expand_rank(owner, rank, each), self.expand_key(key, rank, each)]
        at = 1 if verb == "put" else 0
        words = [
            self.expand_key(text, rank, each) if n == at else text for n, text in enumerate(rest)
        ]
        return [verb, *words]

    def find_turns(self, loop: ReadLoop, rank: str, chosen: Sequence[str] | None) -> list[str]:
        """Whom a loop of a rank is over: all others of the role, unless some are chosen."""
        ranks = self.ranks[loop.role]
        if rank in ranks:
            place = ranks.index(rank)
            before, after = ranks[:place], ranks[place + 1:]
            ranks = after + before if loop.over is Over.CYCLIC else before + after
        is_chosen = loop.is_some and chosen is not None
        return [each_rank for each_rank in ranks if not is_chosen or each_rank in (chosen or ())]

    def expand_role(self, role: ReadRole, rank: str, choices: Choices) -> Iterator[Line]:
        """The calls of a rank."""
        for number, item in enumerate(role.items):
            if not isinstance(item, ReadLoop):
                yield self.expand_line(item, rank)
                continue
            turns = self.find_turns(item, rank, choices.get((role.name, number, rank)))
            for each, line in itertools.product(turns, item.lines):
                yield self.expand_line(line, rank, each)


def expand(
    roles: Sequence[ReadRole], sizes: Mapping[str, int], choices: Choices
) -> Mapping[str, Sequence[Line]]:
    """The calls of each rank of a pattern, for some numbers of ranks in its groups."""
    instance = Instance(roles, sizes)
    return {
        rank: list(instance.expand_role(role, rank, choices))
        for role in roles
        for rank in instance.ranks[role.name]
    }
