"""Holds what `check --pattern` says of waiting, for one pattern, to `replay --complete` of the
plans that `expand` writes of it, up to LARGEST ranks of each group.

- If it says that every call is answered, no call waits at three sizes, LARGEST among them, and with
  `--complete` it ends with status 0 only if each call of these plans succeeds.
- The lines `later N` are those at which ranks wait with N ranks of each group, and none waits with
  fewer, down to as many as are judged.
- If it says that every call is answered for up to N ranks, none waits with so many.
- Where a rank waits with as many ranks as are judged, a line `waits` says so (one pattern of
  WAITS_ONE_IN is looked at).

If it says none of these, the first size at which a rank waits is counted.
"""
import json
import random
import re
from collections.abc import Iterator
from typing import Any, NamedTuple

from tests.models import grammar, pattern_reference
from tests.models.pattern_grammar import Pattern
from tests.models.pattern_reference import ANSWERED, CLEAN, Ranks
from tests.soak import random_patterns, waiting_patterns
from tests.soak.pattern_soaking import MOST_LOOKED_AT
from tests.soak.random_plans import styled
from tests.soak.soak_runner import Difference, Runner, same


LARGEST, JUDGED = 8, 3
# A plan of more ranks isn't looked at.
MOST_RANKS = 100
# One pattern of so many is of the whole language; the others wait.
WHOLE_ONE_IN, WAITS_ONE_IN = 20, 5
CHECK = ("check", "--pattern", "--complete")
UP_TO = re.compile(rb"^every call is answered for up to (\d+) ranks of each group", re.MULTILINE)
LINE = re.compile(rb"^(?:waits|later (\d+)) (\S+) (\d+) (\S+)$", re.MULTILINE)


class Stands(NamedTuple):
    """Where a rank waits: its role, the number of the line there, and its verb."""

    role: bytes
    line: int
    verb: bytes


class Told(NamedTuple):
    """What is told of a pattern: the lines of what waits in an instance that is judged, and those
    of what waits with so many ranks; whether every call is answered, or up to how many ranks; and
    the status."""

    waits: set[Stands]
    later: dict[int, set[Stands]]
    answered: bool
    up_to: int
    status: int


def read_told(status: int, wrote: bytes) -> Told:
    """What `check --pattern --complete` tells."""
    up_to = max([0, *map(int, UP_TO.findall(wrote))])
    told = Told(set(), {}, ANSWERED in wrote, up_to, status)
    for size, role, line, verb in LINE.findall(wrote):
        its = told.later.setdefault(int(size), set()) if size else told.waits
        its.add(Stands(role, int(line), verb))
    return told


class Look:
    """All looks at one pattern in which nothing is found. The dice choose at which sizes."""

    def __init__(self, runner: Runner, text: bytes, pattern: Pattern, seed: int) -> None:
        self.runner, self.text, self.dice = runner, text, random.Random(seed)
        self.pattern, self.roles = pattern, pattern.roles

    def sizes_of(self, size: int) -> list[int]:
        """The sizes of the roles, if each group has so many ranks, or its least number."""
        return [1 if role.least is None else max(size, role.least) for role in self.roles]

    def plan(self, size: int) -> bytes:
        """What `expand` writes, if each group has so many ranks."""
        named = [pair for pair in zip(self.roles, self.sizes_of(size)) if pair[0].least is not None]
        counts = [f"{role.name.decode()}={n}" for role, n in named]
        words = [f"--ranks={','.join(counts)}"] if counts else []
        return self.runner.run("expand", *words, given=self.text).wrote

    def is_small(self, size: int) -> bool:
        return sum(self.sizes_of(size)) <= MOST_RANKS

    def replay(self, size: int) -> tuple[int, bytes]:
        """How `replay --complete` of that plan ends, and the last line of the report."""
        ran = self.runner.run("replay", "--complete", given=self.plan(size))
        return ran.status, ran.wrote.splitlines()[-1]

    def stands(self, size: int) -> set[Stands]:
        """Where ranks wait, if each group has so many."""
        report = json.loads(self.runner.run("replay", "--json", given=self.plan(size)).wrote)
        ranks = Ranks(self.pattern, self.sizes_of(size))
        return {
            stand for rank in range(ranks.count) for stand in self.stands_at(ranks, rank, report)
        }

    def stands_at(self, ranks: Ranks, rank: int, report: Any) -> Iterator[Stands]:
        """Where a rank waits by a report, if it does."""
        calls = ranks.script(rank, frozenset()).calls
        for call, ended in zip(calls, report["ranks"][rank]["calls"]):
            if ended["reply"] == "waiting":
                yield Stands(self.roles[ranks.role[rank]].name, call.line, call.verb)

    def at_all(self, told: Told) -> str:
        """Holds it to all that is told, and answers what that is."""
        if told.answered:
            self.at_answered(told)
            return "every call answered"
        for size, lines in told.later.items():
            self.at_later(size, lines)
        if told.later:
            return "a later size"
        if told.waits:
            self.at_waits(told.waits)
            return "waits"
        return self.at_silence(told.up_to)

    def at_answered(self, told: Told) -> None:
        """No call waits at three sizes, and each succeeds if the status says so."""
        if told.waits or told.later:
            raise Difference("every call is answered, and one waits", repr(told))
        sizes = [*self.dice.sample(range(JUDGED + 1, LARGEST), 2), LARGEST]
        for size in filter(self.is_small, sizes):
            status, last = self.replay(size)
            same("a call waits in a pattern that is answered", b"waiting 0", last, size)
            if status and not told.status:
                raise Difference("a call fails in a complete pattern", f"{size} of each")

    def at_later(self, size: int, lines: set[Stands]) -> None:
        """These lines wait with so many ranks, and none does with fewer."""
        same("other lines than those of a later size", self.stands(size), lines, size)
        for fewer in range(JUDGED, size):
            same("a later size that isn't the first", set(), self.stands(fewer), fewer)

    def at_waits(self, lines: set[Stands]) -> None:
        """What waits with as many ranks as are judged has a line."""
        if not self.dice.randrange(WAITS_ONE_IN):
            missing = self.stands(JUDGED) - lines
            same("a call waits that has no line", set(), missing)

    def at_silence(self, up_to: int) -> str:
        """With how many ranks of each group one waits first, if any does; with so many none may."""
        for size in filter(self.is_small, range(JUDGED, LARGEST + 1)):
            last = self.replay(size)[1]
            if last != b"waiting 0":
                if size <= max(JUDGED, up_to):
                    raise Difference("a call waits that has no line", f"{size} of each")
                return f"silent, a rank waits with {size}"
        return "silent, no rank waits"


def look(runner: Runner, text: bytes, seed: int) -> str:
    """Holds one pattern. Answers what kind of file it is. Raises a difference, and Refused."""
    pattern = pattern_reference.read_pattern(text)
    if pattern_reference.instance_count(pattern) > MOST_LOOKED_AT:
        return "too large"
    ran = runner.run(*CHECK, given=text)
    if not ran.wrote.startswith(CLEAN):
        return "with findings"
    told = Look(runner, text, pattern, seed).at_all(read_told(ran.status, ran.wrote))
    runner.held[told] += 1
    return "without findings"


def difference_of(runner: Runner, text: bytes, seed: int) -> tuple[Difference | None, str]:
    """The difference that a pattern shows, or None, and what kind of file it is."""
    try:
        return None, look(runner, text, seed)
    except grammar.Refused:
        return None, "refused"
    except Difference as failure:
        return failure, "different"


def random_file(dice: random.Random) -> tuple[bytes, int]:
    """A random pattern, which isn't damaged."""
    if dice.randrange(WHOLE_ONE_IN):
        return waiting_patterns.random_pattern(dice), 0
    return styled(dice, random_patterns.pattern_lines(dice)), 0
