"""Patterns: what `wire_up check --pattern` says of one, for every number of ranks.

A pattern is a text for plans of every size. In one that has a race the checker names a plan: the
counterexample, which is told as any other plan.
"""
import dataclasses
import itertools
import os
import re
from collections.abc import Iterator, Sequence
from dataclasses import dataclass
from pathlib import Path

from wire_up_tools import words
from wire_up_tools.failures import Refused
from wire_up_tools.plan import Plan
from wire_up_tools.plan_reading import split_lines
from wire_up_tools.report.asking import CLEAN, FOUND, NOT_READ, Asker
from wire_up_tools.report.partial import find_in_head
from wire_up_tools.report.pattern_answers import CallLine, Settled, read_settled
from wire_up_tools.report.pattern_lines import Lines, find_lines
from wire_up_tools.report.phrases import count_of
from wire_up_tools.report.standstill import Sized, find_sized

OPTION = "--pattern"
# Lines that are skipped, and the first word after them.
FIRST = re.compile(rb"(?:[ \t]*(?:#[^\n]*)?\r?\n)*[ \t]*pattern(?=\s|\Z)")
# What is asked besides: the statuses of get-nows, and whether each call succeeds.
MORE = ("--answers", "--complete")
FIRST_COMMENT = "# counterexample, "
COUNTEREXAMPLE = re.compile(r"counterexample, [1-9]\d* ranks?")
# How the comments at the end of a counterexample say what is found in it.
FINDINGS = ("# race ", "# rewrite ")
# What begins a role, and the lines behind that which are no calls.
MANY = "many"
ROLES, FOR, END, JOB = ("one", MANY), "for", "end", "job"
# What is said of a pattern that comes from a plan of which that is so.
IN_PART = "Of the program that was recorded it holds only in part."
# What is said of a pattern that has none.
WITHOUT_CALLS = "It has no calls."
# What a counterexample is called that stands in no file yet.
PLAN_NAME = "counterexample.plan"


@dataclass(frozen=True, eq=False)
class Pattern:
    """A pattern: where it is, as that was given, and its lines."""

    path: str
    lines: Sequence[str]

    @property
    def name(self) -> str:
        """The name of its file."""
        return os.fsencode(Path(self.path).name).decode("utf-8", "replace")

    @property
    def head(self) -> Sequence[str]:
        """The comments above the header."""
        comments = itertools.takewhile(lambda line: line.startswith("#"), self.lines)
        return [comment[1:].removeprefix(" ") for comment in comments]


@dataclass(frozen=True, eq=False)
class CleanPattern:
    """A pattern without findings, what is said of its calls, and who waits for ever in its smallest
    plan in which a rank does. `version` is that of the checker."""

    pattern: Pattern
    version: str
    said: Settled
    sized: Sized | None = None

    def find_line(self, line: CallLine) -> int | None:
        """The line of the file where a call stands, if it is found there."""
        calls = list_calls(self.pattern)
        return next(
            (each_number for role, number, each_number in calls if line.is_at(role, number)), None
        )

    @property
    def has_calls(self) -> bool:
        """Whether it says anything of calls."""
        return any(True for _ in list_calls(self.pattern))

    @property
    def reasons(self) -> Sequence[str]:
        """Why the verdict holds only in part, by the head that the recorder wrote."""
        return find_in_head(self.pattern.head) if self.origin else ()

    @property
    def origin(self) -> str:
        """What the recorder says of where it comes from, and of why it has no calls; nothing for
        one by hand."""
        first = "".join(self.pattern.head[:1])
        if not first.startswith(words.PATTERN_BY):
            return ""
        is_idle = words.NO_CALL_RACES in self.pattern.head
        return f"{words.NO_CALL_RACES_SENTENCE} {first}" if is_idle else first


@dataclass(frozen=True)
class Counterexample:
    """The bytes of a plan of a pattern in which something is found."""

    pattern: Pattern
    data: bytes


def is_pattern(data: bytes) -> bool:
    """Whether a file is a pattern, by its first line that isn't skipped."""
    return FIRST.match(data) is not None


def judge_pattern(path: str, asker: Asker) -> CleanPattern | Counterexample:
    """What the checker says of a pattern. Raises Refused if it refuses it, or judges none."""
    small = dataclasses.replace(asker, checker=dataclasses.replace(asker.checker, is_large=False))
    answer = small.ask("check", OPTION, *MORE)
    if answer.status == NOT_READ:
        answer = small.ask("check", OPTION)
    if answer.status == NOT_READ:
        raise Refused(f"{asker.checker.path}: judges no patterns, and {path} is one")
    asker.judge(answer.status, answer.stderr)
    pattern = Pattern(path, split_lines(asker.data))
    if answer.status == FOUND and answer.stdout.startswith(FIRST_COMMENT):
        return Counterexample(pattern, answer.stdout.encode())
    said = read_settled(answer.stdout.splitlines(), is_complete=answer.status == CLEAN)
    if not said:
        raise asker.refuse("verdict on a pattern")
    sized = None if said.is_answered else find_sized(small, list_groups(pattern), said)
    return CleanPattern(pattern, asker.version(), said, sized)


def list_calls(pattern: Pattern) -> Iterator[tuple[str, int, int]]:
    """The calls of a pattern: the role, the number in it, and the line, each from 1. Those of a
    loop over several roles count once for each."""
    role, numbers, looped = "", itertools.count(1), list[int]()
    times = 0
    for number, line in enumerate(pattern.lines, 1):
        said = line.split()
        if not said or said[0].startswith("#"):
            continue
        if said[0] in ROLES:
            role, numbers = said[1] if len(said) > 1 else "", itertools.count(1)
        elif said[0] == FOR:
            looped, times = [], count_roles(said)
        elif said[0] == END:
            yield from ((role, next(numbers), time) for time in looped * times)
            looped, times = [], 0
        elif times:
            looped.append(number)
        elif role and said[0] != JOB:
            yield role, next(numbers), number


def count_roles(words: Sequence[str]) -> int:
    """How many roles a loop is over, by the words of its first line."""
    return max(word.count(",") for word in words) + 1


def list_groups(pattern: Pattern) -> list[str]:
    """The names of the groups of a pattern."""
    said = (line.split() for line in pattern.lines)
    return [each_line[1] for each_line in said if len(each_line) > 1 and each_line[0] == MANY]


def find_groups(pattern: Pattern) -> list[str]:
    """The names of the groups of a pattern that may be empty: no line says a least number."""
    said = (line.split() for line in pattern.lines)
    return [each_line[1] for each_line in said if len(each_line) == 2 and each_line[0] == MANY]


def locate_calls(pattern: Pattern, plan: Plan) -> Lines:
    """From which line of a pattern each call of its counterexample comes."""
    return find_lines(
        "\n".join(pattern.lines), [number for _, _, number in list_calls(pattern)], plan
    )


def is_counterexample(plan: Plan) -> bool:
    """Whether a plan says of itself that it is the counterexample of a pattern: in its first line,
    with what is found in it in the last ones."""
    head = plan.declared.head
    if not head or not COUNTEREXAMPLE.fullmatch(head[0]):
        return False
    for line in reversed(plan.lines):
        if not line.startswith("#"):
            break
        if line.startswith(FINDINGS):
            return True
    return False


def say_counterexample(plan: Plan) -> str:
    """What a counterexample is one for."""
    return f"for every number of ranks: a counterexample with {count_of(len(plan.ranks), 'rank')}"
