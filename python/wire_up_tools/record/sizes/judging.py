"""Asks the checker about patterns and about plans."""
import json
import re
from collections.abc import Sequence
from dataclasses import dataclass
from typing import Any

from wire_up_tools.checker import Answer, Checker
from wire_up_tools.failures import Refused
from wire_up_tools.plan_reading import read_plan

PATTERN, ANYWHERE, JSON, ANSWERS = "--pattern", "--anywhere", "--json", "--answers"
SUCCESS = "PMIX_SUCCESS"
CLEAN, FOUND = 0, 1
# A call in a finding: a rank and a number.
NAMED = re.compile(r"(\S+:\d+) (\d+)")


@dataclass(frozen=True)
class Named:
    """A call that a finding names: the rank, the number, the words, and where in the program it
    comes from, if that is known."""

    rank: str
    number: int
    words: Sequence[str]
    place: str | None


@dataclass(frozen=True)
class Verdict:
    """What is found, in lines, and the calls that the findings name, in a plan with so many
    `ranks`: that of a run, perhaps on other placements (`is_elsewhere`), or a counterexample. Of a
    pattern without findings, which lines wait for ever or fail in plans of it."""

    findings: Sequence[str]
    calls: Sequence[Named] = ()
    ranks: int = 0
    is_elsewhere: bool = False
    waiting: Sequence[str] = ()
    failing: Sequence[str] = ()


def refuse(answer: Answer, what: str) -> Refused:
    """Why there is no verdict."""
    lines = answer.stderr.splitlines()
    return Refused(f"{what}: the checker gives no verdict{f': {lines[0]}' if lines else ''}")


def judge_pattern(checker: Checker, text: str, *options: str) -> Verdict:
    """What is found in a pattern, of any number of ranks on any placement; which lines may fail,
    with the option `--answers`. Raises Refused, OSError."""
    small = Checker(checker.path)
    answer = small.ask("check", PATTERN, JSON, *options, plan=text.encode())
    if answer.status not in (CLEAN, FOUND):
        raise refuse(answer, "the pattern")
    said: dict[str, Any] = json.loads(answer.stdout)
    if answer.status == FOUND:
        findings = list(map(str, said["findings"]))
        calls = find_named(str(said["counterexample"]), findings)
        return Verdict(findings, calls, int(said["ranks"]))
    failing = [line for line in said.get("answers", []) if not set(line.split()[4:]) <= {SUCCESS}]
    return Verdict([], waiting=said["waits"], failing=failing)


def count_racing(checker: Checker, text: str) -> int | None:
    """How many ranks the first plan of a pattern has in which something is found; 0 if nothing is
    found, None where the checker refuses it, as one with too many choices. Raises OSError."""
    try:
        return judge_pattern(checker, text).ranks
    except Refused:
        return None


def find_judge(path: str) -> Checker:
    """The checker at a path. Raises Refused if it can't be run or judges no patterns."""
    checker = Checker(path)
    try:
        judges = checker.takes("check", PATTERN)
    except OSError as failed:
        raise Refused(f"{path}: can't be run: {failed.strerror}") from None
    if not judges:
        raise Refused(f"{path}: judges no patterns")
    return Checker(path, checker.takes_large())


def judge_plan(checker: Checker, name: str, text: str) -> Verdict:
    """What is found in the plan of a run, on its nodes or else on any. Raises Refused, OSError."""
    ways: Sequence[Sequence[str]] = ([], [ANYWHERE])
    for options in ways:
        if options and not checker.takes("check", ANYWHERE):
            break
        answer = checker.ask("check", *options, plan=text.encode())
        if answer.status not in (CLEAN, FOUND):
            raise refuse(answer, name)
        findings = answer.stdout.splitlines()[:-1]
        if findings:
            return Verdict(findings, find_named(text, findings), is_elsewhere=bool(options))
    return Verdict([])


def find_named(text: str, findings: Sequence[str]) -> Sequence[Named]:
    """The calls of a plan that findings name, each once."""
    plan = read_plan(text.encode())
    named = dict.fromkeys(
        (named[1], int(named[2])) for finding in findings for named in NAMED.finditer(finding)
    )
    found = []
    for rank, number in named:
        call = plan.find_call(rank, number)
        found.append(Named(rank, number, call.words, call.place))
    return found
