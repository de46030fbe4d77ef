"""The conformance suite: its plans, and what a library does with them."""
import concurrent.futures
import enum
import sys
from collections.abc import Iterator, Sequence
from dataclasses import dataclass
from pathlib import Path

from wire_up_tools.checker import Checker
from wire_up_tools.failures import Refused
from wire_up_tools.plan_reading import read_plan
from wire_up_tools.run.answers import Seen, count_runs
from wire_up_tools.run.expected import Expected, expect
from wire_up_tools.run.libraries.judging import judge
from wire_up_tools.run.libraries.traits import Library, find_library
from wire_up_tools.run.live import Outcome, Setting, Task, run_plan
from wire_up_tools.run.profile import BY_LABEL, ProfileRule
from wire_up_tools.run.reports import Difference

FOLDER = Path(__file__).parent / "plans"
# The lines that stand for a letter at the beginning of a plan.
HEADS = {
    "A": ["rehearsal 1", "node n0", "node n1", "job app"],
    "B": ["rehearsal 1", "node n0", "job app"],
}
# A run that doesn't come up says nothing of its plan: so it is made again.
TRIES = 3
# From so many plans on it is said also where no terminal is how far the suite is.
MANY = 50


@dataclass(frozen=True)
class SuitePlan:
    """A plan of the suite: its name, the rule that it is about, and its text."""

    name: str
    rule: ProfileRule
    text: str


class Kind(enum.Enum):
    """What the runs of a plan gave."""

    EQUAL = "equal"
    DIFFERENT = "different"
    UNSTEADY = "unsteady"
    FAILED = "failed"


@dataclass(frozen=True)
class Verdict:
    """What came of a plan; `why` tells why it couldn't be run. With `is_known` the library's known
    rules predict it."""

    plan: SuitePlan
    kind: Kind
    seen: Sequence[Seen] = ()
    why: str = ""
    is_known: bool = False

    @property
    def differences(self) -> list[Difference]:
        """The calls that were answered otherwise, in any of the runs."""
        found = {
            difference.place: difference for seen in self.seen for difference in seen.differences
        }
        return list(found.values())

    @property
    def library(self) -> str:
        """What the library says of its version; nothing if it wasn't run."""
        return self.seen[0].outcome.library if self.seen else ""


def write_plan(short: str) -> str:
    """The text of a plan of a file of the suite."""
    lines = [part.strip() for part in short.split("/")]
    return "".join(f"{head}\n" for head in [*HEADS.get(lines[0], lines[:1]), *lines[1:]])


def read_plans(path: Path) -> Iterator[SuitePlan]:
    """The plans of a file of the suite. Raises OSError."""
    rule = ProfileRule.MIXED
    with path.open(encoding="ascii") as file:
        for line in (text.strip() for text in file):
            if line.startswith("["):
                rule = BY_LABEL[line.strip("[]")]
            elif line and not line.startswith("#"):
                name, _, short = line.partition(" : ")
                yield SuitePlan(name, rule, write_plan(short))


def read_suite() -> list[SuitePlan]:
    """All plans of the suite, those about one rule first. Raises OSError."""
    paths = sorted(FOLDER.glob("*.txt"), reverse=True)
    return [plan for path in paths for plan in read_plans(path)]


def choose_plans(names: Sequence[str]) -> list[SuitePlan]:
    """The plans of these names, or of rules of these names; without names all. Raises Refused."""
    every = read_suite()
    known = {suite_plan.name for suite_plan in every} | {
        suite_plan.rule.label for suite_plan in every
    }
    unknown = next((name for name in names if name not in known), None)
    if unknown:
        raise Refused(f"the suite has no plan and no rule {unknown}")
    return [
        suite_plan
        for suite_plan in every
        if not names or suite_plan.name in names or suite_plan.rule.label in names
    ]


@dataclass(frozen=True)
class Suite:
    """How the suite is run: how often each plan, and how many plans at a time."""

    checker: Checker
    setting: Setting
    times: int
    at_a_time: int

    def try_once(self, plan: SuitePlan) -> Outcome:
        """Runs a plan freely, again if it doesn't come up. Raises Refused, Stopped, OSError."""
        task, refused = Task(read_plan(plan.text.encode())), Refused("no run")
        for _ in range(TRIES):
            try:
                return run_plan(task, self.setting)
            except Refused as why:
                refused = why
        raise refused

    def judge(self, plan: SuitePlan) -> Verdict:
        """Runs a plan, and says what came of it. Raises Stopped, OSError."""
        try:
            expected = expect(self.checker, plan.text.encode())
            outcomes = [self.try_once(plan) for _ in range(self.times)]
        except Refused as why:
            return Verdict(plan, Kind.FAILED, why=str(why))
        seen = count_runs(expected, outcomes)
        kind = Kind.DIFFERENT if seen[0].differences else Kind.EQUAL
        kind = Kind.UNSTEADY if len(seen) > 1 else kind
        known = find_library(outcomes[0].library, self.setting.launcher.kind)
        is_known = kind is Kind.DIFFERENT and is_predicted(plan, expected, seen[0], known)
        return Verdict(plan, kind, seen, is_known=is_known)

    def judge_first(self, plans: Sequence[SuitePlan]) -> Verdict:
        """Runs the first plan. Raises Refused if it can't be run, since the others can't be
        either."""
        found = self.judge(plans[0])
        if found.kind is Kind.FAILED:
            raise Refused(found.why)
        return found

    def run(self, plans: Sequence[SuitePlan]) -> list[Verdict]:
        """Runs plans, several at a time. Raises Refused, OSError."""
        tell_progress(0, len(plans))
        found = [self.judge_first(plans)]
        tell_progress(1, len(plans))
        with concurrent.futures.ThreadPoolExecutor(self.at_a_time) as pool:
            try:
                for each_judge in pool.map(self.judge, plans[1:]):
                    found.append(each_judge)
                    tell_progress(len(found), len(plans))
            except BaseException:
                self.setting.stop.set()
                pool.shutdown(wait=False, cancel_futures=True)
                raise
        return found


def tell_progress(done: int, count: int) -> None:
    """Says how far the suite is: on a terminal in one line, else at each tenth of many plans."""
    is_terminal = sys.stderr.isatty()
    is_tenth = count >= MANY and done > 0 and done * 10 // count > (done - 1) * 10 // count
    if is_terminal or is_tenth:
        end = "\r" if is_terminal and done < count else "\n"
        print(f"wire_up-run: {done} of {count} plans", end=end, file=sys.stderr, flush=True)


def is_predicted(
    plan: SuitePlan, expected: Expected, seen: Seen, known: Library | None
) -> bool:
    """Whether the known rules of a library predict what it did: each reply that can't depend on
    timing by them."""
    if known is None:
        return False
    judged = judge(read_plan(plan.text.encode()), known, expected)
    steady = {
        predicted.difference
        for predicted in judged.found
        if predicted.difference.place not in judged.timed
    }
    return steady == {
        difference for difference in seen.differences if difference.place not in judged.timed
    }
