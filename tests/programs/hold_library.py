"""Holds a library that is there to what is known of it: plans of the suite to its recorded table,
or random plans to what its rules predict.

Usage: python3 -m tests.programs.hold_library LIBRARY LAUNCHER [SEED COUNT]
With SEED it takes so many random plans, and none of the suite. It writes each plan of which none of
several runs is as it was recorded or predicted, and last how many plans there were. The status is 1
if there is such a plan. What can be unsteady needs no reply of its own.
"""
import collections
import concurrent.futures
import itertools
import sys
from collections.abc import Iterator, Sequence
from dataclasses import dataclass

from wire_up_tools.failures import Refused
from wire_up_tools.plan_reading import read_plan
from wire_up_tools.run.expected import Expected
from wire_up_tools.run.launchers import find_launcher
from wire_up_tools.run.libraries.judging import judge
from wire_up_tools.run.libraries.traits import LIBRARIES, Library
from wire_up_tools.run.live import Setting, Task, run_plan
from wire_up_tools.run.reports import Difference, Place, compare, read_report
from wire_up_tools.run.suite import Kind, read_suite
from wire_up_tools.run.tables import read_table
from wire_up_tools.run.tasks import find_rank
from tests.models import grammar, model, model_runs
from tests.soak.settled_plans import make_settled
from tests.support import TOP

# How often a plan is run before it counts as another one, and how many plans run at a time.
TRIES, AT_A_TIME = 5, 2
# A plan of random ones in so many is of two jobs, where the launcher takes these.
JOBS = (1, 1, 1, 2)
EXACT, WITHIN = "exact", "within"


@dataclass(frozen=True)
class Held:
    """A plan with the report of the rules; the calls that a library answers otherwise, each with
    its reply: those that come in every run, and all; and where a reply can depend on which rank is
    fast."""

    name: str
    text: str
    expected: Expected
    sure: frozenset[str]
    told: frozenset[str]
    timed: frozenset[Place] = frozenset()

    def tell(self, seen: Sequence[Difference]) -> str:
        """What a run is; nothing where it is another one."""
        texts = {str(difference) for difference in seen}
        if texts == self.told:
            return EXACT
        is_told = all(
            str(difference) in self.told or difference.place in self.timed for difference in seen
        )
        return WITHIN if self.sure <= texts and is_told else ""


def expect_by_model(text: str) -> Expected:
    """What the rules say, by the model of the tests."""
    run = model_runs.Run(model.Plan(grammar.read(text.encode()))).go()
    return Expected(read_report(run.report().decode()))


def choose_recorded(library: Library) -> Iterator[Held]:
    """For each rule of the profile the first plan that was equal, and the first that differed."""
    recorded, taken = read_table(library.table).plans, set()
    for suite_plan in read_suite():
        of = recorded.get(suite_plan.name)
        if of and of.kind is not Kind.UNSTEADY and (suite_plan.rule, of.kind) not in taken:
            taken.add((suite_plan.rule, of.kind))
            told = frozenset(str(d) for d in of.differences)
            yield Held(
                suite_plan.name, suite_plan.text, expect_by_model(suite_plan.text), told, told
            )


def make_random(library: Library, launcher: str, seed: int, count: int) -> Iterator[Held]:
    """Random plans, and what the rules of the library predict of them."""
    takes_jobs = find_launcher(launcher).takes_several_jobs
    plans = make_settled(seed, JOBS if takes_jobs else (1,))
    for at, text in enumerate(itertools.islice(plans, count)):
        expected = expect_by_model(text)
        of = judge(read_plan(text.encode()), library, expected)
        told = {
            str(predicted.difference): predicted.difference.place in of.timed
            for predicted in of.found
        }
        sure = frozenset(each_text for each_text, is_timed in told.items() if not is_timed)
        timed = frozenset(of.timed)
        yield Held(f"random-{seed}-{at}", text, expected, sure, frozenset(told), timed)


def hold(plan: Held, setting: Setting) -> tuple[str, str]:
    """Runs a plan until a run is as it must be. Answers what that is, or nothing, and a text that
    says what was seen."""
    lines: list[str] = []
    for _ in range(TRIES):
        try:
            report = run_plan(Task(read_plan(plan.text.encode())), setting).report
        except Refused as why:
            lines.append(f"  refused {why}")
            continue
        seen = compare(plan.expected.report, report)
        kind = plan.tell(seen)
        if kind:
            return kind if not lines else f"{kind} again", ""
        lines += ["  seen", *(f"    {difference}" for difference in seen)]
    told = [f"    {text}" for text in sorted(plan.told)]
    return "", "\n".join([f"{plan.name}\n{plan.text}  told", *told, *lines])


def main(words: Sequence[str]) -> int:
    """Runs the command, and answers its status."""
    library, launcher = LIBRARIES[words[0]], words[1]
    plans = choose_recorded(library)
    if len(words) > 2:
        plans = make_random(library, launcher, int(words[2]), int(words[3]))
    setting = Setting(find_launcher(launcher), find_rank(TOP))
    kinds: collections.Counter[str] = collections.Counter()
    with concurrent.futures.ThreadPoolExecutor(AT_A_TIME) as pool:
        for kind, said in pool.map(lambda plan: hold(plan, setting), plans):
            kinds[kind or "otherwise"] += 1
            print(said, end="\n" if said else "", flush=True)
    print(library.name, *(f"{kind}: {count}" for kind, count in sorted(kinds.items())), sep="; ")
    return 1 if kinds["otherwise"] else 0


if __name__ == "__main__":
    sys.exit(main(sys.argv[1:]))
