"""Runs plans that are portable for a library on it, and holds each run to the rules.

Usage: python3 -m tests.programs.hold_portable LIBRARY LAUNCHER [SEED COUNT]
It takes the plans of the suite and of rows/portable.py, or with SEED so many random ones: those in
which nothing is found, that `check --portable` calls portable for the library, and in which a rank
asks for something. It runs each three times, writes each run that ended otherwise than the plan
does by the rules, and last how many plans and calls there were. The status is 1 if there is such a
run.
"""
import collections
import concurrent.futures
import itertools
import sys
from collections.abc import Iterator, Sequence

from wire_up_tools.checker import Checker
from wire_up_tools.failures import Refused
from wire_up_tools.plan_reading import read_plan
from wire_up_tools.portable import find_portable
from wire_up_tools.run.launchers import find_launcher
from wire_up_tools.run.live import Setting, Task, run_plan
from wire_up_tools.run.reports import compare
from wire_up_tools.run.suite import read_suite
from wire_up_tools.run.tasks import find_rank
from tests.programs.hold_library import AT_A_TIME, JOBS, expect_by_model
from tests.models import grammar, model, pattern_faults
from tests.rows.portable import ROWS
from tests.soak.settled_plans import make_settled
from tests.soak.small_plans import make_small
from tests.support import TOP, program

TIMES = 3
ASKING = ("\nget", "\nlookup")
SETTLED = b"findings 0\n"


def list_known() -> Iterator[str]:
    """The plans of the suite, and the rows."""
    yield from (suite_plan.text for suite_plan in read_suite())
    yield from (pattern_faults.text_of(row.lines).decode() for row in ROWS)


def make_random(seed: int, takes_jobs: bool) -> Iterator[str]:
    """Random plans without end: of many calls, and small ones in turn."""
    larger = make_settled(seed, JOBS if takes_jobs else (1,))
    for plans in zip(larger, make_small(seed)):
        yield from plans


def is_held(text: str, library: str, checker: Checker) -> bool:
    """Whether a plan is to be held: the library has one end of it, which says something."""
    is_asking = any(each_text in text for each_text in ASKING)
    if not is_asking or model.Plan(grammar.read(text.encode())).findings() != SETTLED:
        return False
    found = find_portable(checker, text.encode())
    return found is not None and found.is_for(library)


def run_thrice(text: str, setting: Setting) -> tuple[list[str], str]:
    """How each run of a plan ended, and a text that says what was seen in those that ended
    otherwise than by the rules."""
    expected, kinds, lines = expect_by_model(text), [], list[str]()
    for _ in range(TIMES):
        try:
            report = run_plan(Task(read_plan(text.encode())), setting).report
        except Refused as why:
            kinds.append("not run")
            lines.append(f"  not run: {why}")
            continue
        seen = compare(expected.report, report)
        kinds.append("otherwise" if seen else "as the rules say")
        lines += [f"  {difference}" for difference in seen]
    return kinds, "\n".join([text, *lines]) if lines else ""


def main(words: Sequence[str]) -> int:
    """Runs the command, and answers its status."""
    library, launcher, checker = words[0], find_launcher(words[1]), Checker(program())
    plans, most = list_known(), None
    if len(words) > 2:
        plans, most = make_random(int(words[2]), launcher.takes_several_jobs), int(words[3])
    held = itertools.islice((plan for plan in plans if is_held(plan, library, checker)), most)
    setting = Setting(launcher, find_rank(TOP))
    kinds: collections.Counter[str] = collections.Counter()
    with concurrent.futures.ThreadPoolExecutor(AT_A_TIME) as pool:
        for seen, said in pool.map(lambda item: run_thrice(item, setting), held):
            kinds.update(["plans", *(f"runs {text}" for text in seen)])
            print(said, end="\n" if said else "", flush=True)
    print(library, *(f"{kind}: {count}" for kind, count in sorted(kinds.items())), sep="; ")
    return 1 if kinds["runs otherwise"] else 0


if __name__ == "__main__":
    sys.exit(main(sys.argv[1:]))
