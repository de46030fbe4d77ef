"""Whether a command is the one that a plan was recorded from."""
from collections import Counter
from collections.abc import Iterator, Sequence

from wire_up_tools.failures import Refused
from wire_up_tools.record.showing.held_runs import HeldRun
from wire_up_tools.record.showing.naming import BARE, name_line
from wire_up_tools.record.showing.orders import Trial
from wire_up_tools.record.showing.traces import OF_LIBRARY

# How many processes or calls are named.
NAMED = 3


def name_some(names: Sequence[str]) -> str:
    """The first of some names."""
    return ", ".join([*names[:NAMED], *([".."] if len(names) > NAMED else [])])


def hold_processes(trial: Trial, run: HeldRun) -> None:
    """Raises Refused where a run has other processes than the plan."""
    own, others = [rank.name for rank in trial.plan.ranks], list(run.traces)
    if set(own) != set(others):
        raise Refused(
            f"the plan isn't of this command: it has the processes {name_some(own)}, and the run "
            f"had {name_some(others) or 'none'} ({run.ending})"
        )


def list_named(trial: Trial, process: str) -> Iterator[str]:
    """The names of the calls of a process in the plan, of those on keys and names."""
    for call in trial.plan.calls_of[process]:
        name = name_line(call, trial.naming.renamed) if trial.naming.is_of_program(call) else ""
        if name and name not in BARE and not OF_LIBRARY.match(name):
            yield name


def hold_to_plan(trial: Trial, run: HeldRun) -> str:
    """What is to be said of a run in which nothing was held: which calls of the plan it lacks;
    empty where it has them. Raises Refused where it has none of them, or other processes."""
    hold_processes(trial, run)
    count, lacking = 0, list[str]()
    for process, trace in run.traces.items():
        called = Counter(name for traced_call in trace.compared for name, _ in traced_call.keys)
        planned = Counter(list_named(trial, process))
        count += planned.total()
        lacking += [f"{process} {each_name}" for each_name in (planned - called).elements()]
    if lacking and len(lacking) == count:
        raise Refused(f"the plan isn't of this command: a run never called {name_some(lacking)}")
    if not lacking:
        return ""
    return f"a run by itself lacks {len(lacking)} of the plan's calls: {name_some(lacking)}"
