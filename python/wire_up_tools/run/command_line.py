"""The command line of `wire_up-run`: its options, its help, and its statuses."""
import argparse
import math
import re
import sys
from collections.abc import Sequence

from wire_up_tools.failures import Refused, Unusable, explain
from wire_up_tools.options import Option, Parser, answer_alone, describe, say_unusable
from wire_up_tools.run.interrupts import Interrupted, catch_signals, ignore_signals
from wire_up_tools.run.libraries.traits import LIBRARIES
from wire_up_tools.run.saying import NAME, say
from wire_up_tools.run.tasks import (
    Choices,
    PlanRequest,
    PredictRequest,
    Request,
    ShowRequest,
    SuiteRequest,
    WitnessRequest,
    do,
)

FAILED, BY_SIGNAL = 125, 128
QUIET, START = Choices().quiet, Choices().start
# How often each plan of the suite is run, and how many at a time.
SUITE_TIMES, AT_A_TIME = 2, 2
# The options for the suite alone.
OF_SUITE = ("show", "table", "jobs")

ABOUT = "Runs a plan on a real PMIx library, and compares what it replies with the rules of \
`wire_up`."
# How it is called, and what it does then.
USES = (
    (
        "[OPTION..] PLAN",
        "runs the plan: each rank is a process that makes its calls; writes the report, and each "
        "call that differs",
    ),
    (
        "[OPTION..] --witness P N Q M PLAN",
        "runs both orders of the race of two calls, and says whether the library shows it",
    ),
    (
        "[OPTION..] --suite [NAME..]",
        "runs the conformance suite, or its plans and rules of these names, and says which rules "
        "the library keeps",
    ),
    (
        "[OPTION..] --predict LIBRARY PLAN",
        f"says without a library which calls one answers otherwise: {', '.join(LIBRARIES)}",
    ),
)
OPTIONS = (
    Option(
        "--launcher",
        "NAME",
        "which of mpirun (Open MPI 4 or later), prterun and srun starts the ranks; else the first "
        "that is there",
    ),
    Option(
        "--command",
        "WORDS",
        "a command line that starts as many processes as the plan has ranks, in rank order: the "
        "program and its words are put behind it",
    ),
    Option(
        "--hosts",
        "FILE",
        "the hosts that are the nodes of the plan, one on a line; without it mpirun and prterun "
        "start fake nodes on this machine",
    ),
    Option(
        "--times",
        "COUNT",
        "runs the plan so often, and counts the reports that were seen; else once, and each plan "
        f"of the suite {SUITE_TIMES} times",
    ),
    Option("--order", "FILE", "takes the steps in this order, as far as the library lets it"),
    Option("--free", "", "takes no order, although the plan has findings"),
    Option(
        "--quiet",
        "SECONDS",
        f"counts as waiting what has made no progress for so long; else {QUIET:g} seconds",
    ),
    Option(
        "--start", "SECONDS", f"how long the ranks may take to start; else {START:g} seconds"
    ),
    Option("--jobs", "COUNT", f"how many plans of the suite run at a time; else {AT_A_TIME}"),
    Option("--table", "FILE", "writes what the suite gave also as a table"),
    Option("--show", "NAME", "writes a plan of the suite in place of running any"),
    Option("--json", "", "writes JSON in place of lines"),
    Option("--junit", "FILE", "writes JUnit XML besides, for a CI server"),
    Option(
        "--checker",
        "FILE",
        "the program `wire_up`; else the one beside this command or on the path is taken",
    ),
)
BELOW = (
    "What stands in a report as waiting is judged so by time. Nothing of this is proved. "
    "docs/conformance.md says more.\n"
    "\n"
    "Exit statuses: 0 the library replies as the rules say, 1 something differs, 125 it couldn't "
    "be run: a line says why.\n"
)


# The options that take the words behind them.
TASKS = ("--witness", "--suite", "--predict")


def write_help() -> str:
    """All that the command says of itself."""
    uses = "".join(f"    {NAME} {use:<34} {meaning}\n" for use, meaning in USES)
    return f"{ABOUT}\n\n{uses}\n{describe(OPTIONS)}\n{BELOW}"


def read_count(option: str, word: str | None, usual: int = 1) -> int:
    """A count from 1; the usual one where there is none. Raises Unusable."""
    if word is None:
        return usual
    if not re.fullmatch(r"[1-9]\d{0,8}", word):
        raise Unusable(f"{option} needs a number from 1")
    return int(word)


def read_seconds(option: str, word: str | None, usual: float) -> float:
    """A time; the usual one where there is none. Raises Unusable."""
    try:
        found = usual if word is None else float(word)
    except ValueError:
        found = math.nan
    if not 0 < found < math.inf:
        raise Unusable(f"{option} needs a number of seconds")
    return found


def read_choices(found: argparse.Namespace) -> Choices:
    """What is common to all tasks. Raises Unusable."""
    if found.launcher and found.command:
        raise Unusable("--launcher and --command don't go together")
    return Choices(
        launcher=found.launcher,
        command=found.command,
        hosts=found.hosts,
        checker=found.checker,
        quiet=read_seconds("--quiet", found.quiet, QUIET),
        start=read_seconds("--start", found.start, START),
        is_json=found.json,
        junit=found.junit,
    )


def hold_alone(found: argparse.Namespace, task: str, names: Sequence[str]) -> None:
    """Raises Unusable where an option stands that doesn't go with a task."""
    for each_name in names:
        if getattr(found, each_name):
            name = "a plan" if each_name == "rest" else f"--{each_name}"
            raise Unusable(f"{name} doesn't go with {task}")


def read_witness_request(found: argparse.Namespace) -> WitnessRequest:
    """What `--witness` asks for. Raises Unusable."""
    hold_alone(found, "--witness", ("times", "order", "free", "junit", *OF_SUITE))
    words = [*found.witness, *found.rest]
    if len(words) != 5:
        raise Unusable("--witness needs two calls and a plan: P N Q M PLAN")
    return WitnessRequest(words[4], words[:4])


def read_suite_request(found: argparse.Namespace) -> SuiteRequest:
    """What `--suite` asks for. Raises Unusable."""
    hold_alone(found, "--suite", ("order", "free", "show"))
    times = read_count("--times", found.times, SUITE_TIMES)
    at_a_time = read_count("--jobs", found.jobs, AT_A_TIME)
    names = [*found.suite, *found.rest]
    return SuiteRequest(names, times, at_a_time, found.table)


def read_predict_request(found: argparse.Namespace) -> PredictRequest:
    """What `--predict` asks for. Raises Unusable."""
    hold_alone(found, "--predict", ("times", "order", "free", "junit", *OF_SUITE))
    words = [*found.predict, *found.rest]
    if len(words) != 2:
        raise Unusable("--predict needs a library and a plan")
    return PredictRequest(*words)


def read_request(found: argparse.Namespace) -> Request:
    """What a command line asks for. Raises Unusable."""
    if found.witness is not None:
        return read_witness_request(found)
    if found.suite is not None:
        return read_suite_request(found)
    if found.predict is not None:
        return read_predict_request(found)
    if found.show is not None:
        hold_alone(found, "--show", ("rest",))
        return ShowRequest(found.show)
    hold_alone(found, "a plan", ("table", "jobs"))
    if len(found.rest) != 1:
        raise Unusable("one plan at a time" if found.rest else "which plan?")
    if found.order and found.free:
        raise Unusable("--order and --free don't go together")
    times = read_count("--times", found.times)
    return PlanRequest(found.rest[0], times, found.order, found.free)


def answer(words: Sequence[str], folder: str) -> int:
    """Does what a command line asks for, or says why it can't be done. Answers the status."""
    try:
        found = Parser(OPTIONS, TASKS).read(words)
        return do(read_request(found), read_choices(found), folder)
    except Unusable as why:
        sys.stderr.write(say_unusable(NAME, why))
    except Refused as why:
        say(str(why).removeprefix("wire_up: "))
    except OSError as why:
        say(explain(why))
    return FAILED


def main(words: Sequence[str], folder: str) -> int:
    """Does what a command line asks for, until a signal ends it, and answers the status. `folder`
    is that of the command."""
    alone = answer_alone(words, NAME, write_help())
    if alone is not None:
        print(alone, end="")
        return 0
    try:
        try:
            catch_signals()
            return answer(words, folder)
        finally:
            ignore_signals()
    except Interrupted as why:
        return BY_SIGNAL + why.number
