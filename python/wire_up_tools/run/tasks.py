"""The tasks of `wire_up-run`: what users can ask it for, and what it does then."""
import datetime
import os
import shutil
import socket
from collections.abc import Sequence
from dataclasses import dataclass
from pathlib import Path

from wire_up_tools.checker import Checker, find_checker
from wire_up_tools.failures import Refused
from wire_up_tools.files import STANDARD_OUTPUT, write_each, write_whole
from wire_up_tools.plan import Plan
from wire_up_tools.plan_reading import read_plan
from wire_up_tools.portable import Portable, find_portable, say_portable, say_unjudged
from wire_up_tools.run import answers, fake_nodes
from wire_up_tools.run.expected import Expected, ask_witness, expect, expect_in_order
from wire_up_tools.run.launchers import find_launcher, read_command
from wire_up_tools.run.libraries.judging import judge
from wire_up_tools.run.libraries.traits import Library, find_library, take_library
from wire_up_tools.run.libraries.writing import write_predictions, write_predictions_json
from wire_up_tools.run.live import Outcome, Setting, Task, is_among_fake_nodes, run_plan
from wire_up_tools.run.reports import Line
from wire_up_tools.run.saying import NAME, say
from wire_up_tools.run.suite import Kind, Suite, choose_plans, read_suite
from wire_up_tools.run.suite_answers import (
    SuiteResult,
    list_suite_cases,
    write_suite,
    write_suite_json,
)
from wire_up_tools.run.tables import write_table

LOCAL = ("localhost", "127.0.0.1")
SAME, DIFFERENT = 0, 1
# The process that makes the calls, and where it is, seen from the folder of the command: in the
# repository, and where `make install` puts it.
RANK = "wire_up-rank"
PLACES = ("run", "../lib/wire_up")


@dataclass(frozen=True)
class Choices:
    """What is common to all tasks: which launcher and which hosts, how long is waited, and how the
    answer is written."""

    launcher: str | None = None
    command: str | None = None
    hosts: str | None = None
    checker: str | None = None
    quiet: float = 6.0
    start: float = 60.0
    is_json: bool = False
    junit: str | None = None


@dataclass(frozen=True)
class PlanRequest:
    """Asks for runs of a plan, in an order that a file has, or freely."""

    plan: str
    times: int = 1
    order: str | None = None
    is_free: bool = False


@dataclass(frozen=True)
class WitnessRequest:
    """Asks for both runs of a race: the words of its two calls."""

    plan: str
    words: Sequence[str]


@dataclass(frozen=True)
class SuiteRequest:
    """Asks for the suite: plans or rules by their names, how often each plan is run, how many at a
    time, and where the table goes, if it is written."""

    names: Sequence[str]
    times: int
    at_a_time: int
    table: str | None = None


@dataclass(frozen=True)
class ShowRequest:
    """Asks for the text of a plan of the suite."""

    name: str


@dataclass(frozen=True)
class PredictRequest:
    """Asks what a library is known to reply to a plan."""

    library: str
    plan: str


Request = PlanRequest | WitnessRequest | SuiteRequest | ShowRequest | PredictRequest


def read_file(path: str) -> bytes:
    """The bytes of a file. Raises OSError."""
    with open(path, "rb") as file:
        return file.read()


def choose_checker(choices: Choices, folder: str) -> Checker:
    """The checker. Raises Refused if there is none."""
    path = choices.checker or find_checker(folder)
    if not path or not shutil.which(path):
        raise Refused(
            f"there is no {path or 'wire_up beside this command or on the path'}: "
            "--checker says where it is"
        )
    return Checker(path)


def find_rank(folder: str | Path) -> str:
    """The program that makes the calls. Raises Refused if it isn't built."""
    for beside in PLACES:
        path = Path(folder, beside, RANK).resolve()
        if os.access(path, os.X_OK):
            return str(path)
    raise Refused(f"there is no {RANK}: `make ranks` builds it, with the package libpmix-dev")


def read_hosts(path: str) -> list[str]:
    """The hosts of a file: the first word of each line but comments. A launcher may not know this
    machine as `localhost`. Raises Refused, OSError."""
    lines = (line.split() for line in read_file(path).decode("utf-8", "replace").splitlines())
    hosts = [line[0] for line in lines if line and not line[0].startswith("#")]
    if not hosts:
        raise Refused(f"{path}: has no host")
    here = socket.gethostname()
    return list(dict.fromkeys(here if host in LOCAL else host for host in hosts))


def make_setting(choices: Choices, folder: str) -> Setting:
    """How plans are run. Raises Refused, OSError."""
    command = choices.command
    launcher = read_command(command) if command else find_launcher(choices.launcher)
    hosts = read_hosts(choices.hosts) if choices.hosts else None
    setting = Setting(launcher, find_rank(folder), hosts, choices.quiet, choices.start)
    if is_among_fake_nodes(setting):
        fake_nodes.hold_possible()
    return setting


def choose_task(plan: Plan, expected: Expected, asked: PlanRequest) -> Task:
    """How a plan is run: freely if it has one report, else in the order that the rules' has."""
    if expected.order is None or asked.is_free:
        return Task(plan)
    return Task(plan, expected.order, not expected.report.is_whole)


def expect_plan(checker: Checker, data: bytes, asked: PlanRequest) -> Expected:
    """What the rules say of a plan. A line tells where that isn't all that they allow. Raises
    Refused, OSError."""
    if asked.order:
        order = read_file(asked.order).decode("utf-8", "replace")
        return expect_in_order(checker, data, order)
    expected = expect(checker, data)
    if expected.findings:
        is_free = asked.is_free or expected.order is None
        how = "the runs are free" if is_free else "each run takes that order"
        say(
            f"findings {expected.findings}: the rules allow several reports, and this compares "
            f"with that of one order, as `wire_up replay --anyway` writes it; {how}"
        )
    return expected


def run_freely(asked: PlanRequest, choices: Choices, folder: str) -> int:
    """Runs a plan as often as is asked, and answers the status. Raises Refused, OSError."""
    data = read_file(asked.plan)
    checker = choose_checker(choices, folder)
    expected = expect_plan(checker, data, asked)
    setting = make_setting(choices, folder)
    task = choose_task(read_plan(data), expected, asked)
    outcomes: list[Outcome] = [run_plan(task, setting) for _ in range(asked.times)]
    seen = answers.count_runs(expected, outcomes)
    runs = answers.Runs(expected, seen, setting.launcher.version, setting.quiet)
    portable = find_portable(checker, data)
    if portable and not asked.order:
        say_of_library(runs, find_library(runs.library, setting.launcher.kind), portable, asked)
    write = answers.write_json if choices.is_json else answers.write_text
    texts = [(STANDARD_OUTPUT, write(runs))]
    if choices.junit:
        name = Path(asked.plan).name
        texts.append((choices.junit, answers.write_junit(name, answers.list_cases(name, runs))))
    write_each(texts)
    return DIFFERENT if runs.differs else SAME


def say_of_library(
    runs: answers.Runs, library: Library | None, portable: Portable, asked: PlanRequest
) -> None:
    """Says for which libraries a plan is portable, or that it isn't known of this one, if a rank
    told which it is; and of one for which it is, that it breaks an axiom where it answers otherwise
    in a plan without findings."""
    is_judged = library is not None and portable.is_judged(library.name, runs.library)
    is_unjudged = runs.library and not is_judged
    unjudged = say_unjudged(runs.library, runs.launcher) if is_unjudged else ""
    say(say_portable(portable) + unjudged)
    is_for = is_judged and library is not None and portable.is_for(library.name)
    if is_for and runs.differs and not runs.expected.findings:
        say(
            f"{runs.library} breaks an axiom of libraries: on this plan it can't answer otherwise "
            f"by them. Please hand on the plan with what `{NAME} --times {runs.times} --json "
            f"{asked.plan}` writes"
        )


def find_line(outcome: Outcome, call: str) -> Line:
    """The line of a call, such as `app:1 1 get-now`. Raises Refused if there is none."""
    found = next((line for line in outcome.report.lines if str(line.place) == call), None)
    if found is None:
        raise Refused(f"wire_up names a call that the plan doesn't have: {call}")
    return found


def run_witness(asked: WitnessRequest, choices: Choices, folder: str) -> int:
    """Runs both orders of a race, and answers the status. Raises Refused, OSError."""
    data = read_file(asked.plan)
    witness = ask_witness(choose_checker(choices, folder), data, asked.words)
    setting, plan = make_setting(choices, folder), read_plan(data)
    outcomes = [run_plan(Task(plan, order), setting) for order in witness.orders]
    lines = [find_line(each_outcome, witness.call) for each_outcome in outcomes]
    race = answers.ShownRace(witness, lines[0].place, [line.reply for line in lines])
    for each_name in dict.fromkeys(name for outcome in outcomes for name in outcome.late):
        say(f"{each_name} took too long for its place in the order")
    text = answers.write_race_json(race) if choices.is_json else answers.write_race(race)
    write_whole(STANDARD_OUTPUT, text)
    return DIFFERENT if race.differences else SAME


def run_suite(asked: SuiteRequest, choices: Choices, folder: str) -> int:
    """Runs the suite, and answers the status. Raises Refused, OSError."""
    plans, checker = choose_plans(asked.names), choose_checker(choices, folder)
    setting = make_setting(choices, folder)
    verdicts = Suite(checker, setting, asked.times, asked.at_a_time).run(plans)
    version = next((verdict.library for verdict in verdicts if verdict.library), "")
    launcher = setting.launcher
    known = find_library(version, launcher.kind)
    result = SuiteResult(verdicts, launcher.version, asked.times, setting.quiet, known)
    write_each(list_texts(result, asked, choices))
    if all(verdict.kind is Kind.EQUAL for verdict in verdicts):
        return SAME
    if any(verdict.kind in (Kind.DIFFERENT, Kind.UNSTEADY) for verdict in verdicts):
        return DIFFERENT
    raise Refused("a plan couldn't be run, and no other differs")


def list_texts(
    result: SuiteResult, asked: SuiteRequest, choices: Choices
) -> list[tuple[str, str]]:
    """What is written of the suite, each with where it goes."""
    write = write_suite_json if choices.is_json else write_suite
    texts = [(STANDARD_OUTPUT, write(result))]
    if choices.junit:
        texts.append((choices.junit, answers.write_junit("suite", list_suite_cases(result))))
    if asked.table:
        texts.append((asked.table, write_table(make_head(result), result.verdicts)))
    return texts


def make_head(result: SuiteResult) -> dict[str, str]:
    """The head of a table."""
    return {
        "library": result.known.name if result.known else "unknown",
        "version": result.library,
        "host": result.launcher,
        "date": datetime.date.today().isoformat(),
    }


def show_plan(asked: ShowRequest) -> int:
    """Writes a plan of the suite. Raises Refused, OSError."""
    plan = next((suite_plan for suite_plan in read_suite() if suite_plan.name == asked.name), None)
    if plan is None:
        raise Refused(f"the suite has no plan {asked.name}")
    words = plan.rule.value
    about = f"# {plan.name}: {plan.rule.label}, {words.text} ({words.source})\n"
    write_whole(STANDARD_OUTPUT, about + plan.text)
    return SAME


def predict_plan(asked: PredictRequest, choices: Choices, folder: str) -> int:
    """Writes which calls a library is known to answer otherwise. Raises Refused, OSError."""
    library = take_library(asked.library)
    data = read_file(asked.plan)
    request = PlanRequest(asked.plan)
    expected = expect_plan(choose_checker(choices, folder), data, request)
    of = judge(read_plan(data), library, expected)
    text = write_predictions_json(of) if choices.is_json else write_predictions(of)
    write_whole(STANDARD_OUTPUT, text)
    return DIFFERENT if of.found else SAME


def do(asked: Request, choices: Choices, folder: str) -> int:
    """Does what is asked for, and answers the status. `folder` is that of the command."""
    if isinstance(asked, WitnessRequest):
        return run_witness(asked, choices, folder)
    if isinstance(asked, SuiteRequest):
        return run_suite(asked, choices, folder)
    if isinstance(asked, ShowRequest):
        return show_plan(asked)
    if isinstance(asked, PredictRequest):
        return predict_plan(asked, choices, folder)
    return run_freely(asked, choices, folder)
