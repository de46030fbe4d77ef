"""The tasks of the recorder: what users can ask it for, and what it does then."""
import gc
import os
import re
import shutil
import sys
import time
from collections.abc import Callable, Mapping, Sequence
from dataclasses import dataclass, replace
from pathlib import Path

from wire_up_tools.checker import Checker, find_checker
from wire_up_tools.failures import Refused
from wire_up_tools.files import STANDARD_OUTPUT, try_to_write, write_whole
from wire_up_tools.limits import LARGE, VERSION_1
from wire_up_tools.plan_reading import read_plan
from wire_up_tools.record.floating import settle_floating
from wire_up_tools.record.merging import merge_plans
from wire_up_tools.record.notes import FLOATING
from wire_up_tools.record.partings import Run
from wire_up_tools.record.patterning import find_pattern, holds_in_part
from wire_up_tools.record.patterns.scripts import ANY_VALUE
from wire_up_tools.record.places import (
    Places,
    find_call_place,
    find_places,
    read_places,
    write_places,
)
from wire_up_tools.record.planning import Choices, Plan, Tested, make_plan, make_whole_plan
from wire_up_tools.record.recordings import Recording, has_recordings, read_recordings
from wire_up_tools.record.running import (
    BY_SIGNAL,
    Ended,
    find_libraries,
    make_environment,
    make_folder,
    run,
)
from wire_up_tools.record.showing.asking import Asked
from wire_up_tools.record.showing.earlier import find_earlier, follow_race
from wire_up_tools.record.showing.holds import mark_compared
from wire_up_tools.record.showing.material import First, Material
from wire_up_tools.record.showing.showing import show
from wire_up_tools.record.showing.traces import read_traces
from wire_up_tools.record.sizes.asking import SizesRequest
from wire_up_tools.record.sizes.doing import answer_sizes
from wire_up_tools.record.strict_races import list_strict_races
from wire_up_tools.record.verdicts import (
    compare_verdicts,
    finds_nothing,
    judge_placements,
    judge_runs,
    test_plan,
)
from wire_up_tools.record.writing import is_by_mpi_alone, write_answers, write_plan
from wire_up_tools.report.singular import say_counted
from wire_up_tools.words import AWAITED, EACH_RUN, LEFT_TO_LUCK

# What is said of verdicts over plans that are known to be more ordered than the program.
IN_PART = "holds only in part"


@dataclass(frozen=True)
class WhereRequest:
    """Asks where in the program a call of a plan comes from."""

    process: str
    number: int
    plan: str


@dataclass(frozen=True)
class Output:
    """Where a plan goes and what is written besides, what is taken from recordings, and which
    checker is asked; where that is None, the one that is found."""

    plan: str
    answers: str | None = None
    kept: str | None = None
    pattern: str | None = None
    checker: str | None = None
    with_mpi: bool = True
    is_strict: bool = False


@dataclass(frozen=True)
class FilesRequest:
    """Asks for the plan of recordings that are there, in files or folders: of one run, or of what
    several runs share."""

    output: Output
    runs: Sequence[Sequence[str]]


@dataclass(frozen=True)
class CommandRequest:
    """Asks for the plan of a command that is run, and perhaps for its races in more runs."""

    output: Output
    command: Sequence[str]
    asked: Asked | None = None


@dataclass(frozen=True)
class ShowRequest:
    """Asks for races of a plan that is there, in runs of a command."""

    output: Output
    command: Sequence[str]
    asked: Asked


Request = WhereRequest | FilesRequest | CommandRequest | ShowRequest | SizesRequest


def say(what: str) -> None:
    """Writes a line on standard error."""
    print(f"wire_up-record: {what}", file=sys.stderr)


def say_where(asked: WhereRequest) -> int:
    """Writes where a call of a plan comes from. Raises Refused, OSError."""
    with open(asked.plan, "rb") as file:
        found = find_call_place(asked.process, asked.number, file.read())
    if found is None:
        raise Refused(f"{asked.plan}: has no call {asked.number} of {asked.process}")
    print(found)
    return 0


def count_notes(notes: Mapping[str, int]) -> str:
    """Notes in a row, each with how often that was."""
    found = (f"{count} {what}" for what, count in sorted(notes.items()) if count)
    return ", ".join(map(say_counted, found))


def is_of_one(told: str) -> bool:
    """Whether notes in a row are one, of one thing."""
    return told.startswith("1 ") and re.search(r", \d+ ", told) is None


def say_part(plan: Plan) -> None:
    """Says why a verdict over a plan holds only in part, if it does."""
    notes = plan.notes
    in_part = f"a verdict over this plan {IN_PART}"
    for before, noted in (("the run was cut off: ", notes.cut_off), ("", notes.more_ordered)):
        if any(noted.values()):
            say(f"{before}{in_part}: {count_notes(noted)}")
    left_out = count_notes(notes.list_left_out(can_hide_race=True))
    if left_out:
        say(f"{in_part}: not in the plan: {left_out}")
    of_luck = list_luck(plan)
    if of_luck and not is_by_mpi_alone(plan):
        told = ", ".join(of_luck)
        say(f"{told}: another run may do otherwise after {'it' if is_of_one(told) else 'them'}")
    awaited = notes.otherwise[AWAITED]
    if awaited:
        say(f"{awaited} {AWAITED}; if it polls for them, another run may do otherwise")


def list_luck(plan: Plan) -> list[str]:
    """What luck decided. Of ends of requests the verdicts with and without --strict tell, where
    these differ."""
    counted = count_notes(plan.notes.of_luck)
    ends = plan.mpi.left_to_luck if not plan.mpi.verdicts else 0
    told = [say_counted(f"{ends} {LEFT_TO_LUCK}")] if ends else []
    return [*([counted] if counted else []), *told]


def write_pattern(plan: Plan, path: str) -> None:
    """Writes the pattern of a plan, or says why there is none. Raises OSError."""
    try:
        found = find_pattern(plan)
    except Refused as why:
        say(str(why))
        return
    write_whole(path, found.text)
    if found.has_other_values:
        say(f"{path}: values that differ between ranks are left out: `{ANY_VALUE}` stands for them")
    if holds_in_part(plan):
        say(f"{path}: a verdict over this pattern {IN_PART}, as one over the plan does")


def write_output(plan: Plan, places: Places, output: Output) -> str:
    """Writes a plan, and what is asked for besides. Answers the text of the plan. Raises Refused,
    OSError."""
    text = write_plan(plan, places)
    write_whole(output.plan, text)
    if output.answers:
        write_whole(output.answers, write_answers(plan))
    if output.pattern:
        write_pattern(plan, output.pattern)
    return text


def say_besides(checker: Checker, plan: Plan, text: str) -> None:
    """Says what is found on other placements of the ranks alone, if anything is, what the library
    that was recorded is known to answer otherwise, and last for which libraries the plan is
    portable."""
    found = judge_placements(checker, text)
    if found:
        say(f"{found}: wire_up check --anywhere names them")
    if plan.tested.of_library:
        say(plan.tested.of_library)
    if plan.tested.portable:
        say(plan.tested.portable)


def say_tested(tested: Tested) -> None:
    """Says whether each run of the program makes the calls of the plan, or what the library
    answered otherwise than the rules."""
    if tested.answered:
        say(
            f"answered otherwise than by the rules: {tested.answered}: the verdict doesn't hold of "
            "this library's run"
        )
    if tested.is_of_each_run:
        say(EACH_RUN)


def add_verdicts(plan: Plan, make_other: Callable[[Choices], Plan], checker: Checker) -> Plan:
    """A plan that has the verdicts with and without --strict, where they differ, and so something
    was left to luck. The other plan is made by what is taken for it. Raises Refused."""
    choices = plan.choices
    if not plan.mpi.left_to_luck:
        return plan
    other = make_other(replace(choices, is_strict=not choices.is_strict))
    plain, strict = (other, plan) if choices.is_strict else (plan, other)
    verdicts = compare_verdicts(checker, write_plan(plain), write_plan(strict))
    is_named = verdicts and not choices.is_strict
    races = list_strict_races(checker, plain, strict) if is_named else []
    return replace(plan, mpi=replace(plan.mpi, verdicts=verdicts, strict_races=races))


def settle_gets(plan: Plan, make_other: Callable[[Choices], Plan], checker: Checker) -> Plan:
    """A plan that no longer says of its gets that don't block that they order more than the program
    does, where nothing is found in it, nor in one without them. The other plan is made by what is
    taken for it. Raises Refused."""
    if not plan.notes.more_ordered[FLOATING]:
        return plan
    without = make_other(replace(plan.choices, has_floating=False))
    if not finds_nothing(checker, write_plan(plan), write_plan(without)):
        return plan
    return replace(plan, notes=settle_floating(plan.notes))


def say_verdicts(plan: Plan) -> None:
    """Says the verdicts with and without --strict, where they differ."""
    if plan.mpi.verdicts:
        of_luck = f"which takes nothing from {plan.mpi.left_to_luck} ends of requests"
        say(f"{plan.mpi.verdicts}, {of_luck}")


def judge_otherwise(plan: Plan, make_other: Callable[[Choices], Plan], checker: Checker) -> Plan:
    """A plan that says what is found where less is taken from the recordings. Raises Refused."""
    return settle_gets(add_verdicts(plan, make_other, checker), make_other, checker)


def make_choices(output: Output, path: str | None) -> Choices:
    """What is taken from recordings, by the checker at a path."""
    is_large = path is not None and Checker(path).takes_large()
    return Choices(output.with_mpi, output.is_strict, LARGE if is_large else VERSION_1)


def find_run_places(plan: Plan, recordings: Sequence[Recording]) -> Places:
    """Where the calls of the plan of recordings come from. Raises Refused, OSError."""
    folders = dict.fromkeys(os.path.dirname(recording.path) for recording in recordings)
    return find_places(plan.draft, read_places(folders))


def make_run(recordings: Sequence[Recording], choices: Choices) -> Run:
    """One of several runs, by its recordings. Raises Refused, OSError."""
    plan = make_whole_plan(recordings, choices)
    return Run(plan, find_run_places(plan, recordings))


def merge(output: Output, runs: Sequence[Sequence[str]], folder: str) -> None:
    """Makes and writes the plan of what several runs share, and says where they part, and the
    verdict. `folder` is that of the command. Raises Refused, OSError."""
    gc.disable()
    path = output.checker or find_checker(folder)
    choices = make_choices(output, path)
    recordings = [read_recordings(each_run, choices.most) for each_run in runs]
    made = [make_run(recording, choices) for recording in recordings]
    plan = merge_plans(made)
    if path is not None:
        checker = Checker(path, choices.most is LARGE)
        plan = judge_otherwise(
            plan,
            lambda other: merge_plans([make_run(recording, other) for recording in recordings]),
            checker,
        )
        plan = replace(plan, tested=test_plan(checker, plan, made))
    text = write_output(plan, made[0].places, output)
    for parting in plan.partings:
        say(f"the runs part: {parting}")
    say_part(plan)
    say_tested(plan.tested)
    say_verdicts(plan)
    if path is not None:
        own = [write_plan(each_run.plan, each_run.places) for each_run in made]
        for verdict in judge_runs(checker, text, own, bool(plan.partings)):
            say(verdict)
        say_besides(checker, plan, text)


def make(output: Output, paths: Sequence[str], folder: str) -> str:
    """Makes and writes the plan of recordings, in files or folders, and answers its text. `folder`
    is that of the command. Raises Refused, OSError."""
    # There is no garbage worth the looks of the collector over millions of records.
    gc.disable()
    path = output.checker or find_checker(folder)
    choices = make_choices(output, path)
    recordings = read_recordings(paths, choices.most)
    plan = make_plan(recordings, choices)
    places = find_run_places(plan, recordings)
    if output.kept:
        write_places(places, output.kept)
    if path is not None:
        checker = Checker(path, choices.most is LARGE)
        plan = judge_otherwise(plan, lambda other: make_plan(recordings, other), checker)
        plan = replace(plan, tested=test_plan(checker, plan, [Run(plan, places)]))
    text = write_output(plan, places, output)
    say_part(plan)
    say_tested(plan.tested)
    say_verdicts(plan)
    if path is not None:
        say_besides(checker, plan, text)
    return text


def hold_writable(output: Output) -> None:
    """Raises OSError for a text that could not be written once the command has run."""
    for path in (output.plan, output.answers, output.pattern):
        if path and path != STANDARD_OUTPUT:
            try_to_write(path)


def run_first(asked: CommandRequest, environment: Mapping[str, str]) -> Ended:
    """Runs a command, and answers how it ended. If it is to run again, all runs read the same.
    Raises NotRun, OSError."""
    if asked.asked is None:
        return run(asked.command, environment)
    with open(asked.asked.source or os.devnull, "rb") as come:
        return run(asked.command, environment, come)


def find_material(
    asked: CommandRequest | ShowRequest, text: str, room: Path, folder: str
) -> Material:
    """What there is to show races of a plan with, in runs whose recordings go to a room. `folder`
    is that of the recorder. Raises Refused, OSError."""
    output = asked.output
    path = output.checker or find_checker(folder)
    return Material(
        command=asked.command,
        libraries=find_libraries(folder, output.with_mpi),
        text=text,
        path=output.plan,
        checker=Checker(path, Checker(path).takes_large()) if path is not None else None,
        room=room,
    )


def show_of_plan(asked: ShowRequest, folder: str) -> int:
    """Shows races of a plan that is there, and answers 0. Raises Refused, NotRun, OSError."""
    assert asked.asked.of is not None, "there is a plan"
    with open(asked.asked.of, "rb") as file:
        data = file.read()
    if not read_plan(data).is_recorded:
        raise Refused(f"{asked.asked.of}: isn't a plan that wire_up-record wrote")
    room = Path(make_folder(asked.output.plan, asked.output.kept))
    try:
        show(asked.asked, find_material(asked, data.decode("ascii", "replace"), room, folder), say)
    finally:
        if not asked.output.kept:
            shutil.rmtree(room, ignore_errors=True)
    return 0


def record(asked: CommandRequest, folder: str) -> int:
    """Runs a command, makes the plan, and answers the command's status. `folder` is that of the
    recorder. Recordings that make no plan are left. Raises Refused, NotRun, OSError."""
    output = asked.output
    libraries = find_libraries(folder, output.with_mpi)
    hold_writable(output)
    earlier = find_earlier(asked.asked.race if asked.asked else None, output.plan)
    recordings, is_made = Path(make_folder(output.plan, output.kept)), False
    if asked.asked:
        mark_compared(recordings)
    began = time.monotonic()
    try:
        status, is_stopped = run_first(asked, make_environment(libraries, str(recordings)))
        seconds = time.monotonic() - began
        if status:
            how = f"with status {status}" if status > 0 else f"by signal {-status}"
            say(f"the command ended {how}")
        shows = None if is_stopped else asked.asked
        # What goes to standard output goes there once, with what is shown.
        is_put_off = shows is not None and output.plan == STANDARD_OUTPUT
        made = replace(output, plan=os.devnull) if is_put_off else output
        text = make(made, [str(recordings)], folder)
        is_made = True
        if shows:
            material = find_material(asked, text, recordings, folder)
            first = First(seconds, status, read_traces(recordings))
            shows = follow_race(shows, earlier, text, say)
            show(shows, replace(material, first=first), say)
        elif asked.asked:
            say("a signal came: the command doesn't run again")
        return status if status >= 0 else BY_SIGNAL - status
    finally:
        if not output.kept and (is_made or not has_recordings(recordings)):
            shutil.rmtree(recordings, ignore_errors=True)
        elif not is_made and recordings.is_dir() and has_recordings(recordings):
            say(f"the recordings are in {recordings}")


def do(asked: Request, folder: str) -> int:
    """Does what is asked for, and answers the status. `folder` is that of the command."""
    if isinstance(asked, WhereRequest):
        return say_where(asked)
    if isinstance(asked, SizesRequest):
        return answer_sizes(asked, folder)
    if isinstance(asked, CommandRequest):
        return record(asked, folder)
    if isinstance(asked, ShowRequest):
        return show_of_plan(asked, folder)
    if len(asked.runs) > 1:
        merge(asked.output, asked.runs, folder)
    else:
        make(asked.output, asked.runs[0], folder)
    return 0
