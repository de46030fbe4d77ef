"""Makes one pattern from runs of several sizes, and answers what it says."""
import errno
import gc
import os
import shutil
import sys
from collections import Counter
from collections.abc import Iterator, Sequence
from dataclasses import dataclass, replace
from typing import TextIO

from wire_up_tools.checker import Checker, find_checker
from wire_up_tools.failures import Refused
from wire_up_tools.files import STANDARD_OUTPUT, try_to_write, write_whole
from wire_up_tools.limits import LARGE, VERSION_1
from wire_up_tools.portable import find_portable
from wire_up_tools.record.floating import settle_floating
from wire_up_tools.record.notes import FLOATING
from wire_up_tools.record.places import find_places, read_places
from wire_up_tools.record.planning import Choices, Plan, make_plan
from wire_up_tools.record.recordings import NoRecording, read_recordings, refuse_past
from wire_up_tools.record.running import (
    NotRun,
    find_libraries,
    make_environment,
    make_folder,
    run,
)
from wire_up_tools.record.sizes.answering import (
    LINES,
    Answer,
    Shown,
    list_notes,
    name_run,
    needs_line,
    say_origin,
    write_answer,
    write_json,
)
from wire_up_tools.record.sizes.asking import PLACE, SIZES, SizesRequest, refuse_sizes
from wire_up_tools.record.sizes.inferring import Inferred, infer
from wire_up_tools.record.sizes.judging import (
    ANSWERS,
    CLEAN,
    FOUND,
    Verdict,
    count_racing,
    find_judge,
    judge_pattern,
    judge_plan,
)
from wire_up_tools.record.sizes.plans import SizedPlan, can_race, take_plan
from wire_up_tools.record.sizes.scripts import Unfit
from wire_up_tools.record.sizes.writing import find_mark
from wire_up_tools.record.verdicts import keeps_rules, say_of_libraries
from wire_up_tools.record.writing import list_notes as list_plan_notes
from wire_up_tools.record.writing import is_by_mpi_alone, say_luck, say_own_code, write_plan
from wire_up_tools.words import (
    CUT_OFF,
    LEFT_OUT_HARMLESS,
    MORE_ORDERED,
    OTHERWISE_AFTER,
    PATTERN_BY,
    WRITTEN_OTHERWISE,
)

SAYS, STANDARD_ERROR = "wire_up-record", 2
# How it is said that a verdict by the rules may not hold for the library that was recorded.
NOT_BY_RULES = "the library may not do as the rules say"
GUESS = "That other numbers do the same is a guess."
TOO_MANY = (
    "no pattern of these runs can be judged: its ranks choose whom they call, in more ways than "
    "are tried"
)
SAYS_ORDER = (
    "Who waits for a name that begins with {}. knows by MPI, or a fence of some ranks, that another"
    " rank came there."
)
# What is said before why a verdict says less of the program.
DOUBTS = {
    MORE_ORDERED: "a verdict holds only in part:",
    OTHERWISE_AFTER: "another run may do otherwise after",
}


@dataclass(frozen=True)
class Made:
    """The plan of a run, in short and with all that it says, and its text."""

    sized: SizedPlan
    plan: Plan
    text: str


def make_sized(name: str, paths: Sequence[str], choices: Choices) -> Made:
    """The plan of the recordings of a run. Raises Refused, OSError."""
    try:
        recordings = read_recordings(paths, choices.most)
    except NoRecording as why:
        raise Refused(f"{name}: {why}") from None
    plan = make_plan(recordings, choices)
    text_of, lean = plan, plan
    if plan.notes.more_ordered[FLOATING]:
        # Without gets that may float nothing is more ordered by them.
        lean = make_plan(recordings, replace(choices, has_floating=False))
        plan = replace(plan, notes=settle_floating(plan.notes))
    folders = dict.fromkeys(os.path.dirname(recording.path) for recording in recordings)
    places = find_places(plan.draft, read_places(folders))
    for title, them in list_plan_notes(plan):
        if title == CUT_OFF and them:
            raise Refused(f"{name}: the run was cut off, and no pattern is made of it: {them[0]}")
    return Made(take_plan(name, lean, places), plan, write_plan(text_of, places))


class Interrupted(Refused):
    """A signal came while a command ran."""


@dataclass(frozen=True)
class Runner:
    """What runs a command with so many ranks: what is asked for, how plans are made, and the
    folders of the recorder and of the recordings."""

    asked: SizesRequest
    choices: Choices
    folder: str
    room: str

    def run(self, size: int) -> Made:
        """The plan of a run. Raises Refused, NotRun, OSError."""
        recordings, asked = os.path.join(self.room, str(size)), self.asked
        os.makedirs(recordings)
        command = [word.replace(PLACE, str(size)) for word in asked.command]
        libraries = find_libraries(self.folder, asked.with_mpi)
        environment = make_environment(libraries, recordings)
        with open(asked.source or os.devnull, "rb") as come:
            status, is_stopped = run(command, environment, come, STANDARD_ERROR)
        if status or is_stopped:
            why = say_failed(size, status, is_stopped, bool(os.listdir(recordings)))
            raise Interrupted(why) if is_stopped else Refused(why)
        made = make_sized(name_run(size), [recordings], self.choices)
        if made.sized.size != size:
            raise Refused(f"{name_run(size)} has {made.sized.size} processes")
        return made


def run_sizes(asked: SizesRequest, choices: Choices, folder: str) -> Sequence[Made]:
    """The plans of a command that is run with each size. `folder` is that of the recorder. Raises
    Refused, NotRun, OSError."""
    room = make_folder(asked.pattern, asked.kept)
    try:
        runner = Runner(asked, choices, folder, room)
        return [runner.run(size) for size in asked.sizes]
    finally:
        if not asked.kept:
            shutil.rmtree(room, ignore_errors=True)


def run_line(asked: SizesRequest, choices: Choices, folder: str) -> Sequence[Made]:
    """The plan of a run of the command with so many ranks that a grid of them is a line; none where
    it can't run so. Raises Interrupted, OSError."""
    room = asked.kept or make_folder(asked.pattern, None)
    why = "since in a small grid all may hear of all"
    print(f"{SAYS}: runs with {LINES[0]} ranks too, {why}", file=sys.stderr, flush=True)
    try:
        return [Runner(asked, choices, folder, os.path.abspath(room)).run(LINES[0])]
    except Interrupted:
        raise
    except (Refused, NotRun):
        print(f"{SAYS}: the answer is without {name_run(LINES[0])}, which failed", file=sys.stderr)
        return []
    finally:
        if not asked.kept:
            shutil.rmtree(room, ignore_errors=True)


def say_failed(size: int, status: int, is_stopped: bool, is_recorded: bool) -> str:
    """How a run failed, or ended after a signal came, and that it has a plan, if it is
    recorded."""
    how = f"with status {status}" if status >= 0 else f"by signal {-status}"
    if is_stopped:
        return f"{name_run(size)} ended {how}, after a signal came: no pattern is made"
    plan = f" of it, but without {SIZES} a plan is" if is_recorded else ""
    return f"{name_run(size)} ended {how}: no pattern is made{plan}"


def collect_runs(
    asked: SizesRequest, choices: Choices, folder: str
) -> tuple[Sequence[Made], Sequence[Made]]:
    """The runs from which a pattern is made, and those against which it is held: of a command the
    largest, if there are three. Raises Refused, NotRun, OSError."""
    if asked.sizes:
        made = run_sizes(asked, choices, folder)
        count = len(made) if len(made) < 3 else len(made) - 1
        return made[:count], made[count:]
    taken, held = (
        sorted(
            (make_sized(" ".join(paths), paths, choices) for paths in them),
            key=lambda made: made.sized.size,
        )
        for them in (asked.taken, asked.held)
    )
    refuse_sizes([made.sized.size for made in (*taken, *held)])
    return taken, held


def find_shown(checker: Checker, runs: Sequence[Made]) -> Shown | None:
    """The first run in which something is found. Raises Refused, OSError."""
    for made in runs:
        verdict = judge_plan(checker, made.sized.name, made.text)
        if verdict.findings:
            return Shown(made.sized, verdict)
    return None


def answer(checker: Checker, taken: Sequence[Made], held: Sequence[Made]) -> Answer:
    """The answer on runs. Raises Refused if their calls fit no pattern, and no run has what is
    found; OSError."""
    every = [*taken, *held]
    in_part = list_doubts(every)
    ours, others = [made.sized for made in taken], [made.sized for made in held]
    if not any(can_race(made.sized) for made in every):
        return Answer(ours, others, None, Verdict([]), in_part=in_part)
    shown = find_shown(checker, every)
    found = infer(ours, others, lambda text: count_racing(checker, text), not shown)
    if isinstance(found, Inferred) and found.racing is not None:
        verdict = judge_pattern(checker, found.text, ANSWERS)
        return Answer(found.taken, found.held, found, verdict, shown, in_part=in_part)
    unfit = f"no pattern fits these runs: {found}" if isinstance(found, Unfit) else TOO_MANY
    if not shown:
        raise Refused(unfit)
    return Answer(ours, others, None, Verdict([]), shown, unfit, in_part)


def list_doubts(runs: Sequence[Made]) -> Sequence[str]:
    """Why a verdict over the plans says less of the program."""
    return [
        f"{DOUBTS[title]} {line}" for title, them in join_notes(runs) if title in DOUBTS
        for line in them
    ]


def join_notes(runs: Sequence[Made]) -> Iterator[tuple[str, Sequence[str]]]:
    """What the plans can't say: titles, each with the lines below it, which count what most was of
    in one run."""
    found: dict[str, Counter[str]] = {}
    for run_of in runs:
        for title, them in list_plan_notes(run_of.plan):
            if title not in (WRITTEN_OTHERWISE, LEFT_OUT_HARMLESS):
                counted = (text.partition(" ") for text in them)
                found.setdefault(title, Counter())
                found[title] |= Counter({what: int(count) for count, _, what in counted})
    for title, counts in found.items():
        yield title, [f"{count} {what}" for what, count in sorted(counts.items())]


def say_order(inferred: Inferred) -> Sequence[str]:
    """What the names in a pattern are that stand for the order of MPI, if it has some."""
    mark = find_mark(inferred.skeleton)
    return [SAYS_ORDER.format(mark)] if f" {mark}." in inferred.text else []


def write_head(found: Answer, runs: Sequence[Made]) -> str:
    """The head of the pattern: what it comes from, and what it can't say."""
    last = runs[-1].plan
    lines = [f"{PATTERN_BY}, {say_origin(found.taken, found.held)}. {GUESS}"]
    lines += [note for note in list_notes(found) if note not in found.in_part]
    lines += say_order(found.inferred) if found.inferred else []
    own = say_own_code if all(is_by_mpi_alone(made.plan) for made in runs) else say_luck
    said = [line for say in (say_luck, own) for line in say(last)]
    lines += dict.fromkeys(line.removeprefix("# ") for line in said)
    for title, them in join_notes(runs):
        lines += [title, *(f"  {line}" for line in them)] if them else []
    return "".join(f"# {line}\n" for line in lines)


def write_whole_pattern(found: Answer, runs: Sequence[Made]) -> str:
    """The text of the pattern. Where no call can race it has none."""
    job = runs[0].sized.job
    empty = f"pattern 1\njob {job}\nmany ranks\n"
    text = found.inferred.text if found.inferred else empty
    return write_head(found, runs) + text


def choose_stream(asked: SizesRequest) -> TextIO:
    """Where the answer is written: standard output, if the pattern isn't. Raises OSError if that is
    closed."""
    to_error = asked.pattern == STANDARD_OUTPUT
    stream: TextIO | None = sys.stderr if to_error else sys.stdout
    if stream is None:
        name = "standard error" if to_error else "standard output"
        raise OSError(errno.EBADF, os.strerror(errno.EBADF), name)
    return stream


def answer_runs(
    asked: SizesRequest, choices: Choices, checker: Checker, folder: str
) -> tuple[Answer, Sequence[Made]]:
    """The answer on runs, and these runs. Where nothing is found since ranks hear of others, and
    the runs may be of small grids, the command runs once more, as a line. Raises Refused, NotRun,
    OSError."""
    taken, held = collect_runs(asked, choices, folder)
    found = answer(checker, taken, held)
    line = run_line(asked, choices, folder) if asked.sizes and needs_line(found) else []
    if line:
        held = sorted([*held, *line], key=lambda made: made.sized.size)
        found = answer(checker, taken, held)
    runs = [*taken, *held]
    of_library = [] if found.findings else say_of_library(checker, runs)
    return replace(found, of_library=of_library), runs


def say_of_library(checker: Checker, runs: Sequence[Made]) -> Sequence[str]:
    """Of the first run whose plan isn't portable for the library that was recorded, if there is
    one, for which it is."""
    for made in runs:
        portable = find_portable(checker, made.text.encode())
        if portable and not keeps_rules(made.plan, portable):
            said = say_of_libraries(made.plan, portable)
            return [f"{NOT_BY_RULES}: the plan of {made.sized.name} is {said}"]
    return []


def answer_sizes(asked: SizesRequest, folder: str) -> int:
    """Makes and writes the pattern that is asked for, and says the answer. Answers the status: 0 if
    nothing is found, 1 if something is. `folder` is that of the recorder. Raises Refused, NotRun,
    OSError."""
    gc.disable()
    path = asked.checker or find_checker(folder)
    if path is None:
        raise Refused("there is no program `wire_up` to judge the pattern: --checker FILE names it")
    checker = find_judge(path)
    most = LARGE if checker.is_large else VERSION_1
    choices = Choices(asked.with_mpi, asked.is_strict, most)
    refuse_past(most.processes, "processes", max(asked.sizes, default=0))
    to = choose_stream(asked)
    if asked.pattern != STANDARD_OUTPUT:
        try_to_write(asked.pattern)
    found, runs = answer_runs(asked, choices, checker, folder)
    if not found.unfit:
        write_whole(asked.pattern, write_whole_pattern(found, runs))
    said = write_json(found) if asked.is_json else write_answer(found)
    print(said, end="", file=to, flush=True)
    return FOUND if found.findings else CLEAN
