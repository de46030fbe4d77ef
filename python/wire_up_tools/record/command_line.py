"""The command line of the recorder: its options, its help, and its statuses."""
import os
import re
import signal
import sys
from collections.abc import Sequence
from types import FrameType

from wire_up_tools.failures import Refused, Unusable, explain
from wire_up_tools.options import (
    END,
    STANDARD_STREAM,
    Option,
    Parser,
    answer_alone,
    describe,
    say_unusable,
)
from wire_up_tools.record.fresh_input import refuse_input
from wire_up_tools.record.recordings import refuse_recordings
from wire_up_tools.record.running import BY_SIGNAL, HANDED_ON, NotRun, Stopped
from wire_up_tools.record.showing.asking import OPTIONS as OF_SHOWING
from wire_up_tools.record.showing.asking import read_asked
from wire_up_tools.record.sizes.asking import asks_for_sizes, read_sizes_request
from wire_up_tools.record.tasks import (
    CommandRequest,
    FilesRequest,
    Output,
    Request,
    ShowRequest,
    WhereRequest,
    do,
    say,
)

NAME, FAILED = "wire_up-record", 125
# The options that take the words behind them.
TASKS = FROM, _ = ("--from", "--where")

ABOUT = "Records the PMIx calls of a program, and writes them as a plan for `wire_up`."
# How it is called, and what it does then.
USES = (
    (
        "-o PLAN [OPTION..] COMMAND..",
        "runs the command with the recorder in each process, and writes the plan",
    ),
    (
        "-o PLAN [OPTION..] --from FILE..",
        "writes the plan of recordings that are there, in files or folders",
    ),
    (
        "-o PLAN [OPTION..] --from FILE.. --from FILE..",
        "writes one plan of what several runs of a program share, and says where they part",
    ),
    (
        "--sizes 3,4,8 -o PATTERN COMMAND..",
        "runs the command three times, with 3, 4 and 8 in place of {}, writes one pattern for "
        "every number of ranks,\n"
        f"    {' ' * 47} and says what is found in it, with --json as JSON",
    ),
    (
        "--sizes -o PATTERN --from FILE.. --from FILE.. --against FILE..",
        "does so with recordings that are there, and holds the pattern against those behind "
        "--against",
    ),
    (
        "--of PLAN --show COMMAND..",
        "shows races of a plan that was recorded before, in the program: see --show",
    ),
    (
        "--where PROC N PLAN",
        "says where in the program call N of a process comes from, such as --where app:0 13 plan",
    ),
)
BELOW = (
    "A plan has comments at its head about all that it can't say. docs/recording.md tells what a "
    "verdict over such a plan means.\n"
    "\n"
    "Exit statuses: that of the command, and 128 and N if signal N ended it. 125 no plan is "
    "written: a line says why. 126 the command can't be\n"
    "run; 127 it isn't there. With --from: 0 the plan is written, or 125. With --sizes: 0 if "
    "nothing is found, 1 if something is,\n"
    "125 if there is no answer. SIGINT, SIGTERM, SIGHUP and SIGQUIT are handed on to the "
    "command.\n"
)


OPTIONS = (
    Option("-o", "PLAN", "where the plan goes; - is standard output"),
    Option(
        "--keep", "FOLDER", "keeps the recordings in this folder, which must be empty or new"
    ),
    Option(
        "--answers",
        "FILE",
        "writes also how the calls ended, in the form of the report that `wire_up replay` writes",
    ),
    Option(
        "--pattern",
        "FILE",
        "writes also a pattern: one script for all ranks, or one for rank 0 and one for the "
        "others, if the plan\n"
        "                   comes from such a one; else a line says which call breaks it",
    ),
    Option("--no-mpi", "", "leaves out what orders the processes by MPI"),
    Option(
        "--strict",
        "",
        "takes no order from a poll that succeeded, from MPI_Waitany and MPI_Waitsome, nor from a "
        "peer that a message\n"
        "                   of any source named: another run may find otherwise",
    ),
    Option(
        "--checker",
        "FILE",
        "the program `wire_up`, to say the verdicts with and without --strict where they differ; "
        "else the one beside this\n"
        "                   command or on the path is taken, if there is one",
    ),
    *OF_SHOWING,
)


class RecorderParser(Parser):
    """The options of the recorder, and two that take the words behind them."""

    def __init__(self) -> None:
        super().__init__(OPTIONS, TASKS)

    def sort(self, words: Sequence[str]) -> list[str]:
        """The words as they are where they have a command: what follows it is the command's."""
        left = iter(words)
        for word in left:
            if word in TASKS:
                return super().sort(words)
            if word in (STANDARD_STREAM, END) or not word.startswith("-"):
                break
            self.take_word(word, left)
        return list(words)


def write_help() -> str:
    """All that the recorder says of itself."""
    uses = "".join(f"    wire_up-record {use:<32} {meaning}\n" for use, meaning in USES)
    return f"{ABOUT}\n\n{uses}\n{describe(OPTIONS)}\n{BELOW}"


def read_where_request(words: Sequence[str]) -> WhereRequest:
    """What `--where` asks for. Raises Unusable."""
    if len(words) != 3 or not re.fullmatch(r"[1-9]\d{0,8}", words[1]):
        raise Unusable("--where needs a process, the number of a call, and a plan")
    return WhereRequest(words[0], int(words[1]), words[2])


def refuse_alike(output: Output) -> None:
    """Refuses two texts for one file. Raises Unusable."""
    paths = [text for text in (output.plan, output.answers, output.pattern) if text]
    files = [
        os.path.realpath(path) for path in paths if os.path.isfile(path) or not os.path.exists(path)
    ]
    if len(set(files)) < len(files):
        raise Unusable("-o, --answers and --pattern each need a file of their own")


def read_request(words: Sequence[str]) -> Request:
    """What a command line asks for. Raises Unusable, Refused, OSError."""
    if asks_for_sizes(words, OPTIONS):
        return read_sizes_request(words, OPTIONS)
    found = RecorderParser().read(words)
    if found.where is not None:
        return read_where_request([*found.where, *found.rest])
    asked = read_asked(found)
    plan = found.o or (asked.of if asked else None)
    if plan is None:
        of_earlier = ", and --of PLAN takes one that is there" if asked else ""
        raise Unusable(f"-o PLAN says where the plan goes{of_earlier}")
    output = Output(
        plan=plan,
        answers=found.answers,
        kept=found.keep,
        pattern=found.pattern,
        checker=found.checker,
        with_mpi=not found.no_mpi,
        is_strict=found.strict,
    )
    refuse_alike(output)
    from_files = getattr(found, FROM.strip("-"))
    if from_files is None:
        if not found.rest:
            raise Unusable("which command?")
        if asked:
            refuse_input(asked.source)
        if asked and asked.of:
            return ShowRequest(output, found.rest, asked)
        return CommandRequest(output, found.rest, asked)
    # Two hyphens may stand between them.
    files = [*from_files, *found.rest]
    if not files or output.kept:
        raise Unusable("--keep goes with a command" if files else "which recordings?")
    runs = split_runs(files)
    if not all(runs):
        raise Unusable("which recordings?")
    refuse_recordings([output.plan, output.answers, output.pattern], runs)
    return FilesRequest(output, runs)


def split_runs(words: Sequence[str]) -> Sequence[Sequence[str]]:
    """The files of each run: each begins with `--from`, but for the first."""
    runs: list[list[str]] = [[]]
    for word in words:
        if word == FROM:
            runs.append([])
        else:
            runs[-1].append(word)
    return runs


def stop(number: int, _: FrameType | None) -> None:
    """Ends what is done when a signal comes. While that ends, no other disturbs it."""
    for signals in HANDED_ON:
        signal.signal(signals, signal.SIG_IGN)
    raise Stopped(number)


def catch_signals() -> None:
    """Lets signals end what is done, but for those that were ignored before."""
    for signals in HANDED_ON:
        if signal.getsignal(signals) != signal.SIG_IGN:
            signal.signal(signals, stop)


def main(words: Sequence[str], folder: str) -> int:
    """Does what a command line asks for, and answers the status. `folder` is that of the
    command."""
    alone = answer_alone(words, NAME, write_help())
    if alone is not None:
        print(alone, end="")
        return 0
    try:
        catch_signals()
        return do(read_request(words), folder)
    except Unusable as why:
        sys.stderr.write(say_unusable(NAME, why))
    except NotRun as why:
        say(str(why))
        return why.status
    except Refused as why:
        say(str(why))
    except Stopped as why:
        say(f"ended by signal {why.number}")
        return BY_SIGNAL + why.number
    except OSError as why:
        say(explain(why))
    except MemoryError:
        say("there isn't enough memory")
    return FAILED
