"""Says what `wire_up-record --sizes` answers on programs that run with any number of ranks, as a
table.

Usage: python3 -m tests.programs.hold_sizes ANSWERS [--nodes 2] [--sizes 3,4,8] [--suite ROOM]
                                   [--only WORD..] [--most N] [--jobs N] [--seconds N]
The programs are record/programs/shapes.c with each of its words, wireups.c with each of its own,
and some others of record/programs; with `--suite`, those of five parts of MPICH's suite, which is
fetched and built in ROOM as by `make record-suite`, if it isn't there. With `--nodes 2` the ranks
stand on two nodes that are none, in turn, which takes root. ANSWERS is a file: what was answered is
added to it, and what stands in it isn't asked again; the table is of all that stands in it. Only
programs with all of WORD.. in their lines are asked, at most so many, and so many side by side. The
runs of one may take 150 seconds together, or as many as are given. Where one fails, the program
runs with as many ranks without the recorder: if that fails too, the program is left out.
WIRE_UP_PROGRAM names the checker.
"""
import argparse
import collections
import itertools
import json
import os
import re
import signal
import subprocess
import sys
import tempfile
import threading
from collections.abc import Iterator, Sequence
from concurrent.futures import ThreadPoolExecutor
from pathlib import Path
from typing import Any, NamedTuple

from build.suite.source import SuiteProgram, build_common, configure, fetch, find_programs
from build.suite.source import build as build_of_suite
from build.suite.trying import SETTINGS
from wire_up_tools.record.sizes.answering import LACKS_FENCES
from wire_up_tools.run.launchers import Kind
from tests import support
from tests.programs.hold_launchers import ENVIRONMENT, PLACES, tell_daemons
from tests.support.live import COMPILED
from tests.support.tapes import COMMAND, PROGRAMS
from tests.support.two_nodes import NODES

PLACE, MOST_RANKS = "{}", 64
# How long the runs of a program may take. One of OpenPMIx may wait for ever on two nodes.
MOST_SECONDS = 150
FORMS = ("", "root", "each", "both")
OTHERS = ("alone", "calls", "collectives", "early", "messages", "names", "ring", "told")
# The parts of MPICH's suite.
PARTS = ("coll", "comm", "group", "pt2pt", "topo")
WORDS_OF = {"shapes": r"SHAPE\((\w+)\)", "wireups": r"WIREUP\((\w+)\)"}
COLUMNS = (
    "programs",
    "patterns",
    "nothing found",
    "none can race",
    "race in a run",
    "pattern alone",
    "contradicted",
    "fences left out",
    "fail alone",
    "too slow",
    "cut off",
)
# The last three are of programs that are left out.
EVERY, PATTERN, CLEAN, IDLE, RECORDED, ALONE, WRONG, IN_PARTS, FAILING, SLOW, CUT = COLUMNS
# A run that fails, and one that is of no use: it is cut off, or has several jobs.
FAILED_RUN = re.compile(r"the run with (\d+) ranks ended")
USELESS_RUN = re.compile(r"the run with \d+ ranks has|was cut off|\d+ jobs")
TOO_LONG = "took too long"
# How `timeout` ends where it ended a command: by the second signal, it ends by that one too.
TIMED_OUT = (124, -signal.SIGKILL)
# How a note begins that says why there is no pattern.
WITHOUT_PATTERN = ("no pattern fits", "no pattern of these")
SAID = "wire_up-record: "


class Case(NamedTuple):
    """A program: of which family, where it is, and with which words."""

    family: str
    folder: Path
    words: Sequence[str]


class Asked(NamedTuple):
    """What was answered on a program, on so many nodes: its line, the status, what was written and
    the last line that was said. Where a run failed, the status `alone` is that without the
    recorder."""

    family: str
    nodes: int
    line: str
    status: int | None
    wrote: str
    said: str
    alone: int = 0

    @property
    def why_left_out(self) -> str:
        """Why it can't be asked; empty where it can."""
        if self.said == TOO_LONG:
            return SLOW
        if USELESS_RUN.search(self.said):
            return CUT
        return FAILING if FAILED_RUN.search(self.said) and self.alone else ""

    @property
    def counts(self) -> Sequence[str]:
        """As what it counts."""
        if not self.wrote:
            return [self.why_left_out or EVERY]
        said: dict[str, Any] = json.loads(self.wrote)
        notes = said["notes"]
        found = [EVERY]
        if not any(note.startswith(WITHOUT_PATTERN) for note in notes):
            found.append(PATTERN)
        if any("mistake of wire_up-record" in note for note in notes):
            found.append(WRONG)
        if LACKS_FENCES in notes:
            found.append(IN_PARTS)
        if said["findings"]:
            return [*found, RECORDED if said["shown"] == "recording" else ALONE]
        is_idle = any(note.startswith("no call of these runs can race") for note in notes)
        return [*found, CLEAN, *([IDLE] if is_idle else [])]


def list_words(name: str) -> Sequence[str]:
    """The words that a program takes, in its own order."""
    text = (PROGRAMS / f"{name}.c").read_text(encoding="utf-8")
    return re.findall(WORDS_OF[name], text.partition("[] = {")[2])


def list_cases(folder: Path) -> Iterator[Case]:
    """The programs of the repository, built in a folder."""
    for form, shape in itertools.product(FORMS, list_words("shapes")):
        words = [str(folder / "shapes"), shape, *([form] if form else [])]
        yield Case(f"shapes {form}".strip(), folder, words)
    for word in list_words("wireups"):
        yield Case("wireups", folder, [str(folder / "wireups"), word])
    for name in OTHERS:
        yield Case("others", folder, [str(folder / name)])


def list_suite(room: Path) -> Iterator[Case]:
    """The programs of MPICH's suite that are built, one of each part in turn."""
    parts: dict[str, list[Case]] = {}
    for case in list_built(room):
        parts.setdefault(case.family, []).append(case)
    for them in itertools.zip_longest(*parts.values()):
        yield from filter(None, them)


def list_built(room: Path) -> Iterator[Case]:
    """The programs of MPICH's suite that are built."""
    built = room / "built"
    programs: dict[tuple[str, str], SuiteProgram] = {}
    for program in find_programs(built, room / "source", PARTS):
        programs.setdefault((program.part, program.name), program)
    for program in programs.values():
        folder = built / program.part
        path = str(folder / program.name)
        if os.access(path, os.X_OK):
            settings = [f"{name}={value}" for name, value in program.variables.items()]
            before = ["env", *settings] if settings else []
            yield Case(f"MPICH/{program.part}", folder, [*before, path, *program.words])


def build(folder: Path) -> None:
    """Builds the recorder, and the programs into a folder."""
    subprocess.run(["make", "-s", "record", "record-mpi"], cwd=support.TOP, check=True)
    asked = ["pkg-config", "--cflags", "--libs", "pmix"]
    of_pmix = subprocess.run(asked, capture_output=True, text=True, check=True).stdout.split()
    for name in ("shapes", "wireups", *OTHERS):
        compiler, *words = COMPILED.get(name, ("mpicc", f"{name}.c"))
        words = [str(PROGRAMS / words[-1]), *words[:-1], *of_pmix]
        subprocess.run([compiler, "-g", "-o", folder / name, *words], check=True)


def build_suite(room: Path) -> None:
    """Builds the programs of MPICH's suite in a folder, those that can be."""
    room.mkdir(parents=True, exist_ok=True)
    source = fetch(room)
    built = configure(room, source)
    build_common(built, room)
    for program in find_programs(built, source, PARTS):
        build_of_suite(built, program, room / "build.log")


def launch(nodes: int, room: Path) -> Sequence[str]:
    """The words that start as many ranks as are asked for."""
    hosts, words = room / "hosts", ["mpirun"]
    with hosts.open("w", encoding="ascii") as to:
        to.writelines(f"{NODES[rank % nodes]}\n" for rank in range(MOST_RANKS))
    if nodes > 1:
        daemons = tell_daemons(Kind.OPEN_MPI_4, str(hosts), str(room))
        words += daemons + list(PLACES[Kind.OPEN_MPI_4])
    return [*words, *([] if nodes > 1 else ["--oversubscribe"]), "-n", PLACE]


def name_line(case: Case) -> str:
    """A program with its words."""
    return " ".join([Path(case.words[0]).name, *case.words[1:]])


def run_case(
    case: Case, nodes: int, seconds: int, words: Sequence[str]
) -> "subprocess.CompletedProcess[str]":
    """Runs a command in the folder of a program. Its status is one of TIMED_OUT if it takes
    longer."""
    environment = {**ENVIRONMENT, **SETTINGS}
    if nodes == 1:
        # Messages go through memory.
        del environment["OMPI_MCA_btl_tcp_if_include"]
    return subprocess.run(
        ["timeout", "-k", "5", str(seconds), *words], cwd=case.folder, env=environment,
        stdin=subprocess.DEVNULL, capture_output=True, text=True, errors="replace", check=False,
    )


def ask(case: Case, asked: argparse.Namespace) -> Asked:
    """What is answered on a program."""
    nodes, alone = asked.nodes, 0
    with tempfile.TemporaryDirectory(prefix="sizes-") as room:
        options = ["--sizes", asked.sizes, "--json", "--checker", support.program()]
        recorder = [sys.executable, COMMAND, *options, "-o", f"{room}/pattern"]
        command = [*launch(nodes, Path(room)), *case.words]
        ran = run_case(case, nodes, asked.seconds, [*recorder, *command])
        lines = ran.stderr.splitlines()
        told = [line.removeprefix(SAID) for line in lines if line.startswith(SAID)]
        said = TOO_LONG if ran.returncode in TIMED_OUT else "".join(told[-1:])
        failed = FAILED_RUN.search(said)
        if failed:
            plain = [word.replace(PLACE, failed[1]) for word in command]
            alone = run_case(case, nodes, asked.seconds, plain).returncode
    return Asked(case.family, nodes, name_line(case), ran.returncode, ran.stdout, said, alone)


def read_answers(path: Path) -> list[Asked]:
    """What was answered before."""
    if not path.exists():
        return []
    with path.open(encoding="utf-8") as lines:
        return [Asked(*json.loads(line)) for line in lines]


def ask_all(words: argparse.Namespace, folder: Path) -> None:
    """Asks about all programs of which nothing stands in the file of answers, or at most so many,
    some side by side."""
    cases = [*list_cases(folder), *(list_suite(words.suite) if words.suite else ())]
    known = {(asked.family, asked.nodes, asked.line) for asked in read_answers(words.answers)}
    left = [
        case for case in cases
        if (case.family, words.nodes, name_line(case)) not in known
        and all(word in f"{case.family} {name_line(case)}" for word in words.only)
    ]
    writing = threading.Lock()

    def ask_one(case: Case) -> None:
        asked = ask(case, words)
        with writing:
            with open(words.answers, "a", encoding="utf-8") as to:
                to.write(f"{json.dumps(asked)}\n")
            tell(asked)

    with ThreadPoolExecutor(words.jobs) as pool:
        list(pool.map(ask_one, left[:words.most]))


def tell(asked: Asked) -> None:
    """Prints what a program counts as."""
    counted = [name for name in asked.counts if name not in (EVERY, PATTERN)]
    what = ", ".join(counted) or "no pattern"
    where = "two nodes" if asked.nodes > 1 else "one node"
    print(asked.family, where, asked.line, what, asked.said, sep=" | ", flush=True)


def write_table(answers: Sequence[Asked]) -> Iterator[str]:
    """The table of all answers: a row for each family on each number of nodes, and one for all."""
    yield f"| |{'|'.join([EVERY, 'nodes', *COLUMNS[1:]])}|"
    yield f"|{'|'.join(['---'] * (len(COLUMNS) + 2))}|"
    rows = dict.fromkeys((asked.family, asked.nodes) for asked in answers)
    wholes = [("all", nodes) for nodes in sorted({nodes for _, nodes in rows})]
    for family, nodes in [*rows, *wholes]:
        counted = collections.Counter(
            name for asked in answers for name in asked.counts
            if asked.nodes == nodes and family in (asked.family, "all")
        )
        counts = [str(counted[name]) for name in COLUMNS]
        cells = [family, counts[0], str(nodes), *counts[1:]]
        yield f"|{'|'.join(cells)}|"


def read_words() -> argparse.Namespace:
    """What the command line asks for."""
    parser = argparse.ArgumentParser(add_help=False, usage=__doc__)
    parser.add_argument("answers", type=Path)
    parser.add_argument("--nodes", type=int, default=1, choices=(1, len(NODES)))
    parser.add_argument("--sizes", default="3,4,8")
    parser.add_argument("--suite", type=Path)
    parser.add_argument("--only", nargs="*", default=[])
    parser.add_argument("--most", type=int)
    parser.add_argument("--jobs", type=int, default=1)
    parser.add_argument("--seconds", type=int, default=MOST_SECONDS)
    parser.add_argument("--built", type=Path)
    return parser.parse_args()


def main() -> int:
    """Asks about all programs, and writes the table. Answers 1 if an answer is contradicted."""
    words = read_words()
    if words.built:
        ask_all(words, words.built)
        return 0
    with tempfile.TemporaryDirectory(prefix="wire-up-") as folder:
        build(Path(folder))
        if words.suite:
            build_suite(words.suite)
        module = "tests.programs.hold_sizes"
        again = [sys.executable, "-m", module, *sys.argv[1:], "--built", folder]
        if words.nodes > 1:
            again = [sys.executable, "-m", "tests.support.two_nodes", *again]
        subprocess.run(again, cwd=support.TOP, check=True)
    answers = read_answers(words.answers)
    lacking = [asked for asked in answers if asked.counts == [EVERY]]
    told = [f"no pattern: {asked.line}, nodes {asked.nodes}: {asked.said}" for asked in lacking]
    print("", *told, sep="\n")
    print("", *write_table(answers), sep="\n")
    return int(any(WRONG in asked.counts for asked in answers))


if __name__ == "__main__":
    sys.exit(main())
