"""Records MPICH's test suite with Open MPI, program by program, and says what came of it.

Usage: make record-suite [PARTS="pt2pt f77/coll"] [ROOM=FOLDER] [SECONDS=N] [JOBS=N]
       python3 -m build.record_suite [PROGRAM] [--parts PART..] [--room FOLDER]
                                                      [--seconds N] [--jobs N] [--turn]
It fetches the suite as Debian's source package (with lists of apt of its own), builds it for the
MPI that is here, and runs each program without the recorder and with it, JOBS parts side by side. A
program that takes more than N seconds by itself is left out. ROOM (`wire-up-suite` where temporary
files go) keeps the suite, and what came of each program in `outcomes`: who runs the command again,
or was interrupted, goes on behind that. The last lines are a table; above it stands what went
another way. PROGRAM is the checker, or else ./wire_up. With --turn only programs are taken that
call PMIx, or have MPI call it for names and other jobs, and the orders of their plans are turned
round; what came of them is in `turned`.
"""
import argparse
import json
import os
import subprocess
import sys
import tempfile
from collections.abc import Iterable, Sequence
from concurrent.futures import ThreadPoolExecutor
from dataclasses import asdict
from pathlib import Path

from build.places import TOP, WIRE_UP
from build.suite.source import (
    NoSuite,
    SuiteProgram,
    build,
    build_common,
    calls_pmix,
    configure,
    fetch,
    find_programs,
)
from build.suite.trying import Bench, Outcome

COLUMNS = (
    "part", "programs", "left out", "plans", "in part", "racy", "differ", "as answered", "not so",
    "kept", "turned",
)


def count_row(name: str, outcomes: Sequence[Outcome]) -> Sequence[str]:
    """The row of a table about some programs."""
    plans = [outcome for outcome in outcomes if not outcome.lacks and not outcome.no_plan]
    counts = (
        len(outcomes),
        sum(bool(outcome.lacks) for outcome in outcomes),
        len(plans),
        sum(plan.is_in_part for plan in plans),
        sum(bool(plan.findings) for plan in plans),
        sum(bool(outcome.differs) for outcome in outcomes),
        sum(plan.is_replayed and not plan.replay for plan in plans),
        sum(bool(plan.replay) for plan in plans),
        sum(plan.kept for plan in plans),
        sum(bool(plan.turned) for plan in plans),
    )
    return [name, *map(str, counts)]


def make_table(outcomes: Sequence[Outcome]) -> Iterable[str]:
    """A table of all programs by their parts."""
    parts = dict.fromkeys(outcome.program.part for outcome in outcomes)
    rows: list[Sequence[str]] = [COLUMNS]
    rows += [
        count_row(part, [one for one in outcomes if one.program.part == part]) for part in parts
    ]
    rows.append(count_row("all", outcomes))
    widths = [max(map(len, column)) for column in zip(*rows)]
    for name, *counts in rows:
        cells = (count.rjust(width) for count, width in zip(counts, widths[1:]))
        yield f"{name:<{widths[0]}}  {'  '.join(cells)}"


def tell(outcome: Outcome) -> Iterable[str]:
    """What went another way with a program."""
    found = (
        ("left out", outcome.lacks),
        ("no plan", outcome.no_plan),
        ("differs", outcome.differs),
        ("findings", str(outcome.findings or "")),
        ("replay", outcome.replay),
        ("turned round", outcome.turned),
    )
    return [f"{outcome.program.title}: {what}: {why}" for what, why in found if why]


class Tried:
    """What came of programs, kept in a file as it comes."""

    def __init__(self, room: Path, *, does_turn: bool = False) -> None:
        self.does_turn = does_turn
        self.path = room / ("turned" if does_turn else "outcomes")
        self.log = room / "build.log"
        self.found: dict[str, Outcome] = {}
        self.is_over = False
        if self.path.exists():
            with self.path.open(encoding="utf-8") as lines:
                for load in map(json.loads, lines):
                    program = SuiteProgram(**load.pop("program"))
                    self.found[program.title] = Outcome(program, **load)

    def keep(self, outcome: Outcome) -> None:
        """Keeps what came of a program, and says it."""
        title = outcome.program.title
        self.found[title] = outcome
        with self.path.open("a", encoding="utf-8") as to:
            to.write(json.dumps(asdict(outcome)) + "\n")
        seconds = f"{outcome.seconds:.1f} s recorded"
        well = f"{title}: {f'kept {outcome.kept}' if self.does_turn else 'as without'}"
        print(f"{'; '.join(tell(outcome)) or well} ({seconds})", flush=True)

    def try_part(self, bench: Bench, programs: Sequence[SuiteProgram]) -> None:
        """Builds and tries the programs of one part, one after another: they share its folder."""
        for program in programs:
            if self.is_over or program.title in self.found:
                continue
            is_built = build(bench.built, program, self.log)
            how = bench.turn_program if self.does_turn else bench.try_program
            self.keep(how(program) if is_built else Outcome(program, "isn't built"))


def try_all(bench: Bench, programs: Sequence[SuiteProgram], tried: Tried, jobs: int) -> None:
    """Tries all programs, so many parts side by side, the largest first. An interrupt ends it."""
    parts: dict[str, list[SuiteProgram]] = {}
    for program in programs:
        parts.setdefault(program.part, []).append(program)
    with ThreadPoolExecutor(jobs) as pool:
        ran = [
            pool.submit(tried.try_part, bench, parts[part])
            for part in sorted(parts, key=lambda each_part: -len(parts[each_part]))
        ]
        try:
            for of in ran:
                of.result()
        except KeyboardInterrupt:
            tried.is_over = True
            print("interrupted: what is tried is told", flush=True)


def prepare(words: argparse.Namespace) -> tuple[Path, list[SuiteProgram]]:
    """The folder of the built suite, and the programs that are asked for. Raises NoSuite."""
    words.room.mkdir(parents=True, exist_ok=True)
    print("fetching and configuring the suite ..", flush=True)
    source = fetch(words.room)
    built = configure(words.room, source)
    programs = find_programs(built, source, words.parts)
    if words.turn:
        programs = [program for program in programs if calls_pmix(program, built, source)]
    build_common(built, words.room)
    return built, programs


def read_words() -> argparse.Namespace:
    """What the command line asks for."""
    parser = argparse.ArgumentParser(add_help=False, usage=__doc__)
    parser.add_argument("program", nargs="?", default=str(WIRE_UP))
    parser.add_argument("--parts", nargs="*", default=[])
    room = Path(tempfile.gettempdir(), "wire-up-suite")
    parser.add_argument("--room", type=Path, default=room)
    parser.add_argument("--seconds", type=float, default=60.0)
    parser.add_argument("--jobs", type=int, default=1)
    parser.add_argument("--turn", action="store_true")
    return parser.parse_args()


def main() -> int:
    """Runs the command, and answers its status: 1 where a program ended in another way."""
    words = read_words()
    if not os.access(words.program, os.X_OK):
        print(f"{words.program}: there is no built wire_up", file=sys.stderr)
        return 2
    subprocess.run(["make", "-s", "record", "record-mpi"], cwd=TOP, check=True)
    try:
        built, programs = prepare(words)
    except NoSuite as why:
        print(f"there is no suite: {why}", file=sys.stderr)
        return 2
    bench = Bench(built, os.path.abspath(words.program), words.seconds)
    tried = Tried(words.room, does_turn=words.turn)
    try_all(bench, programs, tried, words.jobs)
    outcomes = [tried.found[program.title] for program in programs if program.title in tried.found]
    print(f"\n{len(outcomes)} programs of {len(programs)}; what went another way:")
    print(*(line for outcome in outcomes for line in tell(outcome)), "", sep="\n")
    print(*make_table(outcomes), sep="\n")
    return (
        1 if any(outcome.differs or outcome.replay or outcome.turned for outcome in outcomes) else 0
    )


if __name__ == "__main__":
    sys.exit(main())
