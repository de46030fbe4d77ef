"""Measures the program, and writes docs/figures.md: one short page of tables, with the machine and
the date.

Usage: python3 -m build.figures [PROGRAM] [--output FILE] [--small]
It takes some ten minutes, in which nothing else should be at work. Without PROGRAM it takes
./wire_up. Beside `check` it measures the unproved program of build/plain, where rustc can build it.
--small takes files of a few calls, each once: it only shows that all of it still works.
"""
import argparse
import datetime
import os
import platform
import re
import subprocess
import sys
import tempfile
import textwrap
from collections.abc import Iterable, Iterator, Sequence
from dataclasses import dataclass, replace
from pathlib import Path

from build import costs, crate_list
from build.bench_plans import KINDS, NO_CALLS
from build.large_plans import LARGE_PLANS
from build.minutes import minutes_of
from build.places import LOGS, TOP, WIRE_UP, shown
from build.plain_program import build_plain
from build.timing import BETWEEN, Command, Taken, best_of, findings_in, floor, mebibytes

PAGE = TOP / "docs" / "figures.md"
RUNS, LARGE_RUNS = 5, 2
SMALL_RANKS, SMALL_ROUNDS = 4, 6
# The ranks of which the cards are reported, each of which asks for those of all others.
CARDS = 2_000
# What is measured of each plan.
COMMANDS = (("check",), ("check", "--anywhere"), ("check", "--anywhere", "--same"), ("replay",))
CHECK = "plan", "calls", "findings", "check, s", "processor, s", "MiB"
UNPROVED = "unproved, s", "times", "processor, s", "times", "MiB", "times"
OTHERS = "plan", "`--anywhere`, s", "and `--same`, s", "replay, s", "processor, s", "MiB"
OF_UNPROVED = """ *Unproved* is the `check` of `build/plain`, an unproved program of one thread.
*Times* is how many times as much the proved `check` takes, and in the last column `replay`, as the
unproved `check`."""
# How many of the crates are told whose proofs take longest.
DEAREST = 5
MODEL = re.compile(r"^model name\s*: (.*)$", re.M)
MEMORY = re.compile(r"^MemTotal:\s+(\d+) kB$", re.M)
ROW = re.compile(r"^\| together \| (.*) \|$", re.M)
WHOLE = re.compile(r"^Together (\d+) minutes of processor time\.$", re.M)


@dataclass(frozen=True)
class Measured:
    """A plan and what was measured of it."""

    name: str
    calls: int
    findings: int
    check: Taken
    # On every placement, and with the replies that differ.
    anywhere: Taken
    same: Taken
    replay: Taken
    # `check` of the unproved program, where there is one.
    unproved: Taken | None = None


class Figures:
    """What is measured, in a folder for plans."""

    def __init__(self, program: str, room: Path, *, is_small: bool) -> None:
        self.program, self.room, self.is_small = program, room, is_small
        self.unproved, why = build_plain()
        if why:
            print(f"the unproved program is left out: {why}", file=sys.stderr, flush=True)

    def measure(self, name: str, pieces: Iterable[str], runs: int) -> Measured:
        """Measures `check` in its forms, and `replay`, of a plan of this text."""
        path, calls = str(self.room / "measured.plan"), 0
        with open(path, "w", encoding="ascii") as file:
            for piece in pieces:
                file.write(piece)
                calls += sum(not line.startswith(NO_CALLS) for line in piece.splitlines())
        words = [[self.program, *command, "--large", path] for command in COMMANDS]
        words += [[str(self.unproved), "check", "--large", path]] if self.unproved else []
        taken = best_of(1 if self.is_small else runs, [Command(word) for word in words])
        findings = findings_in([self.program, "check", "--large", path])
        print(f"{name}: check {taken[0].seconds:.3f} s", file=sys.stderr, flush=True)
        return Measured(name, calls, findings, *taken)

    def near_the_limits(self) -> Iterator[Measured]:
        """Plans near the limits of the versions."""
        for kind in KINDS:
            ranks, rounds = kind.ranks, kind.rounds
            if self.is_small:
                ranks, rounds = min(ranks, SMALL_RANKS), SMALL_ROUNDS
            yield self.measure(kind.name, [kind.text(ranks, rounds)], RUNS)

    def of_machines(self) -> Iterator[Measured]:
        """Plans of whole machines."""
        for plan in LARGE_PLANS:
            ranks = min(plan.ranks, SMALL_RANKS) if self.is_small else plan.ranks
            pieces = replace(plan, ranks=ranks).pieces()
            yield self.measure(f"{plan.name}, {ranks:,} ranks", pieces, LARGE_RUNS)

    def of_a_report(self) -> tuple[Taken, Taken]:
        """A check of the cards of many ranks, and the report of it with what the checker takes."""
        path = str(self.room / "cards.plan")
        ranks = SMALL_RANKS if self.is_small else CARDS
        with open(path, "w", encoding="ascii") as file:
            words = [sys.executable, str(TOP / "examples" / "cards.py"), "8", str(ranks)]
            subprocess.run(words, stdout=file, check=True)
        report = [sys.executable, str(TOP / "wire_up-report"), "--checker", self.program]
        words = [self.program, "check", "--large", path]
        made = Command([*report, "--large", "-o", os.devnull, path])
        check, whole = best_of(1 if self.is_small else LARGE_RUNS, [Command(words), made])
        return check, whole


def table(heads: Sequence[str], rows: Iterable[Sequence[str]]) -> str:
    """A table of Markdown."""
    lines = [" | ".join(row) for row in (heads, ["---"] * len(heads), *rows)]
    return "".join(f"| {line} |\n" for line in lines)


def check_rows(measured: Iterable[Measured], least: int) -> Iterator[list[str]]:
    """The rows of `check`, beside the unproved program where there is one. Least is the size of a
    program that does nothing."""
    for each_measured in measured:
        row = [
            each_measured.name,
            f"{each_measured.calls:,}",
            f"{each_measured.findings:,}",
            *told(each_measured.check, least),
        ]
        yield [
            *row,
            *beside(each_measured.check, each_measured.unproved, least),
        ] if each_measured.unproved else row


def other_rows(measured: Iterable[Measured], least: int) -> Iterator[list[str]]:
    """The rows of what else was measured."""
    for each_measured in measured:
        placed = [seconds(each.seconds) for each in (each_measured.anywhere, each_measured.same)]
        over = (
            [times(each_measured.replay.seconds, each_measured.unproved.seconds)]
            if each_measured.unproved
            else []
        )
        yield [each_measured.name, *placed, *told(each_measured.replay, least), *over]


def told(taken: Taken, least: int) -> list[str]:
    """The seconds of a run, those of processor time, and its size."""
    return [seconds(taken.seconds), seconds(taken.processor), mebibytes(taken, least)]


def beside(taken: Taken, other: Taken, least: int) -> Iterator[str]:
    """What another program took, each with how many times as much this one took."""
    each = (
        (taken.seconds, other.seconds),
        (taken.processor, other.processor),
        (taken.size, other.size),
    )
    for text, (here, there) in zip(told(other, least), each):
        yield from (text, times(here, there))


def times(much: float, of_what: float) -> str:
    return f"{much / of_what:.1f}" if of_what else ""


def report_rows(check: Taken, report: Taken, least: int) -> Iterator[list[str]]:
    """The rows of a check, and of the report that asks for it."""
    for name, taken in (("check", check), ("wire_up-report", report)):
        spent, more = f"{taken.processor:.1f}", times(taken.processor, check.processor)
        yield [
            f"`{name} --large`",
            seconds(taken.seconds),
            spent,
            more or "0.0",
            mebibytes(taken, least),
        ]


def seconds(taken: float) -> str:
    if taken < 0.1:
        return f"{taken:.4f}"
    return f"{taken:.3f}" if taken < 1 else f"{taken:.1f}"


def read(path: Path) -> str:
    """The text of a file; nothing where there is none."""
    try:
        return path.read_text(encoding="utf-8")
    except FileNotFoundError:
        return ""


def machine() -> str:
    """What the figures were measured on."""
    told = [read(Path("/proc", name)) for name in ("cpuinfo", "meminfo")]
    model, memory = MODEL.search(told[0]), MEMORY.search(told[1])
    name = model[1] if model else platform.machine()
    room = f", {int(memory[1]) / (1 << 20):.0f} GiB of memory" if memory else ""
    return f"{os.cpu_count()} processors ({name}){room}, {platform.system()} {platform.release()}"


def commit() -> str:
    """The commit of the repository; nothing where it has no history."""
    words = ["git", "rev-parse", "--short", "HEAD"]
    ran = subprocess.run(words, cwd=TOP, capture_output=True, text=True, check=False)
    return f", commit {ran.stdout.strip()}" if not ran.returncode else ""


def proofs() -> str:
    """What is known of the proofs: the minutes to expect, and what the last gate took."""
    minutes = minutes_of()
    crates = {name: minutes.get(name, 0) for name in crate_list.names_below(None)}
    of_program = sum(crates[name] for name in crate_list.names_below("program"))
    dearest = sorted(crates, key=lambda crate: -crates[crate])[:DEAREST]
    rows = [["the program and all below it", f"{of_program:.0f}"]]
    rows += [["all crates", f"{sum(crates.values()):.0f}"]]
    rows += [[f"`{crate}`", f"{crates[crate]:.1f}"] for crate in dearest]
    return table(("proof", "minutes of processor time to expect"), rows) + last_gate()


def last_gate() -> str:
    """What the last gate took, where it left that behind."""
    said = read(LOGS / "gate-costs.md")
    sums, whole = ROW.search(said), WHOLE.search(said)
    if not sums or not whole:
        return ""
    parts = [
        f"{kind} {int(spent) / 60:.0f}" for kind, spent in zip(costs.KINDS, sums[1].split(" | "))
    ]
    return f"\nThe last gate took {whole[1]} minutes of processor time: {', '.join(parts)}.\n"


def tables(measured: Sequence[Measured], least: int) -> str:
    """What was measured, in two tables."""
    is_beside = any(each_measured.unproved for each_measured in measured)
    checks = table(CHECK + UNPROVED * is_beside, check_rows(measured, least))
    return f"{checks}\n{table(OTHERS + ('times',) * is_beside, other_rows(measured, least))}"


def page(figures: Figures) -> str:
    """The whole page."""
    least, today = floor(), datetime.date.today().isoformat()
    near = tables(list(figures.near_the_limits()), least)
    large = tables(list(figures.of_machines()), least)
    reported = report_rows(*figures.of_a_report(), least)
    report = table(("command", "s", "processor time, s", "times that of `check`", "MiB"), reported)
    other = OF_UNPROVED if figures.unproved else ""
    how = f"""\
`make figures` made this page on {today}{commit()}, on {machine()}. Each time is the least of
{RUNS} runs ({LARGE_RUNS} for whole machines), with the start of the process in it and the output
thrown away; *processor* is that of all threads together. MiB is the greatest resident size. With
findings `replay` writes these, and runs nothing, and `check --anywhere --same` the findings
alone.{other} What the plans are stands in `build/bench_plans.py` and `build/large_plans.py`.
""".replace("\n", " ")
    return f"""\
# Figures

{textwrap.fill(how, 100, break_on_hyphens=False)}

## Plans near the limits

{near}
## Plans of whole machines

{large}
## A report

Of `cards.py 8 {CARDS}`, with the runs of the checker:

{report}
## Proofs

{proofs()}"""


def main() -> int:
    parser = argparse.ArgumentParser(
        description=__doc__, formatter_class=argparse.RawDescriptionHelpFormatter
    )
    parser.add_argument("program", nargs="?", default=str(WIRE_UP))
    parser.add_argument("--output", default=str(PAGE))
    parser.add_argument("--small", action="store_true")
    args = parser.parse_args()
    program = os.path.abspath(args.program)
    if not os.access(program, os.X_OK):
        sys.exit(f"there is no {args.program}: make run builds ./wire_up")
    if not args.small and not BETWEEN.exists():
        sys.exit(f"{BETWEEN} isn't there: Debian's package time")
    with tempfile.TemporaryDirectory(prefix="wire-up-") as room:
        text = page(Figures(program, Path(room), is_small=args.small))
    with open(f"{args.output}.new", "w", encoding="utf-8") as file:
        file.write(text)
    os.replace(f"{args.output}.new", args.output)
    print(shown(args.output))
    return 0


if __name__ == "__main__":
    sys.exit(main())
