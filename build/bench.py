"""Times the program on files near the limits, and on files a quarter as large.

Usage: python3 -m build.bench [PROGRAM] [--beside OTHER] [--only WORD] [--runs N] [--small]
Prints tables: for each file its bytes, calls and findings; for each command the least time of N
runs, with the start of the process in it and the output thrown away, how that grows from a quarter
of the calls, and the greatest resident size. Beside it OTHER's time and size in the same runs, and
the ratio; without OTHER those of the unproved program of build/plain, where rustc can build it. The
last two tables have runs that judge no findings (of crates/one_function, which is built where it
isn't there): the plain run by one thread, beside OTHER's `replay` where that has no workers and so
is such a run; and the same with one worker over a core under a lock, and `replay` by 1, 2 and 4
workers, beside it. --small takes files of a few calls, each once: it only shows that all of it
still works.
"""
import argparse
import os
import sys
import tempfile
from collections.abc import Callable, Sequence
from pathlib import Path

from build.bench_plans import KINDS, Kind, calls_in
from build.parts import build_parts
from build.places import PARTS, WIRE_UP, shown
from build.plain_program import build_plain
from build.timing import (
    Command,
    best_of,
    findings_in,
    floor,
    has_options,
    mebibytes,
    milliseconds,
    run,
)

QUARTER, WHOLE = 1, 4
# The ranks and the rounds of a small file.
SMALL_RANKS, SMALL_ROUNDS = 4, 6
# The files of which `why` is asked, and the question.
WHY = ("fences", "ring-fences", "falling-chain")
QUESTION = ("why", "app:0", "1", "app:255", "1")
# What is timed of all files.
COMMANDS = (
    ("check",),
    ("check", "--anywhere"),
    ("check", "--anywhere", "--same"),
    ("replay",),
    ("replay", "--workers", "2"),
    ("replay", "--workers", "4"),
)
FILES = "| file | what stands in it | bytes | calls | findings |\n|---|---|---|---|---|"
PLAIN = (
    "file",
    "plain",
    "locked core",
    "1 worker",
    "2 workers",
    "4 workers",
    "1 worker / plain",
)
# A command over the file of a path.
Timed = Callable[[str], Command]


def command_of(program: str, words: Sequence[str]) -> Timed:
    """A command of a program."""
    return lambda path: Command([program, *words, path])


def plain_run(path: str) -> Command:
    """The run by one thread that always serves the lowest ready rank, without a check before it."""
    return Command([str(PARTS), "plain"], path)


class Bench:
    """The rows of the tables, as they are measured."""

    def __init__(self, args: argparse.Namespace, room: Path) -> None:
        self.programs = [os.path.abspath(item) for item in (args.program, args.beside) if item]
        self.room, self.runs, self.is_small = room, args.runs, args.small

    def file_of(self, kind: Kind, share: int) -> tuple[str, str]:
        """The path and the text of a file, at this many quarters of the limit."""
        ranks, rounds = kind.ranks, max(1, kind.rounds * share // WHOLE)
        if self.is_small:
            ranks, rounds = min(kind.ranks, SMALL_RANKS), SMALL_ROUNDS
        text = kind.text(ranks, rounds)
        path = self.room / f"{kind.name}-{share}.plan"
        path.write_text(text, encoding="ascii")
        return str(path), text

    def tell_file(self, kind: Kind) -> None:
        """Prints a row of the table of files."""
        path, text = self.file_of(kind, WHOLE)
        numbers = len(text), calls_in(text), findings_in([self.programs[0], "check", path])
        told = " | ".join(f"{number:,}" for number in numbers)
        print(f"| {kind.name} | {kind.what} | {told} |", flush=True)

    def tell_times(self, kind: Kind, commands: Sequence[Timed]) -> None:
        """Prints a row of a table of times."""
        paths = [self.file_of(kind, number)[0] for number in (QUARTER, WHOLE)]
        small, large = (
            best_of(self.runs, [command(path) for command in commands]) for path in paths
        )
        least, first = floor(), large[0]
        cells = [kind.name, milliseconds(small[0]), milliseconds(first)]
        cells += [f"{first.seconds / small[0].seconds:.1f}", mebibytes(first, least)]
        for other in large[1:]:
            ratio = f"{other.seconds / first.seconds:.1f}"
            cells += [milliseconds(other), mebibytes(other, least), ratio]
        print(f"| {' | '.join(cells)} |", flush=True)

    def tell_table(self, title: str, kinds: Sequence[Kind], commands: Sequence[Timed]) -> None:
        """Prints a table of times: of the first command, and of the others beside it."""
        heads = ["file", "a quarter, ms", "ms", "growth", "MiB"]
        others = ["other, ms", "other, MiB", "times as fast"]
        heads += others[: 3 * (len(commands) - 1)]
        print(f"\n{title}:\n\n| {' | '.join(heads)} |\n|{'---|' * len(heads)}")
        for kind in kinds:
            self.tell_times(kind, commands)

    def tell_plain(self, kind: Kind) -> None:
        """Prints a row of the table of runs that judge no findings. With findings, `replay` runs
        nothing, and there is no row."""
        path, _ = self.file_of(kind, WHOLE)
        if findings_in([self.programs[0], "check", path]):
            return
        runs = [Command([str(PARTS), word], path) for word in ("plain", "workers")]
        for workers in ("1", "2", "4"):
            runs.append(Command([self.programs[0], "replay", path, "--workers", workers], path))
        took = [[run(each_run).seconds for each_run in runs] for _ in range(self.runs)]
        least = [1000 * min(pair) for pair in zip(*took)]
        cells = [kind.name, *(f"{item:.1f}" for item in least), f"{least[2] / least[0]:.1f}"]
        print(f"| {' | '.join(cells)} |", flush=True)

    def tell_command(self, kinds: Sequence[Kind], words: Sequence[str]) -> None:
        """Prints the table of a command."""
        programs = [program for program in self.programs if has_options(program, words)]
        self.tell_table(
            f"`{' '.join(words)}`", kinds, [command_of(program, words) for program in programs]
        )

    def tell_all(self, kinds: Sequence[Kind]) -> None:
        """Prints all tables."""
        print(FILES)
        for kind in kinds:
            self.tell_file(kind)
        for words in COMMANDS:
            self.tell_command(kinds, words)
        last = str(SMALL_RANKS - 1) if self.is_small else "255"
        question = [text.replace("255", last) for text in QUESTION]
        self.tell_command([each_kind for each_kind in kinds if each_kind.name in WHY], question)
        others = [program for program in self.programs[1:] if has_options(program, ["replay"])]
        older = [other for other in others if not has_options(other, ["replay", "--workers"])]
        commands = [plain_run, *(command_of(item, ["replay"]) for item in older)]
        self.tell_table("A plain run, which an earlier program has as `replay`", kinds, commands)
        print(
            "\nA plain run, one worker over a locked core, and `replay` by workers, in"
            " milliseconds:\n"
        )
        print(f"| {' | '.join(PLAIN)} |\n|{'---|' * len(PLAIN)}")
        for kind in kinds:
            self.tell_plain(kind)


def arguments() -> argparse.Namespace:
    """What the command line asks for. A program that isn't there ends this one."""
    parser = argparse.ArgumentParser(
        description=__doc__, formatter_class=argparse.RawDescriptionHelpFormatter
    )
    parser.add_argument("program", nargs="?", default=str(WIRE_UP))
    parser.add_argument("--beside")
    parser.add_argument("--only", default="")
    parser.add_argument("--runs", type=int, default=5)
    parser.add_argument("--small", action="store_true")
    args = parser.parse_args()
    for program in (args.program, args.beside):
        if program and not os.path.exists(program):
            sys.exit(f"there is no {program}: make run builds ./wire_up")
    args.runs = 1 if args.small else args.runs
    return args


def other_program() -> Path | None:
    """The unproved program, where it can be built. Says that it is taken, or why it isn't."""
    path, why = build_plain()
    left_out = f"the unproved program is left out: {why}"
    print(f"beside {shown(path)}, the unproved program\n" if path else f"{left_out}\n", flush=True)
    return path


def main() -> int:
    args = arguments()
    args.beside = args.beside or other_program()
    if not build_parts():
        sys.exit("crates/one_function can't be built: out/parts.log says why")
    with tempfile.TemporaryDirectory(prefix="wire-up-") as room:
        Bench(args, Path(room)).tell_all([kind for kind in KINDS if args.only in kind.name])
    return 0


if __name__ == "__main__":
    sys.exit(main())
