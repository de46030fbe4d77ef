"""Runs the program on random plans and patterns, most of them damaged, and holds it to itself, to
second readers, and to a model of plans and a reference for patterns: tests/soak/soaking.py says
what it holds for each plan, and tests/soak/pattern_soaking.py for each pattern. With --waits it
holds patterns, most of which wait, to plans of them: tests/soak/answer_soaking.py. With --inferred
it infers patterns from plans of random ones, and holds their verdicts to those of the first:
tests/soak/sized_patterns.py. With --portable it holds `check --portable` of small plans to all that
libraries may do by their axioms: tests/soak/portable_soaking.py.

Usage: make soak [MINUTES=N] [SEED=N], or make waits, inferred, portable for --waits and the others
       python3 -m build.soak [PROGRAM] [OPTION..], of these options:
           [--minutes N | --seconds N] [--seed N] [--keep FOLDER]
           [--patterns | --waits | --inferred | --portable]
           [--again FILE]     looks at one file once more
Without PROGRAM it takes ./wire_up. If it checks patterns, one file of five is a pattern, and with
--patterns each is. FILE is looked at as a pattern if its name ends with `.pattern`. It ends by
itself after so many minutes (1 if not told), and at the first 20 differences. A file that shows one
is made as small as it can be, by lines, and kept in FOLDER (out/soak). Prints what it tried each
minute and at the end, and last 'N differences'.
"""
import argparse
import os
import random
import re
import shutil
import sys
import tempfile
import time
from collections import Counter
from collections.abc import Callable
from typing import NamedTuple

from build.places import LOGS, WIRE_UP
from build.plain_program import build_plain
from tests.soak import (
    answer_soaking,
    pattern_soaking,
    portable_soaking,
    random_patterns,
    random_plans,
    sized_patterns,
    soaking,
)
from tests.soak.soak_runner import Difference, Runner

MOST_DIFFERENCES = 20
# How long a file that shows a difference is made smaller, in seconds, and how often each part of it
# is looked at.
REDUCE_SECONDS, TRIES = 60, 4
# Further apart than any number of files, so that two seeds make no file alike.
FILES_OF_SEED = 1_000_000_007
KINDS = ("refused", "with findings", "without findings")
# One file of so many is a pattern.
PATTERNS_ONE_IN = 5


class Files(NamedTuple):
    """Random plans, or random patterns: the ending of their names, how one is made, and what shows
    a difference."""

    ending: str
    random_file: Callable[[random.Random], tuple[bytes, int]]
    difference_of: Callable[[Runner, bytes, int], tuple[Difference | None, str]]


PLANS = Files(".plan", random_plans.random_file, soaking.difference_of)
PATTERNS = Files(".pattern", random_patterns.random_file, pattern_soaking.difference_of)
WAITS = Files(".pattern", answer_soaking.random_file, answer_soaking.difference_of)
PORTABLE = Files(".plan", portable_soaking.random_file, portable_soaking.difference_of)
INFERRED = Files(".pattern", sized_patterns.random_file, sized_patterns.difference_of)


class Reducer:
    """Makes a file smaller that shows a difference."""

    def __init__(self, runner: Runner, files: Files, seed: int, name: str) -> None:
        self.runner, self.files, self.seed, self.name = runner, files, seed, name
        self.until = time.monotonic() + REDUCE_SECONDS

    def still_shows(self, lines: list[bytes]) -> bool:
        """Whether these lines show the same, as long as there is time."""
        for n in range(TRIES):
            if time.monotonic() >= self.until:
                return False
            text = b"\n".join(lines)
            found, _ = self.files.difference_of(self.runner, text, self.seed + n)
            if found and found.name == self.name:
                return True
        return False

    def without_parts(self, lines: list[bytes], size: int) -> list[bytes]:
        """The lines without those parts of this size that aren't needed."""
        at = 0
        while at < len(lines):
            fewer = lines[:at] + lines[at + size:]
            if self.still_shows(fewer):
                lines = fewer
            else:
                at += size
        return lines

    def reduced(self, text: bytes) -> bytes:
        """A file of fewer lines that shows the same, as small as it gets in the time."""
        lines = text.split(b"\n")
        size = 1 << len(lines).bit_length()
        while size:
            fewer = self.without_parts(lines, size)
            size = size // 2 if len(fewer) == len(lines) else size
            lines = fewer
        return b"\n".join(lines)


class Soak:
    """A course of random files, its counts, and what it found."""

    def __init__(self, args: argparse.Namespace, room: str) -> None:
        self.seed: int = args.seed
        self.keep_in: str = args.keep
        self.runner = runner_of(args, room)
        takes_patterns = pattern_soaking.has_patterns(self.runner.program)
        self.one_in = 1 if args.patterns else PATTERNS_ONE_IN if takes_patterns else 0
        self.only = only_files(args)
        self.kinds: Counter[str] = Counter()
        self.damaged, self.bytes = 0, 0
        self.differences: list[str] = []
        self.began = time.monotonic()
        self.until, self.next_told = self.began + args.seconds, self.began + 60

    def go(self) -> None:
        """Tries file after file until the time is over."""
        count = 0
        while time.monotonic() < self.until and len(self.differences) < MOST_DIFFERENCES:
            self.try_file(self.seed * FILES_OF_SEED + count)
            count += 1
            if time.monotonic() >= self.next_told:
                self.next_told += 60
                print(self.told(), flush=True)

    def files_of(self, seed: int) -> Files:
        """Of which files that of a seed is."""
        if self.only:
            return self.only
        return PATTERNS if self.one_in and seed % self.one_in == 0 else PLANS

    def try_file(self, seed: int) -> None:
        """Tries the file of a seed."""
        files = self.files_of(seed)
        text, damages = files.random_file(random.Random(seed))
        found, kind = files.difference_of(self.runner, text, seed)
        self.damaged += bool(damages)
        self.bytes += len(text)
        self.kinds[kind] += 1
        if found:
            self.keep(found, files, text, seed)

    def keep(self, found: Difference, files: Files, text: bytes, seed: int) -> None:
        """Keeps a file that shows a difference, made small, unless there is one of that name."""
        print(f"{found.name}: {found.detail} (file {seed})", flush=True)
        if found.name in self.differences:
            return
        self.differences.append(found.name)
        os.makedirs(self.keep_in, exist_ok=True)
        path = os.path.join(self.keep_in, re.sub(r"\W+", "-", found.name))
        small = Reducer(self.runner, files, seed, found.name).reduced(text)
        for ending, each_text in ((".whole", text), (files.ending, small)):
            with open(path + ending, "wb") as to:
                to.write(each_text)
        print(f"kept in {path}{files.ending}", flush=True)

    def told(self) -> str:
        """How far it is, in a line."""
        kinds = ", ".join(f"{self.kinds[kind]:,} {kind}" for kind in KINDS)
        seconds, runs = time.monotonic() - self.began, self.runner.runs.total()
        different = self.kinds["different"]
        whole = f"{seconds:.0f} s: {self.kinds.total():,} files ({kinds})"
        return f"{whole}, {runs:,} runs, {different:,} differences"

    def tell_end(self) -> None:
        """Prints what it tried."""
        slowest = self.runner.slowest
        print(f"seed {self.seed}. {self.told()}")
        print(f"{self.damaged:,} of the files were damaged; {self.bytes:,} bytes in all")
        print(f"runs: {listed(self.runner.runs)}")
        print(f"held to the model: {listed(self.runner.held)}")
        print(f"held to the unproved program: {self.runner.held_to_unproved:,} check")
        print(f"faults: {listed(self.runner.faults)}")
        print(f"slowest run: {slowest.seconds:.2f} s, {slowest.words}")
        print(f"{self.kinds['different']:,} differences", flush=True)


def listed(counts: Counter[str]) -> str:
    """Counts, by the order of their names."""
    return ", ".join(f"{count:,} {name}" for name, count in sorted(counts.items()))


def only_files(args: argparse.Namespace) -> Files | None:
    """The files of a soak of one kind alone, if one is asked for."""
    kinds = {"inferred": INFERRED, "portable": PORTABLE, "waits": WAITS}
    return next((files for word, files in kinds.items() if getattr(args, word)), None)


def runner_of(args: argparse.Namespace, room: str) -> Runner:
    """What runs the program, with the unproved one beside it. Where that can't be built, a line
    says why."""
    unproved = None
    if not args.inferred and not args.portable:
        unproved, why = build_plain()
        if not unproved:
            print(f"the unproved program is left out: {why}", flush=True)
    return Runner(os.path.abspath(args.program), room, str(unproved) if unproved else None)


def look_again(args: argparse.Namespace, room: str) -> int:
    """Looks at one file, ten times with other questions. Answers whether the last one shows a
    difference."""
    with open(args.again, "rb") as file:
        text = file.read()
    files = PATTERNS if args.again.endswith(PATTERNS.ending) else PLANS
    files = only_files(args) or files
    runner, found = runner_of(args, room), None
    for n in range(10):
        found, kind = files.difference_of(runner, text, args.seed + n)
        print(f"{found.name}: {found.detail}" if found else f"{kind}, no difference")
    return 1 if found else 0


def arguments() -> argparse.Namespace:
    """What the command line asks for."""
    parser = argparse.ArgumentParser(
        description=__doc__, formatter_class=argparse.RawDescriptionHelpFormatter
    )
    parser.add_argument("program", nargs="?", default=str(WIRE_UP))
    parser.add_argument("--minutes", type=float, default=1)
    parser.add_argument("--seconds", type=float)
    parser.add_argument("--seed", type=int)
    parser.add_argument("--keep", default=str(LOGS / "soak"))
    parser.add_argument("--again")
    kinds = parser.add_mutually_exclusive_group()
    kinds.add_argument("--patterns", action="store_true")
    kinds.add_argument("--waits", action="store_true")
    kinds.add_argument("--inferred", action="store_true")
    kinds.add_argument("--portable", action="store_true")
    args = parser.parse_args()
    args.seconds = args.seconds if args.seconds is not None else 60 * args.minutes
    args.seed = args.seed if args.seed is not None else int(time.time())
    if not shutil.which(args.program):
        sys.exit(f"there is no {args.program}: make run builds ./wire_up")
    return args


def main() -> int:
    args = arguments()
    with tempfile.TemporaryDirectory(prefix="wire-up-") as room:
        if args.again:
            return look_again(args, room)
        soak = Soak(args, room)
        try:
            soak.go()
        except KeyboardInterrupt:
            print("stopped")
        soak.tell_end()
    return 1 if soak.differences else 0


if __name__ == "__main__":
    sys.exit(main())
