"""Runs the tests by pytest, side by side on all processors, and behind them one after another those
that nothing may run beside: tests/support/needs.py says which. Where pytest, its xdist or its
subtests aren't to be had, they run one after another by build/plain_tests.py, and a line says so.

Usage: python3 -m build.test_runs [--quick]
With --quick those run, side by side, that need neither the built program, nor the prover, nor MPI.
Prints what failed, which tests were left out and why, and last 'N passed, M failed'. All that they
print is in out/tests.log, or out/quick.log.
"""
import glob
import os
import re
import shutil
import subprocess
import sys
from collections.abc import Callable, Iterator, Mapping, Sequence
from dataclasses import dataclass
from pathlib import Path

from build import kit
from build.counted_runs import Ran, run_counted
from build.counts import Counts
from build.logs import keep, log_at
from build.minutes import minutes_of
from build.places import TOP
from build.progress import Progress

# What pytest has to have.
MODULES = "pytest, xdist, pytest_subtests"
# The markers of tests that nothing may run beside, and of those that a quick run leaves out.
APART = ("alone", "needs_mpi", "proves")
LONG = ("needs_program", "needs_mpi", "proves")
# What takes longer than four hours is broken off. An interrupt from a terminal comes to all.
BROKEN_OFF = ("timeout", "--foreground", "4h")
PERCENT = re.compile(r"\[ *(\d+)%\]")
# The last line of pytest, and its numbers: how many tests passed, failed, or can't begin.
SUMMARY = re.compile(r"^=* ?((?:\d+ [a-z ]+(?:, )?)+) in [\d.]+s.*?=*$")
NUMBER = re.compile(r"(\d+) ([a-z]+)")
PASSED, FAILED = ("passed", "xfailed"), ("failed", "xpassed", "error", "errors")
# Where pytest begins to tell what failed and what was left out.
TOLD = re.compile(r"^=+ (ERRORS|FAILURES|short test summary info) =+$")


@dataclass(frozen=True)
class Part:
    """Some of the tests: by a name, the markers that they have or have not, in pytest's words, and
    how many processes run them."""

    name: str
    marked: str
    workers: int

    def words(self) -> list[str]:
        """The words that pytest takes. Side by side there is no `-v`, with which xdist asks each
        process something first: its tests may miss the main thread then, which signals need."""
        beside = ["-n0", "-v"]
        if self.workers > 1:
            beside = ["-n", str(self.workers), "--dist", "loadfile"]
        return ["--tb=short", "-ra", "-m", self.marked, *beside]


def parts_of_gate() -> list[Part]:
    """All tests."""
    apart = " or ".join(APART)
    return [
        Part("tests side by side", f"not ({apart})", kit.processors()),
        Part("tests apart", apart, 1),
    ]


def parts_of_quick() -> list[Part]:
    """Tests that run anywhere; others of a quick run take two processors meanwhile."""
    return [Part("tests", f"not ({' or '.join(LONG)})", max(1, kit.processors() - 2))]


def find_pytest() -> str | None:
    """A python that has pytest and what it has to have; None where there is none."""
    of_system = shutil.which("python3", path=os.defpath)
    for python in sys.executable, shutil.which("python3"), of_system:
        if python and Path(python).exists():
            words = [python, "-c", f"import {MODULES}"]
            look = subprocess.run(words, capture_output=True, check=False)
            if look.returncode == 0:
                return python
    return None


def test_files() -> list[str]:
    """The files of tests, by their paths from the top of the repository."""
    return sorted(glob.glob("tests/**/test_*.py", root_dir=TOP, recursive=True))


def count(lines: Sequence[str], status: int) -> Counts:
    """The counts in the last lines of pytest. A run that ends without them, or with a status that
    doesn't go with them, is a failure."""
    found = next(
        (each_match for each_match in map(SUMMARY.match, reversed(lines)) if each_match), None
    )
    numbers = {word: int(number) for number, word in NUMBER.findall(found[1] if found else "")}
    passed = sum(numbers.get(text, 0) for text in PASSED)
    failed = sum(numbers.get(text, 0) for text in FAILED)
    return Counts(passed, failed or int(status != 0))


def told_of(lines: Sequence[str]) -> list[str]:
    """What pytest tells at its end of what failed and what was left out."""
    begun = next((n for n, line in enumerate(lines) if TOLD.match(line)), max(0, len(lines) - 20))
    return [line for line in lines[begun:] if not line.startswith("XFAIL")]


@dataclass(frozen=True)
class Session:
    """How tests run: the settings in their environment, the log to which all that is printed is
    added, what is told how far they are, and whether only those of a quick run do."""

    settings: Mapping[str, str]
    log: Path
    now: Callable[[str], None]
    is_quick: bool


def run_part(part: Part, python: str, session: Session) -> Ran:
    """Runs a part by pytest."""
    lines: list[str] = []

    def take(line: str) -> None:
        lines.append(line)
        found = PERCENT.search(line)
        if found:
            session.now(f"{part.name} {found[1]}%")

    given = ["env", *(f"{name}={setting}" for name, setting in session.settings.items())]
    words = [python, "-u", "-m", "pytest", *part.words()]
    status = keep(words, TOP, session.log, take, [*given, *BROKEN_OFF])
    said = "".join(f"{text}\n" for text in told_of(lines))
    return Ran(part.name, said, count(lines, status))


def run_plainly(session: Session) -> Iterator[Ran]:
    """Runs each file without pytest, one after another."""
    left_out, files = LONG if session.is_quick else (), test_files()
    for number, file in enumerate(files):
        session.now(f"tests, {number} of {len(files)} files")
        ran = run_counted(file, ["build.plain_tests", file, *left_out], session.settings)
        with open(session.log, "a", encoding="utf-8") as to:
            to.write(f"{ran.whole()}\n")
        yield ran


def build_recorder() -> None:
    """Builds the recorder, with which tests run that stand beside others. Where it can't be built,
    these tests say what is missing."""
    words = ["make", "-s", "record", "record-mpi"]
    if shutil.which("make"):
        subprocess.run(words, cwd=TOP, capture_output=True, check=False)


def run_tests(session: Session) -> Iterator[Ran]:
    """Runs all tests, or those of a quick run; what comes of a part is handed on once it ended."""
    python = find_pytest()
    if not session.is_quick:
        build_recorder()
    if python is None:
        print(f"no python here has {MODULES}: each file runs by unittest, one after another")
        yield from run_plainly(session)
    else:
        for part in parts_of_quick() if session.is_quick else parts_of_gate():
            yield run_part(part, python, session)


def main(words: Sequence[str]) -> int:
    is_quick, counts = "--quick" in words, Counts()
    name = "quick" if is_quick else "tests"
    with Progress("tests", minutes_of()[name]) as line:
        session = Session({}, log_at(f"{name}.log"), line.now, is_quick=is_quick)
        for ran in run_tests(session):
            line.note(ran.whole())
            counts += ran.counts
    print(counts, flush=True)
    return 1 if counts.failed else 0


if __name__ == "__main__":
    sys.exit(main(sys.argv[1:]))
