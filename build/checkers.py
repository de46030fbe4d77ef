"""The checks of types, of style and of C: mypy, flake8, and what record/lint runs.

Usage: python3 -m build.checkers
Prints what each finds, and what is left out since its program isn't there, and last 'N passed, M
failed'.
"""
import glob
import shutil
import subprocess
import sys
from collections.abc import Sequence
from dataclasses import dataclass

from build.counts import Counts, summed
from build.places import TOP

# Folders and files with Python, but for the programs that tests record.
PYTHON = (
    "build",
    "packaging",
    "python",
    "tests",
    *sorted(glob.glob("record/*.py", root_dir=TOP)),
    "wire_up-record",
    "wire_up-report",
    "wire_up-run",
)
# The script that checks C, and how it says what it can't check.
LINT_C, LEFT_OUT = str(TOP / "record" / "lint"), "left out:"


@dataclass(frozen=True)
class Checker:
    """A program that checks texts."""

    name: str
    words: Sequence[str]
    # The programs that it needs.
    needs: Sequence[str]


CHECKERS = (
    Checker("mypy", ("mypy", *PYTHON), ("mypy",)),
    Checker("flake8", ("flake8", *PYTHON), ("flake8",)),
    Checker("lint-c", ("make", "-s", "lint-c"), (LINT_C, "cc", "make")),
)


def run_checker(checker: Checker) -> Counts:
    """Whether a checker finds nothing. Nothing is counted where it, or a part of what it checks, is
    left out."""
    lacking = [text for text in checker.needs if not shutil.which(text)]
    if lacking:
        print(f"{checker.name}: {LEFT_OUT} there is no {', '.join(lacking)}", flush=True)
        return Counts()
    ran = subprocess.run(
        checker.words,
        cwd=TOP,
        stdin=subprocess.DEVNULL,
        stdout=subprocess.PIPE,
        stderr=subprocess.STDOUT,
        text=True,
        errors="replace",
        check=False,
    )
    if ran.returncode:
        print(f"{ran.stdout}{checker.name}: failed", flush=True)
        return Counts(0, 1)
    left_out = [line for line in ran.stdout.splitlines() if line.startswith(LEFT_OUT)]
    print(*(f"{checker.name}: {word}" for word in left_out or ["1 passed"]), sep="\n", flush=True)
    return Counts(0 if left_out else 1, 0)


def run_checkers() -> Counts:
    """What all checkers find."""
    return summed(run_checker(checker) for checker in CHECKERS)


if __name__ == "__main__":
    found = run_checkers()
    print(found)
    sys.exit(1 if found.failed else 0)
