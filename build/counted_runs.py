"""Runs programs whose last line is 'N passed, M failed', each by a process of its own."""
import os
import subprocess
import sys
from collections.abc import Mapping, Sequence
from dataclasses import dataclass

from build.counts import Counts, counts_in
from build.places import TOP

# What takes longer is broken off, in seconds.
MOST_SECONDS = 3600
# How many of the last lines of what a program printed are told again where something failed, and
# how much of each.
LINES, WIDTH = 8, 160


@dataclass(frozen=True)
class Ran:
    """What came of a program: what it printed, without its counts, and these."""

    name: str
    said: str
    counts: Counts

    def whole(self) -> str:
        """What is printed of it."""
        return f"{self.said}{self.name}: {self.counts}"

    def failures(self) -> list[str]:
        """What is told again of what failed."""
        if not self.counts.failed:
            return []
        lines = [f"  {line[:WIDTH]}" for line in self.said.splitlines()[-LINES:]]
        return [f"{self.name}: {self.counts.failed} failed", *lines]


def run_counted(name: str, words: Sequence[str], settings: Mapping[str, str]) -> Ran:
    """Runs a module of the build at the top of the repository, with these settings in its
    environment. One that ends without counts is a failure."""
    try:
        ran = subprocess.run(
            [sys.executable, "-m", *words],
            cwd=TOP,
            env={**os.environ, **settings},
            stdin=subprocess.DEVNULL,
            stdout=subprocess.PIPE,
            stderr=subprocess.STDOUT,
            text=True,
            errors="replace",
            timeout=MOST_SECONDS,
            check=False,
        )
    except subprocess.TimeoutExpired:
        return Ran(name, f"had not ended after {MOST_SECONDS} seconds\n", Counts(0, 1))
    *lines, last = ran.stdout.splitlines() or [""]
    counts = counts_in(last)
    if counts is None:
        said = f"{ran.stdout}ended with status {ran.returncode}, and without counts\n"
        return Ran(name, said, Counts(0, 1))
    return Ran(name, "".join(f"{line}\n" for line in lines if line), counts)
