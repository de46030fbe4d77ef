"""How many checks passed and failed."""
import re
from collections.abc import Iterable
from dataclasses import dataclass

LINE = re.compile(r"(\d+) passed, (\d+) failed")


@dataclass(frozen=True)
class Counts:
    """How many checks passed and failed."""

    passed: int = 0
    failed: int = 0

    def __add__(self, other: "Counts") -> "Counts":
        return Counts(self.passed + other.passed, self.failed + other.failed)

    def __str__(self) -> str:
        return f"{self.passed} passed, {self.failed} failed"


def counts_in(line: str) -> Counts | None:
    """The counts that a line tells, and nothing else."""
    found = LINE.fullmatch(line)
    return Counts(int(found[1]), int(found[2])) if found else None


def summed(counts: Iterable[Counts]) -> Counts:
    """All counts together."""
    return sum(counts, Counts())


def counted(holds: Iterable[bool]) -> Counts:
    """The counts of checks, by whether each passed."""
    found = list(holds)
    return Counts(found.count(True), found.count(False))
