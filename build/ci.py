"""Runs `rt ci` in a copy of the repository, and tells how far it is.

One process proves a crate, whatever processors are idle: two or more that share a proof each load
all that is below it. Some versions of the kit keep what `rt ci` proved in a store of their own: a
crate that was proved on this machine before, from the same files over the same libraries, isn't
proved again then.
"""
import re
from collections.abc import Callable
from pathlib import Path

from build import kit, logs
from build.counts import Counts, counts_in
from build.crates import Crate, crates_at
from build.memory import lanes_for
from build.progress import Progress

# The lines of `rt ci` that tell how far it is.
JUDGED = re.compile(r"rt: (\w+)(: its tests are)? (proved|NOT PROVED|is kept)\b")
NOT_PROVED = "NOT PROVED"


class Course:
    """How far `rt ci` is, and its counts, by the lines that it prints."""

    def __init__(self, line: Progress, total: int) -> None:
        """The line of progress, and how many crates there are."""
        self.line, self.total, self.proved = line, total, 0
        self.counts: Counts | None = None

    def take(self, said: str) -> None:
        """Takes the next line."""
        judged, self.counts = JUDGED.match(said), counts_in(said)
        if judged and judged[3] == NOT_PROVED:
            self.line.note(said)
        elif judged and not judged[2]:
            self.proved += 1
            self.line.now(f"{self.proved} of {self.total} crates proved, last {judged[1]}")


def run(room: Path, log: Path, take: Callable[[str], None]) -> int:
    """Runs `rt ci` in the copy, adds all that it prints to the log, hands each line on, and answers
    its status."""
    # It is the top of a repository, wherever it stands, and `rt ci` has a place there for what it
    # moves aside.
    (room / ".git").mkdir(exist_ok=True)
    words = ["env", f"RT_JOBS={lanes_for(crates_at(room, Crate))}", "rt", "ci"]
    return logs.keep(words, room, log, take, kit.guarded())


def reasons(log: Path) -> str:
    """What a log of `rt ci` says of what failed: all about each crate that isn't proved, and the
    last lines."""
    block: list[str] = []
    told: list[str] = []
    with open(log, encoding="utf-8", errors="replace") as file:
        for line in file:
            judged = JUDGED.match(line)
            if judged and judged[3] == NOT_PROVED:
                told += [*block[-logs.TAIL:], line]
            if judged or line.startswith("== "):
                block = []
            elif not logs.is_routine(line):
                block.append(line)
    return "".join(told + block[-logs.TAIL:])
