"""Says in five minutes on four processors whether a change holds water, after nothing but a clone:
without a proof, and without a built program.

Usage: python3 -m build.quick
It looks whether each file is as `rt fmt` lays it out and whether each edit can be applied; it
checks types, style and C; it runs the tests that need no built program, no prover and no MPI; and
it runs tables of plans by a build without proofs, which has run-time checks in their place. It
prints what each part says when that has ended. What failed is told again before the last line,
which is 'N passed, M failed'. What is left out here is for `make test`.
"""
import itertools
import os
import sys
from collections.abc import Sequence
from concurrent.futures import ThreadPoolExecutor, as_completed
from dataclasses import dataclass

from build.counted_runs import Ran, run_counted
from build.counts import summed
from build.minutes import minutes_of
from build.progress import Progress

# The tables of plans that are run, those of each line by a build of their own: so they end within
# the time.
TRIED = ("fences witnesses", "names forms")
# The file of these tables.
TABLES = "tests/commands/test_tables_tried.py"


@dataclass(frozen=True)
class Part:
    """A part of it: its name, and the module of the build that does it, with its words."""

    name: str
    words: Sequence[str]
    # The tables of plans that it runs by a build without proofs.
    tried: str = ""

    def run(self) -> Ran:
        """Runs it. There is no program for it, so that tests which need one are left out, whatever
        an earlier `make run` built."""
        settings = {"WIRE_UP_PROGRAM": os.devnull, "WIRE_UP_TRIED": self.tried}
        return run_counted(self.name, self.words, settings)


def parts() -> list[Part]:
    """All parts, the longest first."""
    found = [Part(f"{TABLES}, {text}", ["build.plain_tests", TABLES], text) for text in TRIED]
    found.append(Part("tests", ["build.test_runs", "--quick"]))
    return found + [Part(word, [f"build.{word}"]) for word in ("checkers", "layout")]


def run_all(line: Progress) -> list[Ran]:
    """Runs all parts side by side."""
    todo = parts()
    count, found = itertools.count(1), []
    with ThreadPoolExecutor(len(todo)) as pool:
        ran = [pool.submit(task.run) for task in todo]
        for run in as_completed(ran):
            found.append(run.result())
            line.note(run.result().whole())
            line.now(f"{next(count)} of {len(todo)} parts")
    return found


def main() -> int:
    with Progress("without proofs", minutes_of()["quick"]) as line:
        found = run_all(line)
    for ran in found:
        if ran.counts.failed:
            print(*ran.failures(), sep="\n")
    counts = summed(each_ran.counts for each_ran in found)
    print(counts)
    return 1 if counts.failed else 0


if __name__ == "__main__":
    try:
        sys.exit(main())
    except KeyboardInterrupt:
        sys.exit("\nstopped")
