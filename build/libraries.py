"""Proves and builds all libraries in their own folders, as far as they changed, and keeps the proof
of each function: a check in a crate after a change proves only what the change touched, and so does
`make run` from then on.

Usage: python3 -m build.libraries
"""
import itertools
import signal
import sys
from collections.abc import Callable, Sequence

from build import kit, records
from build.crates import Crate, crates_at, locked
from build.ending import fail, run_and_leave
from build.logs import log_at
from build.minutes import minutes_of
from build.places import TOP
from build.progress import Progress
from build.proving import prove_all
from build.records import Keep


def expected(crates: Sequence[Crate], keep: Keep = Keep.STATEMENTS) -> float:
    """About how many minutes the proofs of crates take: as long as the longest chain of them, or as
    all of them by all processors."""
    minutes = minutes_of()
    chain: dict[str, float] = {}
    left = {
        each_crate.name: minutes.get(each_crate.name, 1)
        for each_crate in crates
        if not records.is_done(each_crate, keep)
    }
    for crate in crates:
        below = max((chain[dep.name] for dep in crate.deps), default=0)
        chain[crate.name] = left.get(crate.name, 0) + below
    return max(*chain.values(), sum(left.values()) / kit.processors())


def counted(line: Progress, total: int) -> Callable[[str], None]:
    """What tells on a line of progress how many crates are proved."""
    count = itertools.count(1)
    return lambda name: line.now(f"{next(count)} of {total} crates proved, last {name}")


def build_libraries() -> None:
    # As `rt` does: Python would wait for the threads' checks.
    signal.signal(signal.SIGINT, signal.SIG_DFL)
    crates = [crate for crate in crates_at(TOP, Crate) if not crate.is_program]
    log = log_at("libraries.log")
    with Progress("proving", expected(crates, Keep.PROOFS)) as line, locked(crates):
        with open(log, "a", encoding="utf-8") as to:
            failed = prove_all(crates, to, counted(line, len(crates)), Keep.PROOFS)
    if failed:
        fail(f"not proved: {' '.join(failed)}", log)


if __name__ == "__main__":
    if len(sys.argv) > 1:
        sys.exit(__doc__)
    run_and_leave(build_libraries)
