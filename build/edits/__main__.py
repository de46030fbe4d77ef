"""Tries the edits that the prover must refuse.

Usage: python3 -m build.edits             all edits
       python3 -m build.edits CRATE..     the edits of some crates
       python3 -m build.edits FILE..      some edits, by their files

A file is one such as crates/wire_store/edits/put_is_stored.edit. The crates themselves are proved
first. Prints a line for each edit, those whose function took long, and last 'N passed, M failed'.
"""
import signal
import sys
from collections.abc import Sequence

from build import logs
from build.crates import Crate, crates_at, locked
from build.edits.checks import Outcomes
from build.edits.reading import EditFile, asked_for
from build.edits.trying import slow_ones, try_all
from build.minutes import minutes_of
from build.places import TOP, shown
from build.progress import Progress
from build.proving import prove_all


def prove_and_try(files: Sequence[EditFile], crates: Sequence[Crate]) -> Outcomes:
    """Proves the crates of the edits and all below them, and then tries the edits."""
    needed = {each_crate.name for crate, _ in files for each_crate in [*crate.below(), crate]}
    log = logs.log_at("edits.log")
    with locked(crates), open(log, "w", encoding="utf-8") as to:
        failed = prove_all([each_crate for each_crate in crates if each_crate.name in needed], to)
        if failed:
            names = " ".join(failed)
            sys.exit(
                f"not proved, so no edit was tried: {names}. The whole output is in {shown(log)}"
            )
        with Progress("edits", minutes_of()["edits"]) as line:
            return try_all(files, line.now)


def main(words: Sequence[str]) -> int:
    # As `rt` does: Python would wait for the threads' checks.
    signal.signal(signal.SIGINT, signal.SIG_DFL)
    crates = crates_at(TOP, Crate)
    found = prove_and_try(asked_for(words, crates), crates)
    for outcome in found.values():
        print(f"rt: {outcome.text}")
    for line in slow_ones(found.values()):
        print(line)
    refused = sum(each_outcome.is_refused for each_outcome in found.values())
    print(f"{refused} passed, {len(found) - refused} failed")
    return 0 if refused == len(found) else 1


if __name__ == "__main__":
    sys.exit(main(sys.argv[1:]))
