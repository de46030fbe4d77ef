"""How fast this machine proves: some crates as they were at an old commit, so the same text
whenever and wherever it is measured.

Usage: python3 -m build.speed
It takes five to ten minutes, in which nothing else should be at work, and needs the history of the
repository. It prints how many seconds of processor time each crate took in the fastest gate so far
and takes now, and last how many times as long it takes now. So figures of different machines, and
of different hours of one machine, can be compared.
"""
import os
import subprocess
import sys
import tempfile

from build import kit
from build.costs import Costs
from build.places import TOP

# The commit of the fastest gate so far, and the seconds of processor time that the proofs of these
# crates took in it.
COMMIT = "51f0f7b"
THEN = {
    "wire_types": 56,
    "wire_runs": 10,
    "wire_lines": 78,
    "wire_rehearsal": 75,
    "wire_store": 23,
    "wire_names": 12,
    "wire_words": 42,
}


def checked_out(room: str) -> str:
    """A copy of the repository as it was at that commit."""
    clone = ["clone", "--quiet", "--no-checkout", str(TOP), room]
    for words in clone, ["-C", room, "checkout", "--quiet", COMMIT]:
        if subprocess.run(["git", *words], check=False).returncode:
            sys.exit(f"This needs the repository's history, with commit {COMMIT}.")
    return room


def prove(room: str) -> dict[str, float]:
    """Proves the crates from nothing, and answers the seconds of each."""
    # (a kit that keeps what was proved would take it from there)
    words = ["rt", "ci", *["--anew"] * kit.KEEPS_PROOFS, *THEN]
    # (what is said to the prover's allocator now wasn't said then)
    said = {name: value for name, value in os.environ.items() if name != kit.ALLOCATOR}
    with Costs() as watch:
        ran = subprocess.run(
            words,
            cwd=room,
            env={**said, "RT_JOBS": str(kit.processors())},
            stdout=subprocess.PIPE,
            stderr=subprocess.STDOUT,
            text=True,
            errors="replace",
            check=False,
        )
    if ran.returncode:
        sys.exit(f"{ran.stdout}rt ci failed")
    return {name: row["proof"] for name, row in watch.rows(THEN).items()}


def main() -> None:
    with tempfile.TemporaryDirectory(prefix="wire-up-") as room:
        seconds = prove(checked_out(room))
    for name, now in seconds.items():
        print(f"{name}: {THEN[name]} then, {now:.0f} now")
    then, whole = sum(THEN.values()), sum(seconds.values())
    print(f"together {then} seconds then, {whole:.0f} now: {whole / then:.2f} times as long")


if __name__ == "__main__":
    main()
